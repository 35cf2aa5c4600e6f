//! Sheets that go through cases one by one: spellings, byte values, levels and weights, paths, and every mix that fills a port.
use crate::model::MOST_INPUT;
use crate::rng::Rng;

/// Lines cut into sheets, of which each begins with the fabric as it was started. A group of lines stays together.
struct Sheets {
    done: Vec<Vec<u8>>,
    now: Vec<u8>,
}

impl Sheets {
    fn group(&mut self, lines: &[u8]) {
        if self.now.len() + lines.len() > MOST_INPUT {
            self.end();
        }
        self.now.extend_from_slice(lines);
    }

    fn end(&mut self) {
        if !self.now.is_empty() {
            self.done.push(std::mem::take(&mut self.now));
        }
    }
}

/// All of them.
pub fn sheets() -> Vec<Vec<u8>> {
    let mut sheets = Sheets { done: vec![Vec::new()], now: Vec::new() };
    for part in [bytes, spellings, numbers, services, paths, mixes] {
        part(&mut sheets);
        sheets.end();
    }
    sheets.done
}

/// Every byte value: alone, in front of a word, within one, as a number, behind one, and as the whole input.
fn bytes(sheets: &mut Sheets) {
    for byte in 0..=255u8 {
        let mut lines = Vec::new();
        for (front, back) in [("", ""), ("", "shut 1"), ("sh", "ut 1"), ("shut", "1"), ("shut ", ""), ("shut 1", ""), ("shut ", "1"), ("shut 1 ", "")] {
            lines.extend(front.bytes());
            lines.push(byte);
            lines.extend(back.bytes());
            lines.push(b'\n');
        }
        sheets.group(&lines);
    }
    for byte in 0..=255u8 {
        sheets.done.push(vec![byte]);
    }
}

/// Every ending of up to six bytes from five kinds behind a word.
fn spellings(sheets: &mut Sheets) {
    let kinds = b"0 1a\r";
    for length in 0..=6u32 {
        for code in 0..kinds.len().pow(length) {
            let mut line = b"reopen".to_vec();
            let mut rest = code;
            for _ in 0..length {
                line.push(kinds[rest % kinds.len()]);
                rest /= kinds.len();
            }
            line.push(b'\n');
            sheets.group(&line);
        }
    }
}

/// Every number that has up to five digits, and more.
fn numbers(sheets: &mut Sheets) {
    for n in 0..100_010 {
        sheets.group(format!("release {n}\n").as_bytes());
    }
    for n in 0..1100 {
        sheets.group(format!("release {n:03}\nrelease {n:05}\nrelease {n:06}\n").as_bytes());
    }
    for n in [4_294_967_295u128, 4_294_967_296, 4_294_967_297, 18_446_744_073_709_551_615, 18_446_744_073_709_551_616, 18_446_744_073_709_551_617, u128::MAX] {
        sheets.group(format!("release {n}\n").as_bytes());
    }
}

/// Every level with weights around each limit, and the table that it gives.
fn services(sheets: &mut Sheets) {
    let mut weights = vec![0, 1, 2, 3, 7, 20, 16_321, 65_535];
    for m in [1, 2, 4, 8, 16, 32, 64] {
        weights.extend([m - 1, m, m + 1, 255 * m - 1, 255 * m, 255 * m + 1, 100 * m + m / 2]);
    }
    for level in 0..17 {
        for weight in &weights {
            sheets.group(format!("reserve 1 {level} {weight} 0\ntable 0\nrelease 1\n").as_bytes());
        }
    }
}

/// Every path of up to four ports of five, with one port full and one shut; and longer ones.
fn paths(sheets: &mut Sheets) {
    for setting in ["", "reserve 9 0 16000 2\n", "shut 1\n", "shut 3\nreserve 9 0 16000 0\n"] {
        sheets.end();
        sheets.group(setting.as_bytes());
        for hops in 1..=4u32 {
            for code in 0..5usize.pow(hops) {
                let path: String = (0..hops).map(|k| format!(" {}", code / 5usize.pow(k) % 5)).collect();
                sheets.group(format!("reserve 1 3 9{path}\nrelease 1\n").as_bytes());
            }
        }
        for hops in 5..=12 {
            for first in 0..4 {
                let path: String = (first..first + hops).map(|port| format!(" {port}")).collect();
                sheets.group(format!("reserve 1 3 9{path}\n").as_bytes());
            }
        }
    }
}

/// Every way to fill a port: all its sessions come, one more is refused, and they go again, in orders of no kind, with the table now and then.
fn mixes(sheets: &mut Sheets) {
    let mut rng = Rng::new(1);
    let mut mixes = Vec::new();
    fill(64, 64, &mut Vec::new(), &mut mixes);
    for mix in mixes {
        let mut sessions = mix;
        let mut lines = String::new();
        let port = rng.below(4);
        shuffle(&mut rng, &mut sessions);
        for (number, size) in (1..).zip(&sessions) {
            let (level, weight) = match size {
                1 => (0, rng.within(1, 255)),
                2 => (1, rng.within(1, 510)),
                4 => (3, rng.within(1, 1020)),
                8 => (7, rng.within(1, 2040)),
                16 => (11, rng.within(1, 4080)),
                32 => (13, rng.within(1, 8160)),
                _ => (0, rng.within(8161, 16_320)),
            };
            lines += &format!("reserve {number} {level} {weight} {port}\n");
        }
        lines += &format!("table {port}\nreserve 99 0 1 {port}\n");
        let mut leaving: Vec<usize> = (1..=sessions.len()).collect();
        shuffle(&mut rng, &mut leaving);
        for (k, number) in leaving.iter().enumerate() {
            lines += &format!("release {number}\n");
            if k % 3 == 0 {
                lines += &format!("table {port}\n");
            }
        }
        sheets.group(lines.as_bytes());
    }
}

fn shuffle<T>(rng: &mut Rng, items: &mut [T]) {
    for k in 1..items.len() {
        items.swap(k, rng.below(k + 1));
    }
}

/// All lists of sizes, falling from `size` on, that come to `left`.
fn fill(left: usize, size: usize, begun: &mut Vec<usize>, mixes: &mut Vec<Vec<usize>>) {
    if left == 0 {
        mixes.push(begun.clone());
    } else if size > 0 {
        if size <= left {
            begun.push(size);
            fill(left - size, size, begun, mixes);
            begun.pop();
        }
        fill(left, size / 2, begun, mixes);
    }
}

#[test]
fn all_mixes() {
    let mut mixes = Vec::new();
    fill(64, 64, &mut Vec::new(), &mut mixes);
    assert_eq!(mixes.len(), 1828);
    let mut mixes = Vec::new();
    fill(8, 8, &mut Vec::new(), &mut mixes);
    assert_eq!(mixes.len(), 10);
}
