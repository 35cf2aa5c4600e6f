//! Random day sheets: good ones, damaged ones and garbage, each from its seed alone.
use crate::model::{Desk, MOST_INPUT};
use crate::rng::Rng;

/// What the lines of a stretch are like.
#[derive(Clone, Copy)]
enum Mood {
    /// all calls, all ports
    Day,
    /// one port, nearly full, sessions of all sizes
    Full,
    /// one port, many small sessions
    Small,
    /// long paths
    Paths,
    /// arguments at the edges of what is taken
    Edges,
    /// good lines of which many are damaged
    Damaged,
    /// bytes from a small alphabet
    Garbage,
}

const MOODS: [Mood; 11] =
    [Mood::Day, Mood::Day, Mood::Full, Mood::Full, Mood::Full, Mood::Small, Mood::Small, Mood::Paths, Mood::Edges, Mood::Damaged, Mood::Garbage];

const EDGES: [&str; 34] = [
    "0", "1", "2", "3", "4", "5", "7", "8", "9", "13", "14", "15", "16", "17", "63", "64", "65", "254", "255", "256", "510", "511", "1020", "1021", "8160",
    "8161", "16319", "16320", "16321", "65534", "65535", "65536", "99999", "100000",
];

/// A sheet that is being written, and the desk that its lines leave, so that later lines can find live sessions.
struct Writer {
    rng: Rng,
    desk: Desk,
    out: Vec<u8>,
}

/// The sheet of a seed.
pub fn sheet(seed: u64) -> Vec<u8> {
    let mut writer = Writer { rng: Rng::new(seed), desk: Desk::new(), out: Vec::new() };
    writer.write();
    writer.out
}

impl Writer {
    fn write(&mut self) {
        match self.rng.below(20) {
            // a few lines
            0..=5 => {
                let mood = self.rng.of(&MOODS);
                let lines = self.rng.below(40);
                self.stretch(mood, lines);
            }
            // about as long as it may be: a little less, the same or a little more
            6 => {
                self.fill(MOST_INPUT - 400);
                let end = MOST_INPUT - 3 + self.rng.below(7);
                self.out.truncate(end);
                let byte = self.rng.of(b"\n\n 0a1");
                self.out.resize(end, byte);
                return;
            }
            7 => {
                let end = self.rng.within(MOST_INPUT + 1, MOST_INPUT + 5000);
                self.fill(end);
            }
            // stretches of several moods, of which each finds what the others left
            _ => {
                let end = self.rng.within(500, MOST_INPUT - 1000);
                self.fill(end);
            }
        }
        if self.rng.percent(30) && self.out.last() == Some(&b'\n') {
            self.out.pop();
        }
    }

    /// Stretches up to so many bytes; the last line is cut there.
    fn fill(&mut self, end: usize) {
        while self.out.len() < end {
            let mood = self.rng.of(&MOODS);
            let lines = self.rng.within(5, 150);
            self.stretch(mood, lines);
        }
        self.out.truncate(end);
    }

    fn line(&mut self, line: &[u8]) {
        self.desk.serve(line, &mut Vec::new());
        self.out.extend_from_slice(line);
        self.out.push(b'\n');
    }

    fn stretch(&mut self, mood: Mood, lines: usize) {
        let port = self.rng.below(4);
        if self.rng.percent(80) {
            self.line(format!("reopen {port}").as_bytes());
        }
        for _ in 0..lines {
            let mut line = match mood {
                Mood::Day | Mood::Damaged => self.day_line(),
                Mood::Full => self.port_line(port, &[0, 1, 2, 3, 4, 7, 7, 9, 11, 11, 13], 24),
                Mood::Small => self.port_line(port, &[0, 0, 0, 1, 1, 1, 2, 3, 3, 7], 60),
                Mood::Paths => self.path_line(),
                Mood::Edges => edge_line(&mut self.rng),
                Mood::Garbage => garbage(&mut self.rng),
            }
            .into_bytes();
            if matches!(mood, Mood::Damaged) && self.rng.percent(60) {
                damage(&mut self.rng, &mut line);
            }
            self.line(&line);
        }
    }

    /// The number of a session at a port, mostly; else another one.
    fn live_at(&mut self, port: usize, other: usize) -> usize {
        let live: Vec<usize> = self.desk.fabric().book(port).sessions().map(|(_, s)| s.number as usize).collect();
        if live.is_empty() || self.rng.percent(10) {
            other
        } else {
            self.rng.of(&live)
        }
    }

    fn day_line(&mut self) -> String {
        let rng = &mut self.rng;
        let (number, port) = (rng.within(1, 90), rng.below(4));
        match rng.below(100) {
            0..=50 => {
                let hops = rng.of(&[1, 1, 1, 2, 2, 3, 4]);
                format!("reserve {number} {} {}{}", rng.below(14), weight(rng), path(rng, hops))
            }
            51..=84 => format!("release {}", self.live_at(port, number)),
            85 => format!("shut {port}"),
            86..=92 => format!("reopen {port}"),
            _ => format!("table {port}"),
        }
    }

    /// A line that reserves or releases at one port, with so many session numbers in use.
    fn port_line(&mut self, port: usize, levels: &[usize], numbers: usize) -> String {
        let rng = &mut self.rng;
        let number = 1000 * (port + 1) + rng.below(numbers);
        match rng.below(100) {
            0..=49 => {
                let weight = if rng.percent(90) { rng.within(1, 255) } else { weight(rng) };
                format!("reserve {number} {} {weight} {port}", rng.of(levels))
            }
            50..=86 => format!("release {}", self.live_at(port, number)),
            _ => format!("table {port}"),
        }
    }

    fn path_line(&mut self) -> String {
        let rng = &mut self.rng;
        let (number, port) = (rng.within(1, 40), rng.below(4));
        if rng.percent(40) {
            return format!("release {}", self.live_at(port, number));
        }
        let hops = rng.within(1, 9);
        let ports: String = match rng.below(4) {
            0..=1 => path(rng, hops.min(4)),
            2 => (0..hops).map(|k| format!(" {k}")).collect(),
            _ => (0..hops).map(|_| format!(" {}", rng.below(5))).collect(),
        };
        format!("reserve {number} {} {}{ports}", rng.below(14), weight(rng))
    }
}

fn weight(rng: &mut Rng) -> usize {
    match rng.below(10) {
        0..=4 => rng.within(1, 64),
        5..=7 => rng.within(1, 300),
        8 => rng.within(200, 2100),
        _ => rng.within(1, 16_320),
    }
}

/// Ports of which none is listed twice.
fn path(rng: &mut Rng, hops: usize) -> String {
    let mut ports = [0, 1, 2, 3];
    for k in 0..4 {
        let other = rng.within(k, 3);
        ports.swap(k, other);
    }
    ports[..hops].iter().map(|p| format!(" {p}")).collect()
}

fn edge_line(rng: &mut Rng) -> String {
    let mut number = |good: usize| if rng.percent(35) { rng.of(&EDGES).to_string() } else { rng.within(0, good).to_string() };
    let (a, b, c, d, e) = (number(80), number(14), number(16_330), number(4), number(4));
    match rng.below(10) {
        0..=2 => format!("reserve {a} {b} {c} {d}"),
        3..=4 => format!("reserve {a} {b} {c} {d} {e}"),
        5..=6 => format!("release {a}"),
        7 => format!("shut {d}"),
        8 => format!("reopen {d}"),
        _ => format!("table {d}"),
    }
}

fn garbage(rng: &mut Rng) -> String {
    let length = rng.below(30);
    let words = ["reserve", "release", "shut", "reopen", "table"];
    let mut line = if rng.percent(70) { rng.of(&words).to_string() } else { String::new() };
    for _ in 0..length {
        line.push(rng.of(b"   0012345678999aerstx\t.-\rRS") as char);
    }
    line
}

/// One or two hurts to a line.
fn damage(rng: &mut Rng, line: &mut Vec<u8>) {
    for _ in 0..rng.within(1, 2) {
        let at = rng.below(line.len() + 1);
        let blanks: Vec<usize> = (0..line.len()).filter(|&k| line[k] == b' ').collect();
        let field = if blanks.is_empty() { line.len() } else { rng.of(&blanks) + 1 };
        match rng.below(16) {
            // a stray byte, of any kind
            0 => line.insert(at, rng.of(b"\t\r\0-+.,/:`{@[A_Z\x0b\x1f\x7f\x80\xff")),
            1 => line.insert(at, rng.below(256) as u8),
            // a blank too many: within, at a field, in front, behind
            2 => line.insert(at, b' '),
            3 => line.insert(field, b' '),
            4 => line.insert(0, b' '),
            5 => line.push(b' '),
            // zeros in front, digits behind
            6 => line.insert(field, b'0'),
            7 => line.extend(b"00"),
            8 => line.insert(at, b'0' + rng.below(10) as u8),
            // numbers too big
            9 => {
                let big = rng.of(&["65536", "70000", "99999", "100000", "655350", "4294967297", "18446744073709551617"]);
                line.extend(b" ");
                line.extend(big.bytes());
            }
            // a field too many, or several
            10 => line.extend(b" 3".repeat(rng.within(1, 14))),
            // cut off
            11 => line.truncate(at),
            12 => line.truncate(field),
            // capital letters, words stuck together
            13 => line.iter_mut().take(rng.within(1, 7)).for_each(|b| b.make_ascii_uppercase()),
            14 => line.clear(),
            // a long line
            _ => {
                let more = rng.within(100, 3000);
                let byte = rng.of(b"0 9a7\xff");
                line.resize(line.len() + more, byte);
            }
        }
    }
}
