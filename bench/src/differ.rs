//! Comparing another program's answers with the twin's.
use crate::model;

/// Where two outputs part: the line of the input, counted from 1, and what both answered to it.
pub struct Difference {
    pub line: usize,
    pub asked: String,
    pub ours: String,
    pub theirs: String,
}

/// What was compared so far.
#[derive(Default)]
pub struct Tally {
    pub sheets: u64,
    pub lines: u64,
    pub bytes: u64,
    /// accepted lines, and refused ones by their number
    pub accepted: u64,
    pub refused: [u64; 21],
}

impl Tally {
    pub fn add(&mut self, output: &[u8]) {
        self.sheets += 1;
        self.bytes += output.len() as u64;
        for line in output.split_inclusive(|&b| b == b'\n') {
            self.lines += 1;
            match line.strip_prefix(b"no ") {
                None => self.accepted += 1,
                Some(rest) => {
                    let number = rest.iter().take_while(|b| b.is_ascii_digit()).fold(0, |n, b| n * 10 + (b - b'0') as usize);
                    self.refused[number] += 1;
                }
            }
        }
    }

    pub fn print(&self) {
        println!("{} sheets, {} answer lines, {} bytes of answers compared", self.sheets, self.lines, self.bytes);
        println!("accepted {}", self.accepted);
        for (number, count) in self.refused.iter().enumerate().filter(|(_, count)| **count > 0) {
            println!("refused with {number}: {count}");
        }
    }
}

fn shown(bytes: Option<&[u8]>) -> String {
    match bytes {
        None => "(nothing)".to_string(),
        Some(bytes) => {
            let text: String = bytes.iter().take(300).flat_map(|b| std::ascii::escape_default(*b)).map(char::from).collect();
            format!("\"{text}\"")
        }
    }
}

/// The first line in which an output differs from the twin's for this input.
pub fn difference(input: &[u8], theirs: &[u8]) -> Option<Difference> {
    let ours = model::sheet(input);
    if ours == theirs {
        return None;
    }
    let feed = |b: &u8| *b == b'\n';
    let (mut a, mut b, mut asked) = (ours.split_inclusive(feed), theirs.split_inclusive(feed), input.split_inclusive(feed));
    for line in 1.. {
        let (x, y, z) = (a.next(), b.next(), asked.next());
        if x != y {
            return Some(Difference { line, asked: shown(z), ours: shown(x), theirs: shown(y) });
        }
    }
    unreachable!("outputs with the same lines are the same")
}

/// A shorter input on which the two still differ, found by leaving out lines; `differs` is asked at most `tries` times.
pub fn shrink(input: &[u8], mut tries: usize, mut differs: impl FnMut(&[u8]) -> bool) -> Vec<u8> {
    let mut lines: Vec<Vec<u8>> = input.split_inclusive(|&b| b == b'\n').map(<[u8]>::to_vec).collect();
    let mut step = lines.len().div_ceil(2);
    while step > 0 {
        let mut at = 0;
        while at < lines.len() && tries > 0 {
            let mut fewer = lines.clone();
            fewer.drain(at..(at + step).min(lines.len()));
            tries -= 1;
            if differs(&fewer.concat()) {
                lines = fewer;
            } else {
                at += step;
            }
        }
        step = if step == 1 { 0 } else { step.div_ceil(2) };
    }
    lines.concat()
}
