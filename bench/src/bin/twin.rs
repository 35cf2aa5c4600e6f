//! The twin as a program: standard input to standard output, as the product's program does.
use std::io::{self, Read, Write};

fn main() -> io::Result<()> {
    let mut input = Vec::new();
    io::stdin().lock().read_to_end(&mut input)?;
    io::stdout().lock().write_all(&bench::model::sheet(&input))
}
