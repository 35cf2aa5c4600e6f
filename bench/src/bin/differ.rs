//! Compares the product with the twin on random inputs.
//!
//!     differ PROGRAM [SEED [COUNT]]    sheets, through the program's standard input and output
//!     differ --calls [SEED [COUNT]]    call scripts, through the linked library
//!     differ --sheets [SEED [COUNT]]   sheets, through the linked library
use std::env;
use std::io::{self, Write};
use std::process::{Command, ExitCode, Stdio};
use std::thread;

use bench::differ::{difference, shrink, Tally};
use bench::{product, script, scripts, sheets, systematic};

/// The most bytes of answers that a sheet can get: `table 0` and a line feed get 260 for 8.
const MOST_ANSWERS: usize = 65_536 / 8 * 260 + 260;

/// What the program writes for an input; its output is told to differ by a last line if it does not end well.
fn run(program: &str, input: &[u8]) -> io::Result<Vec<u8>> {
    let mut child = Command::new(program).stdin(Stdio::piped()).stdout(Stdio::piped()).spawn()?;
    let mut stdin = child.stdin.take().expect("it is piped");
    let output = thread::scope(|scope| {
        // a program that stops reading early is judged by what it wrote
        scope.spawn(move || stdin.write_all(input));
        child.wait_with_output()
    })?;
    let mut bytes = output.stdout;
    if !output.status.success() {
        bytes.extend(format!("({})", output.status).bytes());
    }
    Ok(bytes)
}

fn sheets_differ(seed: u64, count: u64, mut serve: impl FnMut(&[u8]) -> Vec<u8>) -> bool {
    let mut tally = Tally::default();
    let listed = systematic::sheets().into_iter().enumerate().map(|(k, input)| (format!("systematic-{k}"), input));
    let random = (seed..seed + count).map(|seed| (format!("seed-{seed}"), sheets::sheet(seed)));
    for (name, input) in listed.chain(random) {
        let theirs = serve(&input);
        tally.add(&theirs);
        let Some(found) = difference(&input, &theirs) else { continue };
        tally.print();
        println!("FIRST DIFFERENCE: sheet {name}, line {}", found.line);
        println!("asked   {}\ntwin    {}\nproduct {}", found.asked, found.ours, found.theirs);
        let shorter = shrink(&input, 500, |input| difference(input, &serve(input)).is_some());
        let file = env::temp_dir().join(format!("differ-{name}.sheet"));
        match std::fs::write(&file, &shorter) {
            Ok(()) => println!("a shorter sheet, {} bytes, is in {}", shorter.len(), file.display()),
            Err(error) => println!("could not keep a shorter sheet: {error}"),
        }
        return true;
    }
    tally.print();
    println!("no difference");
    false
}

fn calls_differ(seed: u64, count: u64) -> bool {
    let (mut calls, mut bytes) = (0, 0);
    for seed in seed..seed + count {
        let input = scripts::script(seed);
        let mut ours = vec![0xa5; script::LONGEST * (input.len() + 1)];
        let mut theirs = ours.clone();
        let (n, m) = (script::run(&input, &mut ours), product::fabric_run(&input, &mut theirs));
        calls += scripts::commands(seed).len();
        bytes += n;
        if n != m || ours != theirs {
            println!("{calls} calls compared\nFIRST DIFFERENCE: script of seed {seed}: the twin wrote {n} bytes, the product {m}");
            tell_first(&input, &ours, &theirs);
            return true;
        }
    }
    println!("{count} scripts, {calls} calls, {bytes} bytes of answers compared\nno difference");
    false
}

/// The first command whose answers differ.
fn tell_first(input: &[u8], ours: &[u8], theirs: &[u8]) {
    let mut reader = script::Reader(input);
    let mut world = script::World::new();
    let mut at = 0;
    let mut index = 0;
    while let Some(command) = reader.command() {
        let mut answer = [0; script::LONGEST];
        let end = at + script::put(world.perform(&command), &mut answer);
        if ours[at..end] != theirs[at..end] {
            println!("command {index}: {command:?}\ntwin    {:?}\nproduct {:?}", &ours[at..end], &theirs[at..end]);
            return;
        }
        at = end;
        index += 1;
    }
    println!("all {index} answers are the same; what is written behind them differs");
}

fn main() -> ExitCode {
    let args: Vec<String> = env::args().skip(1).collect();
    let number = |k: usize, other: u64| args.get(k).map_or(Some(other), |a| a.parse().ok());
    let (Some(what), Some(seed), Some(count)) = (args.first(), number(1, 1), number(2, 200)) else {
        eprintln!("differ PROGRAM | --calls | --sheets [SEED [COUNT]]");
        return ExitCode::from(2);
    };
    if what.starts_with("--") && !product::LINKED {
        eprintln!("differ was built without the product's library: see README.md");
        return ExitCode::from(2);
    }
    let differ = match what.as_str() {
        "--calls" => calls_differ(seed, count),
        "--sheets" => {
            let mut out = vec![0; MOST_ANSWERS];
            sheets_differ(seed, count, |input| {
                let n = product::sheet_run(input, &mut out);
                out[..n].to_vec()
            })
        }
        program => sheets_differ(seed, count, |input| run(program, input).unwrap_or_else(|error| format!("({error})").into_bytes())),
    };
    ExitCode::from(differ as u8)
}
