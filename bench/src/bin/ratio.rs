//! Times the twin and the product's library side by side, on the same inputs in the same run.
//!
//!     ratio [ROUNDS [WORD]]
//!
//! With a word, only the cases whose names have it. Built without the feature `product` it times the twin alone.
use std::env;
use std::hint::black_box;
use std::time::{Duration, Instant};

use bench::model::{self, MOST_INPUT};
use bench::rng::Rng;
use bench::script::{self, Command, World};
use bench::{product, sheets};

enum Kind {
    Script,
    Sheet,
}

/// One input; `calls` of its commands or lines are what is counted.
struct Case {
    name: &'static str,
    kind: Kind,
    calls: usize,
    input: Vec<u8>,
    room: usize,
}

impl Case {
    fn script(name: &'static str, commands: &[Command], calls: usize) -> Case {
        let mut input = Vec::new();
        commands.iter().for_each(|command| command.put(&mut input));
        Case { name, kind: Kind::Script, calls, input, room: script::LONGEST * (commands.len() + 1) }
    }

    fn sheet(name: &'static str, line: impl FnMut(usize) -> String) -> Case {
        let mut input = Vec::new();
        let mut calls = 0;
        for line in (0..).map(line) {
            if input.len() + line.len() + 1 > MOST_INPUT {
                break;
            }
            input.extend(line.bytes());
            input.push(b'\n');
            calls += 1;
        }
        input.resize(MOST_INPUT, b'x');
        Case { name, kind: Kind::Sheet, calls, input, room: 33 * MOST_INPUT }
    }

    fn twin(&self, out: &mut [u8]) -> usize {
        match self.kind {
            Kind::Script => script::run(&self.input, out),
            Kind::Sheet => {
                let text = model::sheet(&self.input);
                out[..text.len()].copy_from_slice(&text);
                text.len()
            }
        }
    }

    fn product(&self, out: &mut [u8]) -> usize {
        match self.kind {
            Kind::Script => product::fabric_run(&self.input, out),
            Kind::Sheet => product::sheet_run(&self.input, out),
        }
    }
}

fn reserve(number: u32, level: u32, weight: u32, path: &[usize]) -> Command {
    Command::Reserve { number, level, weight, path: path.to_vec() }
}

/// At a port with two ranks to spare one session after another ends, and one of its size comes.
fn churn(name: &'static str, levels: &[u32]) -> Case {
    let mut rng = Rng::new(7);
    let mut commands = vec![Command::Start];
    let mut live: Vec<(u32, u32)> = Vec::new();
    for (number, &level) in (1..).zip(levels) {
        commands.push(reserve(number, level, 100, &[0]));
        live.push((number, level));
    }
    let mut next = 1000;
    for _ in 0..20_000 {
        let k = rng.below(live.len());
        let (number, level) = live[k];
        commands.push(Command::Release(number));
        live[k] = (next, level);
        commands.push(reserve(next, level, rng.within(1, 200) as u32, &[0]));
        next = if next == 60_000 { 1000 } else { next + 1 };
    }
    Case::script(name, &commands, 40_000)
}

/// A full port with sessions in eight lanes.
fn full_port() -> Vec<Command> {
    let levels = [11, 9, 7, 6, 3, 2, 1, 1, 0, 0, 0, 0];
    let mut commands = vec![Command::Start];
    commands.extend((1..).zip(levels).map(|(number, level)| reserve(number, level, 40, &[0])));
    commands
}

/// Every lane is full of packets, and for each that is picked another one comes.
fn busy_picks() -> Case {
    let mut commands = full_port();
    let lanes = [0, 1, 2, 3, 6, 7, 9, 11];
    for lane in lanes {
        commands.extend((0..16).map(|k| Command::Arrive { port: 0, lane, length: 200 + 230 * k }));
    }
    let mut world = World::new();
    for command in &commands {
        world.perform(command).expect("the port takes them");
    }
    for k in 0..40_000 {
        let pick = Command::Pick(0);
        let answer = world.perform(&pick).expect("the port is open");
        commands.push(pick);
        if let script::Answer::Picked(model::Picked::Sent { lane, .. }) = answer {
            let arrive = Command::Arrive { port: 0, lane: lane as usize, length: 64 + k % 4000 };
            world.perform(&arrive).expect("one place is free");
            commands.push(arrive);
        }
    }
    Case::script("pick, many packets wait", &commands, 80_000)
}

/// One packet at a time, in a lane with a single slot: the pointer goes all the way round.
fn lonely_picks() -> Case {
    let mut commands = full_port();
    commands.retain(|c| !matches!(c, Command::Reserve { number: 10.., .. }));
    for _ in 0..40_000 {
        commands.push(Command::Arrive { port: 0, lane: 0, length: 4096 });
        commands.push(Command::Pick(0));
    }
    Case::script("pick, one packet waits", &commands, 80_000)
}

fn idle_picks() -> Case {
    let mut commands = full_port();
    commands.extend((0..40_000).map(|_| Command::Pick(0)));
    Case::script("pick, no packet waits", &commands, 40_000)
}

fn cases() -> Vec<Case> {
    let mixed = [11, 13, 7, 3, 0, 0];
    let small = [[0; 30], [1; 30]].concat().into_iter().take(46).collect::<Vec<_>>();
    let one = [0; 62];
    let mut churn_line = {
        let mut rng = Rng::new(3);
        move |k: usize| {
            let number = rng.within(1, 12);
            if k.is_multiple_of(2) {
                format!("reserve {number} {} {} {}", rng.of(&[0, 1, 3, 7, 7, 11]), rng.within(1, 255), rng.below(4))
            } else {
                format!("release {number}")
            }
        }
    };
    let random = (1..).map(sheets::sheet).find(|s| s.len() == MOST_INPUT).expect("some sheet is as long");
    let lines = random.split_inclusive(|&b| b == b'\n').count();
    vec![
        churn("reserve and release, sizes 32 16 8 4 1 1", &mixed),
        churn("reserve and release, sizes 1 and 2", &small),
        churn("reserve and release, 62 of size 1", &one),
        busy_picks(),
        lonely_picks(),
        idle_picks(),
        Case::sheet("sheet, reserves and releases", &mut churn_line),
        Case::sheet("sheet, tables", |k| format!("table {}", k % 4)),
        Case::sheet("sheet, four hops", |k| if k % 2 == 0 { format!("reserve {} 11 300 0 1 2 3", k + 1) } else { format!("release {k}") }),
        Case { name: "sheet, random and damaged", kind: Kind::Sheet, calls: lines, input: random, room: 33 * MOST_INPUT },
    ]
}

fn timed(out: &mut [u8], run: impl Fn(&mut [u8]) -> usize) -> Duration {
    let begun = Instant::now();
    black_box(run(black_box(out)));
    begun.elapsed()
}

fn median(mut times: Vec<Duration>) -> Duration {
    times.sort();
    times[times.len() / 2]
}

fn main() {
    let rounds: usize = env::args().nth(1).and_then(|a| a.parse().ok()).unwrap_or(15).max(1);
    println!("median of {rounds} rounds, in nanoseconds a call or line");
    println!("{:<44} {:>8} {:>9} {:>9} {:>7}", "case", "calls", "twin", "product", "ratio");
    let word = env::args().nth(2).unwrap_or_default();
    for case in cases().iter().filter(|case| case.name.contains(&word)) {
        let (mut ours, mut theirs) = (vec![0; case.room], vec![0; case.room]);
        let n = case.twin(&mut ours);
        if product::LINKED {
            let m = case.product(&mut theirs);
            assert!(n == m && ours == theirs, "{}: the answers differ", case.name);
        }
        let (mut twin, mut product) = (Vec::new(), Vec::new());
        for _ in 0..rounds {
            twin.push(timed(&mut ours, |out| case.twin(out)));
            if product::LINKED {
                product.push(timed(&mut theirs, |out| case.product(out)));
            }
        }
        let each = |times: Vec<Duration>| median(times).as_nanos() as f64 / case.calls as f64;
        let twin = each(twin);
        if product::LINKED {
            let product = each(product);
            println!("{:<44} {:>8} {twin:>9.1} {product:>9.1} {:>7.2}", case.name, case.calls, product / twin);
        } else {
            println!("{:<44} {:>8} {twin:>9.1} {:>9} {:>7}", case.name, case.calls, "-", "-");
        }
    }
}
