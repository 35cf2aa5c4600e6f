//! Random call scripts, each from its seed alone.
use crate::rng::Rng;
use crate::script::{Command, World};

/// The commands of a seed.
pub fn commands(seed: u64) -> Vec<Command> {
    let mut rng = Rng::new(seed);
    let count = if rng.percent(30) { rng.within(0, 60) } else { rng.within(200, 4000) };
    let busy = rng.of(&[5, 20, 45]);
    let levels: &[u32] = rng.of(&[&[0, 1, 2, 3, 4, 5, 6, 7, 8, 9, 10, 11, 12, 13][..], &[0, 0, 1, 1, 2, 3, 7], &[7, 11, 13], &[0, 13]]);
    let ports = rng.within(1, 4);
    let mut world = World::new();
    let mut commands = Vec::new();
    if rng.percent(95) {
        commands.push(Command::Start);
        let _ = world.perform(&Command::Start);
    }
    for _ in 0..count {
        let command = match rng.below(100) {
            0 if rng.percent(20) => Command::Start,
            1 if rng.percent(40) => Command::Shut(port(&mut rng, ports)),
            1..=4 => Command::Reopen(port(&mut rng, ports)),
            5..=22 => reserve(&mut rng, levels, ports),
            23..=34 => Command::Release(live(&mut rng, &world)),
            k if k < 35 + busy => arrive(&mut rng, levels, ports),
            _ => Command::Pick(port(&mut rng, ports)),
        };
        // the answer is looked at when the script is run
        let _ = world.perform(&command);
        commands.push(command);
    }
    commands
}

/// The script of a seed; a few are cut off or end in a byte that is no command.
pub fn script(seed: u64) -> Vec<u8> {
    let mut bytes = Vec::new();
    for command in commands(seed) {
        command.put(&mut bytes);
    }
    let mut rng = Rng::new(!seed);
    match rng.below(20) {
        0 => bytes.truncate(rng.below(bytes.len() + 1)),
        1 => bytes.extend([rng.within(7, 255) as u8, 0, 0, 0]),
        _ => {}
    }
    bytes
}

fn port(rng: &mut Rng, ports: usize) -> usize {
    if rng.percent(3) {
        rng.of(&[4, 5, 15, 16, 255])
    } else {
        rng.below(ports)
    }
}

fn number(rng: &mut Rng) -> u32 {
    if rng.percent(3) {
        rng.of(&[0, 65_535, 65_536, 65_537, u32::MAX])
    } else {
        rng.within(1, 40) as u32
    }
}

/// The number of a live session, mostly; else another one.
fn live(rng: &mut Rng, world: &World) -> u32 {
    let port = rng.below(4);
    let numbers: Vec<u32> = world.fabric.book(port).sessions().map(|(_, s)| s.number as u32).collect();
    if numbers.is_empty() || rng.percent(15) {
        number(rng)
    } else {
        rng.of(&numbers)
    }
}

fn reserve(rng: &mut Rng, levels: &[u32], ports: usize) -> Command {
    let level = if rng.percent(3) { rng.of(&[13, 14, 15, 16, u32::MAX]) } else { rng.of(levels) };
    let weight = match rng.below(40) {
        0 => rng.of(&[0, 16_320, 16_321, 65_536, u32::MAX]),
        1..=5 => rng.within(1, 3000) as u32,
        _ => rng.within(1, 255) as u32,
    };
    let hops = if rng.percent(4) { rng.of(&[0, 8, 9, 20, 255]) } else { rng.within(1, ports) };
    let first = rng.below(ports);
    let path = if rng.percent(15) { (0..hops).map(|_| port(rng, ports)).collect() } else { (0..hops).map(|k| (first + k) % ports).collect() };
    Command::Reserve { number: number(rng), level, weight, path }
}

fn arrive(rng: &mut Rng, levels: &[u32], ports: usize) -> Command {
    let lane = if rng.percent(5) { rng.of(&[13, 14, 15, 16, 255]) } else { rng.of(levels) as usize };
    let length = match rng.below(10) {
        0 => rng.of(&[0, 1, 63, 64, 65, 128, 129, 4032, 4033, 4095, 4096, 4097, 65_535]),
        1..=5 => rng.within(1, 4096) as u16,
        _ => rng.within(1, 400) as u16,
    };
    Command::Arrive { port: port(rng, ports), lane, length }
}
