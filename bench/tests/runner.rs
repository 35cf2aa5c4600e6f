//! The runner itself: its inputs reach every answer, and it finds what is wrong.
use bench::differ::{difference, shrink, Tally};
use bench::model::{self, Layer, Picked};
use bench::{script, scripts, sheets};

#[test]
fn sheets_reach_every_answer() {
    let mut tally = Tally::default();
    for seed in 1..60 {
        tally.add(&model::sheet(&sheets::sheet(seed)));
    }
    assert!(tally.accepted > 1000);
    for number in [2, 3, 4, 5, 6, 7, 8, 9, 10, 17, 18, 19, 20] {
        assert!(tally.refused[number] > 0, "no sheet is refused with {number}");
    }
}

/// The worked-out answers but for one that is wrong: a full port's refusal names another hop.
fn wrong(input: &[u8]) -> Vec<u8> {
    String::from_utf8(model::sheet(input)).unwrap().replace("no 8 1\n", "no 8 0\n").into_bytes()
}

#[test]
fn a_fault_is_found() {
    let differs = |input: &[u8]| difference(input, &wrong(input)).is_some();
    let seed = (1..200).find(|&seed| differs(&sheets::sheet(seed))).expect("some sheet shows it");
    let input = sheets::sheet(seed);
    let shorter = shrink(&input, 2000, differs);
    assert!(differs(&shorter) && shorter.len() < input.len());
    let found = difference(&shorter, &wrong(&shorter)).unwrap();
    assert_eq!((found.ours.as_str(), found.theirs.as_str()), ("\"no 8 1\\n\"", "\"no 8 0\\n\""));
    assert!(difference(b"shut 0\n", b"ok\nok\n").is_some_and(|d| d.line == 2 && d.ours == "(nothing)"));
    assert!(difference(b"shut 0\n", b"ok").is_some_and(|d| d.line == 1));
}

#[test]
fn scripts_reach_every_answer() {
    let mut refused = [0; 21];
    let mut passed = [0; 65];
    let mut accepted = 0;
    for seed in 1..80 {
        let mut world = script::World::new();
        for command in scripts::commands(seed) {
            match world.perform(&command) {
                Err(no) => refused[no.number as usize] += 1,
                Ok(script::Answer::Picked(Picked::Sent { passed: n, .. })) => passed[n] += 1,
                Ok(_) => accepted += 1,
            }
        }
    }
    println!("accepted {accepted}, refused {refused:?}, passed {passed:?}");
    for number in [1, 2, 3, 4, 5, 6, 7, 8, 9, 10, 12, 14, 15] {
        assert!(refused[number] > 0, "no script is refused with {number}");
    }
    for n in [0, 1, 2, 8, 32, 64] {
        assert!(passed[n] > 0, "no pick passes {n} slots");
    }
}

#[test]
fn script_bytes() {
    let mut bytes = Vec::new();
    use script::Command::*;
    for command in [
        Pick(0),
        Start,
        Reserve { number: 1, level: 7, weight: 20, path: vec![0] },
        Arrive { port: 0, lane: 7, length: 300 },
        Pick(0),
        Pick(0),
        Shut(2),
        Reserve { number: 2, level: 0, weight: 1, path: vec![0, 2] },
        Start,
        Release(1),
        Arrive { port: 9, lane: 7, length: 300 },
        Arrive { port: 0, lane: 15, length: 300 },
    ] {
        command.put(&mut bytes);
    }
    let mut out = [0; 300];
    let n = script::run(&bytes, &mut out);
    let answers: [&[u8]; 12] = [
        &[1, 1, 0, 0, 0, 0, 2, 0, 0, 0, 0],
        &[0],
        &[0, 0, 0, 0, 8, 0, 0, 0, 20, 0, 0, 0, 8],
        &[0],
        &[0, 0, 0, 0, 1, 0, 0, 0, 7, 0, 0, 1, 44, 0, 0, 0, 1],
        &[0, 0, 0, 0, 0, 0, 0, 0, 64],
        &[0],
        &[1, 6, 0, 0, 0, 1, 0, 0, 0, 0, 0],
        &[1, 6, 0, 0, 0, 2, 0, 0, 0, 0, 0],
        &[0, 0, 0, 0, 8],
        &[1, 10, 0, 0, 0, 0, 0, 0, 0, 0, 0],
        &[1, 12, 0, 0, 0, 0, 1, 0, 0, 0, 0],
    ];
    assert_eq!(out[..n], answers.concat());
    // it ends before a command whose answer may not fit, and where the script is cut off
    assert_eq!(script::run(&bytes, &mut [0; 30]), 12 + 13);
    assert_eq!(script::run(&bytes[..5], &mut [0; 300]), 12);
    assert_eq!(script::run(&[7], &mut [0; 300]), 0);
    assert!(matches!(script::World::new().perform(&Pick(0)), Err(no) if no.layer == Layer::Fabric));
}
