//! The twin against the worked day, the published cases, and the properties that the rules promise.
use bench::model::*;
use bench::rng::Rng;

fn text(input: &str) -> String {
    String::from_utf8(sheet(input.as_bytes())).unwrap()
}

fn started(count: usize) -> (RecordBank, Fabric) {
    let mut bank = RecordBank::new(count);
    let mut fabric = Fabric::new();
    fabric.start(&mut bank).unwrap();
    (bank, fabric)
}

#[test]
fn worked_day() {
    let input = "reserve 1 7 20 0\nreserve 2 0 300 0 1\nreserve 3 13 40 0\nreserve 4 13 32 1 0\nreserve 5 11 16 0\nrelease 1\nrelease 9\n";
    assert_eq!(text(input), "ok 8 20 8\nok 32 300 4\nok 2 40 32\nno 8 1\nok 4 16 16\nok 10\nno 9 0\n");
}

/// The fenced block of the guide that begins with this word.
fn block<'a>(guide: &'a str, word: &str) -> &'a str {
    let from = guide.split_once(&format!("```{word}\n")).unwrap().1;
    from.split_once("```").unwrap().0
}

#[test]
fn guide() {
    let guide = include_str!("../../docs/GUIDE.md");
    assert_eq!(text(block(guide, "sheet")), block(guide, "answers"));
}

#[test]
fn slots_of_the_worked_day() {
    let (mut bank, mut fabric) = started(4);
    assert_eq!(fabric.reserve(&mut bank, 1, 7, 20, &[0]), Ok((8, 20, 8)));
    for slot in [0, 32, 16, 48] {
        assert_eq!(bank.slot(0, slot), Ok(Slot { lane: 7, weight: 3 }));
    }
    for slot in [8, 40, 24, 56] {
        assert_eq!(bank.slot(0, slot), Ok(Slot { lane: 7, weight: 2 }));
    }
    assert_eq!(fabric.reserve(&mut bank, 2, 0, 300, &[0, 1]), Ok((32, 300, 4)));
    assert_eq!(bank.slot(0, 4), Ok(Slot { lane: 0, weight: 150 }));
    assert_eq!(bank.slot(0, 36), Ok(Slot { lane: 0, weight: 150 }));
    assert_eq!(fabric.release(&mut bank, 1), Ok(10));
    for slot in 0..SLOTS {
        let weight = if slot == 0 || slot == 32 { 150 } else { 0 };
        assert_eq!(bank.slot(0, slot), Ok(Slot { lane: 0, weight }));
    }
}

#[test]
fn spacings() {
    assert_eq!(spacing(0, 255), 64);
    assert_eq!(spacing(0, 256), 32);
    assert_eq!((0..14).map(|level| spacing(level, 1)).collect::<Vec<_>>(), [64, 32, 16, 16, 8, 8, 8, 8, 4, 4, 4, 4, 2, 2]);
    assert!((0..14).all(|level| spacing(level, 16_320) == 1));
    assert_eq!(text("reserve 1 0 16320 0\nreserve 2 0 16321 1\n"), "ok 1 16320 64\nno 4 0\n");
}

#[test]
fn eight_fill_a_port() {
    let (mut bank, mut fabric) = started(1);
    for number in 1..=8 {
        assert_eq!(fabric.reserve(&mut bank, number, 7, 8, &[0]), Ok((8, 8, 8)));
    }
    assert_eq!(fabric.reserve(&mut bank, 9, 0, 1, &[0]).unwrap_err().number, 8);
    assert_eq!(fabric.book(0).sessions().map(|(f, s)| (f, s.number)).collect::<Vec<_>>(), (0..8).map(|k| (8 * k, k as u16 + 1)).collect::<Vec<_>>());
    fabric.release(&mut bank, 3).unwrap();
    fabric.release(&mut bank, 5).unwrap();
    assert!(fabric.book(0).is_free(16, 16));
    assert_eq!(fabric.book(0).free_ranks(), 16);
    let places: Vec<_> = fabric.book(0).sessions().map(|(f, s)| (f, s.number)).collect();
    assert_eq!(places, [(0, 1), (8, 2), (32, 4), (40, 6), (48, 7), (56, 8)]);
}

#[test]
fn lines() {
    assert_eq!(text(""), "");
    assert_eq!(text("\n"), "no 18 0\n");
    assert_eq!(text("\n\nshut 0"), "no 18 0\nno 18 0\nok\n");
    assert_eq!(text("shut 0\nreserve 1 0 1 1 0\nreopen 0\n"), "ok\nno 6 1\nok\n");
    assert_eq!(text(" shut 0\nshut  0\nshut 0 \nshut\nshut \nshut 0 1 x\nshut 0 1 2"), "no 18 0\nno 19 5\nno 19 7\nno 20 4\nno 19 5\nno 19 9\nno 20 7\n");
    assert_eq!(text("release 00\nrelease 0\nrelease 65535\nrelease 65536\nrelease 1\r"), "no 19 8\nno 2 0\nno 9 0\nno 19 8\nno 19 8\n");
    assert_eq!(text("reserve 1 0 1 0 1 2 3 4 5 6 7\nreserve 1 0 1 0 1 2 3 4 5 6 7 8"), "no 5 4\nno 20 30\n");
    assert_eq!(text("table 4"), "no 10 0\n");
    assert_eq!(text("table 3"), format!("ok {}\n", "0".repeat(256)));
    assert_eq!(sheet(&b"\n".repeat(65_536)), b"no 18 0\n".repeat(65_536));
    assert_eq!(sheet(&b"\n".repeat(65_537)), b"no 17 0\n");
}

/// Whole free sets, by first rank and size.
fn wholes(book: &Book) -> Vec<(usize, usize)> {
    let mut found = Vec::new();
    for size in [1, 2, 4, 8, 16, 32, 64] {
        for first in (0..64).step_by(size) {
            let inside = |wide: usize| book.is_free(first / wide * wide, wide);
            if book.is_free(first, size) && ![2, 4, 8, 16, 32, 64].iter().any(|&wide| wide > size && inside(wide)) {
                found.push((first, size));
            }
        }
    }
    found.sort();
    found
}

#[test]
fn books_stand_and_waits_are_bounded() {
    for seed in 0..60 {
        let mut rng = Rng::new(seed);
        let (mut bank, mut fabric) = started(2);
        let mut lanes = RingLanes::new();
        // for each lane: units sent from other lanes since its first packet began to wait, while sessions did not change
        let mut waited = [0; LANES];
        for _ in 0..2000 {
            let number = rng.within(1, 50) as u32;
            let changed = match rng.below(40) {
                0 => {
                    let (level, weight) = (rng.below(14) as u32, rng.within(1, 600) as u32);
                    let sum: usize = fabric.book(0).sessions().map(|(_, s)| s.size as usize).sum();
                    let fits = sum as u32 + 64 / spacing(level, weight) <= 64;
                    let answer = fabric.reserve(&mut bank, number, level, weight, &[1, 0]).map_err(|no| no.number);
                    assert!(answer == Err(7) || answer.is_ok() == fits);
                    answer.is_ok()
                }
                1 => fabric.release(&mut bank, number).is_ok(),
                2..=20 => {
                    let _ = lanes.arrive(rng.below(15), rng.within(1, 4096) as u16);
                    false
                }
                _ => {
                    let served: Vec<u8> = fabric.book(0).sessions().map(|(_, s)| s.lane).collect();
                    let waits = served.iter().any(|&lane| lanes.first(lane as usize).unwrap().is_some());
                    match fabric.pick(&bank, &mut lanes, 0).unwrap() {
                        Picked::Idle { passed } => assert!(!waits && passed == 64),
                        Picked::Sent { lane, length, .. } => {
                            assert!(served.contains(&lane));
                            for (other, units) in waited.iter_mut().enumerate() {
                                let ahead = other != lane as usize && lanes.first(other).unwrap().is_some();
                                *units = if ahead { *units + cost(length) } else { 0 };
                            }
                        }
                    }
                    false
                }
            };
            if changed {
                waited = [0; LANES];
            }
            for (_, s) in fabric.book(0).sessions() {
                assert!(waited[s.lane as usize] <= 318 * (64 / s.size as u32));
            }
            for port in 0..2 {
                let book = fabric.book(port);
                let sizes: Vec<usize> = wholes(book).iter().map(|w| w.1).collect();
                assert!(sizes.windows(2).all(|w| w[0] < w[1]), "{sizes:?}");
                let slots = book.slots();
                assert!((0..64).all(|s| bank.slot(port, s) == Ok(slots[s])));
                for (first, s) in book.sessions() {
                    let mine: Vec<usize> = (0..s.size as usize).map(|k| reversed(first + k)).collect();
                    assert!(mine.iter().all(|slot| slot % (64 / s.size as usize) == reversed(first)));
                    assert_eq!(mine.iter().map(|&slot| slots[slot].weight as u32).sum::<u32>(), s.grant as u32);
                    assert!(mine.iter().all(|&slot| slots[slot].lane == s.lane));
                }
            }
        }
    }
}

#[test]
fn banks_and_lanes() {
    let mut records = RecordBank::new(0);
    let mut images = ImageBank::new(99);
    assert_eq!((records.count(), images.count()), (1, 16));
    let numbers = |r: Result<(), Refusal>| r.map_err(|no| (no.number, no.layer, no.own, no.place));
    let no = |number| Err((number, Layer::Bank, 0, 0));
    let slot = Slot { lane: 14, weight: 255 };
    assert_eq!(numbers(records.write(1, 64, Slot { lane: 15, weight: 0 })), no(10));
    assert_eq!(numbers(images.write(15, 64, Slot { lane: 15, weight: 0 })), no(11));
    assert_eq!(numbers(images.write(15, 63, Slot { lane: 15, weight: 0 })), no(12));
    assert_eq!(numbers(images.set_open(15, false)), Ok(()));
    assert_eq!(numbers(images.write(15, 63, slot)), no(6));
    assert_eq!(numbers(images.set_open(15, true)), Ok(()));
    assert_eq!(numbers(images.write(15, 63, slot)), Ok(()));
    assert_eq!(images.slot(15, 63), Ok(slot));
    let mut short = [7; 127];
    assert_eq!(numbers(write_image(&images, 15, &mut short)), no(16));
    assert_eq!(short, [7; 127]);
    let mut long = [7; 130];
    write_image(&images, 15, &mut long).unwrap();
    assert_eq!((long[125], long[126], long[127], long[128], long[129]), (0, 14, 255, 7, 7));
    long[0] = 0x10;
    assert_eq!(read_image(&long, 0).unwrap_err().number, 12);
    assert_eq!(read_image(&long, 64).unwrap_err().number, 11);
    assert_eq!(read_image(&long, 63), Ok(slot));

    let mut ring = RingLanes::new();
    assert_eq!(ring.arrive(15, 0).unwrap_err().number, 12);
    assert_eq!(ring.arrive(14, 0).unwrap_err().number, 15);
    assert_eq!(ring.arrive(14, 4097).unwrap_err().number, 15);
    for k in 1..=16 {
        ring.arrive(14, k).unwrap();
    }
    assert_eq!(ring.arrive(14, 1).unwrap_err().number, 14);
    assert_eq!(ring.arrive(14, 0).unwrap_err().number, 15);
    assert_eq!((ring.first(14), ring.take(14), ring.first(14)), (Ok(Some(1)), Ok(1), Ok(Some(2))));
    assert_eq!(ring.take(13).unwrap_err().number, 13);
    assert_eq!(ring.take(15).unwrap_err().number, 12);

    // lanes 2, 15, 2, 3 with lengths 5, 9, 0, 4096
    let bytes = [0, 4, 2, 15, 2, 3, 0, 5, 0, 9, 0, 0, 16, 0];
    let mut capture = CaptureLanes::new(&bytes);
    assert_eq!((capture.take(2), capture.first(2), capture.take(3)), (Ok(5), Ok(None), Ok(4096)));
    assert_eq!(capture.take(2).unwrap_err().number, 13);
    assert_eq!(CaptureLanes::new(&bytes[..13]).first(2), Ok(None));
    assert_eq!(CaptureLanes::new(&[]).first(2), Ok(None));
}

#[test]
fn picks() {
    let (mut bank, mut fabric) = started(1);
    let mut lanes = RingLanes::new();
    assert_eq!(fabric.pick(&bank, &mut lanes, 0), Ok(Picked::Idle { passed: 64 }));
    // slots 0 and 32, two units each
    fabric.reserve(&mut bank, 1, 1, 4, &[0]).unwrap();
    for length in [64, 65, 4096, 1, 1, 1] {
        lanes.arrive(1, length).unwrap();
    }
    let mut pick = |bank: &RecordBank, fabric: &mut Fabric| match fabric.pick(bank, &mut lanes, 0).unwrap() {
        Picked::Sent { lane, length, passed } => (lane as usize, length as usize, passed),
        Picked::Idle { passed } => (99, 0, passed),
    };
    assert_eq!(pick(&bank, &mut fabric), (1, 64, 1));
    assert_eq!(fabric.pointer(0), Pointer { slot: 0, credit: 1 });
    assert_eq!(pick(&bank, &mut fabric), (1, 65, 0));
    assert_eq!(fabric.pointer(0), Pointer { slot: 0, credit: 0 });
    assert_eq!(pick(&bank, &mut fabric), (1, 4096, 32));
    assert_eq!(pick(&bank, &mut fabric), (1, 1, 32));
    assert_eq!(fabric.pointer(0), Pointer { slot: 0, credit: 1 });
    // the slot is empty now, and the credit that was left is not spent
    fabric.release(&mut bank, 1).unwrap();
    assert_eq!(pick(&bank, &mut fabric), (99, 0, 64));
    assert_eq!(fabric.pointer(0), Pointer { slot: 0, credit: 1 });
    // only the pointer's own slot serves: the last one tried
    fabric.reserve(&mut bank, 2, 0, 1, &[0]).unwrap();
    fabric.release(&mut bank, 2).unwrap();
    bank.write(0, 0, Slot { lane: 1, weight: 9 }).unwrap();
    assert_eq!(pick(&bank, &mut fabric), (1, 1, 0));
    assert_eq!(pick(&bank, &mut fabric), (1, 1, 64));
    fabric.shut(&mut bank, 0).unwrap();
    let refusal = |r: Result<Picked, Refusal>| r.map_err(|no| (no.number, no.layer, no.place)).unwrap_err();
    assert_eq!(refusal(fabric.pick(&bank, &mut RingLanes::new(), 0)), (6, Layer::Bank, 0));
    assert_eq!(refusal(fabric.pick(&bank, &mut RingLanes::new(), 1)), (10, Layer::Bank, 0));
    assert_eq!(refusal(Fabric::new().pick(&bank, &mut RingLanes::new(), 1)), (1, Layer::Fabric, 0));
    assert_eq!(fabric.start(&mut bank).unwrap_err().number, 6);
}
