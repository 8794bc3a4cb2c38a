//! Moves of headers in front and back, in the short form; and faults planted in the plain Rust in the engine's place.
use compare::gathered::{self, gather_headers, spread_headers};
use compare::model;
use compare::moves::{Counts, Engine, GatherCall, Moves, SpreadCall, With, ENGINE, PLAIN};
use compare::pair::Markers;

mod faults;

/// Runs a trial, and requires that the move gave these numbers, and the way back those.
fn trial(gathers: &[usize], spreads: &[usize], run: impl Fn(&mut Moves)) -> Counts {
    let mut moves = Moves::new(ENGINE, 20261117);
    run(&mut moves);
    moves.counts.print();
    for number in gathers {
        assert!(moves.counts.gathers[*number] > 0, "no move gave {number}");
    }
    for number in spreads {
        assert!(moves.counts.spreads[*number] > 0, "no way back gave {number}");
    }
    moves.counts
}

/// What was moved was read too, by the crate's branch for PPT where the crate is there.
fn told(counts: &Counts) {
    assert!(counts.told > 5_000, "packets of what was moved");
    assert_eq!(counts.told_by_crate > 2_000, cfg!(openjp2), "by the crate");
}

#[test]
fn rows() {
    let counts = trial(&[0, 3, 5, 6, 9, 10, 11, 12], &[0, 3, 5, 6, 9, 10, 11, 12, 16], |t| t.rows(60_000, 3));
    assert!(counts.restored > 2_000 && counts.mixed > 1_000, "rows that come back, precincts in mixed order");
    assert!(counts.damaged_rows > 5_000 && counts.damaged_segments > 5_000, "rows and segments damaged");
    assert!(counts.crossing_cut > 5_000, "headers that segments cut");
    told(&counts);
}

#[test]
fn rows_of_states() {
    let counts = trial(&[0, 3, 5, 6, 9, 10, 11, 12], &[0, 3, 5, 6, 9, 10, 11, 12, 16], |t| t.rows_of_states(60_000));
    assert!(counts.restored > 2_000, "rows that come back");
    told(&counts);
}

#[test]
fn every_cut() {
    let counts = trial(&[0, 3, 5, 10, 11], &[0, 3, 5, 10, 11, 16], |t| t.every_cut(150));
    assert!(counts.cut_segments > 5_000, "segments cut at each byte");
}

#[test]
fn full_segments() {
    let counts = trial(&[0, 11], &[0, 16], |t| t.full_segments(12));
    assert!(counts.restored == 12 && counts.crossing > 0, "rows that come back, and headers that go on in the next segment");
}

#[test]
fn largest() {
    let counts = trial(&[0], &[0], |t| t.largest());
    assert!(counts.most_records > 100_000, "13 isn't given");
}

#[test]
fn segments_of_one_byte() {
    trial(&[], &[0, 16], |t| t.one_byte_segments());
}

#[test]
fn most_segments() {
    trial(&[0, 11], &[0], |t| t.most_segments());
}

#[test]
fn a_segment_too_many() {
    trial(&[11, 15], &[16], |t| t.a_segment_too_many());
}

#[test]
fn a_body_too_short() {
    trial(&[10, 15], &[], |t| t.a_body_too_short());
}

// ---- calls by hand: one block, eight planes, style 0

fn one_block(layer: u32) -> Vec<u32> {
    let bands = [1, 1, 8, 0, 0, 0, 0, 0, 0];
    let mut state = vec![0; model::state_length(1, &bands)];
    assert_eq!(model::start_reader(1, &bands, 0, &[], &mut state), 0);
    state[3] = layer;
    state
}

fn with(states: &[&Vec<u32>], places: &[u32]) -> With {
    let states: Vec<u32> = states.iter().flat_map(|state| state.to_vec()).collect();
    With { scratch: states.len(), states, places: places.to_vec(), markers: Markers::default() }
}

fn gather(row: &[u8], with: With, headers: usize, bodies: usize) -> GatherCall {
    GatherCall { row: row.to_vec(), with, headers, bodies, answer: 2 }
}

fn spread(headers: &[u8], bodies: &[u8], with: With, row: usize) -> SpreadCall {
    SpreadCall { headers: headers.to_vec(), bodies: bodies.to_vec(), with, row, answer: 1 }
}

/// One pass of 5 bytes; one pass whose field is wider than 32 bits; 16 passes of 511 bytes without the byte behind FF.
const ACCEPTED: &[u8] = &[0xe5];
const WIDE: &[u8] = &[0xff, 0x7f, 0xff, 0x7f, 0xff, 0x7f, 0xff, 0x7f, 0xff, 0x7f];
const CUT: &[u8] = &[0xfe, 0xad, 0xff];
const BODY: &[u8] = &[1, 2, 3, 4, 5];

/// Each number of the move, and of two the one that is looked for first.
#[test]
fn numbers_of_the_move() {
    let (fresh, last) = (one_block(0), one_block(model::LAYERS));
    let mut bad = fresh.clone();
    bad[0] = 1;
    let one = || with(&[&fresh], &[0]);
    let packet = [ACCEPTED, BODY].concat();
    let two = [&packet[..], &[0]].concat();
    let calls = [
        (0, "a packet", gather(&packet, one(), 6, 5)),
        (0, "no packets", gather(&[], with(&[], &[]), 0, 0)),
        (0, "no packets of a state in its last layer", gather(&[], with(&[&last], &[]), 0, 0)),
        (0, "past the row's end", gather(&[], one(), 0, 0)),
        (3, "answer, before 5", GatherCall { answer: 1, ..gather(&packet, with(&[&bad], &[0]), 6, 5) }),
        (5, "scratch, before 6", {
            let own = with(&[&last], &[0]);
            gather(&packet, With { scratch: own.scratch - 1, ..own }, 6, 5)
        }),
        (5, "a bad state behind, before 6", gather(&packet, with(&[&last, &bad], &[0]), 6, 5)),
        (5, "a place without a state, before 6", gather(&packet, with(&[&last], &[0, 1]), 6, 5)),
        (5, "before 9", gather(WIDE, with(&[&fresh, &bad], &[0]), 99, 99)),
        (5, "before 12", gather(CUT, with(&[&fresh, &bad], &[0]), 99, 99)),
        (5, "before 10", gather(ACCEPTED, with(&[&fresh, &bad], &[0]), 99, 99)),
        (5, "before 11", gather(&packet, with(&[&fresh, &bad], &[0]), 0, 0)),
        (5, "of an empty row", gather(&[], with(&[&bad], &[]), 0, 0)),
        (5, "of a row and no states", gather(&packet, with(&[], &[0]), 0, 0)),
        (6, "before 9", gather(WIDE, with(&[&last], &[0]), 99, 99)),
        (6, "before 12", gather(CUT, with(&[&last], &[0]), 99, 99)),
        (6, "before 10", gather(ACCEPTED, with(&[&last], &[0]), 99, 99)),
        (6, "before 11", gather(&packet, with(&[&last], &[0]), 0, 0)),
        (9, "before 12", gather(&[WIDE, &[0xff]].concat(), one(), 99, 99)),
        (9, "before 11", gather(WIDE, one(), 0, 0)),
        (12, "before 10", gather(CUT, one(), 99, 99)),
        (12, "before 11", gather(CUT, one(), 0, 0)),
        (10, "a body past the row", gather(&packet[..5], one(), 99, 99)),
        (10, "before 11", gather(&packet[..5], one(), 0, 0)),
        (10, "a byte left", gather(&two, one(), 99, 99)),
        (10, "bytes and no packets", gather(&[0], with(&[], &[]), 99, 99)),
        (11, "headers", gather(&packet, one(), 5, 5)),
        (11, "bodies", gather(&packet, one(), 6, 4)),
        (11, "before a byte left", gather(&two, one(), 5, 5)),
        (11, "before the next packet's 6", gather(&two, with(&[&fresh, &last], &[0, 1]), 5, 5)),
        (6, "before the next packet's 11", gather(&two, with(&[&last, &fresh], &[0, 1]), 5, 5)),
        (11, "at the second packet, before its byte left", gather(&[&two[..], &[0]].concat(), with(&[&fresh], &[0, 0]), 6, 5)),
        (9, "at the second packet", gather(&[&packet, WIDE].concat(), with(&[&fresh, &fresh], &[0, 1]), 6, 5)),
        (10, "before the next packet's 9", gather(&packet[..5], with(&[&fresh, &fresh], &[0, 1]), 6, 5)),
    ];
    let mut moves = Moves::new(ENGINE, 1);
    for (number, what, call) in calls {
        assert_eq!(moves.gather(&call).number, number, "{what}: {call:02x?}");
    }
}

/// The same of the way back.
#[test]
fn numbers_of_the_way_back() {
    let (fresh, last) = (one_block(0), one_block(model::LAYERS));
    let mut bad = fresh.clone();
    bad[0] = 1;
    let one = || with(&[&fresh], &[0]);
    let segment = |part: &[u8]| gathered::segment(0, part);
    let (packet, two) = (segment(ACCEPTED), segment(&[0xe5, 0]));
    let three = [segment(&[0xe5]), gathered::segment(1, &[0]), gathered::segment(2, &[0])].concat();
    let no_part = [&packet[..], &gathered::segment(1, &[])].concat();
    let second = [&packet[..], &gathered::segment(2, &[0])].concat();
    let repeated = [&packet[..], &gathered::segment(0, &[0])].concat();
    let other_marker = [&[0xff, 0x60], &packet[2..]].concat();
    let calls = [
        (0, "a packet", spread(&packet, BODY, one(), 6)),
        (0, "no packets", spread(&[], &[], with(&[], &[]), 0)),
        (0, "past the headers' end", spread(&[], &[], one(), 0)),
        (0, "segments of one byte", spread(&three, BODY, with(&[&fresh], &[0, 0, 0]), 8)),
        (3, "answer, before 16", SpreadCall { answer: 2, ..spread(&packet[..5], BODY, one(), 6) }),
        (16, "cut short", spread(&packet[..5], BODY, one(), 6)),
        (16, "its marker cut short", spread(&packet[..1], BODY, one(), 6)),
        (16, "a byte behind", spread(&[&packet[..], &[0xff]].concat(), BODY, one(), 6)),
        (16, "no byte", spread(&no_part, BODY, one(), 6)),
        (16, "another marker", spread(&other_marker, BODY, one(), 6)),
        (16, "an index left out", spread(&second, BODY, one(), 6)),
        (16, "an index again", spread(&repeated, BODY, one(), 6)),
        (16, "before 5", spread(&packet[..5], BODY, with(&[&bad], &[0]), 6)),
        (16, "before 6", spread(&packet[..5], BODY, with(&[&last], &[0]), 6)),
        (16, "before 9", spread(&segment(WIDE)[..14], &[], one(), 6)),
        (16, "before 12", spread(&[&segment(CUT)[..], &[0]].concat(), &[], one(), 6)),
        (16, "before 10", spread(&packet[..5], &[], one(), 6)),
        (16, "before 11", spread(&packet[..5], BODY, one(), 0)),
        (16, "before no packets", spread(&packet[..5], &[], with(&[], &[]), 0)),
        (5, "before 6", spread(&packet, BODY, with(&[&last, &bad], &[0]), 6)),
        (5, "a place without a state", spread(&packet, BODY, with(&[&last], &[0, 1]), 6)),
        (5, "before 9", spread(&segment(WIDE), &[], with(&[&fresh, &bad], &[0]), 6)),
        (5, "before 12", spread(&segment(CUT), &[], with(&[&fresh, &bad], &[0]), 6)),
        (5, "before 10", spread(&packet, &[], with(&[&fresh, &bad], &[0]), 6)),
        (5, "before 11", spread(&packet, BODY, with(&[&fresh, &bad], &[0]), 0)),
        (6, "before 9", spread(&segment(WIDE), &[], with(&[&last], &[0]), 6)),
        (6, "before 12", spread(&segment(CUT), &[], with(&[&last], &[0]), 6)),
        (6, "before 10", spread(&packet, &[], with(&[&last], &[0]), 6)),
        (6, "before 11", spread(&packet, BODY, with(&[&last], &[0]), 0)),
        (9, "before 12", spread(&segment(&[WIDE, &[0xff]].concat()), &[], one(), 6)),
        (9, "before 11", spread(&segment(WIDE), &[], one(), 0)),
        (12, "before 10", spread(&segment(CUT), &[], one(), 6)),
        (12, "before 11", spread(&segment(CUT), &[], one(), 0)),
        (10, "a body past the bodies", spread(&packet, &BODY[..4], one(), 99)),
        (10, "before 11", spread(&packet, &BODY[..4], one(), 0)),
        (10, "a header byte left", spread(&two, BODY, one(), 99)),
        (10, "a body byte left", spread(&packet, &[BODY, &[0]].concat(), one(), 99)),
        (10, "both, and no packets", spread(&packet, BODY, with(&[], &[]), 99)),
        (11, "row", spread(&packet, BODY, one(), 5)),
        (11, "before a header byte left", spread(&two, BODY, one(), 5)),
        (11, "before a body byte left", spread(&packet, &[BODY, &[0]].concat(), one(), 5)),
        (11, "before the next packet's 6", spread(&two, BODY, with(&[&fresh, &last], &[0, 1]), 5)),
        (6, "before the next packet's 11", spread(&two, BODY, with(&[&last, &fresh], &[0, 1]), 5)),
        (11, "at the second packet", spread(&two, BODY, with(&[&fresh], &[0, 0]), 6)),
    ];
    let mut moves = Moves::new(ENGINE, 1);
    for (number, what, call) in calls {
        assert_eq!(moves.spread(&call).number, number, "{what}: {call:02x?}");
    }
}

/// Why every chosen marker must be in place: two packets with SOP, of which the first has none.
#[test]
fn a_missing_marker() {
    let markers = Markers { sop: true, eph: false };
    let with = With { markers, ..with(&[&one_block(0)], &[0, 0]) };
    let mut moves = Moves::new(ENGINE, 1);
    let moved = moves.gather(&gather(&[0, 0xff, 0x91, 0, 4, 0, 0], with.clone(), 99, 99));
    let back = moves.spread(&spread(moved.put(0), moved.put(1), with, 7));
    assert_eq!(back.put(0), [0xff, 0x91, 0, 4, 0, 0, 0]);
}

// ---- planted faults

type Trial = fn(&mut Moves);

/// The trials, those of short calls first.
const TRIALS: [(&str, Trial); 6] = [
    ("rows", |t| t.rows(4_000, 2)),
    ("rows of states", |t| t.rows_of_states(1_000)),
    ("every cut", |t| t.every_cut(5)),
    ("full segments", |t| t.full_segments(5)),
    ("segments of one byte", |t| t.one_byte_segments()),
    ("257 segments", |t| t.a_segment_too_many()),
];

/// The trial that ends with a difference.
fn trial_that_finds(engine: Engine) -> Option<&'static str> {
    let differs = |(_, trial): &&(_, Trial)| {
        let Err(why) = std::panic::catch_unwind(|| trial(&mut Moves::new(engine, 3))) else { return false };
        assert!(why.downcast_ref::<String>().is_some_and(|text| text.starts_with("what is left differ")), "another end");
        true
    };
    TRIALS.iter().find(differs).map(|(name, _)| *name)
}

fn found(engine: Engine) {
    trial_that_finds(engine).expect("a fault that isn't found");
}

#[test]
fn each_fault_is_found() {
    for (fault, engine) in &faults::ENGINES[1..] {
        let trial = trial_that_finds(*engine).unwrap_or_else(|| panic!("{fault}: not found"));
        println!("{fault}: found by {trial}");
    }
}

#[test]
fn without_a_fault_nothing_is_found() {
    assert_eq!(trial_that_finds(faults::ENGINES[0].1), None);
}

/// A move that does the like of the plain one and then this with its number and the lists: scratch, headers, bodies, answer.
macro_rules! gather_then {
    ($fault:expr) => {
        Engine {
            gather: |row, states, scratch, places, sop, eph, headers, bodies, answer| {
                let number = gather_headers(row, states, scratch, places, sop, eph, headers, bodies, answer);
                let fault: fn(u32, &mut [u32], &mut [u8], &mut [u8], &mut [u64]) -> u32 = $fault;
                fault(number, scratch, headers, bodies, answer)
            },
            ..PLAIN
        }
    };
}

/// The same of a way back: scratch, row, answer.
macro_rules! spread_then {
    ($fault:expr) => {
        Engine {
            spread: |headers, bodies, states, scratch, places, sop, eph, row, answer| {
                let number = spread_headers(headers, bodies, states, scratch, places, sop, eph, row, answer);
                let fault: fn(u32, &mut [u32], &mut [u8], &mut [u64]) -> u32 = $fault;
                fault(number, scratch, row, answer)
            },
            ..PLAIN
        }
    };
}

fn set<T: Copy>(when: bool, list: &mut [T], at: usize, value: T) {
    if let (true, Some(element)) = (when, list.get_mut(at)) {
        *element = value;
    }
}

#[test]
fn faults_in_what_a_refusal_leaves() {
    found(gather_then!(|number, scratch, _, _, _| {
        set(number == 10, scratch, 3, 1);
        number
    }));
    found(gather_then!(|number, _, headers, _, _| {
        set(number == 9, headers, 0, 0xff);
        number
    }));
    found(gather_then!(|number, _, _, bodies, _| {
        set(number == 5, bodies, 0, 1);
        number
    }));
    found(gather_then!(|number, _, _, _, answer| {
        set(number == 11, answer, 0, 1);
        number
    }));
    found(spread_then!(|number, scratch, _, _| {
        set(number == 5, scratch, 0, 2);
        number
    }));
    found(spread_then!(|number, _, row, _| {
        set(number == 16, row, 0, 0xa5);
        number
    }));
}

#[test]
fn faults_in_what_is_moved() {
    found(gather_then!(|number, _, headers, _, answer| {
        set(number == 0 && answer[0] > 40, headers, 40, 0xff);
        number
    }));
    found(gather_then!(|number, scratch, _, _, _| {
        set(number == 0, scratch, 3, 1);
        number
    }));
    found(gather_then!(|number, _, _, bodies, answer| {
        set(number == 0, bodies, answer.last().copied().unwrap_or(0) as usize, 0);
        number
    }));
    found(spread_then!(|number, _, row, answer| {
        set(number == 0 && answer[0] > 40, row, 40, 0xff);
        number
    }));
    found(spread_then!(|number, scratch, _, _| {
        set(number == 0, scratch, 3, 1);
        number
    }));
}

#[test]
fn faults_in_the_numbers() {
    // 11 before 10, and 12 for 9
    found(gather_then!(|number, _, headers, _, _| if number == 10 && headers.is_empty() { 11 } else { number }));
    found(gather_then!(|number, _, _, _, _| if number == 9 { 12 } else { number }));
    // 10 before 16
    found(spread_then!(|number, _, row, _| if number == 16 && row.is_empty() { 10 } else { number }));
    // a last body byte 0 is not missed
    found(Engine {
        spread: |headers, bodies, states, scratch, places, sop, eph, row, answer| {
            let bodies = bodies.strip_suffix(&[0]).unwrap_or(bodies);
            spread_headers(headers, bodies, states, scratch, places, sop, eph, row, answer)
        },
        ..PLAIN
    });
    // a missing marker is refused
    found(Engine {
        gather: |row, states, scratch, places, sop, eph, headers, bodies, answer| {
            let number = gather_headers(row, states, scratch, places, sop, eph, headers, bodies, answer);
            let missing = sop && !row.is_empty() && !row.starts_with(&[0xff, 0x91]);
            [number, 18][usize::from(number == 0 && missing)]
        },
        ..PLAIN
    });
}
