//! The short form of the comparison.
use compare::pair::{Call, Counts};
use compare::trials::Trials;

/// Runs a trial, and requires that it gave these numbers.
fn trial(numbers: &[usize], run: impl Fn(&mut Trials)) -> Counts {
    let mut trials = Trials::new(20261115);
    run(&mut trials);
    trials.pair.counts.print();
    for number in numbers {
        assert!(trials.pair.counts.number(*number) > 0, "no call gave {number}");
    }
    trials.pair.counts
}

/// Each trial asks the crate too wherever it can answer.
#[test]
#[cfg_attr(not(openjp2), ignore = "the comparison with crate openjp2's own code: set OPENJP2_SRC to the src folder of its sources")]
fn the_crate_takes_part() {
    let mut trials = Trials::new(1);
    trials.sessions(2_000, 4);
    trials.gathered(2_000, 4);
    for call in [Call::Measure, Call::Write, Call::Read, Call::ReadGathered] {
        assert!(trials.pair.counts.with_crate[call as usize][0] > 0, "{call:?}");
    }
    let counts = &trials.pair.counts;
    assert!(counts.bytes_with_crate > 0, "bytes by the crate's writer from the start on");
    assert!(counts.states_after_empty > 0, "states after packets without passes");
    trials.layers(2_000, 3);
    let counts = &trials.pair.counts;
    assert!(counts.in_layers_by_crate > 0, "packets of layers");
    assert!(counts.empty_by_crate > 0 && counts.read_by_crate > counts.empty_by_crate, "packets read by the crate in order");
}

#[test]
fn starts() {
    trial(&[0, 1, 2, 3, 4], |t| t.starts(100_000));
}

#[test]
fn packets() {
    let counts = trial(&[0, 9, 11, 12, 13], |t| t.sessions(200_000, 4));
    assert!(counts.mixed_bodies > 0, "several segments behind another block");
}

#[test]
fn packets_in_order() {
    let counts = trial(&[0], |t| t.chains(50_000));
    assert!(counts.in_order >= 50_000 && counts.in_order_empty > 10_000, "packets without passes among others");
}

#[test]
fn late_packets() {
    let counts = trial(&[0, 6, 9, 11, 12, 13], |t| t.late_sessions(100_000, 4));
    assert!(counts.late_layers > 0, "layers from 999 on");
}

#[test]
fn larger_packets() {
    trial(&[0, 9, 11, 12], |t| t.sessions(20_000, 12));
}

#[test]
fn states() {
    trial(&[0, 5, 6, 8, 9, 10, 11, 12, 13], |t| t.states(200_000));
}

#[test]
fn late_states() {
    let counts = trial(&[0, 5, 6, 8, 9, 10, 11, 12, 13], |t| t.late_states(100_000));
    assert!(counts.late_layers > 0, "layers from 999 on");
}

/// A state told in range, out of range, and with an answer of another length.
#[test]
fn states_described() {
    let mut trials = Trials::new(2);
    trials.states(20_000);
    for number in [0, 3, 5] {
        assert!(trials.pair.counts.by_number[Call::Describe as usize][number] > 0, "no call gave {number}");
    }
}

#[test]
fn lists() {
    trial(&[0, 3, 5, 7, 10, 11, 13], |t| t.lists(100_000));
}

#[test]
fn gathered_headers() {
    let mut trials = Trials::new(20261115);
    trials.gathered(100_000, 4);
    let counts = &trials.pair.counts;
    counts.print();
    for number in [0, 3, 5, 6, 9, 12, 13] {
        assert!(counts.by_number[Call::ReadGathered as usize][number] > 0, "no call gave {number}");
    }
    assert!(counts.as_from_stream > 2_000 && counts.past_headers > 2_000, "own packets, and headers that end too early");
    for number in [0, 9, 12] {
        let asked = counts.with_crate[Call::ReadGathered as usize][number];
        assert_eq!(asked > 0, cfg!(openjp2), "{number} by the crate");
    }
}

#[test]
fn layers() {
    let counts = trial(&[0, 3, 5, 6, 7, 8, 10, 11, 14], |t| t.layers(100_000, 3));
    assert!(counts.in_layers > 5_000 && counts.refused_later > 1_000, "layers written, and refused behind their first precinct");
}

#[test]
fn layers_of_states() {
    let mut trials = Trials::new(20261115);
    trials.layers_of_states(60_000);
    for number in [0, 3, 5, 6, 7, 8, 9, 10, 11] {
        assert!(trials.pair.counts.by_number[Call::WriteLayer as usize][number] > 0, "no layer gave {number}");
    }
}

#[test]
fn largest_layers() {
    trial(&[0, 11], |t| t.largest_layers());
}

#[test]
fn every_length() {
    trial(&[0, 3, 5, 10, 11, 14], |t| t.every_length(20));
}

#[test]
fn every_cut() {
    let counts = trial(&[0, 12], |t| t.every_cut(300));
    assert!(counts.past_end > 10_000 && counts.longer > 1_000, "reads that take bits past the end, and reads that don't");
}

#[test]
fn cut_inputs() {
    let counts = trial(&[0, 9, 12, 13], |t| t.cuts(60_000));
    assert!(counts.past_end > 30_000 && counts.most_past_end > 998, "zero planes and inclusions past the end");
    assert!(counts.longer > 1_000 && counts.longer_eph > 100, "reads with more input");
}

#[test]
fn short_inputs() {
    trial(&[0, 12], |t| t.short_inputs(7, 1));
}

#[test]
fn short_headers() {
    trial(&[0, 12], |t| t.short_headers(7, 1));
}

#[test]
fn counts_and_lengths() {
    trial(&[0, 7, 8, 9], |t| t.counts_and_lengths(3));
}

#[test]
fn wide_fields() {
    trial(&[0, 9, 13], |t| t.wide_fields());
}

#[test]
fn long_bodies() {
    let counts = trial(&[0, 9, 12, 13], |t| t.long_bodies(20_000));
    assert!(counts.mixed_bodies > 0, "several segments behind another block");
    assert!(counts.long_bodies > 0, "starts from 2^32 on");
}

#[test]
fn largest() {
    trial(&[0, 11], |t| t.largest(3));
}

#[test]
fn shapes() {
    trial(&[0], |t| t.shapes(61));
}

#[test]
fn ranges() {
    trial(&[0, 5, 6], |t| t.ranges());
}

#[test]
fn first_layers() {
    trial(&[0], |t| t.first_layers());
}

#[test]
fn all_layers() {
    let counts = trial(&[0, 6], |t| t.all_layers());
    assert!(counts.late_layers > 3 * (65_535 - 999), "layers from 999 on");
}

#[test]
fn furthest() {
    trial(&[0, 6], |t| t.furthest());
}

#[test]
fn deepest() {
    trial(&[0], |t| t.deepest());
}
