//! compare [CALLS [SEED]]: at least so many calls, by the engine, by the scope's plain Rust (model.rs) and, where the crate can answer
//! them, by the crate; and moves of headers in front and back.
use compare::moves::{Moves, ENGINE};
use compare::trials::Trials;
use std::time::Instant;

/// Runs a part, and tells its calls and seconds.
fn timed<T>(trials: &mut T, total: fn(&T) -> u64, name: &str, trial: &dyn Fn(&mut T)) {
    let (before, from) = (total(trials), Instant::now());
    trial(trials);
    println!("{name:>20}  {:>9} calls, {:.1} s", total(trials) - before, from.elapsed().as_secs_f64());
}

fn main() {
    let mut arguments = std::env::args().skip(1).map(|a| a.parse::<u64>().expect("a number"));
    let calls = arguments.next().unwrap_or(12_000_000);
    let seed = arguments.next().unwrap_or(1);
    let begin = Instant::now();
    if !cfg!(openjp2) {
        println!("crate openjp2's sources were not there when this was built: the comparison with the crate is left out");
    }
    let mut trials = Trials::new(seed);
    let mut part = |name: &str, trial: &dyn Fn(&mut Trials)| timed(&mut trials, |t| t.pair.counts.total(), name, trial);
    let share = |percent: u64| calls * percent / 100;
    part("deepest", &|t| t.deepest());
    part("furthest", &|t| t.furthest());
    part("ranges", &|t| t.ranges());
    part("first layers", &|t| (0..share(1) / 20_000 + 1).for_each(|_| t.first_layers()));
    part("all layers", &|t| (0..share(1) / 100_000 + 1).for_each(|_| t.all_layers()));
    part("largest", &|t| t.largest(share(1) as u32 / 20_000 + 2));
    part("shapes", &|t| t.shapes(if calls < 4_000_000 { 61 } else { 1 }));
    part("counts and lengths", &|t| t.counts_and_lengths(1));
    part("every cut", &|t| t.every_cut(share(1) / 10 + 10));
    part("cut inputs", &|t| t.cuts(share(110)));
    part("wide fields", &|t| t.wide_fields());
    part("long bodies", &|t| t.long_bodies(share(2)));
    part("short inputs", &|t| t.short_inputs(if calls < 4_000_000 { 1 } else { 3 }, 2));
    part("short headers", &|t| t.short_headers(7, 1));
    part("starts", &|t| t.starts(share(8)));
    part("lists", &|t| t.lists(share(8)));
    part("states", &|t| t.states(share(20)));
    part("late states", &|t| t.late_states(share(8)));
    part("packets", &|t| t.sessions(share(18), 4));
    part("packets in order", &|t| t.chains(share(65)));
    part("gathered headers", &|t| t.gathered(share(40), 4));
    part("layers", &|t| t.layers(share(60), 3));
    part("layers of states", &|t| t.layers_of_states(share(25)));
    part("every length", &|t| t.every_length(share(1) / 500 + 5));
    part("largest layers", &|t| t.largest_layers());
    part("late packets", &|t| t.late_sessions(share(8), 4));
    part("larger packets", &|t| t.sessions(share(2), 12));
    part("packets of one block", &|t| {
        let left = calls.saturating_sub(t.pair.counts.total());
        t.sessions(left, 1)
    });
    let mut moves = Moves::new(ENGINE, seed);
    let mut part = |name: &str, trial: &dyn Fn(&mut Moves)| timed(&mut moves, |t| t.counts.total(), name, trial);
    part("rows moved", &|t| t.rows(share(30), 3));
    part("rows of states moved", &|t| t.rows_of_states(share(15)));
    part("larger rows moved", &|t| t.rows(share(2), 8));
    part("largest rows moved", &|t| (0..share(1) / 20_000 + 1).for_each(|_| t.largest()));
    part("every cut of a row", &|t| t.every_cut(share(1) / 200 + 10));
    part("full segments", &|t| t.full_segments(share(1) / 400 + 10));
    part("segments of one byte", &|t| t.one_byte_segments());
    part("256 full segments", &|t| t.most_segments());
    part("257 segments", &|t| {
        t.a_segment_too_many();
        t.a_body_too_short();
    });
    trials.pair.counts.print();
    moves.counts.print();
    println!("seed {seed}, {:.0} s: no difference", begin.elapsed().as_secs_f64());
}
