//! Arguments: a seed (the clock's if none is given), then how many random cases (a million if not said); a quarter as many
//! more are drawn on frames held open, and half as many on MAC commands. Ends with 1 if there is a difference, or if an intended one is not as
//! docs/DIFFERENCES.md says.

use differential::compare::Tally;
use differential::random::Random;
use differential::{cases, intended, lists};
use std::time::{Instant, SystemTime, UNIX_EPOCH};
use std::{env, process};

fn argument(place: usize) -> Option<u64> {
    env::args().nth(place).map(|text| text.parse().expect("a whole number"))
}

fn report(what: &str, since: &Tally, t: &Tally) {
    println!(
        "{what}: {} cases, {} compared whole, {} by row 28, {} up to a fault, {} by number, {} by the written rule, {} read back, {} differences",
        t.cases - since.cases,
        t.whole - since.whole,
        t.port_alone - since.port_alone,
        t.to_fault - since.to_fault,
        t.by_number - since.by_number,
        t.outside - since.outside,
        t.read_back - since.read_back,
        t.differences - since.differences
    );
}

fn main() {
    let clock = || SystemTime::now().duration_since(UNIX_EPOCH).map_or(0, |time| time.as_micros() as u64);
    let seed = argument(1).unwrap_or_else(clock);
    let count = argument(2).unwrap_or(1_000_000);
    println!("seed {seed}");
    let not_as_written = intended::show_all();

    let (mut random, mut tally, begun) = (Random::new(seed), Tally::default(), Instant::now());
    let mut part = |what: &str, run: &mut dyn FnMut(&mut Random, &mut Tally)| {
        let since = tally;
        run(&mut random, &mut tally);
        report(what, &since, &tally);
    };
    part("every first byte, length and byte 5, read", &mut |r, t| cases::every_reading(r, |case| t.case(case)));
    part("every short frame, in each call", &mut |r, t| cases::every_short_frame(r, |case| t.case(case)));
    part("every length of commands and payload, built", &mut |r, t| cases::every_data_building(r, |case| t.case(case)));
    part("random", &mut |r, t| (0..count).for_each(|_| t.case(&cases::any(r))));
    part("random histories on held frames", &mut |r, t| (0..count / 4).for_each(|_| t.case(&cases::any_held(r))));
    part("every short list of commands, read", &mut |r, t| lists::every_short_list(r, |case| t.case(case)));
    part("every field of every command, written", &mut |r, t| lists::every_writing(r, |case| t.case(case)));
    part("random commands", &mut |r, t| (0..count / 2).for_each(|_| t.case(&lists::any(r))));
    println!(
        "seed {seed}: {} cases in {} s, {} intended differences not as written, {} differences",
        tally.cases,
        begun.elapsed().as_secs(),
        not_as_written,
        tally.differences
    );
    process::exit((tally.differences + not_as_written > 0).into());
}
