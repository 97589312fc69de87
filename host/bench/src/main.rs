//! Times each call: a line for each with the row, the frame's bytes, who does it and nanoseconds, parted by tabs. With
//! the argument `count` nothing is timed: each call is made `COUNTED` times between two visits of `bench_mark`, where
//! callgrind can be told to write down what it counted. `run` puts both together.

mod commands;
mod reference;
mod rows;

use rows::Call;
use std::hint::black_box;
use std::time::{Duration, Instant};

/// Calls between two marks.
const COUNTED: usize = 20;
/// Rounds over a row; the best one counts, and within a round all take their turn.
const ROUNDS: usize = 200;
/// A turn lasts at least this long.
const TURN: Duration = Duration::from_micros(300);

#[no_mangle]
#[inline(never)]
pub extern "C" fn bench_mark() {
    black_box(());
}

fn turn(call: &mut Call, count: u32) -> Duration {
    let begun = Instant::now();
    for _ in 0..count {
        call();
    }
    begun.elapsed()
}

/// How many calls make a turn.
fn count(call: &mut Call) -> u32 {
    let mut count = 1;
    while turn(call, count) < TURN {
        count *= 2;
    }
    count
}

fn timed(calls: &mut [(&'static str, Call)]) -> Vec<f64> {
    let counts: Vec<u32> = calls.iter_mut().map(|(_, call)| count(call)).collect();
    let mut best = vec![f64::INFINITY; calls.len()];
    for _ in 0..ROUNDS {
        for (i, (_, call)) in calls.iter_mut().enumerate() {
            best[i] = best[i].min(turn(call, counts[i]).as_nanos() as f64 / f64::from(counts[i]));
        }
    }
    best
}

fn main() {
    let counting = std::env::args().nth(1).as_deref() == Some("count");
    for mut row in rows::all().into_iter().chain(commands::all()) {
        if counting {
            for (who, call) in &mut row.calls {
                call(); // once ahead, for what is made on first use
                bench_mark();
                (0..COUNTED).for_each(|_| call());
                bench_mark();
                println!("{}\t{}\t{who}\t{COUNTED}", row.what, row.size);
            }
        } else {
            let best = timed(&mut row.calls);
            for ((who, _), time) in row.calls.iter().zip(best) {
                println!("{}\t{}\t{who}\t{time:.1}", row.what, row.size);
            }
        }
    }
}
