//! Short rounds of several calls, in turns.

use std::hint::black_box;
use std::time::{Duration, Instant};

/// Rounds of each call, and how long one takes at least.
const ROUNDS: usize = 41;
const ROUND: Duration = Duration::from_millis(4);

/// The seconds of each call.
pub fn in_turns<const N: usize>(mut calls: [&mut dyn FnMut() -> u64; N]) -> [f64; N] {
    let counts = calls.each_mut().map(|call| {
        let once = time(3, call).max(Duration::from_nanos(1));
        (ROUND.as_nanos() / once.as_nanos()).clamp(1, 10_000) as u32
    });
    let mut times = [(); N].map(|()| Vec::new());
    for _ in 0..ROUNDS {
        for ((call, count), times) in calls.iter_mut().zip(counts).zip(&mut times) {
            times.push(time(count, call));
        }
    }
    times.map(third)
}

fn time(count: u32, call: &mut dyn FnMut() -> u64) -> Duration {
    let from = Instant::now();
    for _ in 0..count {
        black_box(call());
    }
    from.elapsed() / count
}

/// The third lowest: what the machine does undisturbed, and no lucky reading.
fn third(mut times: Vec<Duration>) -> f64 {
    times.sort();
    times[2].as_secs_f64()
}
