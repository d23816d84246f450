//! The least time of a call over rounds in which the calls take turns, so that a disturbance of the machine meets all alike.
use std::hint::black_box;
use std::time::Instant;

const ROUNDS: usize = 25;
const ROUND_SECONDS: f64 = 0.01;

fn seconds(call: &dyn Fn() -> f64, repeats: u64) -> f64 {
    let start = Instant::now();
    for _ in 0..repeats {
        black_box(call());
    }
    start.elapsed().as_secs_f64() / repeats as f64
}

pub fn least_seconds<const N: usize>(calls: [&dyn Fn() -> f64; N]) -> [f64; N] {
    let repeats = calls.map(|call| (ROUND_SECONDS / seconds(call, 1).max(1e-9)).ceil().clamp(1.0, 1e6) as u64);
    let mut least = [f64::INFINITY; N];
    for _ in 0..ROUNDS {
        for k in 0..N {
            least[k] = least[k].min(seconds(calls[k], repeats[k]));
        }
    }
    least
}
