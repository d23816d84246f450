//! Calls made from a seed: mostly states that are accepted, with each bound, each kind of bad input and each ending of a search among them.
use crate::archive::room_of;
use crate::case::{Call, Case, Mixture};
use crate::equilibrium;
use crate::extended;
use crate::range::{EXTENDED, RANGE};
use crate::upstream;

pub struct Random(u64);

impl Random {
    pub fn new(seed: u64) -> Self {
        Self(seed)
    }
    /// SplitMix64.
    pub fn word(&mut self) -> u64 {
        self.0 = self.0.wrapping_add(0x9e37_79b9_7f4a_7c15);
        let mut z = self.0;
        z = (z ^ (z >> 30)).wrapping_mul(0xbf58_476d_1ce4_e5b9);
        z = (z ^ (z >> 27)).wrapping_mul(0x94d0_49bb_1331_11eb);
        z ^ (z >> 31)
    }
    pub fn below(&mut self, n: u64) -> u64 {
        self.word() % n
    }
    pub fn one_in(&mut self, n: u64) -> bool {
        self.below(n) == 0
    }
    pub fn unit(&mut self) -> f64 {
        (self.word() >> 11) as f64 / 9007199254740992.0
    }
    pub fn between(&mut self, lo: f64, hi: f64) -> f64 {
        lo + self.unit() * (hi - lo)
    }
    pub fn log_between(&mut self, lo: f64, hi: f64) -> f64 {
        (lo.ln() + self.unit() * (hi.ln() - lo.ln())).exp().clamp(lo, hi)
    }
    pub fn pick(&mut self, values: &[f64]) -> f64 {
        values[self.below(values.len() as u64) as usize]
    }
}

const ODD: [f64; 12] = [
    f64::NAN, f64::INFINITY, f64::NEG_INFINITY, 0.0, -0.0, -1.0, 5e-324, 2.2250738585072014e-308, 1.7976931348623157e308, 1e-300, 1e300, -300.0,
];

/// A bound and the doubles next to it.
pub fn around(bound: f64) -> [f64; 3] {
    [bound.next_down(), bound, bound.next_up()]
}

/// A bound, the doubles next to it, and what is no number for it.
pub fn near(r: &mut Random, bounds: &[f64]) -> f64 {
    let bound = r.pick(bounds);
    match r.below(4) {
        0 => bound,
        1 => bound.next_up(),
        2 => bound.next_down(),
        _ => r.pick(&ODD),
    }
}

pub fn shuffled(r: &mut Random, last: u8, count: usize) -> Vec<u8> {
    let mut all: Vec<u8> = (1..=last).collect();
    for k in 0..count {
        let other = k + r.below((all.len() - k) as u64) as usize;
        all.swap(k, other);
    }
    all.truncate(count);
    all
}

pub fn fractions(r: &mut Random, count: usize) -> Vec<f64> {
    let mut x: Vec<f64> = (0..count).map(|_| if r.one_in(3) { r.log_between(1e-6, 1.0) } else { r.unit() }).collect();
    for v in x.iter_mut().skip(1) {
        match r.below(24) {
            0 => *v = 0.0,
            1 => *v = -0.0,
            2 => *v = 5e-324 * (1 + r.below(1000)) as f64,
            _ => {}
        }
    }
    if x[0] == 0.0 {
        x[0] = 1.0;
    }
    let sum: f64 = x.iter().sum();
    let off = if r.one_in(6) { 1.0 + r.between(-1e-9, 1e-9) } else { 1.0 };
    x.iter_mut().for_each(|v| *v = *v / sum * off);
    x
}

pub fn damaged(r: &mut Random, mixture: &mut Mixture) {
    let place = r.below(mixture.list.len() as u64) as usize;
    match r.below(9) {
        0 => mixture.list.clear(),
        1 => mixture.list[place] = 0,
        2 => mixture.list[place] = 22 + r.below(234) as u8,
        3 => mixture.list.push(mixture.list[place]),
        4 => mixture.list = (0..22 + r.below(280)).map(|k| (k % 23) as u8).collect(),
        5 => {
            mixture.fractions.pop();
        }
        6 => mixture.fractions[place] = r.pick(&[f64::NAN, f64::INFINITY, -5e-324, -0.5]),
        7 => mixture.fractions[place] += r.pick(&[1.1e-9, -1.1e-9, 0.5]),
        _ => mixture.fractions.push(0.0),
    }
}

fn of_any(r: &mut Random) -> Mixture {
    let count = if r.one_in(8) { 21 } else { 1 + r.below(21) as usize };
    Mixture { list: shuffled(r, 21, count), fractions: fractions(r, count) }
}

fn mixture(r: &mut Random) -> Mixture {
    let mut mixture = if EXTENDED && r.one_in(3) { extended::hydrogen(r) } else { of_any(r) };
    if r.one_in(40) {
        damaged(r, &mut mixture);
    }
    mixture
}

fn temperature(r: &mut Random) -> f64 {
    if r.one_in(25) { near(r, &[RANGE.coldest, RANGE.hottest]) } else { r.between(RANGE.coldest, RANGE.hottest) }
}

fn rho(r: &mut Random) -> f64 {
    if r.one_in(25) { near(r, &[1e-3, 30000.0]) } else { r.log_between(1e-3, 30000.0) }
}

/// Temperature and density.
fn state(r: &mut Random, mixture: &Mixture) -> (f64, f64) {
    let (t, rho) = (temperature(r), rho(r));
    let dense = if EXTENDED && r.one_in(3) { extended::dense(r, mixture, t) } else { None };
    (t, dense.map_or(rho, |(at, _)| at))
}

/// The pressure of the state at a density, where there is one.
fn pressure_at(mixture: &Mixture, t: f64, rho: f64) -> Option<f64> {
    let state = Case { mixture: mixture.clone(), call: Call::Properties { t, rho }, room: 24 };
    let answer = upstream::answer(&state);
    (answer.number == 0).then(|| answer.out[3])
}

/// Mostly the pressure at a density, so that a bracket about it encloses the target.
fn target_at(r: &mut Random, mixture: &Mixture, t: f64, at: f64) -> f64 {
    match pressure_at(mixture, t, at) {
        Some(p) if !r.one_in(12) => p,
        _ if r.one_in(4) => near(r, &[RANGE.highest_pressure, 1.0]),
        _ => r.log_between(1.0, RANGE.highest_pressure),
    }
}

fn density_call(r: &mut Random, mixture: &Mixture) -> Call {
    let (t, at) = (temperature(r), r.log_between(1e-3, 20000.0));
    let dense = if EXTENDED && r.one_in(3) { extended::dense(r, mixture, t) } else { None };
    let (at, target) = dense.unwrap_or_else(|| (at, target_at(r, mixture, t, at)));
    let (mut lo, mut hi) = match r.below(6) {
        0 => (at, at * (1.0 + r.unit())),
        1 => (at * (1.0 - 0.9 * r.unit()), at),
        2 => (at.next_down(), at.next_up()),
        3 => (at, at.next_up()),
        4 => (1e-3, 30000.0),
        _ => (at * (1.0 - 0.5 * r.unit()), at * (1.0 + 0.5 * r.unit())),
    };
    if r.one_in(20) {
        lo = near(r, &[1e-3, hi]);
    }
    if r.one_in(20) {
        hi = near(r, &[30000.0, lo]);
    }
    let tolerance = match r.below(12) {
        0 => near(r, &[1e-7]),
        1..=4 => r.pick(&[1e-300, 1e-17, 1e-16, 3e-16]),
        5 => 1e-7,
        _ => r.log_between(1e-14, 1e-8),
    };
    let limit = match r.below(10) {
        0 => r.below(3),
        1 => 1 + r.below(12),
        2 => u64::MAX,
        3 => 600,
        _ => 100,
    };
    Call::Density { t, target, lo, hi, limit, tolerance }
}

pub fn case(r: &mut Random, kind: &str) -> Case {
    match kind {
        "roots" => return equilibrium::roots(r),
        "saturation" => return equilibrium::saturation(r),
        _ => {}
    }
    let mixture = mixture(r);
    let call = if kind == "density" {
        density_call(r, &mixture)
    } else {
        let (t, rho) = state(r, &mixture);
        if kind == "properties" { Call::Properties { t, rho } } else { Call::Fugacity { t, rho } }
    };
    let needed = mixture.list.len();
    let spare = match r.below(6) {
        0 => needed.saturating_sub(1),
        1 => needed,
        2 => 2 * needed,
        _ => 4 * needed + 7,
    };
    let room = room_of(&call).unwrap_or(spare);
    Case { mixture, call, room }
}
