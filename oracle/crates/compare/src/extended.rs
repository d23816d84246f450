//! What is drawn in the extended range only, hydrogen and pressures above the normal range's, and its fixed calls. The normal range draws none of
//! it, so that its stored lists come out the same from their seed.
use crate::case::{Answer, Call, Case, Mixture};
use crate::generate::{Random, around, fractions, shuffled};
use crate::range::{NORMAL, RANGE};
use crate::upstream;

const HYDROGEN: u8 = 15;

/// Hydrogen alone or with up to four others, at any place in the list; half of the mixture or more is hydrogen.
pub fn hydrogen(r: &mut Random) -> Mixture {
    let others = r.below(5) as usize;
    let mut list = vec![HYDROGEN];
    list.extend(shuffled(r, 20, others).into_iter().map(|number| if number < HYDROGEN { number } else { number + 1 }));
    let (mut fractions, share) = (fractions(r, others + 1), r.between(0.5, 1.0));
    fractions.iter_mut().for_each(|x| *x *= 1.0 - share);
    fractions[0] += share;
    let place = r.below(list.len() as u64) as usize;
    list.swap(0, place);
    fractions.swap(0, place);
    Mixture { list, fractions }
}

/// One of the two densities between which the state's pressure passes one above the normal range's, or the end of this one; and that pressure.
pub fn dense(r: &mut Random, mixture: &Mixture, t: f64) -> Option<(f64, f64)> {
    let p = if r.one_in(4) { r.pick(&around(RANGE.highest_pressure)) } else { r.between(NORMAL.highest_pressure, RANGE.highest_pressure) };
    let upper = r.one_in(2);
    let below = upstream::density_below(mixture, t, p)?;
    Some((if upper { below.next_up() } else { below }, p))
}

/// Temperature and density at their corners, and where the pressure passes an end.
fn state_edges(mixture: &Mixture) -> Vec<(f64, f64)> {
    let temperatures = [RANGE.coldest, NORMAL.coldest, NORMAL.hottest, RANGE.hottest].map(around).concat();
    let densities = [around(1e-3), around(30000.0)].concat();
    let mut states: Vec<(f64, f64)> = temperatures.iter().flat_map(|t| densities.iter().map(move |rho| (*t, *rho))).collect();
    for t in [NORMAL.coldest, 300.0, NORMAL.hottest, RANGE.hottest] {
        let below = [NORMAL, RANGE].map(|range| upstream::density_below(mixture, t, range.highest_pressure));
        states.extend(below.into_iter().flatten().flat_map(|rho| around(rho).map(|rho| (t, rho))));
    }
    states
}

/// Searches for a target at each end of pressure; within a loose tolerance the state at the accepted density can lie beyond it (row 11).
fn density_edges(mixture: &Mixture) -> Vec<Call> {
    let mut calls = Vec::new();
    for t in [300.0, RANGE.hottest] {
        for target in [around(NORMAL.highest_pressure), around(RANGE.highest_pressure)].concat() {
            let at = upstream::density_below(mixture, t, target).unwrap_or(10000.0);
            let ends = [(0.8 * at, (1.1 * at).min(30000.0)), (0.9 * at, at)];
            let call = |(lo, hi): (f64, f64), tolerance: f64| Call::Density { t, target, lo, hi, limit: 600, tolerance };
            calls.extend(ends.into_iter().flat_map(|ends| [1e-7, 1e-10, 1e-300].map(|tolerance| call(ends, tolerance))));
        }
    }
    calls
}

/// Fixed calls with hydrogen, and with as much methane beside it.
pub fn edges() -> Vec<Case> {
    let (alone, mixed) = (Mixture { list: vec![HYDROGEN], fractions: vec![1.0] }, Mixture { list: vec![1, HYDROGEN], fractions: vec![0.5, 0.5] });
    let mut cases = Vec::new();
    for mixture in [alone, mixed] {
        let case = |call: Call, room: usize| Case { mixture: mixture.clone(), call, room };
        for (t, rho) in state_edges(&mixture) {
            cases.extend([case(Call::Properties { t, rho }, 24), case(Call::Fugacity { t, rho }, mixture.list.len())]);
        }
        cases.extend(density_edges(&mixture).into_iter().map(|call| case(call, 30)));
    }
    cases
}

/// What a stored list's head counts, so that the list cannot come to lack it. The answer to a fugacity has no pressure.
pub fn features(case: &Case, answer: &Answer) -> Vec<&'static str> {
    let (list, x) = (&case.mixture.list, &case.mixture.fractions);
    let (t, pressure) = match case.call {
        Call::Properties { t, .. } | Call::Density { t, .. } => (t, answer.out[3]),
        Call::Fugacity { t, .. } => (t, 0.0),
        Call::Roots { .. } | Call::Saturation { .. } => unreachable!("not of the extended range"),
    };
    let found = [
        ("half-hydrogen", list.iter().zip(x).any(|(number, x)| *number == HYDROGEN && *x >= 0.5)),
        ("row-11", answer.number == 11),
        ("outside-200-to-450-K", answer.number == 0 && !(NORMAL.coldest..=NORMAL.hottest).contains(&t)),
        ("above-35-MPa", answer.number == 0 && pressure > NORMAL.highest_pressure),
    ];
    found.into_iter().filter(|(_, has)| *has).map(|(name, _)| name).collect()
}
