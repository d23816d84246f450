//! Calls of exterior roots and of saturation made from a seed. Mixtures are of components 1 to 5, in any order, with zeros, −0 and subnormal
//! fractions; some lists have a component beyond 5 (row 20), some are bad (rows 3 and 4).
use crate::case::{Call, Case, Mixture};
use crate::generate::{Random, around, damaged, fractions, near, shuffled};
use crate::upstream;

fn pure(gas: u8) -> Mixture {
    Mixture { list: vec![gas], fractions: vec![1.0] }
}

/// Fixed calls: every corner of row 21 with the doubles next to it, and every room about one and two roots of ethane at 260 K.
fn root_edges() -> Vec<Case> {
    let (temperatures, pressures) = ([around(230.0), around(350.0)].concat(), [around(1e5), around(1e7)].concat());
    let corner = |t: &f64, p: &f64| Case { mixture: pure(4), call: Call::Roots { t: *t, p: *p }, room: 10 };
    let mut cases: Vec<Case> = temperatures.iter().flat_map(|t| pressures.iter().map(move |p| corner(t, p))).collect();
    for p in [1e5, 1.5e6] {
        cases.extend((0..=12).map(|room| Case { mixture: pure(4), call: Call::Roots { t: 260.0, p }, room }));
    }
    cases
}

/// Fixed calls: propane with each pressure and each pair of ends about the bounds, and with each way in which ends are bad.
fn saturation_edges() -> Vec<Case> {
    let case = |p: f64, lo: f64, hi: f64, limit: u64| Case { mixture: pure(5), call: Call::Saturation { p, lo, hi, limit }, room: 9 };
    let mut cases: Vec<Case> = [around(1e5), around(1e7)].concat().into_iter().map(|p| case(p, 230.0, 350.0, 100)).collect();
    for lo in around(230.0) {
        cases.extend(around(350.0).map(|hi| case(1e6, lo, hi, 100)));
    }
    for odd in [f64::NAN, f64::INFINITY, f64::NEG_INFINITY, 290.0, 290.0f64.next_down(), 290.0f64.next_up()] {
        cases.extend([case(1e6, odd, 290.0, 100), case(1e6, 290.0, odd, 100)]);
    }
    cases.extend((0..60).chain([u64::MAX]).map(|limit| case(1e6, 230.0, 350.0, limit)));
    cases
}

pub fn edges() -> Vec<Case> {
    [root_edges(), saturation_edges()].concat()
}

/// A zero fraction of either sign.
fn zero(r: &mut Random) -> f64 {
    r.pick(&[0.0, -0.0])
}

fn beyond_five(r: &mut Random) -> u8 {
    6 + r.below(16) as u8
}

/// A component beyond 5, in the place of one that is listed or behind them with next to nothing.
fn widened(r: &mut Random, mixture: &mut Mixture) {
    let number = beyond_five(r);
    if r.one_in(2) {
        let place = r.below(mixture.list.len() as u64) as usize;
        mixture.list[place] = number;
    } else {
        mixture.list.push(number);
        mixture.fractions.push(r.pick(&[0.0, -0.0, 5e-324]));
    }
}

/// A state of nitrogen and carbon dioxide near a line on which the isotherm has no exterior root: the one crossing lies between points of negative
/// stiffness.
fn without_roots(r: &mut Random) -> (Mixture, f64, f64) {
    let x = r.between(0.2, 0.35);
    let (t, p) = (300.0 - 200.0 * x + r.between(-4.0, 4.0), 6.7e6 - 5.3e6 * x + r.between(-3e5, 3e5));
    (Mixture { list: vec![2, 3], fractions: vec![x, 1.0 - x] }, t, p)
}

fn some_mixture(r: &mut Random) -> Mixture {
    let count = 1 + r.below(5) as usize;
    let mut mixture = Mixture { list: shuffled(r, 5, count), fractions: fractions(r, count) };
    let place = r.below(count as u64) as usize;
    mixture.fractions.swap(0, place);
    if r.one_in(12) {
        widened(r, &mut mixture);
    }
    if r.one_in(25) {
        damaged(r, &mut mixture);
    }
    mixture
}

/// A target that a grid point's pressure meets exactly, so that both cells beside it have a crossing; else the one given.
fn on_grid(r: &mut Random, mixture: &Mixture, t: f64, p: f64) -> f64 {
    let met: Vec<f64> = upstream::grid_pressures(mixture, t).unwrap_or_default().into_iter().filter(|p| (1e5..=1e7).contains(p)).collect();
    if met.is_empty() { p } else { r.pick(&met) }
}

pub fn roots(r: &mut Random) -> Case {
    let (mixture, mut t, mut p) =
        if r.one_in(8) { without_roots(r) } else { (some_mixture(r), r.between(230.0, 350.0), r.log_between(1e5, 1e7)) };
    if r.one_in(8) {
        p = on_grid(r, &mixture, t, p);
    }
    if r.one_in(12) {
        t = near(r, &[230.0, 350.0]);
    }
    if r.one_in(12) {
        p = near(r, &[1e5, 1e7]);
    }
    let one = 4 + mixture.list.len();
    let room = match r.below(12) {
        0 => 0,
        1 => one - 1,
        2 => one,
        3 => 2 * one - 1,
        4 => 2 * one,
        _ => 3 * one + 7,
    };
    Case { mixture, call: Call::Roots { t, p }, room }
}

/// One positive fraction, mostly of carbon dioxide, ethane or propane, whose saturation lines cross the range.
fn single(r: &mut Random) -> Mixture {
    let gas = if r.one_in(10) { 1 + r.below(2) as u8 } else { 3 + r.below(3) as u8 };
    let count = 1 + r.below(5) as usize;
    let mut list: Vec<u8> = shuffled(r, 5, 5).into_iter().filter(|number| *number != gas).take(count - 1).collect();
    let place = r.below(count as u64) as usize;
    list.insert(place, gas);
    let mut fractions: Vec<f64> = list.iter().map(|_| zero(r)).collect();
    fractions[place] = if r.one_in(6) { 1.0 + r.between(-1e-9, 1e-9) } else { 1.0 };
    Mixture { list, fractions }
}

/// Not one positive fraction, a component beyond 5, both, or a bad list.
fn spoiled(r: &mut Random, mixture: &mut Mixture) {
    match r.below(6) {
        0 => *mixture = Mixture { list: shuffled(r, 5, 2), fractions: vec![0.5, 0.5] },
        1 => {
            mixture.list = vec![3, 4];
            mixture.fractions = if r.one_in(2) { vec![1.0, 5e-324] } else { vec![5e-324, 1.0] };
        }
        2 => *mixture = Mixture { list: vec![beyond_five(r)], fractions: vec![1.0] },
        3 => {
            mixture.list.push(beyond_five(r));
            mixture.fractions.push(zero(r));
        }
        4 => {
            mixture.list.push(beyond_five(r));
            mixture.fractions.push(5e-324);
        }
        _ => damaged(r, mixture),
    }
}

/// The saturation temperature at p, or above the critical pressure the one at which the root passes the reducing density.
fn found_at(mixture: &Mixture, p: f64) -> Option<f64> {
    let call = Call::Saturation { p, lo: 230.0, hi: 350.0, limit: 100 };
    let answer = upstream::answer(&Case { mixture: mixture.clone(), call, room: 9 });
    match (answer.number, answer.value) {
        (0, 1) => Some(answer.out[0]),
        (26, _) => Some(upstream::passes_at(mixture, p)),
        _ => None,
    }
}

fn plain_ends(r: &mut Random) -> (f64, f64) {
    let middle = r.between(230.0, 350.0);
    (r.between(230.0, middle), r.between(middle, 350.0))
}

/// Ends that touch a temperature, or lie close around it, or all above or below it.
fn ends_near(r: &mut Random, t: f64) -> (f64, f64) {
    match r.below(10) {
        0 => (t, r.between(t, 350.0)),
        1 => (r.between(230.0, t), t),
        2 => (t, t.next_up()),
        3 => {
            let lo = (0..1 + r.below(30)).fold(t, |x, _| x.next_down());
            (lo, (0..1 + r.below(60)).fold(lo, |x, _| x.next_up()))
        }
        4 => (r.between(230.0, t), t - 1e-9 * r.unit()),
        5 => (t + 1e-9 * r.unit(), r.between(t, 350.0)),
        _ => (r.between(230.0, t), r.between(t, 350.0)),
    }
}

fn ends(r: &mut Random, mixture: &Mixture, p: f64) -> (f64, f64) {
    let (lo, hi) = plain_ends(r);
    match r.below(30) {
        0 => (lo, lo),
        1 => (hi, lo),
        2 => (r.pick(&[f64::NAN, f64::INFINITY, f64::NEG_INFINITY]), hi),
        3 => (lo, r.pick(&[f64::NAN, f64::INFINITY, f64::NEG_INFINITY])),
        4 => (near(r, &[230.0]), hi),
        5 => (lo, near(r, &[350.0])),
        6 => (r.between(1.0, 230.0), hi),
        7 => (lo, r.between(350.0, 1000.0)),
        8 => (lo, lo.next_up()),
        9..=17 => found_at(mixture, p).map_or((lo, hi), |t| ends_near(r, t)),
        18..=23 => (230.0, 350.0),
        _ => (lo, hi),
    }
}

/// Mostly a pressure at which the gas saturates from 230 to 350 K, or one above its critical pressure, else any.
fn pressure(r: &mut Random, mixture: &Mixture) -> f64 {
    let gas = mixture.fractions.iter().position(|x| *x > 0.5).and_then(|place| mixture.list.get(place)).copied();
    match gas {
        _ if r.one_in(15) => near(r, &[1e5, 1e7]),
        _ if r.one_in(6) => r.log_between(1e5, 1e7),
        Some(3) if r.one_in(5) => r.between(7.4e6, 1e7),
        Some(3) => r.log_between(9e5, 7.3e6),
        Some(4) if r.one_in(5) => r.between(4.9e6, 1e7),
        Some(4) => r.log_between(7e5, 4.8e6),
        Some(5) => r.log_between(1e5, 2.9e6),
        _ => r.log_between(1e5, 1e7),
    }
}

pub fn saturation(r: &mut Random) -> Case {
    let mut mixture = single(r);
    if r.one_in(8) {
        spoiled(r, &mut mixture);
    }
    let p = pressure(r, &mixture);
    let (lo, hi) = ends(r, &mixture, p);
    let limit = match r.below(8) {
        0 => 0,
        1 => 1,
        2 => r.below(8),
        3 => r.below(60),
        4 => u64::MAX,
        _ => 100,
    };
    Case { mixture, call: Call::Saturation { p, lo, hi, limit }, room: 9 }
}
