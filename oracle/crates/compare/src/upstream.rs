//! The Rust's answer to a call, with each error as document 01's number and value. Rows 3 and 4, which the Rust has in `Composition`, row 14's added
//! causes, row 24 and row 25 are worked out here from document 01's text.
use crate::case::{Answer, Call, Case, Mixture, lent};
use elementary::Elementary as _;
use thermo_models::{GERG_GAS_CONSTANT, GergFugacityState, GergModel, GergState};
use thermo_solvers::{GergDensityOptions, PureSaturation, gerg_density, gerg_outer_roots, pure_saturation};
use thermo_types::{CalculationError as Error, ComponentId, Composition, CompositionBasis, InputError, NormalizationPolicy, Pressure, Temperature};

type Refusal = (u32, u32);

/// Parts of the error's text, and the row of document 01 that it is.
const TEXTS: [(&str, u32); 19] = [
    ("GERG reducing functions", 5),
    ("GERG: 200..=450 K", 8),
    ("GERG Helmholtz overflow", 9),
    ("GERG locally unstable", 10),
    ("GERG pressure must be positive", 11),
    ("GERG property overflow", 12),
    ("nonfinite GERG composition derivative", 12),
    ("nonfinite GERG density trial", 12),
    ("GERG density requires an ordered bracket", 13),
    ("GERG target pressure exceeds", 14),
    ("GERG density trial has nonpositive", 15),
    ("target pressure is not bracketed", 16),
    ("GERG density failed final pressure check", 17),
    ("GERG density bracket collapsed", 18),
    ("GERG density iteration limit exhausted", 19),
    ("GERG equilibrium is qualified only", 20),
    ("GERG equilibrium computational envelope", 21),
    ("GERG exterior density root failed", 22),
    ("no regular exterior GERG pressure root", 23),
];
const EXHAUSTED: &str = "GERG pure saturation temperature iteration exhausted";

/// The causes of row 2, by the table that the Rust's text names.
const TABLES: [(&str, u32); 8] = [
    ("table btij\"", 1), ("table bvij\"", 2), ("table gtij\"", 3), ("table gvij\"", 4), ("table fij\"", 5), ("MMiGERG/Tc", 6),
    ("btij/bvij must be positive", 7), ("table mNumb[", 8),
];

fn refusal(error: &Error) -> Refusal {
    let text = format!("{error:?}");
    match error {
        Error::InvalidInput(InputError::NonFinite(_)) => (6, 0),
        Error::InvalidInput(InputError::NotPositive(_)) => (7, 0),
        Error::MissingParameter(_) => (2, TABLES.iter().find(|(part, _)| text.contains(part)).expect("a known table").1),
        _ => (TEXTS.iter().find(|(part, _)| text.contains(part)).unwrap_or_else(|| panic!("unknown error {text}")).1, 0),
    }
}

/// "component list empty, over 21, number unknown or repeated" and "fractions: length differs, then nonfinite or negative, then bad sum".
fn mixture_refusal(mixture: &Mixture) -> Option<Refusal> {
    let (list, x) = (&mixture.list, &mixture.fractions);
    if list.is_empty() {
        return Some((3, 0));
    }
    for (place, number) in list.iter().enumerate() {
        if place >= 21 || !(1..=21).contains(number) || list[..place].contains(number) {
            return Some((3, place as u32));
        }
    }
    if x.len() != list.len() {
        return Some((4, list.len() as u32));
    }
    if let Some(place) = x.iter().position(|v| !v.is_finite() || *v < 0.0) {
        return Some((4, place as u32));
    }
    let mut sum = 0.0;
    for v in x {
        sum += v;
    }
    ((sum - 1.0f64).abs() > 1e-9).then_some((4, list.len() as u32))
}

/// Row 2 before the mixture's rows: the tables are checked when the first model is made.
fn table_refusal() -> Option<Refusal> {
    let methane = Mixture { list: vec![1], fractions: vec![1.0] };
    match model(&methane) {
        Err(error @ Error::MissingParameter(_)) => Some(refusal(&error)),
        _ => None,
    }
}

fn model(mixture: &Mixture) -> Result<GergModel, Error> {
    let names = GergModel::supported_components();
    if names.is_empty() {
        let none = Composition::new(CompositionBasis::Mole, Vec::new(), NormalizationPolicy::RequireUnitSum)?;
        return GergModel::new(&none);
    }
    let entry = |(number, x): (&u8, &f64)| Ok((ComponentId::new(names[*number as usize - 1].clone())?, *x));
    let entries = mixture.list.iter().zip(&mixture.fractions).map(entry).collect::<Result<_, InputError>>()?;
    GergModel::new(&Composition::new(CompositionBasis::Mole, entries, NormalizationPolicy::RequireUnitSum)?)
}

fn state_numbers(s: &GergState) -> Vec<f64> {
    let d = &s.derivatives;
    vec![
        s.temperature_k, s.molar_density, s.mass_density, s.pressure_pa, s.compressibility, s.dp_drho, s.dp_dt, s.internal_energy, s.enthalpy,
        s.entropy, s.cv, s.cp, s.speed_of_sound, s.helmholtz_energy, s.gibbs_energy, d.ar, d.ar_d, d.ar_dd, d.ar_t, d.ar_tt, d.ar_dt, d.a0,
        d.a0_t, d.a0_tt,
    ]
}

fn density(model: &GergModel, t: f64, target: f64, lo: f64, hi: f64, limit: u64, tolerance: f64) -> Result<Vec<f64>, Refusal> {
    let run = |limit: u64| {
        let options = GergDensityOptions { minimum_molar_density: lo, maximum_molar_density: hi, max_iterations: limit as usize, pressure_tolerance: tolerance };
        gerg_density(model, Temperature::new(t)?, Pressure::new(target)?, options)
    };
    let result = run(limit);
    let first = result.as_ref().err().map(refusal);
    if first != Some((13, 0)) && (!target.is_finite() || target <= 0.0) {
        return Err((14, 0));
    }
    match (result, first) {
        (Ok(r), _) => {
            let mut numbers = state_numbers(&r.state);
            numbers.extend([r.scaled_pressure_residual, r.iterations as f64]);
            numbers.extend(r.initial_density_bracket.iter().chain(&r.final_density_bracket));
            Ok(numbers)
        }
        // The Rust does not say how many trials it made: the least limit at which it still collapses.
        (_, Some((18, _))) => Err((18, (1..=limit).find(|n| run(*n).err().map(|e| refusal(&e)) == Some((18, 0))).expect("collapsed at the limit") as u32)),
        (_, Some((19, _))) => Err((19, limit as u32)),
        (_, other) => Err(other.expect("an error")),
    }
}

fn root_numbers(roots: &[GergFugacityState]) -> Vec<f64> {
    let one = |r: &GergFugacityState| {
        let s = &r.state;
        let mut numbers = vec![s.molar_density, s.pressure_pa, s.compressibility, s.gibbs_energy];
        numbers.extend(&r.ln_fugacity_coefficients);
        numbers
    };
    roots.iter().flat_map(one).collect()
}

/// The grid of `gerg_outer_roots`, which keeps it to itself; it chooses targets and counts kinds, and no answer is compared with it.
fn grid() -> Vec<f64> {
    let logarithmic = (0..=128).map(|i| 0.001 * (f64::from(i) / 128.0 * (30000.0_f64 / 0.001).elementary_ln()).elementary_exp());
    let even = (0..=256).map(|i| 0.001 + f64::from(i) / 256.0 * (30000.0 - 0.001));
    let mut grid: Vec<f64> = logarithmic.chain(even).map(|rho| rho.clamp(0.001, 30000.0)).collect();
    grid.sort_by(f64::total_cmp);
    grid.dedup();
    grid
}

/// The model of a mixture that rows 2 to 5 do not refuse.
fn accepted_model(mixture: &Mixture) -> Option<GergModel> {
    if table_refusal().or_else(|| mixture_refusal(mixture)).is_some() { None } else { model(mixture).ok() }
}

/// The last double before one at which the state's pressure is above p, found by halving; it chooses densities, and no answer is compared with it.
pub fn density_below(mixture: &Mixture, t: f64, p: f64) -> Option<f64> {
    let model = accepted_model(mixture)?;
    let above = |rho: f64| Some(rho * GERG_GAS_CONSTANT * t * (1.0 + model.helmholtz(Temperature::new(t).unwrap(), rho).ok()?.ar_d) > p);
    let (mut lo, mut hi) = (1e-3_f64, 30000.0_f64);
    if !above(hi)? {
        return None;
    }
    while lo.next_up() < hi {
        let mid = lo + 0.5 * (hi - lo);
        if above(mid)? { hi = mid } else { lo = mid }
    }
    Some(lo)
}

/// A sample's pressure at each grid point, where the mixture and all samples are accepted.
pub fn grid_pressures(mixture: &Mixture, t: f64) -> Option<Vec<f64>> {
    let model = accepted_model(mixture)?;
    let pressure = |rho: &f64| Some(rho * (GERG_GAS_CONSTANT * t) * (1.0 + model.helmholtz(Temperature::new(t).unwrap(), *rho).ok()?.ar_d));
    grid().iter().map(pressure).collect()
}

/// How often the pressure rises through p on the grid, and whether a grid point meets it; the Rust says nothing of the crossings that it drops.
pub fn crossings(mixture: &Mixture, t: f64, p: f64) -> (usize, bool) {
    let pressures = grid_pressures(mixture, t).expect("accepted samples");
    (pressures.windows(2).filter(|pair| pair[0] < p && pair[1] >= p).count(), pressures.contains(&p))
}

fn saturation_numbers(s: &PureSaturation) -> Vec<f64> {
    vec![
        s.temperature_k, s.pressure_pa, s.liquid_compressibility, s.vapor_compressibility, s.liquid_molar_volume, s.vapor_molar_volume,
        s.ln_fugacity_coefficient, s.fugacity_residual, s.iterations as f64,
    ]
}

/// Middles strictly between the ends, as many as the limit allows, when none is accepted, and the last lower end: the Rust's error says neither.
fn exhausted(model: &GergModel, p: f64, lo: f64, hi: f64, limit: u64) -> (u32, f64) {
    let (mut lo, mut hi, mut trials) = (lo, hi, 0);
    for _ in 0..limit {
        let mid = lo + 0.5 * (hi - lo);
        if mid == lo || mid == hi {
            break;
        }
        trials += 1;
        // With the middle as the upper end and no iterations the Rust says on which side the change of sign is.
        match pure_saturation(model, Pressure::new(p).unwrap(), lo, mid, 0) {
            Ok(None) => lo = mid,
            _ => hi = mid,
        }
    }
    (trials, lo)
}

/// The double below the temperature at which one root passes the reducing density, for a search from 230 to 350 K that nothing ends but its ends.
pub fn passes_at(mixture: &Mixture, p: f64) -> f64 {
    exhausted(&model(mixture).expect("an accepted mixture"), p, 230.0, 350.0, u64::MAX).1
}

/// The accepted value and the numbers written, or the refusal.
fn accepted(case: &Case) -> Result<(u32, Vec<f64>), Refusal> {
    if let Some(refused) = table_refusal().or_else(|| mixture_refusal(&case.mixture)) {
        return Err(refused);
    }
    let model = model(&case.mixture).map_err(|e| refusal(&e))?;
    let listed = case.mixture.list.len();
    match case.call {
        Call::Properties { t, rho } => {
            let state = model.evaluate(Temperature::new(t).unwrap(), rho).map_err(|e| refusal(&e))?;
            Ok((0, state_numbers(&state)))
        }
        Call::Fugacity { t, rho } => {
            if case.room < listed {
                return Err((24, listed as u32));
            }
            let state = model.fugacity(Temperature::new(t).unwrap(), rho).map_err(|e| refusal(&e))?;
            Ok((0, state.ln_fugacity_coefficients))
        }
        Call::Density { t, target, lo, hi, limit, tolerance } => Ok((0, density(&model, t, target, lo, hi, limit, tolerance)?)),
        Call::Roots { t, p } => {
            let roots = gerg_outer_roots(&model, Temperature::new(t).unwrap(), Pressure::new(p).unwrap()).map_err(|e| refusal(&e))?;
            let numbers = root_numbers(&roots);
            if case.room < numbers.len() {
                return Err((24, numbers.len() as u32));
            }
            Ok((roots.len() as u32, numbers))
        }
        Call::Saturation { p, lo, hi, limit } => {
            let positive = case.mixture.fractions.iter().filter(|x| **x > 0.0).count();
            if positive != 1 || !lo.is_finite() || !hi.is_finite() || lo >= hi {
                return Err((25, 0));
            }
            match pure_saturation(&model, Pressure::new(p).unwrap(), lo, hi, limit as usize) {
                Ok(Some(found)) => Ok((1, saturation_numbers(&found))),
                Ok(None) => Ok((0, Vec::new())),
                Err(error) if format!("{error:?}").contains(EXHAUSTED) => Err((26, exhausted(&model, p, lo, hi, limit).0)),
                Err(error) => Err(refusal(&error)),
            }
        }
    }
}

pub fn answer(case: &Case) -> Answer {
    let mut out = lent(case.room);
    match accepted(case) {
        Ok((value, numbers)) => {
            out[..numbers.len()].copy_from_slice(&numbers);
            Answer { number: 0, value, out }
        }
        Err((number, value)) => Answer { number, value, out },
    }
}
