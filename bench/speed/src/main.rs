//! Times the library's calls and the Rust's on the same inputs and prints a table. See bench/run.
mod mixtures;
mod timing;

use gerg::{Component, Mixture, Search};
use mixtures::{Terms, gas, only, terms};
use std::hint::black_box;
use thermo_models::GergModel;
use thermo_solvers::{GergDensityOptions, gerg_density, gerg_outer_roots, pure_saturation};
use thermo_types::{ComponentId, Composition, CompositionBasis, NormalizationPolicy, Pressure, Temperature};
use timing::least_seconds;

const T: f64 = 300.0;
const P: f64 = 5e6;
const RHO: f64 = 2000.0;

/// Seconds a call: the library's; its part that reads the file, and that with the mixture prepared; the Rust's with the model prepared, and with
/// it made anew.
struct Line {
    call: &'static str,
    components: usize,
    terms: Terms,
    library: f64,
    reading: f64,
    preparing: f64,
    rust: f64,
    rust_anew: f64,
}

fn model(mixture: &Mixture) -> GergModel {
    let entry = |(component, x): (&Component, &f64)| (ComponentId::new(component.name()).expect("a name"), *x);
    let entries = mixture.components().iter().zip(mixture.fractions()).map(entry).collect();
    let composition = Composition::new(CompositionBasis::Mole, entries, NormalizationPolicy::RequireUnitSum);
    GergModel::new(&composition.expect("a composition")).expect("a model")
}

fn kelvin(t: f64) -> Temperature {
    Temperature::new(t).expect("a temperature")
}

fn pascal(p: f64) -> Pressure {
    Pressure::new(p).expect("a pressure")
}

unsafe extern "C" {
    fn gerg_fugacity(
        file: *const u8, file_len: usize, list: *const u8, list_len: usize, fractions: *const f64, fractions_len: usize,
        t: f64, rho: f64, out: *mut f64, out_len: usize,
    ) -> u64;
}

/// A lent answer with no room is refused (row 24) right after the file, the list, the fractions and the reducing values are done with.
fn prepared_only(file: &[u8], mixture: &Mixture) -> f64 {
    let list: Vec<u8> = mixture.components().iter().map(|component| component.number()).collect();
    let (fractions, mut out) = (mixture.fractions(), [0.0; 0]);
    // SAFETY: every pointer goes with the length of its slice.
    let answer = unsafe {
        gerg_fugacity(
            file.as_ptr(), file.len(), list.as_ptr(), list.len(), fractions.as_ptr(), fractions.len(), T, RHO, out.as_mut_ptr(), 0,
        )
    };
    assert_eq!(answer >> 32, 24);
    0.0
}

/// The two answers are of one state: what is timed is the same work.
fn agree(call: &str, ours: f64, theirs: f64) {
    assert!((ours - theirs).abs() <= 1e-9 * theirs.abs(), "{call}: {ours} and {theirs}");
}

fn line(call: &'static str, file: &[u8], mixture: &Mixture, ours: &dyn Fn() -> f64, theirs: &dyn Fn(&GergModel) -> f64) -> Line {
    let prepared = model(mixture);
    agree(call, ours(), theirs(&prepared));
    let preparing = || prepared_only(file, mixture);
    let reading = || gerg::check(file).is_ok() as u8 as f64;
    let [library, reading, preparing, rust, rust_anew] =
        least_seconds([ours, &reading, &preparing, &|| theirs(black_box(&prepared)), &|| theirs(&model(black_box(mixture)))]);
    Line { call, components: mixture.components().len(), terms: terms(file, mixture), library, reading, preparing, rust, rust_anew }
}

fn calls(file: &[u8], count: usize) -> Vec<Line> {
    let gas = &gas(count);
    let options = GergDensityOptions::new(1000.0, 4000.0);
    let search = Search::between(1000.0, 4000.0);
    let mut lines = vec![
        line("properties", file, gas, &|| gerg::properties(file, gas, T, RHO).unwrap().speed_of_sound, &|m| {
            m.evaluate(kelvin(T), RHO).unwrap().speed_of_sound
        }),
        line("fugacity", file, gas, &|| gerg::fugacity(file, gas, T, RHO).unwrap()[0], &|m| {
            m.fugacity(kelvin(T), RHO).unwrap().ln_fugacity_coefficients[0]
        }),
        line("density", file, gas, &|| gerg::density(file, gas, T, P, search).unwrap().state.molar_density, &|m| {
            gerg_density(m, kelvin(T), pascal(P), options).unwrap().state.molar_density
        }),
    ];
    if count <= 5 {
        let pure = &only(Component::Propane, count);
        lines.push(line("roots", file, gas, &|| gerg::outer_roots(file, gas, T, P).unwrap()[0].molar_density, &|m| {
            gerg_outer_roots(m, kelvin(T), pascal(P)).unwrap()[0].state.molar_density
        }));
        lines.push(line("saturation", file, pure, &|| gerg::pure_saturation(file, pure, 5e5, [250.0, 300.0], 100).unwrap().unwrap().temperature, &|m| {
            pure_saturation(m, pascal(5e5), 250.0, 300.0, 100).unwrap().unwrap().temperature_k
        }));
    }
    lines
}

/// The Rust over the library's call less preparing; no figure where that difference is within the noise.
fn evaluating(l: &Line) -> String {
    let seconds = l.library - l.preparing;
    if seconds < 0.05 * l.library { "-".into() } else { format!("{:.2}", l.rust / seconds) }
}

fn main() {
    let path = std::env::args().nth(1).expect("the coefficient file");
    let file = std::fs::read(path).expect("the coefficient file");
    println!("call        components  terms  library µs  reading µs  preparing µs     Rust µs  Rust anew µs  Rust/library  Rust anew/library  Rust/evaluating");
    for count in [1, 5, 10, 21] {
        for l in calls(&file, count) {
            let micro = |s: f64| s * 1e6;
            println!(
                "{:10}  {:10}  {:5}  {:10.2}  {:10.2}  {:12.2}  {:10.2}  {:12.2}  {:12.2}  {:17.2}  {:>15}",
                l.call, l.components, l.terms.all(), micro(l.library), micro(l.reading), micro(l.preparing), micro(l.rust), micro(l.rust_anew),
                l.rust / l.library, l.rust_anew / l.library, evaluating(&l),
            );
        }
    }
}
