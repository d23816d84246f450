//! Hydrogen in the extended range, and a state that the normal range refuses: examples/c/extended.c in Rust.
//!
//!     tests/archive gerg_api && cargo run --manifest-path rust/Cargo.toml -p gerg --example extended
use gerg::{Component::Hydrogen, Mixture, Range, Refusal, Search};

fn main() -> Result<(), Box<dyn std::error::Error>> {
    let file = std::fs::read(gerg::DEFAULT_FILE)?;
    let hydrogen = Mixture::new([(Hydrogen, 1.0)]);
    let mut densities = Vec::new();
    for (t, p) in [(77.0, 10e6), (600.0, 60e6)] {
        let state = gerg::density_in(&file, &hydrogen, Range::Extended, t, p, Search::between(100.0, 30000.0))?.state;
        println!("{t:.0} K, {:.0} MPa", p / 1e6);
        println!("density         {:.6} mol/m3 ({:.6} kg/m3), Z {:.6}", state.molar_density, state.mass_density, state.compressibility);
        println!("speed of sound  {:.6} m/s", state.speed_of_sound);
        densities.push(state.molar_density);
    }
    if let Err(Refusal { cause, value }) = gerg::properties(&file, &hydrogen, 77.0, densities[0]) {
        println!("normal, at 77 K refused, number {}, value {value}", cause as u32);
    }
    Ok(())
}
