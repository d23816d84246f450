//! Density and speed of sound of a natural gas at 293.15 K and 5 MPa, then an input that is refused: examples/c/properties.c in Rust.
//!
//!     tests/archive gerg_api && cargo run --manifest-path rust/Cargo.toml -p gerg --example properties
use gerg::{Component::*, Mixture, Refusal, Search};

fn main() -> Result<(), Box<dyn std::error::Error>> {
    let file = std::fs::read(gerg::DEFAULT_FILE)?;
    let gas = Mixture::new([(Methane, 0.90), (Nitrogen, 0.02), (CarbonDioxide, 0.01), (Ethane, 0.05), (Propane, 0.02)]);
    let found = gerg::density(&file, &gas, 293.15, 5e6, Search::between(1000.0, 4000.0))?;
    let state = found.state;
    println!("density         {:.6} mol/m3 ({:.6} kg/m3) after {} trials", state.molar_density, state.mass_density, found.trials);
    println!("pressure        {:.3} Pa", state.pressure);
    println!("speed of sound  {:.6} m/s", state.speed_of_sound);

    let ln_phi = gerg::fugacity(&file, &gas, 293.15, state.molar_density)?;
    println!("ln phi          {:.6} (methane) {:.6} (propane)", ln_phi[0], ln_phi[4]);

    if let Err(Refusal { cause, value }) = gerg::properties(&file, &gas, 199.0, 1000.0) {
        println!("at 199 K        refused, number {}, value {value}", cause as u32);
    }
    Ok(())
}
