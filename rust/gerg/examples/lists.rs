//! A gas as a chromatograph sends it, in packed decimal: read, used and written again, then a damaged digit: examples/c/lists.c in Rust.
//!
//!     tests/archive gerg_api && cargo run --manifest-path rust/Cargo.toml -p gerg --example lists
use gerg::{Refusal, Search};

const BYTES: [[u8; gerg::RECORD_BYTES]; 5] = [
    [0x10, 1, 0x00, 0x90, 0x12, 0x34],
    [0x10, 2, 0x00, 0x02, 0x05, 0x01],
    [0x10, 3, 0x00, 0x00, 0x99, 0x99],
    [0x10, 4, 0x00, 0x04, 0x82, 0x66],
    [0x10, 5, 0x00, 0x02, 0x00, 0x00],
];

fn main() -> Result<(), Box<dyn std::error::Error>> {
    let file = std::fs::read(gerg::DEFAULT_FILE)?;
    let mut bytes = BYTES.concat();
    let list = gerg::read_list(&bytes)?;
    for ((component, fraction), parts) in list.mixture.components().iter().zip(list.mixture.fractions()).zip(&list.parts) {
        println!("component {:<5} {parts:7} parts, fraction {fraction:.6}", component.number());
    }

    let state = gerg::density(&file, &list.mixture, 293.15, 5e6, Search::between(1000.0, 4000.0))?.state;
    println!("density         {:.6} mol/m3 ({:.6} kg/m3)", state.molar_density, state.mass_density);
    println!("speed of sound  {:.6} m/s", state.speed_of_sound);

    let again = gerg::write_list(list.mixture.components(), &list.parts)?;
    println!("written again   {} bytes, {}", again.len(), if again == bytes { "the same" } else { "others" });

    bytes[2 * gerg::RECORD_BYTES + 4] = 0x9A;
    if let Err(Refusal { cause, value }) = gerg::read_list(&bytes) {
        println!("digit above 9   refused, number {}, value {value}", cause as u32);
    }
    Ok(())
}
