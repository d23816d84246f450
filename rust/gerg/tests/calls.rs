//! The calls on the repository's coefficient file.
use gerg::{Cause, Component, Component::*, Mixture, Range, Refusal, Search};

fn file() -> Vec<u8> {
    std::fs::read(gerg::DEFAULT_FILE).expect("data/gerg-2008.bin")
}

fn gas() -> Mixture {
    Mixture::new([(Methane, 0.9), (Ethane, 0.1)])
}

#[test]
fn components_have_the_numbers_1_to_21_and_distinct_names() {
    let numbers: Vec<u8> = Component::ALL.iter().map(|each| each.number()).collect();
    assert_eq!(numbers, (1..=21).collect::<Vec<u8>>());
    for each in Component::ALL {
        assert_eq!(each.name().parse(), Ok(each));
    }
}

#[test]
fn causes_have_the_numbers_1_to_29() {
    let numbers: Vec<u32> = Cause::ALL.iter().map(|each| *each as u32).collect();
    assert_eq!(numbers, (1..=29).collect::<Vec<u32>>());
}

/// data/README.md: the NIST AGA8 example, 50 MPa, is in the extended range alone; near it, at 30 MPa, the state is accepted in the normal one.
#[test]
fn all_21_components() {
    let fractions = [
        0.77824, 0.02, 0.06, 0.08, 0.03, 0.0015, 0.003, 0.0005, 0.00165, 0.00215, 0.00088, 0.00024, 0.00015, 0.00009, 0.004, 0.005, 0.002, 0.0001,
        0.0025, 0.007, 0.001,
    ];
    let gas = Mixture::new(Component::ALL.into_iter().zip(fractions));
    assert_eq!(gerg::properties(&file(), &gas, 400.0, 12798.28626082062), Err(Refusal { cause: Cause::PressureOutOfRange, value: 0 }));
    let published = gerg::properties_in(&file(), &gas, Range::Extended, 400.0, 12798.28626082062).unwrap();
    assert!((published.pressure / 50e6 - 1.0).abs() < 1e-13);
    let found = gerg::density(&file(), &gas, 400.0, 30e6, Search::between(5000.0, 12000.0)).unwrap();
    assert!((found.state.mass_density / found.state.molar_density - 0.0205427445016).abs() < 1e-15);
    let ln_phi = gerg::fugacity(&file(), &gas, 400.0, found.state.molar_density).unwrap();
    let mean: f64 = gas.fractions().iter().zip(&ln_phi).map(|(x, v)| x * v).sum();
    let z = found.state.compressibility;
    assert!((mean - (found.state.derivatives.ar + z - 1.0 - z.ln())).abs() < 1e-12, "the mean ln phi is the residual Gibbs energy");
}

#[test]
fn an_accepted_end_reports_no_trial() {
    let first = gerg::density(&file(), &gas(), 300.0, 5e6, Search::between(1000.0, 4000.0)).unwrap();
    let rho = first.state.molar_density;
    let again = gerg::density(&file(), &gas(), 300.0, 5e6, Search::between(rho, 4000.0)).unwrap();
    assert_eq!((again.trials, again.first_bracket, again.last_bracket), (0, [rho, 4000.0], [rho, 4000.0]));
    assert_eq!(again.state, first.state);
}

#[test]
fn a_root_is_a_state_with_its_fugacity() {
    let root = &gerg::outer_roots(&file(), &gas(), 300.0, 5e6).unwrap()[0];
    let state = gerg::properties(&file(), &gas(), 300.0, root.molar_density).unwrap();
    assert_eq!((root.pressure, root.compressibility, root.gibbs_energy), (state.pressure, state.compressibility, state.gibbs_energy));
    assert_eq!(root.ln_fugacity_coefficients, gerg::fugacity(&file(), &gas(), 300.0, root.molar_density).unwrap());
}

#[test]
fn refusals_say_number_value_and_cause() {
    let refused = gerg::properties(&file(), &Mixture::new([(Methane, 0.5), (Methane, 0.5)]), 300.0, 1.0).unwrap_err();
    assert_eq!(refused, Refusal { cause: Cause::BadList, value: 1 });
    assert_eq!(refused.to_string(), "refused, number 3: component list empty, over 21 long, or with a number unknown or repeated (at place 1 from 0)");
    assert_eq!(gerg::check(&[]), Err(Refusal { cause: Cause::BadFile, value: 0 }));
    let refused = gerg::density(&file(), &gas(), 300.0, 5e6, Search { limit: 3, ..Search::between(1000.0, 4000.0) }).unwrap_err();
    assert_eq!((refused.number(), refused.value), (19, 3));
    assert_eq!(gerg::outer_roots(&file(), &Mixture::new([(Argon, 1.0)]), 300.0, 1e6), Err(Refusal { cause: Cause::NotQualified, value: 0 }));
    let refused = gerg::pure_saturation(&file(), &Mixture::new([(Propane, 1.0)]), 5e5, [250.0, 300.0], 3).unwrap_err();
    assert_eq!(refused.to_string(), "refused, number 26: saturation: limit of trials reached, or no double left between the ends (after 3 trials)");
}

#[test]
fn saturation_found_and_not_enclosed() {
    let propane = Mixture::new([(Propane, 1.0)]);
    let found = gerg::pure_saturation(&file(), &propane, 5e5, [250.0, 300.0], 100).unwrap().expect("enclosed");
    assert!(found.residual <= 1e-12 && (1..=60).contains(&found.iterations));
    let roots = gerg::outer_roots(&file(), &propane, found.temperature, found.pressure).unwrap();
    let (vapour, liquid) = (&roots[0], &roots[1]);
    assert_eq!((found.vapour_molar_volume, found.liquid_molar_volume), (1.0 / vapour.molar_density, 1.0 / liquid.molar_density));
    assert_eq!((found.vapour_compressibility, found.liquid_compressibility), (vapour.compressibility, liquid.compressibility));
    assert_eq!(found.ln_fugacity_coefficient, vapour.ln_fugacity_coefficients[0]);
    assert_eq!(gerg::pure_saturation(&file(), &propane, 5e5, [280.0, 300.0], 100), Ok(None));
}

#[test]
fn states_alone_and_in_a_run() {
    let seed = 0x8000_0000_0000_3039;
    let run = gerg::count_refusals(&file(), &gas(), seed, 0, 300).unwrap();
    let alone = |n| {
        let state = gerg::state_at(seed, n).unwrap();
        assert!((200.0..=450.0).contains(&state.temperature) && (1e-3..=30000.0).contains(&state.density));
        gerg::properties(&file(), &gas(), state.temperature, state.density).err().map(|refusal| refusal.cause)
    };
    let causes: Vec<Option<Cause>> = (0..300).map(alone).collect();
    let among = |cause: Option<Cause>| causes.iter().filter(|each| **each == cause).count() as u64;
    assert_eq!(run.accepted(), among(None));
    assert!(Cause::ALL.into_iter().all(|cause| run.refused(cause) == among(Some(cause))));
    let parts = [(0, 299), (299, 1)].map(|(first, states)| gerg::count_refusals(&file(), &gas(), seed, first, states).unwrap());
    assert_eq!(parts.into_iter().sum::<gerg::Counts>(), run);
}

#[test]
fn a_zero_seed_is_refused_first() {
    let zero = Err(Refusal { cause: Cause::ZeroSeed, value: 0 });
    assert_eq!(gerg::state_at(0, 7).map(|_| ()), zero);
    assert_eq!(gerg::count_refusals(&[], &Mixture::new([]), 0, 0, 1).map(|_| ()), zero);
    assert_eq!(gerg::count_refusals(&[], &Mixture::new([]), 1, 0, 1), Err(Refusal { cause: Cause::BadFile, value: 0 }));
    assert_eq!(zero.unwrap_err().to_string(), "refused, number 27: states: the seed is zero");
}
