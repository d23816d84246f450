//! The calls in the extended range.
use gerg::{Cause, Component::*, Mixture, Range, Refusal, Search};

fn file() -> Vec<u8> {
    std::fs::read(gerg::DEFAULT_FILE).expect("data/gerg-2008.bin")
}

fn hydrogen() -> Mixture {
    Mixture::new([(Hydrogen, 1.0)])
}

fn refused<T>(cause: Cause) -> Result<T, Refusal> {
    Err(Refusal { cause, value: 0 })
}

#[test]
fn a_call_that_names_no_range_is_of_the_normal_one() {
    assert_eq!(Range::default(), Range::Normal);
    assert_eq!(Range::ALL.map(Range::name), ["normal", "extended"]);
}

/// The ends that [`Range`] names are those of the archive.
#[test]
fn temperatures_end_where_the_range_says() {
    let (file, gas) = (file(), hydrogen());
    for range in Range::ALL {
        let [low, high] = range.temperatures();
        for (t, beyond) in [(low, low.next_down()), (high, high.next_up())] {
            let state = gerg::properties_in(&file, &gas, range, t, 100.0).unwrap();
            assert_eq!((state.temperature, state.molar_density), (t, 100.0));
            assert!(gerg::fugacity_in(&file, &gas, range, t, 100.0).unwrap()[0].is_finite());
            let (target, search) = (state.pressure, Search::between(10.0, 1000.0));
            let found = gerg::density_in(&file, &gas, range, t, target, search).unwrap();
            assert!((found.state.molar_density - 100.0).abs() < 1e-6);
            assert_eq!(gerg::properties_in(&file, &gas, range, beyond, 100.0), refused(Cause::OutOfRange));
            assert_eq!(gerg::fugacity_in(&file, &gas, range, beyond, 100.0), refused(Cause::OutOfRange));
            assert_eq!(gerg::density_in(&file, &gas, range, beyond, target, search), refused(Cause::OutOfRange));
        }
    }
}

#[test]
fn densities_keep_their_ends() {
    let (file, gas, range) = (file(), hydrogen(), Range::Extended);
    for (rho, beyond) in [(1e-3, 1e-3f64.next_down()), (30000.0, 30000f64.next_up())] {
        assert_eq!(gerg::properties_in(&file, &gas, range, 60.0, rho).unwrap().molar_density, rho);
        assert!(gerg::fugacity_in(&file, &gas, range, 60.0, rho).unwrap()[0].is_finite());
        assert_eq!(gerg::properties_in(&file, &gas, range, 60.0, beyond), refused(Cause::OutOfRange));
        assert_eq!(gerg::fugacity_in(&file, &gas, range, 60.0, beyond), refused(Cause::OutOfRange));
    }
    let search = |lo, hi| gerg::density_in(&file, &gas, range, 60.0, 1e6, Search::between(lo, hi));
    assert!(search(1e-3, 30000.0).is_ok());
    assert_eq!(search(1e-3f64.next_down(), 30000.0), refused(Cause::BadSearch));
    assert_eq!(search(1e-3, 30000f64.next_up()), refused(Cause::BadSearch));
}

#[test]
fn pressures_end_where_the_range_says() {
    let (file, gas, search) = (file(), hydrogen(), Search::between(1000.0, 30000.0));
    for range in Range::ALL {
        let most = range.highest_pressure();
        let at = gerg::density_in(&file, &gas, range, 300.0, most, search);
        assert!(at.is_ok_and(|found| found.state.pressure <= most) || at == refused(Cause::PressureOutOfRange));
        assert_eq!(gerg::density_in(&file, &gas, range, 300.0, most.next_up(), search), refused(Cause::BadTarget));
        let below = gerg::density_in(&file, &gas, range, 300.0, 0.99 * most, search).unwrap().state;
        assert_eq!(gerg::properties_in(&file, &gas, range, 300.0, below.molar_density), Ok(below));
        assert!(gerg::fugacity_in(&file, &gas, range, 300.0, below.molar_density).is_ok());
        assert_eq!(gerg::properties_in(&file, &gas, range, 300.0, 1.05 * below.molar_density), refused(Cause::PressureOutOfRange));
        assert_eq!(gerg::fugacity_in(&file, &gas, range, 300.0, 1.05 * below.molar_density), refused(Cause::PressureOutOfRange));
    }
}

/// 69 MPa is above the normal range's end: as a target 14, as a state's pressure 11.
#[test]
fn the_extended_range_takes_what_the_normal_one_refuses() {
    let (file, gas, search) = (file(), hydrogen(), Search::between(1000.0, 30000.0));
    assert_eq!(gerg::density(&file, &gas, 300.0, 69e6, search), refused(Cause::BadTarget));
    let state = gerg::density_in(&file, &gas, Range::Extended, 300.0, 69e6, search).unwrap().state;
    assert!((state.pressure / 69e6 - 1.0).abs() <= 1e-10);
    assert_eq!(gerg::properties(&file, &gas, 300.0, state.molar_density), refused(Cause::PressureOutOfRange));
    assert_eq!(gerg::fugacity(&file, &gas, 300.0, state.molar_density), refused(Cause::PressureOutOfRange));
}

#[test]
fn what_the_normal_range_accepts_has_the_same_bits_in_both() {
    let (file, gas) = (file(), Mixture::new([(Methane, 0.9), (Ethane, 0.1)]));
    for (t, rho) in [(200.0, 1e-3), (300.0, 2000.0), (450.0, 5000.0)] {
        let bits = |ln_phi: Vec<f64>| ln_phi.into_iter().map(f64::to_bits).collect::<Vec<u64>>();
        // Debug shows every double with the fewest digits that read back as the same bits.
        let [plain, wide] = [gerg::properties(&file, &gas, t, rho), gerg::properties_in(&file, &gas, Range::Extended, t, rho)].map(|state| format!("{:?}", state.unwrap()));
        assert_eq!(plain, wide);
        assert_eq!(bits(gerg::fugacity(&file, &gas, t, rho).unwrap()), bits(gerg::fugacity_in(&file, &gas, Range::Extended, t, rho).unwrap()));
    }
    let search = Search::between(1000.0, 4000.0);
    let [plain, wide] = [gerg::density(&file, &gas, 300.0, 5e6, search), gerg::density_in(&file, &gas, Range::Extended, 300.0, 5e6, search)];
    assert_eq!(format!("{:?}", plain.unwrap()), format!("{:?}", wide.unwrap()));
}

#[test]
fn file_and_mixture_are_refused_first() {
    let (whole, nothing, nan) = (file(), Mixture::new([]), f64::NAN);
    let search = Search { lo: nan, hi: nan, limit: 0, tolerance: nan };
    for (file, gas, cause) in [(&[][..], hydrogen(), Cause::BadFile), (&whole[..], nothing, Cause::BadList)] {
        assert_eq!(gerg::properties_in(file, &gas, Range::Extended, nan, nan), refused(cause));
        assert_eq!(gerg::fugacity_in(file, &gas, Range::Extended, nan, nan), refused(cause));
        assert_eq!(gerg::density_in(file, &gas, Range::Extended, nan, nan, search), refused(cause));
    }
}
