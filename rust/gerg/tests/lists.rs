//! Lists of a chromatograph.
use gerg::{Cause, Component, Component::*, MOST_RECORDS, Mixture, RECORD_BYTES, Refusal, TOTAL_PARTS};

const TWO: [u8; 12] = [0x10, 1, 0x00, 0x90, 0x12, 0x34, 0x10, 4, 0x00, 0x09, 0x87, 0x66];

fn refused<T>(cause: Cause, value: u32) -> Result<T, Refusal> {
    Err(Refusal { cause, value })
}

/// The bytes with one of them changed.
fn changed(place: usize, byte: u8) -> [u8; 12] {
    let mut bytes = TWO;
    bytes[place] = byte;
    bytes
}

/// So many components with 1,000,000 parts among them, the last having what is left over.
fn shared(n: usize) -> (Vec<Component>, Vec<u32>) {
    let mut parts = vec![TOTAL_PARTS / n as u32; n];
    parts[n - 1] += TOTAL_PARTS % n as u32;
    (Component::ALL[..n].to_vec(), parts)
}

#[test]
fn a_list_is_a_mixture_with_its_parts() {
    let list = gerg::read_list(&TWO).unwrap();
    assert_eq!(list.mixture, Mixture::new([(Methane, 0.901234), (Ethane, 0.098766)]));
    assert_eq!(list.parts, [901_234, 98_766]);
    assert_eq!(list.mixture.fractions()[0].to_bits(), (901_234.0 / 1_000_000.0f64).to_bits());
}

#[test]
fn written_and_read_back_and_again() {
    for n in 1..=MOST_RECORDS {
        let (components, parts) = shared(n);
        let bytes = gerg::write_list(&components, &parts).unwrap();
        assert_eq!(bytes.len(), n * RECORD_BYTES);
        let list = gerg::read_list(&bytes).unwrap();
        assert_eq!((list.mixture.components(), &list.parts), (&components[..], &parts));
        assert_eq!(gerg::write_list(list.mixture.components(), &list.parts), Ok(bytes));
    }
}

#[test]
fn zero_parts_and_all_parts() {
    let bytes = gerg::write_list(&[Argon, Methane, Water], &[0, TOTAL_PARTS, 0]).unwrap();
    let list = gerg::read_list(&bytes).unwrap();
    assert_eq!(list.mixture, Mixture::new([(Argon, 0.0), (Methane, 1.0), (Water, 0.0)]));
    assert_eq!(bytes[6..12], [0x10, 1, 0x01, 0x00, 0x00, 0x00]);
}

#[test]
fn wrong_records_come_first_with_their_offset() {
    for (bytes, offset) in [(changed(0, 0x11), 0), (changed(6, 0x01), 6), (changed(2, 0xA0), 0), (changed(11, 0x6A), 6)] {
        assert_eq!(gerg::read_list(&bytes), refused(Cause::BadRecord, offset));
    }
    for length in (0..12).filter(|length| length % RECORD_BYTES != 0) {
        assert_eq!(gerg::read_list(&TWO[..length]), refused(Cause::BadRecord, (length / RECORD_BYTES * RECORD_BYTES) as u32));
    }
    // behind a repeated component, and far behind the last record that a list may have
    assert_eq!(gerg::read_list(&[&TWO[..6], &TWO[..5]].concat()), refused(Cause::BadRecord, 6));
    assert_eq!(gerg::read_list(&[TWO.repeat(500), vec![0x10]].concat()), refused(Cause::BadRecord, 6000));
    assert_eq!(
        refused::<()>(Cause::BadRecord, 6).unwrap_err().to_string(),
        "refused, number 28: chromatograph's list: a record of another kind than 0x10, cut, or with a digit above 9 (at byte 6)"
    );
}

#[test]
fn components_then_the_total() {
    assert_eq!(gerg::read_list(&[]), refused(Cause::BadList, 0));
    assert_eq!(gerg::read_list(&changed(1, 0)), refused(Cause::BadList, 0));
    assert_eq!(gerg::read_list(&changed(7, 22)), refused(Cause::BadList, 1));
    assert_eq!(gerg::read_list(&changed(7, 1)), refused(Cause::BadList, 1));
    assert_eq!(gerg::read_list(&TWO.repeat(100)), refused(Cause::BadList, 2));
    assert_eq!(gerg::read_list(&changed(5, 0x35)), refused(Cause::BadTotal, 0));
    assert_eq!(gerg::read_list(&TWO[..6]), refused(Cause::BadTotal, 0));
    assert_eq!(refused::<()>(Cause::BadTotal, 0).unwrap_err().to_string(), "refused, number 29: chromatograph's list: the parts do not total 1,000,000");
}

#[test]
fn what_cannot_be_written() {
    assert_eq!(gerg::write_list(&[], &[TOTAL_PARTS]), refused(Cause::BadList, 0));
    assert_eq!(gerg::write_list(&[Methane, Methane], &[1, 2, 3]), refused(Cause::BadList, 1));
    assert_eq!(gerg::write_list(&[Component::ALL.to_vec(), vec![Argon]].concat(), &[0; 22]), refused(Cause::BadList, 21));
    assert_eq!(gerg::write_list(&[Methane, Ethane], &[TOTAL_PARTS]), refused(Cause::BadFractions, 2));
    assert_eq!(gerg::write_list(&[Methane], &[TOTAL_PARTS, 0]), refused(Cause::BadFractions, 1));
    assert_eq!(gerg::write_list(&[Methane, Ethane], &[999_999, 0]), refused(Cause::BadTotal, 0));
    assert_eq!(gerg::write_list(&[Methane, Ethane], &[u32::MAX, TOTAL_PARTS + 1]), refused(Cause::BadTotal, 0), "the total does not wrap");
}

/// Every call takes what was read.
#[test]
fn a_read_list_is_a_gas() {
    let file = std::fs::read(gerg::DEFAULT_FILE).expect("data/gerg-2008.bin");
    let (list, pure) = (gerg::read_list(&TWO).unwrap().mixture, gerg::read_list(&[0x10, 5, 0x01, 0x00, 0x00, 0x00]).unwrap().mixture);
    let typed = Mixture::new([(Methane, 0.901234), (Ethane, 0.098766)]);
    assert_eq!(gerg::properties(&file, &list, 300.0, 2000.0).unwrap(), gerg::properties(&file, &typed, 300.0, 2000.0).unwrap());
    assert_eq!(gerg::fugacity(&file, &list, 300.0, 2000.0).unwrap().len(), 2);
    assert!(gerg::density(&file, &list, 300.0, 5e6, gerg::Search::between(1000.0, 4000.0)).is_ok());
    assert_eq!(gerg::outer_roots(&file, &list, 300.0, 5e6).unwrap().len(), 1);
    assert!(gerg::pure_saturation(&file, &pure, 5e5, [250.0, 300.0], 100).unwrap().is_some());
    assert!(gerg::count_refusals(&file, &list, 1, 0, 10).is_ok());
    let all = shared(21);
    let many = gerg::read_list(&gerg::write_list(&all.0, &all.1).unwrap()).unwrap();
    assert!(gerg::properties(&file, &many.mixture, 300.0, 40.0).is_ok());
}
