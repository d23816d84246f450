//! Lists of a chromatograph in packed decimal.
use crate::{Component, MOST_RECORDS, Mixture, RECORD_BYTES, Refusal, exports};

/// A chromatograph's list as it was read.
#[derive(Clone, Debug, PartialEq)]
pub struct List {
    /// Components and their fractions, each the double nearest to its parts over 1,000,000: what the other calls take.
    pub mixture: Mixture,
    /// Parts per million of each component, in the mixture's order; together 1,000,000.
    pub parts: Vec<u32>,
}

/// Reads a chromatograph's list. It is records of six bytes: kind 0x10, component number, and eight decimal digits, two to a byte, the high digit first, in
/// parts per million.
///
/// ```
/// use gerg::{Component::*, Mixture};
/// let bytes = [0x10, 1, 0x00, 0x90, 0x12, 0x34, 0x10, 4, 0x00, 0x09, 0x87, 0x66];
/// let list = gerg::read_list(&bytes).unwrap();
/// assert_eq!(list.mixture, Mixture::new([(Methane, 0.901234), (Ethane, 0.098766)]));
/// assert_eq!(list.parts, [901_234, 98_766]);
///
/// let file = std::fs::read(gerg::DEFAULT_FILE).unwrap();
/// assert!(gerg::properties(&file, &list.mixture, 300.0, 2000.0).is_ok());
///
/// let refused = gerg::read_list(&bytes[..11]).unwrap_err();
/// assert_eq!((refused.number(), refused.value), (28, 6));
/// ```
pub fn read_list(bytes: &[u8]) -> Result<List, Refusal> {
    let (mut numbers, mut parts, mut fractions) = ([0; MOST_RECORDS], [0; MOST_RECORDS], [0.0; MOST_RECORDS]);
    let count = Refusal::answered(exports::read_list(bytes, &mut numbers, &mut parts, &mut fractions))? as usize;
    let component = |number: u8| Component::ALL[usize::from(number) - 1];
    let mixture = Mixture::new(numbers.into_iter().map(component).zip(fractions).take(count));
    Ok(List { mixture, parts: parts[..count].to_vec() })
}

/// Writes a chromatograph's list from components and as many parts per million, which must total 1,000,000; zero parts are allowed. Read back it has the
/// same components and parts, and a list that was read has the same bytes when it is written again. Parts that are not as many as the components are refused
/// under number 4, `BadFractions`, with the number of components.
///
/// ```
/// use gerg::Component::*;
/// let bytes = gerg::write_list(&[Methane, Ethane], &[901_234, 98_766]).unwrap();
/// assert_eq!(bytes, [0x10, 1, 0x00, 0x90, 0x12, 0x34, 0x10, 4, 0x00, 0x09, 0x87, 0x66]);
///
/// let list = gerg::read_list(&bytes).unwrap();
/// assert_eq!(gerg::write_list(list.mixture.components(), &list.parts), Ok(bytes));
/// assert_eq!(gerg::write_list(&[Methane, Ethane], &[901_234, 98_765]).unwrap_err().number(), 29);
/// ```
pub fn write_list(components: &[Component], parts: &[u32]) -> Result<Vec<u8>, Refusal> {
    let numbers: Vec<u8> = components.iter().map(|each| each.number()).collect();
    let mut out = vec![0; RECORD_BYTES * numbers.len()];
    Refusal::answered(exports::write_list(&numbers, parts, &mut out))?;
    Ok(out)
}
