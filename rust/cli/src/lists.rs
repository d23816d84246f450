//! Lists of a chromatograph: the gas that --list names, and `gerg list`, which shows one or writes one.
use crate::Fault;
use crate::arguments::Arguments;
use crate::format::{bits, exact, quoted};
use crate::input::{read_up_to, refusal_fault, write};
use gerg::{Cause, Component, List, Mixture, Refusal};

/// Every record is looked at before a list is refused for its length, so much more is read than a list may have; but not without end.
const MOST_BYTES: u64 = 1 << 20;

/// What a call's mixture is from: --mix or --list, one of the two.
pub enum Gas {
    Mix(Mixture),
    List { path: String, bytes: Vec<u8>, list: List },
}

impl Gas {
    pub fn read(arguments: &Arguments) -> Result<Gas, Fault> {
        match (arguments.text("--mix"), arguments.text("--list")) {
            (Some(text), None) => Ok(Gas::Mix(arguments.mixture(text)?)),
            (None, Some(path)) => Gas::from_file(path, arguments),
            (Some(_), Some(_)) => Err(arguments.fault("--mix and --list are both given; one is the gas")),
            (None, None) => Err(arguments.fault("--mix or --list is missing, as --mix methane=0.9,ethane=0.1")),
        }
    }

    fn from_file(path: &str, arguments: &Arguments) -> Result<Gas, Fault> {
        let bytes = read_up_to(path, MOST_BYTES + 1)?;
        if bytes.len() as u64 > MOST_BYTES {
            return Err(arguments.fault(format!("--list: {path} has over {MOST_BYTES} bytes")));
        }
        let list = gerg::read_list(&bytes).map_err(|refusal| {
            let place = [Some(path.to_string()), refusal.detail()].into_iter().flatten().collect::<Vec<_>>().join(", ");
            refusal_fault(refusal, &place, arguments)
        })?;
        Ok(Gas::List { path: path.to_string(), bytes, list })
    }
}

/// The parts per million that have this fraction: one double is nearest to so many over 1,000,000, and it is this one. A record has eight digits.
/// The product is off by less than a millionth where there are such parts, so no others have to be tried.
fn whole_parts(fraction: f64) -> Option<u32> {
    let parts = (fraction * 1e6).round();
    ((0.0..1e8).contains(&parts) && parts / 1e6 == fraction).then_some(parts as u32)
}

/// The list of a mixture whose fractions are all of whole parts.
fn written(mixture: &Mixture, arguments: &Arguments) -> Result<Vec<u8>, Fault> {
    let (components, fractions) = (mixture.components(), mixture.fractions());
    let typed = |(component, fraction): (&Component, &f64)| format!("{component}={}", exact(*fraction));
    let other: Vec<String> = components.iter().zip(fractions).filter(|(_, fraction)| whole_parts(**fraction).is_none()).map(typed).collect();
    if !other.is_empty() {
        return Err(arguments.fault(format!("--mix: no whole parts per million in eight digits: {}", other.join(", "))));
    }
    let parts: Vec<u32> = fractions.iter().filter_map(|fraction| whole_parts(*fraction)).collect();
    gerg::write_list(components, &parts).map_err(|refusal: Refusal| {
        let place = refusal.value as usize;
        let place = match refusal.cause {
            Cause::BadList if place < components.len() => format!("part {} of --mix, {}", place + 1, typed((&components[place], &fractions[place]))),
            _ => format!("they total {}", parts.iter().map(|each| u64::from(*each)).sum::<u64>()),
        };
        refusal_fault(refusal, &place, arguments)
    })
}

fn records(list: &List) -> impl Iterator<Item = (Component, u32, f64)> {
    let (components, fractions) = (list.mixture.components(), list.mixture.fractions());
    components.iter().zip(&list.parts).zip(fractions).map(|((component, parts), fraction)| (*component, *parts, *fraction))
}

/// Component, parts and fraction, a line each, in columns.
fn lines(list: &List, as_bits: bool) -> String {
    let width = records(list).map(|(component, ..)| component.name().len()).max().unwrap_or(0);
    let line = |(component, parts, fraction): (Component, u32, f64)| {
        let pattern = if as_bits { format!("{}  ", bits(fraction)) } else { String::new() };
        format!("{:width$}  {parts:7}  {pattern}{}\n", component.name(), exact(fraction))
    };
    records(list).map(line).collect()
}

fn json(list: &List, as_bits: bool, out: Option<&str>) -> String {
    let record = |(component, parts, fraction): (Component, u32, f64)| {
        let fraction = if as_bits { quoted(&bits(fraction)) } else { exact(fraction) };
        format!("{{\"component\":{},\"parts\":{parts},\"fraction\":{fraction}}}", quoted(component.name()))
    };
    let written = out.map_or(String::new(), |path| format!(",\"written\":{}", quoted(path)));
    format!("{{\"records\":[{}]{written}}}\n", records(list).map(record).collect::<Vec<_>>().join(","))
}

pub fn run(arguments: &Arguments) -> Result<String, Fault> {
    arguments.no_free_words()?;
    let (bytes, list) = match Gas::read(arguments)? {
        Gas::List { bytes, list, .. } => (bytes, list),
        Gas::Mix(mixture) => {
            let bytes = written(&mixture, arguments)?;
            let list = gerg::read_list(&bytes).expect("a list that was written is accepted");
            (bytes, list)
        }
    };
    let (out, as_bits) = (arguments.text("--out"), arguments.has("--bits"));
    if let Some(path) = out {
        write(path, &bytes)?;
    }
    if arguments.has("--json") {
        return Ok(json(&list, as_bits, out));
    }
    Ok(lines(&list, as_bits) + &out.map_or(String::new(), |path| format!("written  {path} ({} bytes)\n", bytes.len())))
}

#[cfg(test)]
mod tests {
    use super::*;

    #[test]
    fn whole_parts_of_a_fraction_and_of_none_beside_it() {
        for parts in (0..=1_000_000).chain([1_000_001, 12_345_678, 99_999_998, 99_999_999]) {
            let fraction = f64::from(parts) / 1e6;
            assert_eq!(whole_parts(fraction), Some(parts));
            assert_eq!([fraction.next_up(), fraction.next_down()].map(whole_parts), [None, None]);
        }
        assert_eq!(whole_parts(-0.0), Some(0));
        for fraction in [100.0, 0.123_456_7, -0.1, 0.5e-6, f64::NAN, f64::INFINITY, f64::NEG_INFINITY, f64::MAX] {
            assert_eq!(whole_parts(fraction), None);
        }
    }
}
