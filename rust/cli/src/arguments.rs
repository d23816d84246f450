//! The words of the command line.
use crate::Fault;
use gerg::{Component, Mixture, Range};
use std::collections::BTreeMap;

pub const USAGE: &str = "\
GERG-2008 gas properties. Units: K, Pa, mol/m³.

  gerg properties --mix MIX --t T (--rho RHO | --p P)     density, Z, enthalpy, heat capacities, speed of sound ..
  gerg fugacity   --mix MIX --t T (--rho RHO | --p P)     ln of each component's fugacity coefficient
  gerg density    --mix MIX --t T --p P [--lo RHO --hi RHO] [--limit N] [--tolerance E]
  gerg roots      --mix MIX --t T --p P                   exterior roots; methane, nitrogen, carbon-dioxide, ethane, propane
  gerg saturation --mix MIX --p P [--lo T --hi T] [--limit N]
  gerg curve      --mix MIX --t T [--from P] [--to P] [--points N] [--out NAME]
                  density and speed of sound over pressure, 100 points from 1e5 to 1e7 Pa, in curve.csv and curve.svg, if not said otherwise
  gerg states     --mix MIX --seed S --states N [--first N] [--jobs N]
                  properties at N states drawn from a seed, counted: seed and N on a line, then number and count of each refusal met
  gerg state      --seed S --n N                          temperature and density of state N, the first being 0, with their bits
  gerg list       (--mix MIX | --list FILE) [--out FILE]  a chromatograph's list: component, parts per million and fraction a line each; --out writes it
  gerg check FILE                                         is a coefficient file accepted?
  gerg components                                         names and numbers

  MIX is name=fraction,name=fraction,..  as methane=0.9,ethane=0.1; the fractions add up to 1 within 1e-9
  S is a whole number of 64 bits but 0, decimal or hexadecimal as 0x1F
  --list FILE   in place of --mix MIX, wherever that is taken: the gas as a chromatograph sends it, in packed decimal
  --range R     properties, fugacity, density and curve: normal (200 to 450 K, up to 35 MPa; the default) or extended (60 to 700 K, up to 70 MPa)
  --jobs N      states: parts of the run that are worked out at a time (default: one a processor)
  --file FILE   coefficient file (default: data/gerg-2008.bin, here or in the repository that this program was built in)
  --json        the answer as JSON
  --bits        each double as its bit pattern
  --all         properties and density: the nine derivatives of the Helmholtz energy too

Where --p is given and no bracket, the density is searched upward from a quarter of the ideal gas's, in brackets of a tenth.
Exit status: 0 answered, 1 refused, 2 usage.
";

const FLAGS: [&str; 3] = ["--json", "--bits", "--all"];

#[derive(Debug)]
pub struct Arguments {
    command: String,
    values: BTreeMap<String, String>,
    flags: Vec<String>,
    pub free: Vec<String>,
}

impl Arguments {
    /// `allowed`: the options that the command takes, with a value each but for the flags.
    pub fn parse(command: &str, words: &[String], allowed: &[&str]) -> Result<Arguments, Fault> {
        let mut parsed = Arguments { command: command.to_string(), values: BTreeMap::new(), flags: Vec::new(), free: Vec::new() };
        let mut words = words.iter();
        while let Some(word) = words.next() {
            if !word.starts_with("--") {
                parsed.free.push(word.clone());
                continue;
            }
            let (name, joined) = match word.split_once('=') {
                Some((name, value)) => (name, Some(value.to_string())),
                None => (word.as_str(), None),
            };
            if !allowed.contains(&name) {
                return Err(parsed.fault(format!("unknown option {name}; it takes {}", allowed.join(" "))));
            }
            if FLAGS.contains(&name) {
                parsed.flags.push(name.to_string());
                continue;
            }
            let Some(value) = joined.or_else(|| words.next().cloned()) else {
                return Err(parsed.fault(format!("{name} has no value")));
            };
            if parsed.values.insert(name.to_string(), value).is_some() {
                return Err(parsed.fault(format!("{name} is given twice")));
            }
        }
        Ok(parsed)
    }

    pub fn fault(&self, text: impl std::fmt::Display) -> Fault {
        Fault::usage(format!("{}: {text}", self.command))
    }

    pub fn no_free_words(&self) -> Result<(), Fault> {
        match self.free.first() {
            Some(word) => Err(self.fault(format!("'{word}' is no option; see gerg --help"))),
            None => Ok(()),
        }
    }

    pub fn has(&self, flag: &str) -> bool {
        self.flags.iter().any(|each| each == flag)
    }

    pub fn text(&self, name: &str) -> Option<&str> {
        self.values.get(name).map(String::as_str)
    }

    pub fn number(&self, name: &str) -> Result<Option<f64>, Fault> {
        let parse = |word: &str| word.parse().map_err(|_| self.fault(format!("{name}: '{word}' is no number")));
        self.text(name).map(parse).transpose()
    }

    pub fn needed(&self, name: &str) -> Result<f64, Fault> {
        self.number(name)?.ok_or_else(|| self.fault(format!("{name} is missing")))
    }

    /// A whole number that `T` holds, decimal or 0x and hexadecimal.
    pub fn whole<T: TryFrom<u64>>(&self, name: &str, default: Option<T>) -> Result<T, Fault> {
        let Some(word) = self.text(name) else {
            return default.ok_or_else(|| self.fault(format!("{name} is missing")));
        };
        let read = match word.strip_prefix("0x") {
            Some(digits) => u64::from_str_radix(digits, 16).ok().filter(|_| !digits.starts_with('+')),
            None => word.parse().ok(),
        };
        let bits = 8 * size_of::<T>();
        read.and_then(|value| T::try_from(value).ok()).ok_or_else(|| self.fault(format!("{name}: '{word}' is no whole number of {bits} bits")))
    }

    /// Both of two options or neither.
    pub fn pair(&self, first: &str, second: &str) -> Result<Option<[f64; 2]>, Fault> {
        match (self.number(first)?, self.number(second)?) {
            (Some(a), Some(b)) => Ok(Some([a, b])),
            (None, None) => Ok(None),
            (Some(_), None) => Err(self.fault(format!("{first} is given without {second}"))),
            (None, Some(_)) => Err(self.fault(format!("{second} is given without {first}"))),
        }
    }

    pub fn range(&self) -> Result<Range, Fault> {
        let Some(word) = self.text("--range") else {
            return Ok(Range::default());
        };
        let unknown = || self.fault(format!("--range: '{word}' is no range; known: {}", Range::ALL.map(Range::name).join(" ")));
        Range::ALL.into_iter().find(|each| each.name() == word).ok_or_else(unknown)
    }

    /// What --mix says.
    pub fn mixture(&self, text: &str) -> Result<Mixture, Fault> {
        let parts = text.split(',').enumerate().map(|(place, part)| self.part(place + 1, part));
        Ok(Mixture::new(parts.collect::<Result<Vec<_>, Fault>>()?))
    }

    fn part(&self, place: usize, part: &str) -> Result<(Component, f64), Fault> {
        let at = format!("--mix, part {place}");
        let Some((name, fraction)) = part.split_once('=') else {
            return Err(self.fault(format!("{at}: '{part}' is not name=fraction")));
        };
        let component = name.trim().parse().map_err(|fault| self.fault(format!("{at}: {fault}; known: {}", names())))?;
        let fraction = fraction.trim().parse().map_err(|_| self.fault(format!("{at}: '{fraction}' is no number")))?;
        Ok((component, fraction))
    }
}

fn names() -> String {
    Component::ALL.map(Component::name).join(" ")
}
