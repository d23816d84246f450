//! What a call starts from: the coefficient file, the mixture and the range; and how a refusal of it is said.
use crate::Fault;
use crate::arguments::Arguments;
use crate::format::{exact, quoted};
use crate::lists::Gas;
use crate::report::{Heading, heading};
use gerg::{Cause, Mixture, Range, Refusal};
use std::io::Read;
use std::path::Path;

/// The coefficient file of a call, the mixture, and the range, which is the normal one for a command that has no --range.
pub struct Input {
    pub path: String,
    pub given: bool,
    pub file: Vec<u8>,
    pub mixture: Mixture,
    /// Path and length of the chromatograph's list that the mixture is from.
    list: Option<(String, usize)>,
    pub range: Range,
}

/// One byte more than the longest file that can be accepted, so that a longer one is refused for its bytes over.
pub fn read(path: &str) -> Result<Vec<u8>, Fault> {
    read_up_to(path, gerg::LONGEST_FILE as u64 + 1)
}

/// No more than so many of a file's bytes.
pub fn read_up_to(path: &str, most: u64) -> Result<Vec<u8>, Fault> {
    let fault = |error: std::io::Error| Fault::usage(format!("{path}: {error}"));
    let mut bytes = Vec::new();
    std::fs::File::open(path).map_err(fault)?.take(most).read_to_end(&mut bytes).map_err(fault)?;
    Ok(bytes)
}

pub fn write(path: &str, contents: impl AsRef<[u8]>) -> Result<(), Fault> {
    std::fs::write(path, contents).map_err(|error| Fault::usage(format!("{path}: {error}")))
}

/// data/gerg-2008.bin here, else the one of the repository that the program was built in.
fn default_path() -> String {
    let here = "data/gerg-2008.bin";
    if Path::new(here).exists() {
        return here.into();
    }
    std::fs::canonicalize(gerg::DEFAULT_FILE).map_or(gerg::DEFAULT_FILE.into(), |path| path.display().to_string())
}

impl Input {
    pub fn read(arguments: &Arguments) -> Result<Input, Fault> {
        arguments.no_free_words()?;
        let (mixture, list) = match Gas::read(arguments)? {
            Gas::Mix(mixture) => (mixture, None),
            Gas::List { path, bytes, list } => (list.mixture, Some((path, bytes.len()))),
        };
        let range = arguments.range()?;
        let given = arguments.text("--file").is_some();
        let path = arguments.text("--file").map_or_else(default_path, String::from);
        Ok(Input { file: read(&path)?, given, path, mixture, list, range })
    }

    pub fn described(&self) -> String {
        let parts = self.mixture.components().iter().zip(self.mixture.fractions());
        parts.map(|(component, x)| format!("{component} {}", exact(*x))).collect::<Vec<_>>().join(", ")
    }

    pub fn coefficients(&self) -> String {
        format!("{} ({} bytes{})", self.path, self.file.len(), if self.given { "" } else { "; the default" })
    }

    /// Nothing where the mixture was typed.
    pub fn list_line(&self) -> Option<Heading> {
        let (path, bytes) = self.list.as_ref()?;
        Some(Heading { key: "list", name: "list", text: format!("{path} ({bytes} bytes)"), json: quoted(path) })
    }

    /// Nothing for the normal range, which is meant where none is said.
    pub fn other_range(&self) -> Option<String> {
        (self.range != Range::default()).then(|| format!("{} range", self.range.name()))
    }

    /// Nothing for the normal range here too.
    pub fn range_line(&self) -> Option<Heading> {
        self.other_range()?;
        let (name, [low, high], most) = (self.range.name(), self.range.temperatures(), self.range.highest_pressure() / 1e6);
        Some(Heading { key: "range", name: "range", text: format!("{name}: {low} to {high} K, up to {most} MPa"), json: quoted(name) })
    }

    pub fn heading(&self, asked: String) -> Vec<Heading> {
        let parts = self.mixture.components().iter().zip(self.mixture.fractions());
        let parts: Vec<String> = parts.map(|(component, x)| format!("{}:{}", quoted(component.name()), exact(*x))).collect();
        let mut lines = vec![
            Heading { key: "file", name: "coefficients", text: self.coefficients(), json: quoted(&self.path) },
            Heading { key: "mixture", name: "mixture", text: self.described(), json: format!("{{{}}}", parts.join(",")) },
        ];
        lines.extend(self.list_line());
        lines.push(heading("asked", "state", asked));
        lines.extend(self.range_line());
        lines
    }

    /// The refusal in one line that says what and where, and as JSON.
    pub fn refused(&self, refusal: Refusal, asked: &str, arguments: &Arguments) -> Fault {
        let (x, listed) = (self.mixture.fractions(), self.mixture.components());
        let part = refusal.value as usize;
        let place = match refusal.cause {
            Cause::BadFile | Cause::BadTable => format!("{}, {}", self.path, refusal.detail().unwrap_or_default()),
            Cause::BadList | Cause::BadFractions if part < listed.len() => format!("part {} of --mix, {}={}", part + 1, listed[part], exact(x[part])),
            Cause::BadFractions => format!("they add up to {}", exact(x.iter().fold(0.0, |sum, v| sum + v))),
            Cause::TrialUnstable => format!("{asked}; see --lo, --hi and gerg roots"),
            _ => [Some(asked.to_string()), self.other_range(), refusal.detail()].into_iter().flatten().collect::<Vec<_>>().join("; "),
        };
        refusal_fault(refusal, &place, arguments)
    }
}

pub fn refusal_fault(refusal: Refusal, place: &str, arguments: &Arguments) -> Fault {
    let (number, value, words) = (refusal.number(), refusal.value, refusal.cause.words());
    let json = format!("{{\"refused\":{{\"number\":{number},\"value\":{value},\"cause\":{},\"where\":{}}}}}\n", quoted(words), quoted(place));
    Fault::Refused { line: format!("refused, number {number}: {words} ({place})"), json: arguments.has("--json").then_some(json) }
}
