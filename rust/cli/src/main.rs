//! GERG-2008 gas properties on the command line, over the proved archive.
//!
//! Exit status: 0 answered, 1 refused (its number is in the line on standard error), 2 a usage fault or a file that cannot be read or written.
mod arguments;
mod commands;
mod curve;
mod format;
mod input;
mod lightest;
mod lists;
mod progress;
mod report;
mod states;
mod svg;

use std::io::Write;
use std::process::ExitCode;

/// What stops a run: a refusal of the library, or a fault of the command line.
pub enum Fault {
    Refused { line: String, json: Option<String> },
    Usage(String),
}

impl Fault {
    pub fn usage(line: impl Into<String>) -> Fault {
        Fault::Usage(line.into())
    }
}

/// A reader that closes early, as `head` does, is no fault.
fn print(text: &str) {
    let _ = std::io::stdout().lock().write_all(text.as_bytes());
}

fn main() -> ExitCode {
    let words: Vec<String> = std::env::args().skip(1).collect();
    match commands::run(&words) {
        Ok(text) => {
            print(&text);
            ExitCode::SUCCESS
        }
        Err(Fault::Refused { line, json }) => {
            print(&json.unwrap_or_default());
            eprintln!("gerg: {line}");
            ExitCode::from(1)
        }
        Err(Fault::Usage(line)) => {
            eprintln!("gerg: {line}");
            ExitCode::from(2)
        }
    }
}
