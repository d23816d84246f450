//! `gerg states`: how many states of a seed each refusal has; `gerg state`: one of the states.
use crate::Fault;
use crate::arguments::Arguments;
use crate::input::{Input, refusal_fault};
use crate::progress::Progress;
use crate::report::{Group, Report, count, heading, row};
use gerg::{Counts, Refusal};
use std::io::IsTerminal;
use std::sync::Mutex;
use std::sync::atomic::{AtomicUsize, Ordering};

/// A part that is not the last has at least so many states, so that the reading of the file does not show in its time.
const LEAST: u64 = 4096;
const MOST_JOBS: usize = 1024;

struct Run {
    seed: u64,
    first: u32,
    states: u32,
    jobs: usize,
}

impl Run {
    fn read(arguments: &Arguments) -> Result<Run, Fault> {
        let processors = std::thread::available_parallelism().map_or(1, |count| count.get().min(MOST_JOBS));
        let run = Run {
            seed: arguments.whole("--seed", None)?,
            first: arguments.whole("--first", Some(0))?,
            states: arguments.whole("--states", None)?,
            jobs: arguments.whole("--jobs", Some(processors))?,
        };
        if !(1..=MOST_JOBS).contains(&run.jobs) {
            return Err(arguments.fault(format!("--jobs: {} is not in 1..{MOST_JOBS}", run.jobs)));
        }
        Ok(run)
    }

    /// First state and number of states of each part. A part makes all draws before its first state anew, so it is no shorter than a sixteenth of
    /// what lies before it: the draws then take little beside the equations. It is no longer than a job's share.
    fn parts(&self) -> Vec<(u32, u32)> {
        let (end, share) = (u64::from(self.first) + u64::from(self.states), u64::from(self.states).div_ceil(self.jobs as u64));
        let mut parts = Vec::new();
        let mut at = u64::from(self.first);
        while at < end {
            let length = LEAST.max(at / 16).min(share).min(end - at);
            // Behind it no part could begin: a first state has 32 bits.
            let length = if at + length > u32::MAX.into() { end - at } else { length };
            parts.push((at as u32, length as u32));
            at += length;
        }
        parts
    }
}

/// The run's parts are shared among the jobs: each takes the next that is left.
fn counted(input: &Input, run: &Run) -> Result<Counts, Refusal> {
    let count = |first, states| gerg::count_refusals(&input.file, &input.mixture, run.seed, first, states);
    // What refuses one part refuses all, and a run without a state too.
    let none = count(0, 0)?;
    let (parts, next) = (run.parts(), AtomicUsize::new(0));
    let progress = Mutex::new(std::io::stderr().is_terminal().then(|| Progress::new("states", "states", run.states.into())));
    let work = || {
        let mut sum = none;
        while let Some((first, states)) = parts.get(next.fetch_add(1, Ordering::Relaxed)) {
            sum += count(*first, *states)?;
            progress.lock().expect("no job panics").iter_mut().for_each(|progress| progress.made(u64::from(*states)));
        }
        Ok(sum)
    };
    std::thread::scope(|scope| {
        let jobs: Vec<_> = (0..run.jobs.min(parts.len())).map(|_| scope.spawn(&work)).collect();
        jobs.into_iter().map(|job| job.join().expect("no job panics")).sum()
    })
}

/// The lines that the program `states` prints: seed and number of states, then number and count of each refusal met.
fn lines(run: &Run, counts: &Counts) -> String {
    let met = counts.met().map(|(cause, count)| format!("{} {count}\n", cause as u32));
    std::iter::once(format!("{} {}\n", run.seed, run.states)).chain(met).collect()
}

pub fn run(arguments: &Arguments) -> Result<String, Fault> {
    let input = Input::read(arguments)?;
    let run = Run::read(arguments)?;
    let asked = format!("{} states of seed {} from number {} on", run.states, run.seed, run.first);
    let counts = counted(&input, &run).map_err(|refusal| input.refused(refusal, &asked, arguments))?;
    if !arguments.has("--json") {
        return Ok(lines(&run, &counts));
    }
    let mut rows = vec![count("states", "", run.states.into()), count("accepted", "", counts.accepted())];
    rows.extend(counts.met().map(|(cause, met)| count(&(cause as u32).to_string(), "", met)));
    let group = Group { key: "counts", title: String::new(), rows, many: false };
    Ok(Report { heading: input.heading(asked), groups: vec![group] }.json(false))
}

pub fn one(arguments: &Arguments) -> Result<String, Fault> {
    arguments.no_free_words()?;
    let (seed, n): (u64, u32) = (arguments.whole("--seed", None)?, arguments.whole("--n", None)?);
    let asked = format!("state {n} of seed {seed}");
    let state = gerg::state_at(seed, n).map_err(|refusal| refusal_fault(refusal, &asked, arguments))?;
    let rows = vec![row("temperature", "temperature", state.temperature, "K"), row("molar_density", "molar density", state.density, "mol/m³")];
    let group = Group { key: "state", title: "drawn".into(), rows, many: false };
    let report = Report { heading: vec![heading("asked", "asked", asked)], groups: vec![group] };
    Ok(if arguments.has("--json") { report.json(arguments.has("--bits")) } else { report.table(true) })
}

#[cfg(test)]
mod tests {
    use super::*;

    #[test]
    fn parts_follow_each_other_and_make_up_the_run() {
        for (first, states) in [(0, 0), (0, 1), (0, 10_000), (7, 5_000_000), (u32::MAX, 3), (u32::MAX - 5, u32::MAX), (0, u32::MAX), (4_000_000_000, 10)] {
            for jobs in [1, 2, 3, MOST_JOBS] {
                let parts = Run { seed: 1, first, states, jobs }.parts();
                let mut at = u64::from(first);
                for (begin, length) in &parts {
                    assert!(u64::from(*begin) == at && *length > 0);
                    at += u64::from(*length);
                }
                assert_eq!(at, u64::from(first) + u64::from(states));
                assert!(parts.len() < 2 * MOST_JOBS);
            }
        }
    }
}
