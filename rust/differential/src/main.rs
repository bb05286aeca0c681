//! Compares the proved library with the reference over seeded random and
//! damaged inputs: returns, out-parameters and every cell of every buffer, also
//! after refusals; the place of a line that is handed back in the caller's memory;
//! tallies, output words, verdict bytes and the verdicts of runs with the paths of the graph;
//! the verdict bytes of stroke buffers with their count; and of benches how long each machine waits.

mod aigers;
mod bench;
mod buffers;
mod cases;
mod checked;
mod compare;
mod counts;
mod coverage;
mod damage;
mod forms;
mod gates;
mod graphs;
mod kinds;
mod loose;
mod machines;
mod netlists;
mod orders;
mod packed;
mod packs;
mod pages;
mod random;
mod rates;
mod round_trip;
mod rounds;
mod sequence;
mod sessions;
mod shuffled;
mod stakes;
mod sweep;
mod texts;
mod traces;
mod turns;
mod widths;

use bench::Bench;
use coverage::Coverage;
use random::Random;
use std::process::ExitCode;
use std::time::{SystemTime, UNIX_EPOCH};

const DEFAULT_SEED: u64 = 20_001;
const DEFAULT_CASES: u64 = 20_000;
const LONG_CASES: u64 = 1_000_000;
const USAGE: &str = "differential [--seed N] [--cases N] [--first N] [--long] [--progress]
  --seed N    the random sequence
  --cases N   how many cases
  --first N   begin with case N, as to see one mismatch again
  --long      very many cases, with a seed from the clock unless one is given
  --progress  name each case before it is run";

struct Options {
    seed: u64,
    first: u64,
    cases: u64,
    progress: bool,
}

fn main() -> ExitCode {
    let Some(options) = options(std::env::args().skip(1)) else {
        eprintln!("{USAGE}");
        return ExitCode::from(2);
    };
    println!("seed {}, {} cases", options.seed, options.cases);
    let mut coverage = Coverage::default();
    if let Err(mismatch) = compare_all(&options, &mut coverage) {
        println!("mismatch: seed {}, {mismatch}", options.seed);
        return ExitCode::FAILURE;
    }
    println!("{coverage}");
    let gaps = coverage.gaps();
    if options.cases >= DEFAULT_CASES && !gaps.is_empty() {
        println!("never met: {}", gaps.join(", "));
        return ExitCode::FAILURE;
    }
    println!("differential: {} cases agree", options.cases);
    ExitCode::SUCCESS
}

/// The sweep, then the cases; a mismatch is told with the case it came in.
fn compare_all(options: &Options, coverage: &mut Coverage) -> Result<(), String> {
    let mut bench = Bench {
        random: Random::of_case(options.seed, u64::MAX),
        coverage,
    };
    if options.first == 0 {
        let count =
            sweep::sweep(&mut bench).map_err(|mismatch| format!("sweep\n{}", mismatch.0))?;
        println!("sweep: {count} calls agree");
    }
    for case in options.first..options.first + options.cases {
        if options.progress {
            eprintln!("case {case}");
        }
        bench.random = Random::of_case(options.seed, case);
        cases::case(&mut bench).map_err(|mismatch| format!("case {case}\n{}", mismatch.0))?;
    }
    Ok(())
}

/// `None` if they are not as `USAGE` says.
fn options(mut words: impl Iterator<Item = String>) -> Option<Options> {
    let (mut seed, mut first, mut cases) = (None, 0, None);
    let (mut long, mut progress) = (false, false);
    while let Some(word) = words.next() {
        match word.as_str() {
            "--seed" => seed = Some(words.next()?.parse().ok()?),
            "--first" => first = words.next()?.parse().ok()?,
            "--cases" => cases = Some(words.next()?.parse().ok()?),
            "--long" => long = true,
            "--progress" => progress = true,
            _ => return None,
        }
    }
    let (usual_seed, usual_cases) = match long {
        true => (seed_of_clock(), LONG_CASES),
        false => (DEFAULT_SEED, DEFAULT_CASES),
    };
    Some(Options {
        seed: seed.unwrap_or(usual_seed),
        first,
        cases: cases.unwrap_or(usual_cases),
        progress,
    })
}

fn seed_of_clock() -> u64 {
    let since = SystemTime::now().duration_since(UNIX_EPOCH);
    since.map_or(DEFAULT_SEED, |since| since.as_nanos() as u64)
}
