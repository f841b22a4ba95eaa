//! A plain second codec, written from the format's description, beside the codec's C interface, on random cases.
//!
//!   harness [short|full] [SEED]   all groups, from that seed on
//!   harness GROUP SEED            one case again
//!
//! A line for each group; at the first difference it says what differs, and the seed of that case.

use harness::groups::{GROUPS, Group, Tally};
use harness::random::Random;
use std::env;
use std::panic::{AssertUnwindSafe, catch_unwind};
use std::process::ExitCode;
use std::time::Instant;

const USAGE: &str = "usage: harness [short|full] [SEED], or harness GROUP SEED";

// Runs one case; a panic is a difference too, since the plain code checks its arithmetic.
fn run_case(group: &Group, seed: u64, tally: &mut Tally) -> Result<(), String> {
    catch_unwind(AssertUnwindSafe(|| {
        (group.run)(&mut Random::new(seed), tally)
    }))
    .unwrap_or_else(|_| Err("panicked".to_string()))
    .map_err(|difference| format!("{0}: {difference}\nagain: harness {0} {seed}", group.name))
}

// Runs the cases of a group with the seeds from `first` on.
fn run(group: &Group, first: u64, cases: u64) -> Result<(), String> {
    let began = Instant::now();
    let mut tally = Tally::default();
    for seed in first..first + cases {
        run_case(group, seed, &mut tally)?;
    }
    println!(
        "{}: {cases} cases: {} ({:.1} s)",
        group.name,
        tally.summary(),
        began.elapsed().as_secs_f64()
    );
    Ok(())
}

fn run_all(full: bool, first: u64) -> Result<(), String> {
    for group in &GROUPS {
        run(group, first, if full { group.full } else { group.short })?;
    }
    Ok(())
}

fn run_words(words: &[&str]) -> Result<(), String> {
    let seed = |word: &str| word.parse().map_err(|_| USAGE.to_string());
    match words {
        [] | ["full"] => run_all(true, 1),
        ["short"] => run_all(false, 1),
        ["full", first] => run_all(true, seed(first)?),
        ["short", first] => run_all(false, seed(first)?),
        [name, case] => {
            let group = GROUPS
                .iter()
                .find(|group| group.name == *name)
                .ok_or(USAGE)?;
            run(group, seed(case)?, 1)
        }
        _ => Err(USAGE.to_string()),
    }
}

fn main() -> ExitCode {
    let words: Vec<String> = env::args().skip(1).collect();
    let words: Vec<&str> = words.iter().map(String::as_str).collect();
    match run_words(&words) {
        Ok(()) => ExitCode::SUCCESS,
        Err(message) => {
            eprintln!("{message}");
            ExitCode::FAILURE
        }
    }
}
