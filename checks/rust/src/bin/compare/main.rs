//! Compares the compiled library and programs with the reference, first on fixed cases, then on random ones.
//!
//! `compare [CASES [SEED]]`: the same numbers give the same random cases.

mod engines;
mod extremes;
mod generate;
mod library;
mod lists;
mod programs;
mod random;
mod records;
mod replay;
mod stacks;
mod tally;
mod twin;
mod whole;

use std::panic::{catch_unwind, AssertUnwindSafe};
use std::process::ExitCode;

use random::Random;
use tally::Tally;

const CASES: u64 = 300_000;
const SEED: u64 = 1;

type Case = fn(&mut Random, &mut Tally) -> Result<(), String>;

/// The kinds of cases, and how many of a thousand are of each.
const KINDS: &[(&str, usize, Case)] = &[
    ("pack", 160, lists::pack_case),
    ("unpack", 160, lists::unpack_case),
    ("long", 6, lists::long_case),
    ("round trip", 44, lists::round_trip_case),
    ("program", 3, programs::program_case),
    ("replay", 3, replay::replay_case),
    ("start", 20, engines::start_case),
    ("words", 140, engines::words_case),
    ("writes", 94, engines::writes_case),
    ("mixture", 70, engines::mixture_case),
    ("pieces", 60, engines::pieces_case),
    ("whole lists", 50, whole::whole_case),
    ("clears", 40, engines::clears_case),
    ("unsound", 75, engines::unsound_case),
    ("short buffers", 30, engines::short_case),
    ("demand 3", 45, engines::demand_3_case),
];

fn main() -> ExitCode {
    let mut arguments = std::env::args().skip(1).map(|argument| argument.parse::<u64>());
    let (Ok(cases), Ok(seed)) = (arguments.next().unwrap_or(Ok(CASES)), arguments.next().unwrap_or(Ok(SEED))) else {
        println!("usage: compare [CASES [SEED]]");
        return ExitCode::FAILURE;
    };
    let mut tally = Tally::default();
    let fixed = match fixed_cases(&mut tally) {
        Ok(count) => count,
        Err(text) => {
            println!("fixed: {text}");
            return ExitCode::FAILURE;
        }
    };
    for case in 0..cases {
        let mut random = Random::new(seed, case);
        let (name, run) = kind(&mut random);
        // A panic is a difference too, and its case is to be known.
        let outcome = catch_unwind(AssertUnwindSafe(|| run(&mut random, &mut tally)));
        if let Err(text) = outcome.unwrap_or_else(|_| Err("panic".to_owned())) {
            println!("seed {seed}, case {case}, {name}: {text}");
            return ExitCode::FAILURE;
        }
    }
    println!("{tally}");
    if let Err(text) = tally.check() {
        println!("compare: {text}");
        return ExitCode::FAILURE;
    }
    println!("compare: {fixed} fixed and {cases} random cases agree");
    ExitCode::SUCCESS
}

/// Runs the fixed cases; how many there are.
fn fixed_cases(tally: &mut Tally) -> Result<usize, String> {
    Ok(extremes::run(tally)? + stacks::run(tally)?)
}

/// The kind of a case, by the shares of the kinds.
fn kind(random: &mut Random) -> (&'static str, Case) {
    let total = KINDS.iter().map(|(_, share, _)| share).sum();
    let mut place = random.below(total);
    for &(name, share, case) in KINDS {
        if place < share {
            return (name, case);
        }
        place -= share;
    }
    unreachable!("the shares sum up to the total")
}
