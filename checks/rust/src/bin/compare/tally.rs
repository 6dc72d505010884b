//! How often each refusal number was seen, for each kind of call.

use std::fmt::{self, Display};

/// The highest number.
const MOST: usize = 11;

/// Number 9 can never fall: no log of 8,192 words packs to more than 8,192.
const NEVER: usize = 9;

/// The numbers that have to be seen.
const DEMANDED: [usize; 10] = [1, 2, 3, 4, 5, 6, 7, 8, 10, 11];

/// The numbers that have to be seen of these calls.
const DEMANDED_OF: [(Call, &[usize]); 2] = [(Call::List, &[0, 1, 2, 3, 4]), (Call::Whole, &[0, 3, 4])];

/// `List` and `Log` are one call each, also with a piece of one; `Whole` is a list that was fed in three ways.
#[derive(Clone, Copy, Debug)]
pub enum Call {
    Start,
    Word,
    InPlace,
    Write,
    List,
    Log,
    Whole,
    Read,
    Clear,
    Pack,
    Unpack,
    Program,
}

const NAMES: [&str; 12] =
    ["start", "word", "in place", "port write", "list", "log", "whole", "read", "clear", "pack", "unpack", "program"];

/// Number 0 stands for an accepted call.
#[derive(Default)]
pub struct Tally {
    seen: [[u64; MOST + 1]; NAMES.len()],
}

impl Tally {
    pub fn count(&mut self, call: Call, number: u32) {
        self.seen[call as usize][number as usize] += 1;
    }

    fn total(&self, number: usize) -> u64 {
        self.seen.iter().map(|numbers| numbers[number]).sum()
    }

    /// Every number that can fall was seen, and 9 was not.
    pub fn check(&self) -> Result<(), String> {
        if let Some(number) = DEMANDED.iter().find(|&&number| self.total(number) == 0) {
            return Err(format!("number {number} was never seen"));
        }
        for (call, numbers) in DEMANDED_OF {
            let (name, seen) = (NAMES[call as usize], &self.seen[call as usize]);
            if let Some(number) = numbers.iter().find(|&&number| seen[number] == 0) {
                return Err(format!("{name}: number {number} was never seen"));
            }
        }
        if self.total(NEVER) > 0 {
            return Err(format!("number {NEVER} was seen, which can never fall"));
        }
        Ok(())
    }
}

impl Display for Tally {
    fn fmt(&self, out: &mut fmt::Formatter) -> fmt::Result {
        write!(out, "{:<10}", "number")?;
        for number in 0..=MOST {
            write!(out, "{number:>9}")?;
        }
        for (name, numbers) in NAMES.iter().zip(&self.seen) {
            write!(out, "\n{name:<10}")?;
            for count in numbers {
                write!(out, "{count:>9}")?;
            }
        }
        write!(out, "\nnumber {NEVER} was {}", if self.total(NEVER) == 0 { "never seen" } else { "SEEN" })
    }
}
