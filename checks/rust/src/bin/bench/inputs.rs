//! The logs that are timed: 4,096 port writes each, and their packed lists.

use reference::pack::pack;
use reference::table::{known, parameters, port};
use reference::words::{to_bytes, MOST_WORDS};

use crate::random::Random;

/// The port writes of a log of 8,192 words.
const WRITES: usize = MOST_WORDS / 2;

/// A kind of log: its name, the commands that it begins with, and those that it repeats in turn.
struct Kind {
    name: &'static str,
    first: &'static [(u8, u32)],
    repeated: &'static [u8],
}

/// 40h opens a triangle strip with 2; 10h selects position and vector with 2.
const KINDS: [Kind; 6] = [
    Kind { name: "every command", first: &[], repeated: &[] },
    Kind { name: "coloured strips", first: &[(0x10, 2), (0x40, 2)], repeated: &[0x20, 0x23, 0x20, 0x24] },
    Kind {
        name: "matrices, stacks",
        first: &[(0x10, 2)],
        repeated: &[0x11, 0x17, 0x1C, 0x1B, 0x13, 0x18, 0x14, 0x1A, 0x15, 0x19, 0x12],
    },
    Kind { name: "34h only", first: &[], repeated: &[0x34] },
    Kind { name: "no parameters", first: &[], repeated: &[0x11, 0x15, 0x41] },
    Kind { name: "many parameters", first: &[(0x10, 1)], repeated: &[0x34, 0x16, 0x18, 0x17, 0x70] },
];

/// Commands that multiply, each alone: on the position matrix, and vertices in a triangle strip.
const ALONE: [Kind; 6] = [
    Kind { name: "18h only", first: &[(0x10, 1)], repeated: &[0x18] },
    Kind { name: "19h only", first: &[(0x10, 1)], repeated: &[0x19] },
    Kind { name: "1Ah only", first: &[(0x10, 1)], repeated: &[0x1A] },
    Kind { name: "1Bh only", first: &[(0x10, 1)], repeated: &[0x1B] },
    Kind { name: "1Ch only", first: &[(0x10, 1)], repeated: &[0x1C] },
    Kind { name: "24h only", first: &[(0x40, 2)], repeated: &[0x24] },
];

/// A log and its packed list, as bytes.
pub struct Sample {
    pub name: &'static str,
    pub log: Vec<u8>,
    pub list: Vec<u8>,
}

pub fn samples() -> Vec<Sample> {
    samples_of(&KINDS)
}

pub fn alone() -> Vec<Sample> {
    samples_of(&ALONE)
}

fn samples_of(kinds: &[Kind]) -> Vec<Sample> {
    kinds.iter().enumerate().map(|(k, kind)| sample(kind, &mut Random::new(1, k as u64))).collect()
}

fn sample(kind: &Kind, random: &mut Random) -> Sample {
    let all: Vec<u8> = known().collect();
    let repeated = if kind.repeated.is_empty() { &all } else { kind.repeated };
    let mut words = Vec::new();
    for &(command, value) in kind.first {
        words.extend([port(command), value]);
    }
    for &command in repeated.iter().cycle() {
        let left = WRITES - words.len() / 2;
        let taken = parameters(command).unwrap_or(0).max(1);
        if taken > left {
            break;
        }
        words.extend((0..taken).flat_map(|_| [port(command), random.word()]));
    }
    // What is left is too short for the next command: colours fill it.
    while words.len() < MOST_WORDS {
        words.extend([port(0x20), random.word()]);
    }
    let log = to_bytes(&words);
    let mut list = vec![0; 4 * MOST_WORDS];
    let length = pack(&log, &mut list).expect("the log is whole");
    list.truncate(4 * length);
    Sample { name: kind.name, log, list }
}
