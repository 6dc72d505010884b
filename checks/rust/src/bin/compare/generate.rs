//! Random inputs: commands, the logs and lists that they make, and damage to those.

use reference::table::{is_known, known, parameters, port};
use reference::words::{to_bytes, MOST_WORDS};

use crate::random::Random;

/// A known command with its parameters.
#[derive(Clone, Debug)]
pub struct Command {
    pub code: u8,
    pub parameters: Vec<u32>,
}

/// What the commands of a case are mostly about.
#[derive(Clone, Copy, Debug)]
pub enum Theme {
    /// Any of the 37 commands.
    Any,
    /// Each of the 37 commands at least once.
    Every,
    Matrices,
    /// Push, pop, store and restore near the ends of the stacks.
    Stacks,
    Vertices,
    /// Long triangle and quad strips.
    Strips,
    NoParameters,
}

pub const THEMES: [Theme; 7] =
    [Theme::Any, Theme::Every, Theme::Matrices, Theme::Stacks, Theme::Vertices, Theme::Strips, Theme::NoParameters];

const MATRICES: [u8; 12] = [0x10, 0x15, 0x16, 0x17, 0x18, 0x19, 0x1A, 0x1B, 0x1C, 0x24, 0x40, 0x14];
const STACKS: [u8; 12] = [0x10, 0x11, 0x11, 0x11, 0x12, 0x12, 0x13, 0x14, 0x14, 0x15, 0x1C, 0x17];
const VERTICES: [u8; 16] =
    [0x20, 0x23, 0x24, 0x25, 0x26, 0x27, 0x28, 0x23, 0x24, 0x28, 0x29, 0x40, 0x41, 0x50, 0x1B, 0x10];
const STRIPS: [u8; 16] =
    [0x20, 0x23, 0x24, 0x25, 0x26, 0x27, 0x28, 0x23, 0x24, 0x25, 0x26, 0x27, 0x28, 0x28, 0x41, 0x29];
const NO_PARAMETERS: [u8; 3] = [0x11, 0x15, 0x41];

/// So many commands, for `Theme::Every` at least all 37.
pub fn commands(random: &mut Random, theme: Theme, count: usize) -> Vec<Command> {
    let all: Vec<u8> = known().collect();
    let mut codes: Vec<u8> = match theme {
        Theme::Any | Theme::Every => (0..count).map(|_| random.pick(&all)).collect(),
        Theme::Matrices => (0..count).map(|_| random.pick(&MATRICES)).collect(),
        Theme::Stacks => (0..count).map(|_| random.pick(&STACKS)).collect(),
        Theme::Vertices => (0..count).map(|_| random.pick(&VERTICES)).collect(),
        Theme::Strips => (0..count).map(|_| random.pick(&STRIPS)).collect(),
        Theme::NoParameters => (0..count).map(|_| random.pick(&NO_PARAMETERS)).collect(),
    };
    match theme {
        Theme::Every => {
            codes.extend(all);
            random.shuffle(&mut codes);
        }
        Theme::Vertices | Theme::Strips => codes.insert(0, 0x40),
        _ => {}
    }
    codes.into_iter().map(|code| command(random, theme, code)).collect()
}

/// A command with random parameters.
fn command(random: &mut Random, theme: Theme, code: u8) -> Command {
    let taken = parameters(code).unwrap_or(0);
    let mut values: Vec<u32> = (0..taken).map(|_| number(random)).collect();
    if random.one_in(8) {
        // Sums of the largest products, which pass 64 bits.
        values.fill(random.pick(&[0x7FFF_FFFF, 0x8000_0000, 0x8000_0001]));
    }
    match (code, theme) {
        // Mostly the modes with the long stack, and the numbers at its ends.
        (0x10, Theme::Stacks) => values[0] = values[0] & !3 | random.pick(&[1, 2, 1, 2, 1, 2, 0, 3]),
        (0x12, Theme::Stacks) => values[0] = values[0] & !63 | random.pick(&[0, 1, 1, 2, 63, 62, 31, 30, 32, 33, 34]),
        (0x13 | 0x14, Theme::Stacks) => values[0] = values[0] & !31 | random.pick(&[0, 1, 15, 29, 30, 31]),
        (0x40, Theme::Strips) => values[0] |= 2,
        _ => {}
    }
    Command { code, parameters: values }
}

/// A number: an extreme one, a small one, one near 1.0, any.
pub fn number(random: &mut Random) -> u32 {
    const EXTREMES: [u32; 10] =
        [0x7FFF_FFFF, 0x8000_0000, 0, 1, 0xFFFF_FFFF, 4096, 0xFFFF_F000, 4095, 0x8000_0001, 0x0000_8000];
    match random.below(5) {
        0 => random.pick(&EXTREMES),
        1 => (random.below(129) as u32).wrapping_sub(64),
        2 => (random.below(32769) as u32).wrapping_sub(16384),
        _ => random.word(),
    }
}

/// A byte that is no command.
pub fn unknown_byte(random: &mut Random) -> u8 {
    loop {
        let byte = if random.flag() { 0 } else { random.byte() };
        if !is_known(byte) {
            return byte;
        }
    }
}

/// Words of so many commands that they fill this length; the last command may be cut.
pub fn long(
    random: &mut Random,
    theme: Theme,
    make: fn(&mut Random, &[Command]) -> Vec<u32>,
    length: usize,
) -> Vec<u32> {
    let mut words = Vec::new();
    while words.len() < length {
        let commands = commands(random, theme, 400);
        words.extend(make(random, &commands));
    }
    words.truncate(length);
    words
}

/// The log of the commands: address and value for each port write.
pub fn log(random: &mut Random, commands: &[Command]) -> Vec<u32> {
    let mut words = Vec::new();
    for command in commands {
        if command.parameters.is_empty() {
            words.extend([port(command.code), number(random)]);
        }
        words.extend(command.parameters.iter().flat_map(|&value| [port(command.code), value]));
    }
    words
}

/// A list of the commands: one to four to a command word, unknown bytes above them, words without commands between.
pub fn list(random: &mut Random, commands: &[Command]) -> Vec<u32> {
    let mut words = Vec::new();
    let mut rest = commands;
    while !rest.is_empty() {
        if random.one_in(12) {
            words.push(u32::from_le_bytes(std::array::from_fn(|_| unknown_byte(random))));
        }
        let count = if random.flag() { 4 } else { random.between(1, 4) };
        let (group, others) = rest.split_at(count.min(rest.len()));
        rest = others;
        words.push(command_word(random, group));
        words.extend(group.iter().flat_map(|command| &command.parameters));
        if group.last().is_some_and(|command| command.parameters.is_empty()) {
            words.push(random.word());
        }
    }
    words
}

fn command_word(random: &mut Random, group: &[Command]) -> u32 {
    u32::from_le_bytes(std::array::from_fn(|k| match group.get(k) {
        Some(command) => command.code,
        None => unknown_byte(random),
    }))
}

/// Damages a list: bytes and words changed, put in, taken out; or it is cut.
pub fn damage_list(random: &mut Random, words: &mut Vec<u32>) {
    for _ in 0..random.between(1, 3) {
        if words.is_empty() {
            return;
        }
        let place = random.below(words.len());
        match random.below(6) {
            0 => words[place] ^= 0xFF << (8 * random.below(4)),
            1 => words[place] ^= u32::from(random.byte()) << (8 * random.below(4)),
            2 => words[place] &= !(0xFF << (8 * random.below(4))),
            3 => words.insert(place, random.word()),
            4 => drop(words.remove(place)),
            _ => words.truncate(place),
        }
    }
}

/// Damages a log: wrong addresses, other ports inside a command, pairs put in and taken out; or it is cut.
pub fn damage_log(random: &mut Random, words: &mut Vec<u32>) {
    for _ in 0..random.between(1, 2) {
        let pairs = words.len() / 2;
        if pairs == 0 {
            return;
        }
        let place = 2 * random.below(pairs);
        match random.below(6) {
            0 => words[place] = wrong_address(random),
            1 => words[place] = port(known_byte(random)),
            2 => words.splice(place..place, [port(known_byte(random)), random.word()]).for_each(drop),
            3 => words.drain(place..place + 2).for_each(drop),
            4 => words[place] ^= 1 << random.below(32),
            _ => words.truncate(place),
        }
    }
}

pub fn known_byte(random: &mut Random) -> u8 {
    let all: Vec<u8> = known().collect();
    random.pick(&all)
}

/// An address that is mostly no command's port.
pub fn wrong_address(random: &mut Random) -> u32 {
    let near = port(random.byte());
    match random.below(6) {
        0 => near,
        1 => near + random.between(1, 3) as u32,
        2 => near.wrapping_add(0x400),
        3 => near & 0x00FF_FFFF,
        4 => near ^ (1 << random.below(32)),
        _ => random.word(),
    }
}

/// Words as bytes, at times with a byte or three more or less, or with so many words that it is too long.
pub fn input_bytes(random: &mut Random, words: &[u32]) -> Vec<u8> {
    let mut bytes = to_bytes(words);
    let few = random.between(1, 4);
    match random.below(200) {
        0..=3 => bytes.truncate(bytes.len().saturating_sub(few)),
        4..=7 => bytes.extend(random.bytes(few)),
        8 => bytes.resize(4 * (MOST_WORDS + few), 0),
        9 => bytes.resize(4 * MOST_WORDS, 0),
        _ => {}
    }
    bytes
}

/// The number of commands of a case: mostly few.
pub fn size(random: &mut Random) -> usize {
    match random.below(40) {
        0 => random.between(0, 400),
        1..=8 => random.between(0, 60),
        _ => random.between(0, 12),
    }
}
