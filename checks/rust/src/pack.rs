//! The packer, from bytes to bytes (document 01, Packer and unpacker).

use crate::refusal::{Refusal, Refused};
use crate::table::{command_at, parameters};
use crate::words::{check_log, pairs, MOST_WORDS};

/// Packs a log to a list; the answer is its length in words. The output past that is left, and a refused call leaves
/// it whole. 7 (an output that is not whole words too), then the first bad pair (5 before 6), 8, 9, 10.
pub fn pack(log: &[u8], output: &mut [u8]) -> Result<usize, Refused> {
    check_log(log)?;
    if output.len() % 4 != 0 {
        return Err(Refusal::Size.into());
    }
    let length = packed_length(log)?;
    if length > MOST_WORDS {
        return Err(Refusal::LongList.into());
    }
    let output = output.get_mut(..4 * length).ok_or(Refusal::ShortOutput)?;
    write(log, output);
    Ok(length)
}

/// The number of words that a log packs to: its parameters, its command words, and a dummy for each command word
/// whose last command takes none. Not inlined, since it is slower in `pack`.
#[inline(never)]
fn packed_length(log: &[u8]) -> Result<usize, Refused> {
    let (mut length, mut commands) = (0, 0_usize);
    let mut no_parameter = false;
    let mut addresses = pairs(log).map(|(address, _)| address).enumerate();
    while let Some((begin, address)) = addresses.next() {
        let taken = command_at(address).and_then(parameters).ok_or(Refusal::Address.at(begin))?;
        // All the writes of a command go to one port.
        for _ in 1..taken {
            let (place, other) = addresses.next().ok_or(Refusal::Unfinished.at(begin))?;
            if other != address {
                return Err(command_at(other).map_or(Refusal::Address, |_| Refusal::OtherPort).at(place));
            }
        }
        if commands % 4 == 0 {
            length += 1 + usize::from(no_parameter);
        }
        length += taken;
        commands += 1;
        no_parameter = taken == 0;
    }
    Ok(length + usize::from(no_parameter))
}

/// Writes the list of a log that packs; the output has its length.
fn write(log: &[u8], output: &mut [u8]) {
    let mut pairs = pairs(log);
    let mut words = output.chunks_exact_mut(4);
    let mut next = || words.next().expect("the output has the list's length");
    let mut begin = pairs.next();
    while begin.is_some() {
        let head = next();
        let mut commands = [0; 4];
        let mut no_parameter = false;
        for command in &mut commands {
            let Some((address, value)) = begin else { break };
            *command = command_at(address).unwrap_or(0);
            let taken = parameters(*command).unwrap_or(0);
            no_parameter = taken == 0;
            if !no_parameter {
                next().copy_from_slice(&value.to_le_bytes());
            }
            for (_, value) in pairs.by_ref().take(taken.saturating_sub(1)) {
                next().copy_from_slice(&value.to_le_bytes());
            }
            begin = pairs.next();
        }
        head.copy_from_slice(&commands);
        if no_parameter {
            next().fill(0);
        }
    }
}
