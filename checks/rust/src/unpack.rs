//! The unpacker, from bytes to bytes (document 01, Packer and unpacker).

use crate::refusal::{Refusal, Refused};
use crate::table::{parameters, port};
use crate::words::{check_list, words};

/// The pairs that a list gives at most: four of each command word, each followed by a dummy.
pub const MOST_PAIRS: usize = 16384;

/// Unpacks a list to a log, value 0 for commands without parameters; the answer is its length in words. The output
/// past that is left, and a refused call leaves it whole. 7 (an output that is not whole words too), the first 3,
/// 8, 10.
pub fn unpack(list: &[u8], output: &mut [u8]) -> Result<usize, Refused> {
    check_list(list)?;
    if output.len() % 4 != 0 {
        return Err(Refusal::Size.into());
    }
    let length = 2 * count_pairs(list)?;
    let output = output.get_mut(..4 * length).ok_or(Refusal::ShortOutput)?;
    write(list, output);
    Ok(length)
}

/// The number of pairs that a list unpacks to.
fn count_pairs(list: &[u8]) -> Result<usize, Refused> {
    let (mut place, mut pairs) = (0, 0);
    while 4 * place < list.len() {
        let mut next = place + 1;
        let (mut no_parameter, mut ended) = (false, false);
        for &byte in &list[4 * place..4 * place + 4] {
            match parameters(byte) {
                Some(_) if ended => return Err(Refusal::Hole.at(place)),
                Some(taken) => {
                    next += taken;
                    pairs += taken.max(1);
                    no_parameter = taken == 0;
                }
                None => ended = true,
            }
        }
        next += usize::from(no_parameter);
        if 4 * next > list.len() {
            return Err(Refusal::Unfinished.at(place));
        }
        place = next;
    }
    Ok(pairs)
}

/// Writes the log of a list that unpacks; the output has its length.
fn write(list: &[u8], output: &mut [u8]) {
    let mut words = words(list);
    let mut pairs = output.chunks_exact_mut(8);
    let mut put = |command: u8, value: u32| {
        if let Some(pair) = pairs.next() {
            pair[..4].copy_from_slice(&port(command).to_le_bytes());
            pair[4..].copy_from_slice(&value.to_le_bytes());
        }
    };
    while let Some(word) = words.next() {
        let mut no_parameter = false;
        for (command, taken) in queued(word) {
            no_parameter = taken == 0;
            if no_parameter {
                put(command, 0);
            }
            words.by_ref().take(taken).for_each(|value| put(command, value));
        }
        if no_parameter {
            words.next();
        }
    }
}

/// The commands of a command word without a hole, each with its number of parameters.
#[inline]
fn queued(word: u32) -> impl Iterator<Item = (u8, usize)> {
    word.to_le_bytes().into_iter().map_while(|command| Some((command, parameters(command)?)))
}
