//! Little-endian words in byte slices.

use crate::refusal::Refusal;

/// The words that a list or a log has at most.
pub const MOST_WORDS: usize = 8192;

/// The words of a slice; bytes past the last whole word are left out.
#[inline]
pub fn words(bytes: &[u8]) -> impl ExactSizeIterator<Item = u32> + '_ {
    bytes.chunks_exact(4).map(word)
}

/// The pairs of a log, address and value.
#[inline]
pub fn pairs(log: &[u8]) -> impl ExactSizeIterator<Item = (u32, u32)> + '_ {
    log.chunks_exact(8).map(|pair| (word(&pair[..4]), word(&pair[4..])))
}

/// A slice of four bytes as a word.
#[inline]
fn word(bytes: &[u8]) -> u32 {
    u32::from_le_bytes([bytes[0], bytes[1], bytes[2], bytes[3]])
}

/// Whole words, and no more than a list may have (number 7).
pub fn check_list(list: &[u8]) -> Result<(), Refusal> {
    if list.len() % 4 != 0 || list.len() / 4 > MOST_WORDS {
        return Err(Refusal::Size);
    }
    Ok(())
}

/// Whole pairs, and no more words than a log may have (number 7).
pub fn check_log(log: &[u8]) -> Result<(), Refusal> {
    if log.len() % 8 != 0 || log.len() / 4 > MOST_WORDS {
        return Err(Refusal::Size);
    }
    Ok(())
}

/// Words as bytes.
pub fn to_bytes(words: &[u32]) -> Vec<u8> {
    words.iter().flat_map(|word| word.to_le_bytes()).collect()
}
