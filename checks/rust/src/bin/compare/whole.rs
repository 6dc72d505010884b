//! Whole lists (document 02, T-01): in one call, in pieces and word by word they give one end.

use reference::words::MOST_WORDS;

use crate::engines::{piece_size, twin};
use crate::generate::{self, THEMES};
use crate::lists::random_list;
use crate::random::Random;
use crate::tally::{self, Tally};
use crate::twin::{partly_in_place, word_calls, Fed, Twin};

/// A list, whole or damaged, in these three ways from equal records and buffers, each up to a refusal.
pub fn whole_case(random: &mut Random, tally: &mut Tally) -> Result<(), String> {
    let list = list(random);
    let begun = random.one_in(4);
    let mut whole = twin(random, begun)?;
    let (mut pieces, mut single) = (whole.equal(), whole.equal());
    let fed = whole.piece(false, &list, tally)?;
    let others = [
        ("in pieces", in_pieces(random, &mut pieces, &list, tally)?, pieces),
        ("word by word", word_by_word(random, &mut single, &list, tally)?, single),
    ];
    for (way, other, end) in others {
        if other != fed {
            return Err(end.report(&format!("{way} {other:?}, in one call {fed:?}")));
        }
        if !end.ends_as(&whole) {
            return Err(end.report(&format!("{way} another end than in one call")));
        }
    }
    tally.count(tally::Call::Whole, fed.number);
    Ok(())
}

/// A list, whole or damaged, at times longer than the packer and the unpacker take.
fn list(random: &mut Random) -> Vec<u32> {
    let mut list = if random.one_in(200) { long_list(random) } else { random_list(random) };
    if random.flag() {
        generate::damage_list(random, &mut list);
    }
    list
}

/// Words of 0, or of commands of which the last may be cut.
fn long_list(random: &mut Random) -> Vec<u32> {
    let length = MOST_WORDS + random.between(1, 2000);
    if random.one_in(3) {
        return vec![0; length];
    }
    let theme = random.pick(&THEMES);
    generate::long(random, theme, generate::list, length)
}

/// Feeds a list in pieces until one is refused; what they answer as one list.
fn in_pieces(random: &mut Random, twin: &mut Twin, list: &[u32], tally: &mut Tally) -> Result<Fed, String> {
    let mut before = 0;
    loop {
        let rest = &list[before..];
        let piece = &rest[..piece_size(random).min(rest.len())];
        let fed = twin.piece(false, piece, tally)?;
        let taken = before + fed.taken;
        if fed.number != 0 {
            return Ok(Fed { number: fed.number, place: before + fed.place, taken });
        }
        if taken == list.len() {
            return Ok(Fed { number: 0, place: 0, taken });
        }
        before = taken;
    }
}

/// Feeds a list word by word, by value and in place, until one is refused; what they answer as one list.
fn word_by_word(random: &mut Random, twin: &mut Twin, list: &[u32], tally: &mut Tally) -> Result<Fed, String> {
    for (place, call) in partly_in_place(random, word_calls(list)).into_iter().enumerate() {
        let number = twin.call(call, tally)?;
        if number != 0 {
            return Ok(Fed { number, place, taken: place });
        }
    }
    twin.compare_buffers()?;
    Ok(Fed { number: 0, place: 0, taken: list.len() })
}
