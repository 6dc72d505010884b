//! Cases of the packer and the unpacker: the answer and every byte of the output.

use reference::pack::pack;
use reference::refusal::Refused;
use reference::table::{command_at, parameters};
use reference::unpack::{unpack, MOST_PAIRS};
use reference::words::{to_bytes, MOST_WORDS};

use crate::generate::{self, THEMES};
use crate::library::{self, Answer};
use crate::random::Random;
use crate::tally::{Call, Tally};

type Reference = fn(&[u8], &mut [u8]) -> Result<usize, Refused>;
type Library = fn(&[u8], &mut [u8]) -> Answer;

/// A log, whole or damaged.
pub fn pack_case(random: &mut Random, tally: &mut Tally) -> Result<(), String> {
    let mut words = random_log(random);
    if random.flag() {
        generate::damage_log(random, &mut words);
    }
    let log = generate::input_bytes(random, &words);
    let number = compare(random, &log, pack, library::pack, 4 * MOST_WORDS).map_err(|text| format!("pack {text}"))?;
    tally.count(Call::Pack, number);
    Ok(())
}

/// A list, whole or damaged.
pub fn unpack_case(random: &mut Random, tally: &mut Tally) -> Result<(), String> {
    let mut words = random_list(random);
    if random.flag() {
        generate::damage_list(random, &mut words);
    }
    let list = generate::input_bytes(random, &words);
    let number =
        compare(random, &list, unpack, library::unpack, 8 * MOST_PAIRS).map_err(|text| format!("unpack {text}"))?;
    tally.count(Call::Unpack, number);
    Ok(())
}

/// A log or a list as long as can be, or a little longer.
pub fn long_case(random: &mut Random, tally: &mut Tally) -> Result<(), String> {
    let length = MOST_WORDS + random.pick(&[0, 0, 0, 1, 2]);
    let theme = random.pick(&THEMES);
    if random.flag() {
        let log = to_bytes(&generate::long(random, theme, generate::log, length));
        let number = compare(random, &log, pack, library::pack, 4 * MOST_WORDS)?;
        tally.count(Call::Pack, number);
    } else {
        let list = to_bytes(&generate::long(random, theme, generate::list, length));
        let number = compare(random, &list, unpack, library::unpack, 8 * MOST_PAIRS)?;
        tally.count(Call::Unpack, number);
    }
    Ok(())
}

/// unpack(pack(log)) is the log, with 0 at ports without parameters.
pub fn round_trip_case(random: &mut Random, tally: &mut Tally) -> Result<(), String> {
    let words = random_log(random);
    let log = to_bytes(&words);
    if log.len() > 4 * MOST_WORDS {
        return Ok(());
    }
    let mut list = vec![0; 4 * MOST_WORDS];
    let packed = library::pack(&log, &mut list);
    tally.count(Call::Pack, packed.number);
    let mut back = vec![0; 8 * MOST_PAIRS];
    let unpacked = library::unpack(&list[..4 * packed.length as usize], &mut back);
    tally.count(Call::Unpack, unpacked.number);
    let expected: Vec<u32> = words.chunks_exact(2).flat_map(|pair| [pair[0], value_back(pair[0], pair[1])]).collect();
    if packed.number != 0 || unpacked.number != 0 || back[..log.len()] != to_bytes(&expected) {
        return Err(format!("round trip\nlog {}\npack {packed:?}\nunpack {unpacked:?}", hex(&log)));
    }
    Ok(())
}

/// The value that the unpacker gives for a write.
fn value_back(address: u32, value: u32) -> u32 {
    match command_at(address).and_then(parameters) {
        Some(0) => 0,
        _ => value,
    }
}

pub fn random_log(random: &mut Random) -> Vec<u32> {
    let (theme, size) = (random.pick(&THEMES), generate::size(random));
    let commands = generate::commands(random, theme, size);
    generate::log(random, &commands)
}

pub fn random_list(random: &mut Random) -> Vec<u32> {
    let (theme, size) = (random.pick(&THEMES), generate::size(random));
    let commands = generate::commands(random, theme, size);
    generate::list(random, &commands)
}

/// Runs both on the same input and on outputs with the same random bytes; the number that both answered. Input and
/// output stand at any address, the output between bytes that no call may touch.
fn compare(
    random: &mut Random,
    input: &[u8],
    reference: Reference,
    library: Library,
    most: usize,
) -> Result<u32, String> {
    let needed = reference(input, &mut vec![0; most]).map_or(0, |length| 4 * length);
    let size = output_size(random, needed);
    let (before, after) = (random.between(4, 7), 8);
    let mut expected = random.bytes(before + size + after);
    let mut given = expected.clone();
    let answer = match reference(input, &mut expected[before..before + size]) {
        Ok(length) => Answer { number: 0, place: 0, length: length as u32 },
        Err(refused) => Answer { number: refused.refusal.number(), place: refused.place as u32, length: 0 },
    };
    let shifted = [&vec![0; random.below(4)], input].concat();
    let answered = library(&shifted[shifted.len() - input.len()..], &mut given[before..before + size]);
    if answered != answer || given != expected {
        let different = given.iter().zip(&expected).position(|(one, other)| one != other);
        let different = different.map(|place| place as isize - before as isize);
        return Err(format!(
            "input {}\noutput of {size} bytes, the first that differs: {different:?}\n\
             reference {answer:?}\nlibrary   {answered:?}",
            hex(input),
        ));
    }
    Ok(answer.number)
}

/// The size of an output: mostly enough, at times exactly so, too short, or not whole words.
fn output_size(random: &mut Random, needed: usize) -> usize {
    match random.below(12) {
        0 => needed.saturating_sub(4),
        1 => 4 * random.below(needed / 4 + 1),
        2 => needed + random.between(1, 7),
        3 => needed.saturating_sub(random.between(1, 3)),
        4..=7 => needed,
        _ => needed + 4 * random.between(1, 8),
    }
}

pub fn hex(bytes: &[u8]) -> String {
    bytes.iter().map(|byte| format!("{byte:02x}")).collect()
}
