//! Cases of the engine calls: after every call number, place and record; both buffers entirely on a refusal and at
//! the end, and there also what can be read. Of a piece of a list or a log that is fed in one call: number, place, how
//! many were taken, record, both buffers.

use reference::engine::Engine;
use reference::geometry::{MOST_POLYGONS, MOST_VERTICES};
use reference::record::{Counts, Record};
use reference::refusal::Refusal;
use reference::table::port;
use reference::words::{to_bytes, words, MOST_WORDS};

use crate::generate;
use crate::library::{self, EngineAnswer};
use crate::lists::{random_list, random_log};
use crate::random::Random;
use crate::records::{self, FAULTS};
use crate::tally::{self, Tally};
use crate::twin::{different_lines, partly_in_place, word_calls, write_calls, Call, Flag, Lent, Twin};

/// A start on both sides; the rooms in range or not.
pub fn start_case(random: &mut Random, tally: &mut Tally) -> Result<(), String> {
    let room = |random: &mut Random, most: usize| match random.below(4) {
        0 => random.pick(&[0, 1, 2, most - 1, most, most + 1, usize::MAX, 1 << 32, (1 << 32) + 1]),
        1 => random.word() as usize,
        _ => random.between(1, most),
    };
    let (vertices, polygons) = (room(random, MOST_VERTICES), room(random, MOST_POLYGONS));
    let number = start(vertices, polygons)?.number;
    tally.count(tally::Call::Start, number);
    Ok(())
}

/// The library's start, compared with the reference. A refused one gives the fresh engine with rooms 1 and 1.
fn start(vertices: usize, polygons: usize) -> Result<EngineAnswer, String> {
    let (number, expected) = match Engine::start(vertices, polygons) {
        Ok(engine) => (0, Record::from(&engine)),
        Err(refusal) => (refusal.number(), records::fresh(Counts { vertices: 1, polygons: 1 })),
    };
    let answer = library::start(vertices, polygons);
    let given = answer.engine.meaning();
    if (answer.number, answer.place) != (number, 0) || given != expected.meaning() {
        return Err(format!(
            "start {vertices} {polygons}: reference {number} 0, library {} {}\n{}",
            answer.number,
            answer.place,
            different_lines(&expected, &given)
        ));
    }
    Ok(answer)
}

/// An engine that was just started, or one with a sound record.
pub fn twin(random: &mut Random, begun: bool) -> Result<Twin, String> {
    let record = if random.flag() {
        let rooms = records::rooms(random);
        start(rooms.vertices, rooms.polygons)?.engine
    } else {
        records::sound(random, begun)
    };
    let lent = Lent::for_rooms(random, record.core.registers.geometry.rooms);
    Ok(Twin::new(record, lent))
}

/// A list fed word by word, by value and in place, whole or damaged.
pub fn words_case(random: &mut Random, tally: &mut Tally) -> Result<(), String> {
    let mut list = random_list(random);
    if random.one_in(3) {
        generate::damage_list(random, &mut list);
    }
    let calls = partly_in_place(random, word_calls(&list));
    twin(random, true)?.feed(&calls, tally)
}

/// A log written pair by pair, whole or damaged.
pub fn writes_case(random: &mut Random, tally: &mut Tally) -> Result<(), String> {
    let mut log = random_log(random);
    if random.one_in(3) {
        generate::damage_log(random, &mut log);
    }
    twin(random, true)?.feed(&write_calls(&log), tally)
}

/// Words and port writes mixed: pieces of a list and of a log in turn, each also ending inside a command.
pub fn mixture_case(random: &mut Random, tally: &mut Tally) -> Result<(), String> {
    let (list, log) = (random_list(random), random_log(random));
    let (list, log) = (word_calls(&list), write_calls(&log));
    let (mut list, mut log) = (list.as_slice(), log.as_slice());
    let mut twin = twin(random, true)?;
    while !list.is_empty() || !log.is_empty() {
        let side = if random.flag() { &mut list } else { &mut log };
        let (piece, rest) = side.split_at(random.between(0, 8).min(side.len()));
        twin.feed(piece, tally)?;
        *side = rest;
    }
    Ok(())
}

/// A list or a log in pieces, also ending inside a command; after each a flag is cleared, and all is read again.
pub fn clears_case(random: &mut Random, tally: &mut Tally) -> Result<(), String> {
    let calls = if random.flag() { word_calls(&random_list(random)) } else { write_calls(&random_log(random)) };
    let mut twin = twin(random, true)?;
    let mut calls = calls.as_slice();
    while !calls.is_empty() {
        let (piece, rest) = calls.split_at(random.between(1, 24).min(calls.len()));
        twin.feed(piece, tally)?;
        twin.clear(random.pick(&[Flag::Error, Flag::Overflow]), tally)?;
        twin.read(tally)?;
        calls = rest;
    }
    Ok(())
}

/// Pieces of a list and of a log, whole or damaged, each fed in one call; they begin and end also inside a command.
pub fn pieces_case(random: &mut Random, tally: &mut Tally) -> Result<(), String> {
    let (mut list, mut log) = (random_list(random), random_log(random));
    if random.one_in(3) {
        generate::damage_list(random, &mut list);
    }
    if random.one_in(3) {
        generate::damage_log(random, &mut log);
    }
    let (mut list, mut log) = (list.as_slice(), log.as_slice());
    let begun = random.one_in(3);
    let mut twin = twin(random, begun)?;
    while !list.is_empty() || !log.is_empty() {
        let of_log = list.is_empty() || !log.is_empty() && random.flag();
        let (side, other) = if of_log { (&mut log, list) } else { (&mut list, log) };
        let size = piece_size(random).min(side.len());
        let number = twin.piece(of_log, &side[..size], tally)?.number;
        // The piece comes again where the other side has to end its command first.
        if number != Refusal::Pending.number() || other.is_empty() {
            // An address without its value is no write yet.
            *side = &side[if of_log { size & !1 } else { size }..];
        }
    }
    Ok(())
}

/// The words of a piece: mostly few, at times all that are left.
pub fn piece_size(random: &mut Random) -> usize {
    match random.below(12) {
        0 => usize::MAX,
        1 => random.below(2),
        2..=4 => random.between(2, 60),
        _ => random.between(2, 10),
    }
}

/// Any call, most likely refused.
fn any_call(random: &mut Random) -> Call {
    match random.below(6) {
        0 => Call::Word(random.word()),
        1 => Call::Word(u32::from(generate::known_byte(random))),
        2 => Call::InPlace(random.word()),
        3 => Call::InPlace(u32::from(generate::known_byte(random))),
        4 => Call::Write(generate::wrong_address(random), generate::number(random)),
        _ => Call::Write(port(generate::known_byte(random)), generate::number(random)),
    }
}

/// Three calls and three pieces, with and without items, on an engine that refuses each; then reads and clears.
fn refuses(random: &mut Random, mut twin: Twin, tally: &mut Tally) -> Result<(), String> {
    for _ in 0..3 {
        twin.call(any_call(random), tally)?;
    }
    for log in [false, true, random.flag()] {
        let words: Vec<u32> = (0..random.below(3)).flat_map(|_| any_words(random)).collect();
        let size = words.len() - random.below(2).min(words.len());
        twin.piece(log, &words[..size], tally)?;
    }
    for flag in [Flag::Error, Flag::Overflow] {
        twin.read(tally)?;
        twin.clear(flag, tally)?;
    }
    twin.compare_buffers()
}

/// A call's numbers as two words.
fn any_words(random: &mut Random) -> [u32; 2] {
    match any_call(random) {
        Call::Word(word) | Call::InPlace(word) => [word, random.word()],
        Call::Write(address, value) => [address, value],
    }
}

/// A record with one fault, or two, refused with 1 whatever the buffers and the call are.
pub fn unsound_case(random: &mut Random, tally: &mut Tally) -> Result<(), String> {
    let mut record = records::sound(random, true);
    let lent = match random.below(4) {
        0 => Lent::new(random, 0, 0),
        _ => Lent::for_rooms(random, record.core.registers.geometry.rooms),
    };
    for _ in 0..random.pick(&[1, 1, 1, 2]) {
        random.pick(&FAULTS)(random, &mut record);
    }
    refuses(random, Twin::new(record, lent), tally)
}

/// Buffers shorter than their rooms, refused with 2 whatever the call is.
pub fn short_case(random: &mut Random, tally: &mut Tally) -> Result<(), String> {
    let record = records::sound(random, true);
    let rooms = record.core.registers.geometry.rooms;
    let (vertices, polygons) = (5 * rooms.vertices, 3 * rooms.polygons);
    let mut less = |numbers: usize| if random.flag() { numbers - 1 } else { random.below(numbers) };
    let short = (less(vertices), less(polygons));
    let (vertices, polygons) = random.pick(&[short, (short.0, polygons), (vertices, short.1)]);
    let lent = Lent::new(random, vertices, polygons);
    refuses(random, Twin::new(record, lent), tally)
}

/// Demand 3: a log that packs, written on one engine, and its packed words, fed to equal ones word by word and in one
/// call, give equal ends.
pub fn demand_3_case(random: &mut Random, tally: &mut Tally) -> Result<(), String> {
    let log = random_log(random);
    let mut list = vec![0; 4 * MOST_WORDS];
    let packed = library::pack(&to_bytes(&log), &mut list);
    if packed.number != 0 {
        return Ok(());
    }
    let packed: Vec<u32> = words(&list[..4 * packed.length as usize]).collect();
    let mut writes = twin(random, false)?;
    let (mut fed, mut whole) = (writes.equal(), writes.equal());
    for (side, calls) in [(&mut writes, write_calls(&log)), (&mut fed, word_calls(&packed))] {
        for call in calls {
            if side.call(call, tally)? != 0 {
                return Err(side.report("demand 3: a call was refused"));
            }
        }
        side.compare_buffers()?;
        let stream = side.record.meaning().stream;
        if stream.queue != 0 || stream.dummy || stream.port != 0 {
            return Err(side.report("demand 3: a command is begun at the end"));
        }
    }
    if whole.piece(false, &packed, tally)?.number != 0 {
        return Err(whole.report("demand 3: the packed list was refused"));
    }
    for end in [fed, whole] {
        if !end.ends_as(&writes) {
            return Err(end.report("demand 3: the packed words give another end than the port writes"));
        }
    }
    Ok(())
}
