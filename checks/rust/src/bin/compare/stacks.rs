//! Fixed cases of the stack commands: each with each number, in each mode and at each level, where no error is yet.

use std::iter::once;

use reference::record::Record;
use reference::table::port;
use reference::transform::{LEVELS, SLOTS};

use crate::random::Random;
use crate::records;
use crate::tally::Tally;
use crate::twin::{Call, Lent, Twin};

/// Runs all of them; how many there are.
pub fn run(tally: &mut Tally) -> Result<usize, String> {
    // What the matrices, the slots and the buffers hold.
    let random = &mut Random::new(0, 0);
    let mut cases = 0;
    for mode in 0..4 {
        for level in 0..LEVELS {
            let record = record(random, mode, level);
            let lent = Lent::for_rooms(random, record.core.registers.geometry.rooms);
            for (code, number) in commands() {
                Twin::new(record, lent.clone()).feed(&[Call::Write(port(code), number)], tally)?;
                cases += 1;
            }
        }
    }
    Ok(cases)
}

/// Push, pop with each N, store and restore with each slot.
fn commands() -> impl Iterator<Item = (u8, u32)> {
    let each = |code, numbers| (0..numbers as u32).map(move |number| (code, number));
    once((0x11, 0)).chain(each(0x12, LEVELS)).chain(each(0x13, SLOTS)).chain(each(0x14, SLOTS))
}

/// S at this level, the other two levels its lowest bit.
fn record(random: &mut Random, mode: u32, level: usize) -> Record {
    let mut record = records::sound(random, false);
    let transform = &mut record.core.registers.transform;
    transform.mode = mode;
    transform.error = false;
    transform.pair.level = level;
    transform.projection.level = level % 2;
    transform.texture.level = level % 2;
    record
}
