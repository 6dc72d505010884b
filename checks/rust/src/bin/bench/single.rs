//! One engine call for each word or port write: by value, and for words also on the caller's own record.

use std::hint::black_box;

use reference::engine::Engine;
use reference::geometry::{Buffers, MOST_POLYGONS, MOST_VERTICES};
use reference::refusal::Refusal;
use reference::words::{pairs, words};

use crate::inputs::Sample;
use crate::lent::{engine, Lent};
use crate::{library, row};

pub fn time(sample: &Sample) {
    let list: Vec<u32> = words(&sample.list).collect();
    time_words(sample.name, "word", &list, |list, buffers| {
        let mut engine = engine();
        for &word in list {
            engine.word(word, buffers).expect("the word is taken");
        }
        engine
    });
    time_in_place(sample.name, &list);
    time_words(sample.name, "word, moved", &list, |list, buffers| {
        let mut engine = engine();
        for &word in list {
            let (after, done) = moved(engine, word, buffers);
            done.expect("the word is taken");
            engine = after;
        }
        engine
    });
    time_writes(sample);
}

/// One word with the engine moved into the call and out of it.
#[inline(never)]
fn moved(mut engine: Engine, word: u32, buffers: &mut Buffers) -> (Engine, Result<(), Refusal>) {
    let done = engine.word(word, buffers);
    (engine, done)
}

fn time_words(kind: &str, what: &str, list: &[u32], reference: impl Fn(&[u32], &mut Buffers) -> Engine) {
    let (mut given, mut expected) = (Lent::new(), Lent::new());
    row(
        kind,
        what,
        list.len(),
        || {
            let mut record = library::start(MOST_VERTICES, MOST_POLYGONS).engine;
            for &word in black_box(list) {
                record = library::word(record, word, &mut given.buffers()).engine;
            }
            black_box(record);
        },
        || _ = black_box(reference(black_box(list), &mut expected.buffers())),
    );
    assert!(given == expected, "both buffers hold the same");
}

fn time_in_place(kind: &str, list: &[u32]) {
    let (mut given, mut expected) = (Lent::new(), Lent::new());
    row(
        kind,
        "word in place",
        list.len(),
        || {
            let mut record = library::start(MOST_VERTICES, MOST_POLYGONS).engine;
            for &word in black_box(list) {
                let answer = library::word_in_place(&mut record, word, &mut given.buffers());
                assert_eq!(answer.number, 0, "the word is taken");
            }
            black_box(record);
        },
        || {
            let (mut engine, mut buffers) = (engine(), expected.buffers());
            for &word in black_box(list) {
                engine.word(word, &mut buffers).expect("the word is taken");
            }
            black_box(engine);
        },
    );
    assert!(given == expected, "both buffers hold the same");
}

fn time_writes(sample: &Sample) {
    let (mut given, mut expected) = (Lent::new(), Lent::new());
    let log: Vec<(u32, u32)> = pairs(&sample.log).collect();
    row(
        sample.name,
        "write",
        log.len(),
        || {
            let mut record = library::start(MOST_VERTICES, MOST_POLYGONS).engine;
            for &(address, value) in black_box(&log) {
                record = library::write(record, address, value, &mut given.buffers()).engine;
            }
            black_box(record);
        },
        || {
            let (mut engine, mut buffers) = (engine(), expected.buffers());
            for &(address, value) in black_box(&log) {
                engine.write(address, value, &mut buffers).expect("the write is taken");
            }
            black_box(engine);
        },
    );
    assert!(given == expected, "both buffers hold the same");
}
