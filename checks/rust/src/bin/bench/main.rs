//! Times the compiled library and the reference in one run, on the same inputs, in one thread.

mod feeding;
mod inputs;
mod lent;
mod single;

// `compare` uses more of these two.
#[allow(dead_code)]
#[path = "../compare/library.rs"]
mod library;
#[allow(dead_code)]
#[path = "../compare/random.rs"]
mod random;

use std::hint::black_box;
use std::time::{Duration, Instant};

use reference::words::MOST_WORDS;

use inputs::Sample;

/// Each time is the best of so many rounds.
const ROUNDS: usize = 40;

/// A round goes on for about as long as this.
const ROUND: Duration = Duration::from_millis(2);

fn main() {
    println!("Nanoseconds a word, for writes a port write; the best of {ROUNDS} rounds; release builds, one thread.");
    println!("pack, unpack: 4,096 port writes and their packed list, bytes to bytes; outputs are not cleared.");
    println!("word, write: the library's call by value for each, against the reference's engine in place.");
    println!("word in place: the library's call on the caller's own record for each, against the same.");
    println!("word, moved: as word, against the reference's engine moved into each call and out of it.");
    println!("  For these four every turn starts an engine; the buffers are not cleared. The library's calls test the");
    println!("  record that they are given; the reference's engine is sound by its type.");
    println!("feed words: a whole list in one call, nauvelppi_words; feed writes: a whole log, probe_feed_writes.");
    println!("  Every turn starts an engine; the buffers are not cleared. The library is given words and an engine's");
    println!("  record, and answers with one; the reference reads bytes.\n");
    println!("{:<18}{:<16}{:>10}{:>10}{:>8}", "kind", "what", "library", "reference", "ratio");
    for sample in inputs::samples() {
        time_pack(&sample);
        time_unpack(&sample);
        single::time(&sample);
        feeding::time(&sample);
    }
    for sample in inputs::alone() {
        feeding::time(&sample);
    }
}

/// Times both in turn, so that what else the machine does falls on both, and prints a line.
fn row(kind: &str, what: &str, words: usize, mut library: impl FnMut(), mut reference: impl FnMut()) {
    let (mut best_library, mut best_reference) = (f64::MAX, f64::MAX);
    for _ in 0..ROUNDS {
        best_library = best_library.min(round(&mut library));
        best_reference = best_reference.min(round(&mut reference));
    }
    let (library, reference) = (best_library / words as f64, best_reference / words as f64);
    println!("{kind:<18}{what:<16}{library:>10.2}{reference:>10.2}{:>8.2}", library / reference);
}

/// The nanoseconds of one turn in this round.
fn round(turn: &mut impl FnMut()) -> f64 {
    let start = Instant::now();
    let mut turns = 0_u32;
    while start.elapsed() < ROUND {
        turn();
        turns += 1;
    }
    start.elapsed().as_nanos() as f64 / f64::from(turns)
}

fn time_pack(sample: &Sample) {
    let (mut output, mut reference_output) = (vec![0; 4 * MOST_WORDS], vec![0; 4 * MOST_WORDS]);
    row(
        sample.name,
        "pack",
        sample.log.len() / 4,
        || _ = black_box(library::pack(black_box(&sample.log), &mut output)),
        || _ = black_box(reference::pack::pack(black_box(&sample.log), &mut reference_output)),
    );
    assert_eq!(output, reference_output, "both pack to the same words");
}

fn time_unpack(sample: &Sample) {
    let (mut output, mut reference_output) = (vec![0; 4 * MOST_WORDS], vec![0; 4 * MOST_WORDS]);
    row(
        sample.name,
        "unpack",
        sample.list.len() / 4,
        || _ = black_box(library::unpack(black_box(&sample.list), &mut output)),
        || _ = black_box(reference::unpack::unpack(black_box(&sample.list), &mut reference_output)),
    );
    assert_eq!(output, reference_output, "both unpack to the same writes");
}
