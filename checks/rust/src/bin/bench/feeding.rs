//! Whole lists and logs, each in one call: the product's list call, and the port writes of its library `probe`.

use std::hint::black_box;

use reference::geometry::{Buffers, MOST_POLYGONS, MOST_VERTICES};
use reference::record::Record;
use reference::words::words;

use crate::inputs::Sample;
use crate::lent::{engine, Lent};
use crate::library::{self, ListAnswer};
use crate::row;

type Feed = fn(Record, &[u32], &mut Buffers) -> ListAnswer;

/// How many words of a list, or port writes of a log, the library takes on an engine that it starts.
fn fed(feed: Feed, words: &[u32], lent: &mut Lent) -> usize {
    let record = library::start(MOST_VERTICES, MOST_POLYGONS).engine;
    black_box(feed(record, words, &mut lent.buffers())).taken
}

pub fn time(sample: &Sample) {
    let (list, log): (Vec<u32>, Vec<u32>) = (words(&sample.list).collect(), words(&sample.log).collect());
    let (mut given, mut expected) = (Lent::new(), Lent::new());
    row(
        sample.name,
        "feed words",
        list.len(),
        || assert_eq!(fed(library::words, black_box(&list), &mut given), list.len()),
        || {
            let (taken, _) = engine().feed_words(black_box(&sample.list), &mut expected.buffers());
            assert_eq!(taken, list.len());
        },
    );
    row(
        sample.name,
        "feed writes",
        log.len() / 2,
        || assert_eq!(fed(library::writes, black_box(&log), &mut given), log.len() / 2),
        || {
            let (taken, _) = engine().feed_writes(black_box(&sample.log), &mut expected.buffers());
            assert_eq!(taken, log.len() / 2);
        },
    );
    assert!(given == expected, "both buffers hold the same");
}
