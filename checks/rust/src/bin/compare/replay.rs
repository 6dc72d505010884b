//! Cases of the program `replay`.

use reference::geometry::{MOST_POLYGONS, MOST_VERTICES};
use reference::report::{replay_report, Input};

use crate::programs::{compare, list_input, log_input};
use crate::random::Random;
use crate::tally::Tally;

/// `replay` on a list or a log, with its own rooms or with given ones, at times out of range, or with no arguments.
pub fn replay_case(random: &mut Random, tally: &mut Tally) -> Result<(), String> {
    if random.one_in(40) {
        let first: &[&str] = random.pick(&[&[], &["lists"], &["Log"], &[""], &["word"]]);
        return compare("replay", first, &[], "usage: replay list|log [VERTICES POLYGONS]\n", tally);
    }
    let kind = random.pick(&[Input::List, Input::Log]);
    let (name, input) = match kind {
        Input::List => ("list", list_input(random)),
        Input::Log => ("log", log_input(random)),
    };
    let mut arguments = vec![name.to_owned()];
    let mut rooms = (MOST_VERTICES, MOST_POLYGONS);
    if random.flag() {
        rooms = (room(random, MOST_VERTICES), room(random, MOST_POLYGONS));
        arguments.extend([rooms.0.to_string(), rooms.1.to_string()]);
    }
    let arguments: Vec<&str> = arguments.iter().map(String::as_str).collect();
    compare("replay", &arguments, &input, &replay_report(kind, rooms, &input), tally)
}

/// A room, mostly small, at times out of range.
fn room(random: &mut Random, most: usize) -> usize {
    match random.below(16) {
        0 => random.pick(&[0, most + 1, 4_294_967_295, 4_294_967_297, 9_999_999_999]),
        1 => most,
        2 => random.between(1, most),
        _ => random.between(1, 20),
    }
}
