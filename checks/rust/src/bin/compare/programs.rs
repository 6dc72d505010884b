//! Cases of the programs `pack` and `unpack`: each runs as a process, and its whole output is compared with the report.

use std::io::Write;
use std::path::Path;
use std::process::{Command, Stdio};
use std::thread;

use reference::report::{pack_report, unpack_report};
use reference::words::{to_bytes, MOST_WORDS};

use crate::generate::{self, THEMES};
use crate::lists::{hex, random_list, random_log};
use crate::random::Random;
use crate::tally::{Call, Tally};

/// `pack` on a log or `unpack` on a list, whole or damaged.
pub fn program_case(random: &mut Random, tally: &mut Tally) -> Result<(), String> {
    if random.flag() {
        let input = log_input(random);
        compare("pack", &[], &input, &pack_report(&input), tally)
    } else {
        let input = list_input(random);
        compare("unpack", &[], &input, &unpack_report(&input), tally)
    }
}

pub fn log_input(random: &mut Random) -> Vec<u8> {
    let mut words = if random.one_in(8) { long(random, generate::log) } else { random_log(random) };
    if random.flag() {
        generate::damage_log(random, &mut words);
    }
    program_bytes(random, &words)
}

pub fn list_input(random: &mut Random) -> Vec<u8> {
    let mut words = if random.one_in(8) { long(random, generate::list) } else { random_list(random) };
    if random.flag() {
        generate::damage_list(random, &mut words);
    }
    program_bytes(random, &words)
}

/// A long input; the last command may be cut.
fn long(random: &mut Random, make: fn(&mut Random, &[generate::Command]) -> Vec<u32>) -> Vec<u32> {
    let (theme, length) = (random.pick(&THEMES), 2 * random.between(1000, MOST_WORDS / 2));
    generate::long(random, theme, make, length)
}

/// Programs see more of the inputs that are not whole words or too long.
fn program_bytes(random: &mut Random, words: &[u32]) -> Vec<u8> {
    let mut bytes = generate::input_bytes(random, words);
    let few = random.between(1, 9);
    match random.below(20) {
        0 => bytes.extend(random.bytes(few)),
        1 => bytes.extend(to_bytes(&vec![0; random.between(MOST_WORDS - 1, MOST_WORDS + 3)])),
        2 => bytes.clear(),
        _ => {}
    }
    bytes
}

/// Runs a program and compares what it prints.
pub fn compare(name: &str, arguments: &[&str], input: &[u8], expected: &str, tally: &mut Tally) -> Result<(), String> {
    let printed = run(name, arguments, input)
        .map_err(|error| format!("program {name} {arguments:?}: {error}\ninput {}", hex(input)))?;
    if printed != expected.as_bytes() {
        let printed = String::from_utf8_lossy(&printed);
        return Err(format!(
            "program {name} {arguments:?}\ninput {}\n--- reference\n{expected}--- program\n{printed}",
            hex(input)
        ));
    }
    tally.count(Call::Program, refused_number(expected));
    Ok(())
}

/// The number on the line that says a refusal, 0 without one.
fn refused_number(report: &str) -> u32 {
    let line = report.lines().find_map(|line| line.strip_prefix("refused "));
    line.and_then(|rest| rest.split(' ').next()?.parse().ok()).unwrap_or(0)
}

/// What the program prints on standard output for this standard input; an error where a signal ended it.
fn run(name: &str, arguments: &[&str], input: &[u8]) -> std::io::Result<Vec<u8>> {
    let program = Path::new(env!("CARGO_MANIFEST_DIR")).join("../../target/bin").join(name);
    let mut child = Command::new(program).args(arguments).stdin(Stdio::piped()).stdout(Stdio::piped()).spawn()?;
    let mut stdin = child.stdin.take().expect("standard input is a pipe");
    let output = thread::scope(|scope| {
        // A program may end before it has read all of a long input: then the rest is not written.
        scope.spawn(move || drop(stdin.write_all(input)));
        child.wait_with_output()
    })?;
    match output.status.code() {
        Some(_) => Ok(output.stdout),
        None => Err(std::io::Error::other(output.status.to_string())),
    }
}
