//! Fixed cases at the ends of the ranges: products whose exact sum passes 64 bits, negative sums that are rounded down,
//! fields of words, sums kept to 16 bits.

use reference::matrix::{Matrix, ONE, UNIT};
use reference::record::{Core, Counts};

use crate::generate::{self, Command};
use crate::random::Random;
use crate::records;
use crate::tally::Tally;
use crate::twin::{word_calls, write_calls, Call, Lent, Twin};

const LEAST: i32 = i32::MIN;
const LARGEST: i32 = i32::MAX;

const MIXED: Matrix = [ONE, -1, 77777, 0, 1, LEAST, LARGEST, 4095, -4097, 12345, -99, 8192, LARGEST, LEAST, -1, ONE];

const MATRICES: [Matrix; 6] = [UNIT, [1; 16], [-1; 16], [LEAST; 16], [LARGEST; 16], MIXED];

/// At the ends of 32 bits, and around 0 and 1.0.
const NUMBERS: [i32; 9] = [LEAST, LEAST + 1, -4097, -1, 0, 1, 4095, LARGEST - 1, LARGEST];

/// Their fields of 10 and of 16 bits are at the ends of their ranges, or mixed.
const WORDS: [u32; 8] = [0, 0x200, 0x7FFF_8000, 0x8000_7FFF, 0x1FF7_FDFF, 0xAAAA_5555, 0xDEAD_BEEF, 0xFFFF_FFFF];

/// Coordinates, and what 28h can add to them.
const COORDINATES: [i32; 5] = [-32768, -1, 0, 1, 32767];
const STEPS: [i32; 5] = [-512, -1, 0, 1, 511];

/// The unit matrix, multiplied by the mixed one 100 times, in integers that have no width.
const MIXED_100_TIMES: Matrix = [
    -1806879783,
    1446029131,
    -1698323582,
    2064473223,
    -528350977,
    748298096,
    651778167,
    -1739811405,
    -1850706439,
    -1615006884,
    -1771835244,
    -389009814,
    -619210534,
    -2079152359,
    1783428470,
    -539067469,
];

type Case = Vec<Command>;

/// Runs all of them; how many there are.
pub fn run(tally: &mut Tally) -> Result<usize, String> {
    let cases = [multiplies(), scales_and_translations(), clips(), fields(), sums()].concat();
    for case in &cases {
        end(case, tally)?;
    }
    let equal = [known_products(), full_matrices()].concat();
    for [one, other] in &equal {
        if end(one, tally)? != end(other, tally)? {
            return Err(format!("not the same end\n{one:?}\n{other:?}"));
        }
    }
    Ok(cases.len() + 2 * equal.len())
}

/// Gives the commands of a case to fresh engines: as words by value and in place, as port writes, and as a list and a
/// log in one call. Each is compared whole. The core of the library's record at the end.
fn end(case: &[Command], tally: &mut Tally) -> Result<Core, String> {
    // How the list is packed, and what the buffers hold before.
    let random = &mut Random::new(0, 0);
    let (list, log) = (generate::list(random, case), generate::log(random, case));
    let rooms = Counts { vertices: 3, polygons: 1 };
    let lent = Lent::for_rooms(random, rooms);
    let fresh = || Twin::new(records::fresh(rooms), lent.clone());
    let in_place = list.iter().map(|&word| Call::InPlace(word)).collect();
    for calls in [word_calls(&list), in_place, write_calls(&log)] {
        fresh().feed(&calls, tally)?;
    }
    let mut in_one_call = |of_log: bool, words: &[u32]| {
        let mut twin = fresh();
        if twin.piece(of_log, words, tally)?.number != 0 {
            return Err(twin.report("a fixed case is refused"));
        }
        twin.read(tally)?;
        Ok(twin.record.meaning().core)
    };
    in_one_call(false, &list)?;
    in_one_call(true, &log)
}

/// 18h, 19h and 1Ah, and the load 17h, with and on each matrix in each mode.
fn multiplies() -> Vec<Case> {
    let mut cases = Vec::new();
    for mode in 0..4 {
        for (m, current) in pairs() {
            for (code, taken) in [(0x17, 12), (0x18, 16), (0x19, 12), (0x1A, 9)] {
                cases.push(vec![mode_of(mode), load(&current), command(code, &m[..taken])]);
            }
        }
    }
    cases
}

/// 1Bh and 1Ch with each number on each matrix in each mode.
fn scales_and_translations() -> Vec<Case> {
    let mut cases = Vec::new();
    for mode in 0..4 {
        for current in MATRICES {
            for by in triples() {
                cases.push(vec![mode_of(mode), load(&current), command(0x1B, &by)]);
                cases.push(vec![mode_of(mode), load(&current), command(0x1C, &by)]);
            }
        }
    }
    cases
}

/// The clip matrix of each position and projection matrix, read without and after a triangle of extreme vertices.
fn clips() -> Vec<Case> {
    let open = [command(0x20, &[0x7FFF]), command(0x40, &[0])];
    let triangle = [vertex(-32768, 32767, -1), vertex(-32768, -32768, -32768), vertex(32767, 32767, 32767)];
    let cases = |(position, projection): (Matrix, Matrix)| {
        let matrices = vec![mode_of(0), load(&projection), mode_of(1), load(&position)];
        [matrices.clone(), [&matrices[..], &open, &triangle].concat()]
    };
    pairs().flat_map(cases).collect()
}

/// Each of 24h to 28h with each word, after 23h with any two.
fn fields() -> Vec<Case> {
    let mut cases = Vec::new();
    for first in WORDS {
        for second in WORDS {
            for code in 0x24..=0x28 {
                let begin = command(0x23, &[first as i32, second as i32]);
                cases.push(vec![begin, command(code, &[second as i32])]);
            }
        }
    }
    cases
}

/// Each step from each coordinate.
fn sums() -> Vec<Case> {
    let case = |n: i32, step: i32| {
        let field = step & 0x3FF;
        vec![vertex(n, n, n), command(0x28, &[field | field << 10 | field << 20])]
    };
    COORDINATES.iter().flat_map(|&n| STEPS.map(|step| case(n, step))).collect()
}

/// Products, and the load of what they are. Where all numbers of each side are the same: by hand from the sums
/// 2^64, 2^64 - 2^34 + 4, -2^64 + 2^33 and -4.
fn known_products() -> Vec<[Case; 2]> {
    let same = [(LEAST, LEAST, 0), (LARGEST, LARGEST, -(1 << 22)), (LEAST, LARGEST, 1 << 21), (1, -1, -1)];
    let case = |(m, current, product): (i32, i32, i32)| {
        [vec![mode_of(1), load(&[current; 16]), command(0x18, &[m; 16])], vec![mode_of(1), load(&[product; 16])]]
    };
    let mut cases: Vec<[Case; 2]> = same.map(case).into();
    let multiplied = vec![command(0x18, &MIXED); 100];
    cases.push([[vec![mode_of(1)], multiplied].concat(), vec![mode_of(1), load(&MIXED_100_TIMES)]]);
    cases
}

/// Scales and translations, and the multiplies by the full matrix.
fn full_matrices() -> Vec<[Case; 2]> {
    let mut cases = Vec::new();
    for current in MATRICES {
        for [x, y, z] in triples() {
            let scaling = [x, 0, 0, 0, 0, y, 0, 0, 0, 0, z, 0, 0, 0, 0, ONE];
            let moving = [ONE, 0, 0, 0, 0, ONE, 0, 0, 0, 0, ONE, 0, x, y, z, ONE];
            for (code, full) in [(0x1B, scaling), (0x1C, moving)] {
                let ways = [command(code, &[x, y, z]), command(0x18, &full)];
                cases.push(ways.map(|last| vec![mode_of(1), load(&current), last]));
            }
        }
    }
    cases
}

/// Each two of the matrices.
fn pairs() -> impl Iterator<Item = (Matrix, Matrix)> {
    MATRICES.into_iter().flat_map(|one| MATRICES.map(|other| (one, other)))
}

/// Each number three times, and three that differ.
fn triples() -> impl Iterator<Item = [i32; 3]> {
    NUMBERS.into_iter().map(|number| [number; 3]).chain([[LEAST, LARGEST, -1]])
}

fn command(code: u8, numbers: &[i32]) -> Command {
    Command { code, parameters: numbers.iter().map(|&number| number as u32).collect() }
}

fn mode_of(mode: i32) -> Command {
    command(0x10, &[mode])
}

fn load(matrix: &Matrix) -> Command {
    command(0x16, matrix)
}

/// 23h with these coordinates.
fn vertex(x: i32, y: i32, z: i32) -> Command {
    command(0x23, &[x & 0xFFFF | y << 16, z])
}
