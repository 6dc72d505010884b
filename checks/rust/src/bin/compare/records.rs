//! Random engine records, sound and not.

use reference::engine::Engine;
use reference::geometry::{Vertex, MOST_POLYGONS, MOST_VERTICES};
use reference::matrix::{Matrix, UNIT};
use reference::record::{Coordinates, Counts, Record, Stream};
use reference::table::{known, parameters};

use crate::generate::{known_byte, number, unknown_byte};
use crate::random::Random;

/// Rooms in their range, mostly small, so that they run full.
pub fn rooms(random: &mut Random) -> Counts {
    match random.below(40) {
        0 => Counts { vertices: MOST_VERTICES, polygons: MOST_POLYGONS },
        1 => Counts { vertices: random.between(1, MOST_VERTICES), polygons: random.between(1, MOST_POLYGONS) },
        2..=9 => Counts { vertices: random.between(1, 60), polygons: random.between(1, 30) },
        _ => Counts { vertices: random.between(1, 16), polygons: random.between(1, 6) },
    }
}

/// The fresh record with these rooms.
pub fn fresh(rooms: Counts) -> Record {
    let engine = Engine::start(rooms.vertices, rooms.polygons).expect("rooms in range");
    Record::from(&engine)
}

/// A sound record; with `begun` perhaps one with a command begun. The free cells hold anything.
pub fn sound(random: &mut Random, begun: bool) -> Record {
    let mut record = fresh(rooms(random));
    fill_transform(random, &mut record);
    fill_geometry(random, &mut record);
    record.stream = if begun { stream(random) } else { nothing_begun(random) };
    record
}

fn fill_transform(random: &mut Random, record: &mut Record) {
    let transform = &mut record.core.registers.transform;
    transform.pair.position = matrix(random);
    transform.pair.vector = matrix(random);
    transform.pair.level = random.pick(&[0, 1, 2, 15, 29, 30, 31, 32, 33, 47, 61, 62, 63]);
    for single in [&mut transform.projection, &mut transform.texture] {
        single.matrix = matrix(random);
        single.slot = matrix(random);
        single.level = random.below(2);
    }
    transform.mode = random.below(4) as u32;
    transform.error = random.flag();
    let stacks = &mut record.core.stacks;
    stacks.positions.iter_mut().chain(&mut stacks.vectors).for_each(|entry| *entry = random.word() as i32);
}

fn matrix(random: &mut Random) -> Matrix {
    match random.below(4) {
        0 => UNIT,
        1 => [random.pick(&[i32::MIN, i32::MAX, 0]); 16],
        _ => std::array::from_fn(|_| number(random) as i32),
    }
}

fn fill_geometry(random: &mut Random, record: &mut Record) {
    let geometry = &mut record.core.registers.geometry;
    geometry.colour = random.word() & 0x7FFF;
    geometry.given = random.word();
    geometry.attributes = random.word();
    let mut half = || number(random) as i16;
    geometry.position = Coordinates { x: half(), y: half(), z: half() };
    geometry.used.vertices = used(random, geometry.rooms.vertices);
    geometry.used.polygons = used(random, geometry.rooms.polygons);
    geometry.overflow = random.flag();
    let waiting = &mut geometry.waiting;
    waiting.list = random.below(6) as u32;
    waiting.count = random.below(corners(waiting.list).max(1));
    let count = waiting.count;
    for (k, vertex) in [&mut waiting.first, &mut waiting.second, &mut waiting.third].into_iter().enumerate() {
        *vertex = std::array::from_fn(|_| number(random) as i32);
        if k < count {
            vertex[4] &= 0x7FFF;
        }
    }
}

/// The vertices that a polygon of the list needs; 0 in a closed list and in one that is none.
fn corners(list: u32) -> usize {
    match list {
        1 | 3 | 4 => 3,
        2 | 5 => 4,
        _ => 0,
    }
}

/// A used count: none, nearly all, any.
fn used(random: &mut Random, room: usize) -> usize {
    match random.below(3) {
        0 => 0,
        1 => room - random.below(room.min(6) + 1),
        _ => random.between(0, room),
    }
}

/// A stream with nothing begun.
fn nothing_begun(random: &mut Random) -> Stream {
    let queue = u32::from_le_bytes(std::array::from_fn(|_| unknown_byte(random)));
    Stream { queue, held: std::array::from_fn(|_| random.word()), count: 0, dummy: false, port: 0 }
}

/// A sound stream: nothing begun, a queue, a dummy, a port.
fn stream(random: &mut Random) -> Stream {
    let mut stream = nothing_begun(random);
    match random.below(5) {
        0 => {}
        1 => stream.dummy = true,
        2 => {
            stream.port = with_parameters(random);
            stream.count = held(random, stream.port);
        }
        _ => {
            let count = random.between(1, 4);
            let mut bytes: [u8; 4] = std::array::from_fn(|_| unknown_byte(random));
            bytes[..count].iter_mut().for_each(|byte| *byte = known_byte(random));
            bytes[0] = with_parameters(random);
            stream.queue = u32::from_le_bytes(bytes);
            stream.count = held(random, bytes[0]);
        }
    }
    stream
}

/// A command that takes parameters.
fn with_parameters(random: &mut Random) -> u8 {
    let all: Vec<u8> = known().filter(|&command| parameters(command) != Some(0)).collect();
    random.pick(&all)
}

/// Fewer parameters than the command takes, often one fewer.
fn held(random: &mut Random, command: u8) -> usize {
    let taken = parameters(command).unwrap_or(1);
    if random.flag() {
        taken - 1
    } else {
        random.below(taken)
    }
}

/// The ways to make a sound record unsound.
pub const FAULTS: [fn(&mut Random, &mut Record); 24] = [
    |random, record| record.core.registers.transform.mode = past_word(random, 3),
    |random, record| record.core.registers.transform.pair.level = past(random, 63),
    |random, record| record.core.registers.transform.projection.level = past(random, 1),
    |random, record| record.core.registers.transform.texture.level = past(random, 1),
    |random, record| record.core.registers.geometry.colour = past_word(random, 0x7FFF),
    |random, record| waiting_colour(random, record, 1),
    |random, record| waiting_colour(random, record, 2),
    |random, record| waiting_colour(random, record, 3),
    |random, record| record.core.registers.geometry.waiting.list = past_word(random, 5),
    |random, record| too_many_waiting(random, record),
    |random, record| record.core.registers.geometry.rooms.vertices = past(random, MOST_VERTICES),
    |random, record| record.core.registers.geometry.rooms.polygons = past(random, MOST_POLYGONS),
    |_, record| record.core.registers.geometry.rooms.vertices = 0,
    |_, record| record.core.registers.geometry.rooms.polygons = 0,
    more_vertices_used,
    more_polygons_used,
    hole_in_queue,
    queue_without_parameters,
    too_many_held,
    |random, record| record.stream = Stream { count: random.between(1, 40), ..nothing_begun(random) },
    |random, record| record.stream = Stream { count: random.between(1, 40), dummy: true, ..nothing_begun(random) },
    two_begun,
    port_unknown,
    |random, record| record.stream = Stream { port: random.pick(&[0x11, 0x15, 0x41]), ..nothing_begun(random) },
];

/// A number past the last of its range.
fn past(random: &mut Random, last: usize) -> usize {
    match random.below(4) {
        0 | 1 => last + 1,
        2 => usize::MAX,
        _ => last + 1 + random.word() as usize,
    }
}

fn past_word(random: &mut Random, last: u32) -> u32 {
    match random.below(4) {
        0 | 1 => last + 1,
        2 => u32::MAX,
        _ => (last + 1).saturating_add(random.word()),
    }
}

fn more_vertices_used(random: &mut Random, record: &mut Record) {
    let geometry = &mut record.core.registers.geometry;
    geometry.used.vertices = past(random, geometry.rooms.vertices);
}

fn more_polygons_used(random: &mut Random, record: &mut Record) {
    let geometry = &mut record.core.registers.geometry;
    geometry.used.polygons = past(random, geometry.rooms.polygons);
}

/// The last of so many waiting vertices gets a colour out of range.
fn waiting_colour(random: &mut Random, record: &mut Record, count: usize) {
    let waiting = &mut record.core.registers.geometry.waiting;
    let vertices: [&mut Vertex; 3] = [&mut waiting.first, &mut waiting.second, &mut waiting.third];
    for vertex in vertices {
        vertex[4] = random.word() as i32 & 0x7FFF;
    }
    waiting.list = if count == 3 { random.pick(&[2, 5]) } else { random.pick(&[1, 2, 3, 4, 5]) };
    waiting.count = count;
    let colour = random.pick(&[0x8000, -1, i32::MIN, i32::MAX, -0x8000, 0x1_0000]);
    match random.below(count) {
        0 => waiting.first[4] = colour,
        1 => waiting.second[4] = colour,
        _ => waiting.third[4] = colour,
    }
}

/// As many vertices wait as a polygon needs, or more; in a closed list any.
fn too_many_waiting(random: &mut Random, record: &mut Record) {
    let waiting = &mut record.core.registers.geometry.waiting;
    for vertex in [&mut waiting.first, &mut waiting.second, &mut waiting.third] {
        vertex[4] &= 0x7FFF;
    }
    let most = corners(waiting.list).max(1) - 1;
    waiting.count = past(random, most);
}

/// A byte that is no command below one that is.
fn hole_in_queue(random: &mut Random, record: &mut Record) {
    record.stream = nothing_begun(random);
    let place = random.between(1, 3);
    let mut bytes: [u8; 4] = std::array::from_fn(|_| known_byte(random));
    bytes[0] = with_parameters(random);
    bytes[place] = known_byte(random);
    bytes[random.below(place)] = unknown_byte(random);
    record.stream.queue = u32::from_le_bytes(bytes);
}

/// A queue that starts with a command without parameters.
fn queue_without_parameters(random: &mut Random, record: &mut Record) {
    record.stream = stream(random);
    let rest = if random.flag() { 0 } else { u32::from(known_byte(random)) << 8 };
    record.stream.queue = rest | random.pick(&[0x11, 0x15, 0x41]);
    record.stream.dummy = false;
    record.stream.port = 0;
    record.stream.count = random.below(2);
}

/// As many parameters held as the first command takes, or more.
fn too_many_held(random: &mut Random, record: &mut Record) {
    record.stream = nothing_begun(random);
    let command = with_parameters(random);
    record.stream.count = past(random, parameters(command).unwrap_or(0) - 1);
    if random.flag() {
        record.stream.port = command;
    } else {
        record.stream.queue = u32::from(command);
    }
}

/// Two of a queue, a dummy and a port, or all three.
fn two_begun(random: &mut Random, record: &mut Record) {
    record.stream = nothing_begun(random);
    let without = random.below(4);
    if without != 0 {
        record.stream.queue = u32::from(with_parameters(random));
    }
    record.stream.dummy = without != 1;
    if without != 2 {
        record.stream.port = with_parameters(random);
    }
}

/// A port command that is none; with a command queued or not.
fn port_unknown(random: &mut Random, record: &mut Record) {
    record.stream = nothing_begun(random);
    record.stream.count = random.below(3);
    while record.stream.port == 0 {
        record.stream.port = unknown_byte(random);
    }
}
