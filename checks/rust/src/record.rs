//! The engine record as the product has it, with any numbers in it, and the record of an engine. `sound` reads it back.

use crate::engine::Engine;
use crate::geometry::{self, List, Vertex};
use crate::matrix::Matrix;
use crate::stream::{self, commands, Pending};
use crate::table::MOST_PARAMETERS;
use crate::transform::{self, SLOTS};

/// The numbers of a stack: its slots one after another.
pub const STACK_NUMBERS: usize = 16 * SLOTS;

#[repr(C)]
#[derive(Clone, Copy, Debug, PartialEq, Eq)]
pub struct Pair {
    pub position: Matrix,
    pub vector: Matrix,
    pub level: usize,
}

#[repr(C)]
#[derive(Clone, Copy, Debug, PartialEq, Eq)]
pub struct Single {
    pub matrix: Matrix,
    pub slot: Matrix,
    pub level: usize,
}

#[repr(C)]
#[derive(Clone, Copy, Debug, PartialEq, Eq)]
pub struct Transform {
    pub pair: Pair,
    pub projection: Single,
    pub texture: Single,
    pub mode: u32,
    pub error: bool,
}

#[repr(C)]
#[derive(Clone, Copy, Debug, PartialEq, Eq)]
pub struct Coordinates {
    pub x: i16,
    pub y: i16,
    pub z: i16,
}

#[repr(C)]
#[derive(Clone, Copy, Debug, PartialEq, Eq)]
pub struct Counts {
    pub vertices: usize,
    pub polygons: usize,
}

/// The open list (0 closed, 1 triangles, 2 quads, 3 and 4 triangle strip with an even and an odd next k, 5 quad
/// strip) and the vertices that wait, the first `count`; the others are free.
#[repr(C)]
#[derive(Clone, Copy, Debug, PartialEq, Eq)]
pub struct Waiting {
    pub list: u32,
    pub first: Vertex,
    pub second: Vertex,
    pub third: Vertex,
    pub count: usize,
}

#[repr(C)]
#[derive(Clone, Copy, Debug, PartialEq, Eq)]
pub struct Geometry {
    pub given: u32,
    pub attributes: u32,
    pub colour: u32,
    pub position: Coordinates,
    pub waiting: Waiting,
    pub used: Counts,
    pub rooms: Counts,
    pub overflow: bool,
}

#[repr(C)]
#[derive(Clone, Copy, Debug, PartialEq, Eq)]
pub struct Registers {
    pub transform: Transform,
    pub geometry: Geometry,
}

/// Slot k is the sixteen numbers from 16k on.
#[repr(C)]
#[derive(Clone, Copy, Debug, PartialEq, Eq)]
pub struct Stacks {
    pub positions: [i32; STACK_NUMBERS],
    pub vectors: [i32; STACK_NUMBERS],
}

#[repr(C)]
#[derive(Clone, Copy, Debug, PartialEq, Eq)]
pub struct Core {
    pub registers: Registers,
    pub stacks: Stacks,
}

/// The rest of the command word, its next command lowest; the parameters so far, the first `count`; whether the dummy
/// is due; the pending port command or 0. Bytes of the queue above its last command and parameters past the count are
/// free.
#[repr(C)]
#[derive(Clone, Copy, Debug, PartialEq, Eq)]
pub struct Stream {
    pub queue: u32,
    pub held: [u32; MOST_PARAMETERS],
    pub count: usize,
    pub dummy: bool,
    pub port: u8,
}

#[repr(C)]
#[derive(Clone, Copy, Debug, PartialEq, Eq)]
pub struct Record {
    pub core: Core,
    pub stream: Stream,
}

impl Record {
    /// The record with 0 in every cell that is free: two sound records mean the same where these are equal.
    pub fn meaning(&self) -> Record {
        let mut record = *self;
        let waiting = &mut record.core.registers.geometry.waiting;
        let places = [&mut waiting.first, &mut waiting.second, &mut waiting.third];
        places.into_iter().skip(waiting.count).for_each(|vertex| *vertex = [0; 5]);
        let stream = &mut record.stream;
        stream.held.iter_mut().skip(stream.count).for_each(|parameter| *parameter = 0);
        stream.queue = commands(stream.queue).unwrap_or(stream.queue);
        record
    }
}

impl From<&Engine> for Record {
    fn from(engine: &Engine) -> Self {
        let pair = &engine.transform.pair;
        let registers =
            Registers { transform: Transform::from(&engine.transform), geometry: Geometry::from(&engine.geometry) };
        let stacks = Stacks { positions: numbers(&pair.positions), vectors: numbers(&pair.vectors) };
        Record { core: Core { registers, stacks }, stream: Stream::from(&engine.stream) }
    }
}

/// The slots of a stack, one after another.
fn numbers(slots: &[Matrix; SLOTS]) -> [i32; STACK_NUMBERS] {
    slots.as_flattened().try_into().expect("32 slots of sixteen numbers")
}

impl From<&transform::Transform> for Transform {
    fn from(transform: &transform::Transform) -> Self {
        let pair = &transform.pair;
        Transform {
            pair: Pair { position: pair.position, vector: pair.vector, level: pair.level },
            projection: Single::from(&transform.projection),
            texture: Single::from(&transform.texture),
            mode: transform.mode as u32,
            error: transform.error,
        }
    }
}

impl From<&transform::Single> for Single {
    fn from(single: &transform::Single) -> Self {
        Single { matrix: single.matrix, slot: single.slot, level: usize::from(single.pushed) }
    }
}

impl From<&geometry::Geometry> for Geometry {
    fn from(geometry: &geometry::Geometry) -> Self {
        let [x, y, z] = geometry.position;
        let [first, second, third, _] = geometry.waiting;
        let list = match geometry.list {
            List::Closed => 0,
            List::Triangles => 1,
            List::Quads => 2,
            List::TriangleStrip { odd } => 3 + u32::from(odd),
            List::QuadStrip => 5,
        };
        Geometry {
            given: geometry.given,
            attributes: geometry.attributes,
            colour: geometry.colour,
            position: Coordinates { x, y, z },
            waiting: Waiting { list, first, second, third, count: geometry.waiting_count },
            used: Counts::from(geometry.used),
            rooms: Counts::from(geometry.rooms),
            overflow: geometry.overflow,
        }
    }
}

impl From<geometry::Counts> for Counts {
    fn from(counts: geometry::Counts) -> Self {
        Counts { vertices: counts.vertices, polygons: counts.polygons }
    }
}

impl From<&stream::Stream> for Stream {
    fn from(stream: &stream::Stream) -> Self {
        let (queue, dummy, port) = match stream.pending {
            Pending::Nothing => (0, false, 0),
            Pending::Commands(queue) => (queue, false, 0),
            Pending::Dummy => (0, true, 0),
            Pending::Port(port) => (0, false, port),
        };
        Stream { queue, held: stream.held, count: stream.count, dummy, port }
    }
}
