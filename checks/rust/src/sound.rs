//! Whether a record is sound, and the engine that it then is (document 01, Numbers a call can refuse with; document
//! 02, T-02). What a type bounds already needs no test, and cells past a count are not looked at.

use crate::engine::{in_range, Engine};
use crate::geometry::{self, List, Vertex};
use crate::matrix::Matrix;
use crate::record::{Core, Counts, Geometry, Record, Single, Stream, Waiting, STACK_NUMBERS};
use crate::refusal::Refusal;
use crate::stream::{self, commands, Pending};
use crate::table::parameters;
use crate::transform::{self, Mode, LEVELS, SLOTS};

/// The colours are 0 to 7FFFh.
const MOST_COLOUR: u32 = 0x7FFF;

impl Record {
    /// The engine that a sound record is (number 1).
    pub fn engine(&self) -> Result<Engine, Refusal> {
        self.read().ok_or(Refusal::Unsound)
    }

    fn read(&self) -> Option<Engine> {
        let geometry = self.core.registers.geometry.read()?;
        Some(Engine { transform: self.core.read_transform()?, geometry, stream: self.stream.read()? })
    }
}

impl Core {
    /// Mode 0 to 3, S 0 to 63, the other two levels 0 or 1.
    fn read_transform(&self) -> Option<transform::Transform> {
        let given = &self.registers.transform;
        if given.mode > 3 || given.pair.level >= LEVELS {
            return None;
        }
        let pair = transform::Pair {
            position: given.pair.position,
            vector: given.pair.vector,
            positions: slots(&self.stacks.positions),
            vectors: slots(&self.stacks.vectors),
            level: given.pair.level,
        };
        let (projection, texture) = (given.projection.read()?, given.texture.read()?);
        let mode = Mode::from_bits(given.mode);
        Some(transform::Transform::new(projection, pair, texture, mode, given.error))
    }
}

/// The numbers of a stack as its slots.
fn slots(numbers: &[i32; STACK_NUMBERS]) -> [Matrix; SLOTS] {
    numbers.as_chunks().0.try_into().expect("32 slots of sixteen numbers")
}

impl Single {
    fn read(&self) -> Option<transform::Single> {
        let Single { matrix, slot, level } = *self;
        (level <= 1).then_some(transform::Single { matrix, slot, pushed: level == 1 })
    }
}

impl Counts {
    fn read(self) -> geometry::Counts {
        geometry::Counts { vertices: self.vertices, polygons: self.polygons }
    }
}

impl Waiting {
    /// The open list: fewer vertices wait than it needs, none when closed, each with a colour in range.
    fn read(&self) -> Option<List> {
        let list = match self.list {
            0 => List::Closed,
            1 => List::Triangles,
            2 => List::Quads,
            3 => List::TriangleStrip { odd: false },
            4 => List::TriangleStrip { odd: true },
            5 => List::QuadStrip,
            _ => return None,
        };
        let coloured = |vertex: &Vertex| (0..=MOST_COLOUR as i32).contains(&vertex[4]);
        let few = if list == List::Closed { self.count == 0 } else { self.count < list.corners() };
        (few && self.vertices()[..self.count].iter().all(coloured)).then_some(list)
    }

    fn vertices(&self) -> [Vertex; 3] {
        [self.first, self.second, self.third]
    }
}

impl Geometry {
    /// Colour and rooms in range, used counts within the rooms.
    fn read(&self) -> Option<geometry::Geometry> {
        let list = self.waiting.read()?;
        let (used, rooms) = (self.used.read(), self.rooms.read());
        let within = used.vertices <= rooms.vertices && used.polygons <= rooms.polygons;
        if self.colour > MOST_COLOUR || !in_range(rooms) || !within {
            return None;
        }
        let [first, second, third] = self.waiting.vertices();
        Some(geometry::Geometry {
            colour: self.colour,
            given: self.given,
            attributes: self.attributes,
            position: [self.position.x, self.position.y, self.position.z],
            list,
            waiting: [first, second, third, [0; 5]],
            waiting_count: self.waiting.count,
            used,
            rooms,
            overflow: self.overflow,
        })
    }
}

impl Stream {
    /// At most one of a queue, a dummy and a port; fewer parameters held than its command takes, none without one.
    fn read(&self) -> Option<stream::Stream> {
        let queue = commands(self.queue)?;
        let (pending, command) = match (queue, self.dummy, self.port) {
            (0, false, 0) => (Pending::Nothing, None),
            (0, true, 0) => (Pending::Dummy, None),
            (0, false, port) => (Pending::Port(port), Some(port)),
            (queue, false, 0) => (Pending::Commands(queue), Some(queue as u8)),
            _ => return None,
        };
        let few = match command {
            Some(command) => self.count < parameters(command)?,
            None => self.count == 0,
        };
        few.then_some(stream::Stream { pending, held: self.held, count: self.count })
    }
}
