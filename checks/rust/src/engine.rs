//! The engine: start, the word call, the port write call and what can be read between calls (document 01), a whole list
//! or log in one call (document 02, T-01).

use crate::geometry::{Buffers, Counts, Geometry, MOST_POLYGONS, MOST_VERTICES, POLYGON_NUMBERS, VERTEX_NUMBERS};
use crate::matrix::Matrix;
use crate::refusal::{Refusal, Refused};
use crate::stream::{commands, Pending, Stream};
use crate::table::{command_at, parameters};
use crate::transform::Transform;
use crate::words::{pairs, words};

/// An engine. Its methods keep it sound; a record from outside becomes one only by the test of `record`.
#[derive(Clone, Debug)]
pub struct Engine {
    pub(crate) transform: Transform,
    pub(crate) geometry: Geometry,
    pub(crate) stream: Stream,
}

impl Engine {
    /// The fresh engine with rooms in their range (number 11).
    pub fn start(vertices: usize, polygons: usize) -> Result<Self, Refusal> {
        let rooms = Counts { vertices, polygons };
        if !in_range(rooms) {
            return Err(Refusal::Room);
        }
        Ok(Engine { transform: Transform::FRESH, geometry: Geometry::fresh(rooms), stream: Stream::FRESH })
    }

    /// Takes one packed word: 2, 4, 3.
    #[inline]
    pub fn word(&mut self, word: u32, buffers: &mut Buffers) -> Result<(), Refusal> {
        self.check(buffers)?;
        match self.stream.pending {
            Pending::Commands(queue) => {
                let command = queue as u8;
                if self.stream.hold(word, taken(command)) {
                    self.run(command, buffers);
                    self.advance(queue >> 8, buffers);
                }
            }
            Pending::Nothing => {
                let queue = commands(word).ok_or(Refusal::Hole)?;
                self.advance(queue, buffers);
            }
            Pending::Dummy => self.stream.pending = Pending::Nothing,
            Pending::Port(_) => return Err(Refusal::Pending),
        }
        Ok(())
    }

    /// Makes one port write: 2, 5, 4, 6.
    #[inline]
    pub fn write(&mut self, address: u32, value: u32, buffers: &mut Buffers) -> Result<(), Refusal> {
        self.check(buffers)?;
        let command = command_at(address).ok_or(Refusal::Address)?;
        match self.stream.pending {
            Pending::Commands(_) | Pending::Dummy => return Err(Refusal::Pending),
            Pending::Port(pending) if pending != command => return Err(Refusal::OtherPort),
            Pending::Port(_) | Pending::Nothing => {}
        }
        let taken = taken(command);
        if taken == 0 || self.stream.hold(value, taken) {
            self.stream.pending = Pending::Nothing;
            self.run(command, buffers);
        } else {
            self.stream.pending = Pending::Port(command);
        }
        Ok(())
    }

    /// Takes every word of a list, up to the first that is refused; the words taken, and that refusal at its word. An
    /// empty list gets 2 too (document 02, T-01).
    pub fn feed_words(&mut self, list: &[u8], buffers: &mut Buffers) -> (usize, Option<Refused>) {
        self.feed(words(list), buffers, Engine::word)
    }

    /// Makes every port write of a log, in the same way.
    pub fn feed_writes(&mut self, log: &[u8], buffers: &mut Buffers) -> (usize, Option<Refused>) {
        let write = |engine: &mut Self, (address, value), buffers: &mut Buffers| engine.write(address, value, buffers);
        self.feed(pairs(log), buffers, write)
    }

    /// Makes a call for each item; without one, the buffers are tested alone. Each call tests them for itself.
    #[inline]
    fn feed<T>(
        &mut self,
        items: impl ExactSizeIterator<Item = T>,
        buffers: &mut Buffers,
        call: impl Fn(&mut Self, T, &mut Buffers) -> Result<(), Refusal>,
    ) -> (usize, Option<Refused>) {
        let count = items.len();
        if count == 0 {
            return (0, self.check(buffers).err().map(Refused::from));
        }
        for (place, item) in items.enumerate() {
            if let Err(refusal) = call(self, item, buffers) {
                return (place, Some(refusal.at(place)));
            }
        }
        (count, None)
    }

    /// Both buffers hold their rooms (number 2).
    #[inline]
    fn check(&self, buffers: &Buffers) -> Result<(), Refusal> {
        let rooms = self.geometry.rooms;
        if buffers.vertices.len() < rooms.vertices * VERTEX_NUMBERS
            || buffers.polygons.len() < rooms.polygons * POLYGON_NUMBERS
        {
            return Err(Refusal::ShortBuffer);
        }
        Ok(())
    }

    /// Runs the commands without parameters at the head of the queue. If they are the last, the dummy is due.
    fn advance(&mut self, mut queue: u32, buffers: &mut Buffers) {
        let mut rest = Pending::Nothing;
        while queue != 0 {
            let command = queue as u8;
            if taken(command) != 0 {
                self.stream.pending = Pending::Commands(queue);
                return;
            }
            self.run(command, buffers);
            rest = Pending::Dummy;
            queue >>= 8;
        }
        self.stream.pending = rest;
    }

    /// Runs a command whose parameters are held. Not inlined, so that `word` and `write` stay small.
    #[inline(never)]
    fn run(&mut self, command: u8, buffers: &mut Buffers) {
        let parameters = &self.stream.held;
        match command {
            0x10..=0x1C => self.transform.run(command, parameters),
            _ => self.geometry.run(command, parameters, &mut self.transform, buffers),
        }
    }

    /// Bits 8-12 the low five bits of S, bit 13 the projection level, bit 15 the error.
    pub fn status(&self) -> u32 {
        let transform = &self.transform;
        (transform.pair.level as u32 & 31) << 8
            | u32::from(transform.projection.pushed) << 13
            | u32::from(transform.error) << 15
    }

    pub fn clip(&self) -> Matrix {
        self.transform.clip()
    }

    /// The 3x3 corner of the vector matrix, row by row.
    pub fn direction(&self) -> [i32; 9] {
        std::array::from_fn(|k| self.transform.pair.vector[k / 3 * 4 + k % 3])
    }

    /// Clears the error, and with it the projection level.
    pub fn clear_error(&mut self) {
        self.transform.error = false;
        self.transform.projection.pushed = false;
    }

    pub fn overflow(&self) -> bool {
        self.geometry.overflow
    }

    pub fn clear_overflow(&mut self) {
        self.geometry.overflow = false;
    }

    /// Whether a command is begun.
    pub fn pending(&self) -> bool {
        self.stream.pending != Pending::Nothing
    }
}

/// Rooms are 1 to 6,144 vertices and 1 to 2,048 polygons.
pub fn in_range(rooms: Counts) -> bool {
    (1..=MOST_VERTICES).contains(&rooms.vertices) && (1..=MOST_POLYGONS).contains(&rooms.polygons)
}

/// The parameters of a command that is known.
#[inline]
fn taken(command: u8) -> usize {
    parameters(command).unwrap_or(0)
}
