//! One engine on both sides: the library's record and the reference engine, each with its buffers.

use std::fmt::Write;

use reference::engine::Engine;
use reference::geometry::Buffers;
use reference::record::{Counts, Record};
use reference::refusal::Refusal;
use reference::words::to_bytes;

use crate::library::{self, CornerAnswer, EngineAnswer, FlagAnswer, MatrixAnswer, StatusAnswer};
use crate::random::Random;
use crate::tally::{self, Tally};

/// A call of the engine: a word by value, a word on the caller's own record, a port write.
#[derive(Clone, Copy, Debug)]
pub enum Call {
    Word(u32),
    InPlace(u32),
    Write(u32, u32),
}

/// What can be cleared.
#[derive(Clone, Copy, Debug)]
pub enum Flag {
    Error,
    Overflow,
}

/// The words of a list as calls.
pub fn word_calls(list: &[u32]) -> Vec<Call> {
    list.iter().map(|&word| Call::Word(word)).collect()
}

/// The port writes of a log as calls; a last number without a partner is no write.
pub fn write_calls(log: &[u32]) -> Vec<Call> {
    log.chunks_exact(2).map(|pair| Call::Write(pair[0], pair[1])).collect()
}

/// The same with some of the words on the caller's own record.
pub fn partly_in_place(random: &mut Random, calls: Vec<Call>) -> Vec<Call> {
    let in_place = |call| match call {
        Call::Word(word) if random.flag() => Call::InPlace(word),
        _ => call,
    };
    calls.into_iter().map(in_place).collect()
}

/// What a list or a log in one call answers, but for the engine.
#[derive(Clone, Copy, Debug, PartialEq, Eq)]
pub struct Fed {
    pub number: u32,
    pub place: usize,
    pub taken: usize,
}

/// What was done with a twin: a call, a piece of a list, with `true` of a log, in one call, or a clear.
enum Deed {
    Call(Call),
    Piece(bool, Vec<u32>),
    Clear(Flag),
}

/// The numbers before and after each lent buffer that no call may touch.
const GUARD: usize = 8;

/// The two lent buffers, each between guards.
#[derive(Clone, PartialEq, Eq)]
pub struct Lent {
    vertices: Vec<i32>,
    polygons: Vec<u32>,
}

impl Lent {
    /// Buffers of so many numbers, with anything in them.
    pub fn new(random: &mut Random, vertex_numbers: usize, polygon_numbers: usize) -> Self {
        Lent {
            vertices: (0..vertex_numbers + 2 * GUARD).map(|_| random.word() as i32).collect(),
            polygons: (0..polygon_numbers + 2 * GUARD).map(|_| random.word()).collect(),
        }
    }

    /// Buffers for these rooms, at times longer.
    pub fn for_rooms(random: &mut Random, rooms: Counts) -> Self {
        let more = if random.flag() { 0 } else { random.below(12) };
        Lent::new(random, 5 * rooms.vertices + more, 3 * rooms.polygons + more)
    }

    fn buffers(&mut self) -> Buffers<'_> {
        let (vertices, polygons) = (self.vertices.len() - GUARD, self.polygons.len() - GUARD);
        Buffers { vertices: &mut self.vertices[GUARD..vertices], polygons: &mut self.polygons[GUARD..polygons] }
    }
}

/// The library's record and the reference engine, each with its buffers. An unsound record has no engine.
pub struct Twin {
    pub record: Record,
    engine: Result<Engine, Refusal>,
    given: Lent,
    expected: Lent,
    /// What a difference prints: the record at the start and what was done so far.
    start: Record,
    deeds: Vec<Deed>,
}

impl Twin {
    pub fn new(record: Record, lent: Lent) -> Self {
        let engine = record.engine();
        Twin { record, engine, given: lent.clone(), expected: lent, start: record, deeds: Vec::new() }
    }

    /// Another twin with an equal record and equal buffers.
    pub fn equal(&self) -> Self {
        Twin::new(self.record, self.given.clone())
    }

    /// Whether the library has the same end here: what the record means, and both buffers.
    pub fn ends_as(&self, other: &Twin) -> bool {
        self.record.meaning() == other.record.meaning() && self.given == other.given
    }

    /// Makes one call on both sides and compares the answers; the number that both answered.
    pub fn call(&mut self, call: Call, tally: &mut Tally) -> Result<u32, String> {
        self.deeds.push(Deed::Call(call));
        let expected = self.reference(call);
        let answer = self.library(call);
        if answer.number != expected || answer.place != 0 {
            return Err(self.report(&format!("reference {expected} 0, library {} {}", answer.number, answer.place)));
        }
        if expected == 0 {
            self.compare_meaning(&answer.engine)?;
        } else {
            self.compare_refused(&answer.engine)?;
        }
        self.record = answer.engine;
        tally.count(kind(call), expected);
        Ok(expected)
    }

    fn reference(&mut self, call: Call) -> u32 {
        let mut buffers = self.expected.buffers();
        let done = match (&mut self.engine, call) {
            (Ok(engine), Call::Word(word) | Call::InPlace(word)) => engine.word(word, &mut buffers),
            (Ok(engine), Call::Write(address, value)) => engine.write(address, value, &mut buffers),
            (Err(refusal), _) => Err(*refusal),
        };
        done.map_or_else(Refusal::number, |()| 0)
    }

    fn library(&mut self, call: Call) -> EngineAnswer {
        let mut buffers = self.given.buffers();
        match call {
            Call::Word(word) => library::word(self.record, word, &mut buffers),
            Call::InPlace(word) => {
                let mut engine = self.record;
                let answer = library::word_in_place(&mut engine, word, &mut buffers);
                EngineAnswer { number: answer.number, place: answer.place, engine }
            }
            Call::Write(address, value) => library::write(self.record, address, value, &mut buffers),
        }
    }

    /// Compares all that can be read: of an unsound record zeros, with number 1.
    pub fn read(&self, tally: &mut Tally) -> Result<(), String> {
        let place = 0;
        let (number, status, matrix, corner, flag) = match &self.engine {
            Ok(engine) => (0, engine.status(), engine.clip(), engine.direction(), engine.overflow()),
            Err(refusal) => (refusal.number(), 0, [0; 16], [0; 9], false),
        };
        let expected = (
            StatusAnswer { number, place, status },
            MatrixAnswer { number, place, matrix },
            CornerAnswer { number, place, corner },
            FlagAnswer { number, place, flag },
        );
        let record = self.record;
        let given = (
            library::status(record),
            library::clip_matrix(record),
            library::vector_matrix(record),
            library::overflow(record),
        );
        if given != expected {
            return Err(self.report(&format!("reads differ\nreference {expected:?}\nlibrary {given:?}")));
        }
        tally.count(tally::Call::Read, number);
        Ok(())
    }

    /// Clears a flag on both sides, and compares every cell: only the flag changes, with the error the projection level
    /// too; nothing in an unsound record.
    pub fn clear(&mut self, flag: Flag, tally: &mut Tally) -> Result<(), String> {
        self.deeds.push(Deed::Clear(flag));
        let mut expected = self.record;
        let number = match &mut self.engine {
            Ok(engine) => {
                let registers = &mut expected.core.registers;
                match flag {
                    Flag::Error => {
                        engine.clear_error();
                        registers.transform.error = false;
                        registers.transform.projection.level = 0;
                    }
                    Flag::Overflow => {
                        engine.clear_overflow();
                        registers.geometry.overflow = false;
                    }
                }
                0
            }
            Err(refusal) => refusal.number(),
        };
        let answer = match flag {
            Flag::Error => library::clear_error(self.record),
            Flag::Overflow => library::clear_overflow(self.record),
        };
        if (answer.number, answer.place) != (number, 0) {
            return Err(self.report(&format!("reference {number} 0, library {} {}", answer.number, answer.place)));
        }
        if answer.engine != expected {
            let lines = different_lines(&expected, &answer.engine);
            return Err(self.report(&format!("another record after a clear\n{lines}")));
        }
        if number == 0 {
            self.compare_meaning(&answer.engine)?;
        }
        self.record = answer.engine;
        tally.count(tally::Call::Clear, number);
        Ok(())
    }

    /// Gives both sides a list or a log, or a piece of one, in one call, and compares the answers and both buffers; what
    /// both answered.
    pub fn piece(&mut self, log: bool, words: &[u32], tally: &mut Tally) -> Result<Fed, String> {
        self.deeds.push(Deed::Piece(log, words.to_vec()));
        let expected = self.feed_reference(log, words);
        let mut buffers = self.given.buffers();
        let (kind, answer) = if log {
            (tally::Call::Log, library::writes(self.record, words, &mut buffers))
        } else {
            (tally::Call::List, library::words(self.record, words, &mut buffers))
        };
        let fed = Fed { number: answer.number, place: answer.place, taken: answer.taken };
        if fed != expected {
            return Err(self.report(&format!("reference {expected:?}, library {fed:?}")));
        }
        if fed.number != 0 && fed.taken == 0 {
            self.compare_cells(&answer.engine)?;
        } else {
            self.compare_meaning(&answer.engine)?;
        }
        self.compare_buffers()?;
        self.record = answer.engine;
        tally.count(kind, fed.number);
        Ok(fed)
    }

    fn feed_reference(&mut self, log: bool, words: &[u32]) -> Fed {
        let (bytes, mut buffers) = (to_bytes(words), self.expected.buffers());
        let (taken, refused) = match &mut self.engine {
            Ok(engine) if log => engine.feed_writes(&bytes, &mut buffers),
            Ok(engine) => engine.feed_words(&bytes, &mut buffers),
            Err(refusal) => (0, Some((*refusal).into())),
        };
        let (number, place) = refused.map_or((0, 0), |refused| (refused.refusal.number(), refused.place));
        Fed { number, place, taken }
    }

    /// A call that was accepted, or took words or port writes: the record means what the engine is.
    fn compare_meaning(&self, record: &Record) -> Result<(), String> {
        let engine = self.engine.as_ref().map_err(|_| self.report("an unsound record was accepted"))?;
        let (expected, given) = (Record::from(engine).meaning(), record.meaning());
        if expected != given {
            return Err(self.report(&format!("records differ\n{}", different_lines(&expected, &given))));
        }
        Ok(())
    }

    /// A refused call: the very record, and both buffers.
    fn compare_refused(&self, record: &Record) -> Result<(), String> {
        self.compare_cells(record)?;
        self.compare_buffers()
    }

    /// A refused call that took nothing: the very record, every cell.
    fn compare_cells(&self, record: &Record) -> Result<(), String> {
        if *record != self.record {
            let lines = different_lines(&self.record, record);
            return Err(self.report(&format!("a refused call changed the record\n{lines}")));
        }
        Ok(())
    }

    pub fn compare_buffers(&self) -> Result<(), String> {
        if self.given == self.expected {
            return Ok(());
        }
        let differ = |same: bool| if same { "agree" } else { "differ" };
        let vertices = differ(self.given.vertices == self.expected.vertices);
        let polygons = differ(self.given.polygons == self.expected.polygons);
        Err(self.report(&format!("buffers differ: vertices {vertices}, polygons {polygons}")))
    }

    /// Makes all the calls; the buffers, and what can be read, are compared at the end.
    pub fn feed(&mut self, calls: &[Call], tally: &mut Tally) -> Result<(), String> {
        for &call in calls {
            self.call(call, tally)?;
        }
        self.read(tally)?;
        self.compare_buffers()
    }

    pub fn report(&self, what: &str) -> String {
        let mut text = format!(
            "engine: {what}\nthe last of these: w, i WORD, p ADDRESS VALUE, a piece of a list or log, a clear:\n"
        );
        for deed in &self.deeds {
            let written = match deed {
                Deed::Call(Call::Word(word)) => write!(text, "w {word:08x}, "),
                Deed::Call(Call::InPlace(word)) => write!(text, "i {word:08x}, "),
                Deed::Call(Call::Write(address, value)) => write!(text, "p {address:08x} {value:08x}, "),
                Deed::Piece(false, words) => write!(text, "list {words:08x?}, "),
                Deed::Piece(true, words) => write!(text, "log {words:08x?}, "),
                Deed::Clear(flag) => write!(text, "clear {flag:?}, "),
            };
            written.expect("a string takes any text");
        }
        let (vertices, polygons) = (self.given.vertices.len() - 2 * GUARD, self.given.polygons.len() - 2 * GUARD);
        write!(text, "\nbuffers of {vertices} and {polygons} numbers\nrecord at the start {:?}", self.start)
            .expect("a string takes any text");
        text
    }
}

fn kind(call: Call) -> tally::Call {
    match call {
        Call::Word(_) => tally::Call::Word,
        Call::InPlace(_) => tally::Call::InPlace,
        Call::Write(..) => tally::Call::Write,
    }
}

/// The lines that differ where both records are printed, one field a line.
pub fn different_lines(expected: &Record, given: &Record) -> String {
    let (expected, given) = (format!("{expected:#?}"), format!("{given:#?}"));
    let lines = expected.lines().zip(given.lines()).enumerate().filter(|(_, (one, other))| one != other);
    lines.map(|(line, (one, other))| format!("line {line}: reference {one} library {other}\n")).collect()
}
