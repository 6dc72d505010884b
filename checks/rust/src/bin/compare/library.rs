//! The product's static libraries: its functions for C, and the port writes of `probe`, which is for the checks alone;
//! each behind a safe function.
//!
//! Safe, because a slice has as many bytes or numbers as its size says, none is null, and no two of them overlap.

use reference::geometry::Buffers;
use reference::matrix::Matrix;
use reference::record::Record;

/// The answer of pack and unpack; the length is in words.
#[repr(C)]
#[derive(Clone, Copy, Debug, PartialEq, Eq)]
pub struct Answer {
    pub number: u32,
    pub place: u32,
    pub length: u32,
}

/// The answer of an engine call.
#[repr(C)]
#[derive(Clone, Copy, Debug, PartialEq, Eq)]
pub struct EngineAnswer {
    pub number: u32,
    pub place: u32,
    pub engine: Record,
}

/// The answer of the word call on the caller's own record.
#[repr(C)]
#[derive(Clone, Copy, Debug, PartialEq, Eq)]
pub struct CallAnswer {
    pub number: u32,
    pub place: u32,
}

#[repr(C)]
#[derive(Clone, Copy, Debug, PartialEq, Eq)]
pub struct StatusAnswer {
    pub number: u32,
    pub place: u32,
    pub status: u32,
}

#[repr(C)]
#[derive(Clone, Copy, Debug, PartialEq, Eq)]
pub struct MatrixAnswer {
    pub number: u32,
    pub place: u32,
    pub matrix: Matrix,
}

#[repr(C)]
#[derive(Clone, Copy, Debug, PartialEq, Eq)]
pub struct CornerAnswer {
    pub number: u32,
    pub place: u32,
    pub corner: [i32; 9],
}

#[repr(C)]
#[derive(Clone, Copy, Debug, PartialEq, Eq)]
pub struct FlagAnswer {
    pub number: u32,
    pub place: u32,
    pub flag: bool,
}

/// The answer to a whole list or log: number and place of the refusal, and how many words or port writes were taken.
#[repr(C)]
#[derive(Clone, Copy, Debug, PartialEq, Eq)]
pub struct ListAnswer {
    pub number: u32,
    pub place: usize,
    pub taken: usize,
    pub engine: Record,
}

#[link(name = "nauvelppi", kind = "static")]
extern "C" {
    fn nauvelppi_pack(log: *const u8, log_size: usize, output: *mut u8, output_size: usize) -> Answer;
    fn nauvelppi_unpack(list: *const u8, list_size: usize, output: *mut u8, output_size: usize) -> Answer;
    fn nauvelppi_start(vertices: usize, polygons: usize) -> EngineAnswer;
    fn nauvelppi_word(
        engine: Record,
        word: u32,
        vertices: *mut i32,
        vertex_numbers: usize,
        polygons: *mut u32,
        polygon_numbers: usize,
    ) -> EngineAnswer;
    fn nauvelppi_port_write(
        engine: Record,
        address: u32,
        value: u32,
        vertices: *mut i32,
        vertex_numbers: usize,
        polygons: *mut u32,
        polygon_numbers: usize,
    ) -> EngineAnswer;
    fn nauvelppi_word_in_place(
        engine: *mut Record,
        word: u32,
        vertices: *mut i32,
        vertex_numbers: usize,
        polygons: *mut u32,
        polygon_numbers: usize,
    ) -> CallAnswer;
    fn nauvelppi_words(
        engine: Record,
        words: *const u32,
        count: usize,
        vertices: *mut i32,
        vertex_numbers: usize,
        polygons: *mut u32,
        polygon_numbers: usize,
    ) -> ListAnswer;
    fn nauvelppi_status(engine: Record) -> StatusAnswer;
    fn nauvelppi_clip_matrix(engine: Record) -> MatrixAnswer;
    fn nauvelppi_vector_matrix(engine: Record) -> CornerAnswer;
    fn nauvelppi_overflow(engine: Record) -> FlagAnswer;
    fn nauvelppi_clear_error(engine: Record) -> EngineAnswer;
    fn nauvelppi_clear_overflow(engine: Record) -> EngineAnswer;
}

#[link(name = "probe", kind = "static")]
extern "C" {
    fn probe_feed_writes(
        engine: Record,
        log: *const u32,
        length: usize,
        vertices: *mut i32,
        vertex_numbers: usize,
        polygons: *mut u32,
        polygon_numbers: usize,
    ) -> ListAnswer;
}

pub fn pack(log: &[u8], output: &mut [u8]) -> Answer {
    unsafe { nauvelppi_pack(log.as_ptr(), log.len(), output.as_mut_ptr(), output.len()) }
}

pub fn unpack(list: &[u8], output: &mut [u8]) -> Answer {
    unsafe { nauvelppi_unpack(list.as_ptr(), list.len(), output.as_mut_ptr(), output.len()) }
}

pub fn start(vertices: usize, polygons: usize) -> EngineAnswer {
    unsafe { nauvelppi_start(vertices, polygons) }
}

pub fn word(engine: Record, word: u32, buffers: &mut Buffers) -> EngineAnswer {
    let (vertices, vertex_numbers, polygons, polygon_numbers) = parts(buffers);
    unsafe { nauvelppi_word(engine, word, vertices, vertex_numbers, polygons, polygon_numbers) }
}

pub fn write(engine: Record, address: u32, value: u32, buffers: &mut Buffers) -> EngineAnswer {
    let (vertices, vertex_numbers, polygons, polygon_numbers) = parts(buffers);
    unsafe { nauvelppi_port_write(engine, address, value, vertices, vertex_numbers, polygons, polygon_numbers) }
}

pub fn word_in_place(engine: &mut Record, word: u32, buffers: &mut Buffers) -> CallAnswer {
    let (vertices, vertex_numbers, polygons, polygon_numbers) = parts(buffers);
    unsafe { nauvelppi_word_in_place(engine, word, vertices, vertex_numbers, polygons, polygon_numbers) }
}

/// Takes the words of a list until one is refused.
pub fn words(engine: Record, list: &[u32], buffers: &mut Buffers) -> ListAnswer {
    let (vertices, vertex_numbers, polygons, polygon_numbers) = parts(buffers);
    let (words, count) = (list.as_ptr(), list.len());
    unsafe { nauvelppi_words(engine, words, count, vertices, vertex_numbers, polygons, polygon_numbers) }
}

/// Makes the port writes of a log until one is refused; a last number without a partner is no write.
pub fn writes(engine: Record, log: &[u32], buffers: &mut Buffers) -> ListAnswer {
    let (vertices, vertex_numbers, polygons, polygon_numbers) = parts(buffers);
    let (log, length) = (log.as_ptr(), log.len());
    unsafe { probe_feed_writes(engine, log, length, vertices, vertex_numbers, polygons, polygon_numbers) }
}

/// Both buffers as C is given them: where they begin, and how many numbers they have.
fn parts(buffers: &mut Buffers) -> (*mut i32, usize, *mut u32, usize) {
    let (vertices, polygons) = (&mut buffers.vertices, &mut buffers.polygons);
    (vertices.as_mut_ptr(), vertices.len(), polygons.as_mut_ptr(), polygons.len())
}

pub fn status(engine: Record) -> StatusAnswer {
    unsafe { nauvelppi_status(engine) }
}

pub fn clip_matrix(engine: Record) -> MatrixAnswer {
    unsafe { nauvelppi_clip_matrix(engine) }
}

pub fn vector_matrix(engine: Record) -> CornerAnswer {
    unsafe { nauvelppi_vector_matrix(engine) }
}

pub fn overflow(engine: Record) -> FlagAnswer {
    unsafe { nauvelppi_overflow(engine) }
}

pub fn clear_error(engine: Record) -> EngineAnswer {
    unsafe { nauvelppi_clear_error(engine) }
}

pub fn clear_overflow(engine: Record) -> EngineAnswer {
    unsafe { nauvelppi_clear_overflow(engine) }
}
