//! An independent implementation of document 01: the packed command stream, the command ports, the matrices and their
//! stacks, vertices and polygons, the status word, the packer and the unpacker, and the reports of the three programs;
//! and, of document 02, of whole lists in one call (T-01) and the thirty-second slot (T-02). It is what the compiled
//! library and programs are compared with and timed against.

pub mod engine;
pub mod geometry;
pub mod matrix;
pub mod pack;
pub mod record;
pub mod refusal;
pub mod report;
pub mod sound;
pub mod stream;
pub mod table;
pub mod transform;
pub mod unpack;
pub mod words;

#[cfg(test)]
mod rows;
