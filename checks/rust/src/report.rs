//! What the three programs print.

use std::fmt::{self, Display, Write};

use crate::engine::Engine;
use crate::geometry::{Buffers, List, Vertex, POLYGON_NUMBERS, VERTEX_NUMBERS};
use crate::matrix::Matrix;
use crate::pack::pack;
use crate::refusal::Refused;
use crate::unpack::{unpack, MOST_PAIRS};
use crate::words::{check_list, check_log, pairs, words, MOST_WORDS};

/// What `replay` reads.
#[derive(Clone, Copy, Debug, PartialEq, Eq)]
pub enum Input {
    List,
    Log,
}

/// The program `pack`: the words that a log packs to.
pub fn pack_report(log: &[u8]) -> String {
    let mut output = vec![0; 4 * MOST_WORDS];
    match pack(log, &mut output) {
        Ok(length) => {
            let lines = words(&output[..4 * length]).map(|word| format!("{word:08x}\n"));
            format!("words {length}\n{}", lines.collect::<String>())
        }
        Err(refused) => refused_line(refused),
    }
}

/// The program `unpack`: the port writes that a list unpacks to.
pub fn unpack_report(list: &[u8]) -> String {
    let mut output = vec![0; 8 * MOST_PAIRS];
    match unpack(list, &mut output) {
        Ok(length) => {
            let lines = pairs(&output[..4 * length]).map(|(address, value)| format!("{address:08x} {value:08x}\n"));
            format!("ports {}\n{}", length / 2, lines.collect::<String>())
        }
        Err(refused) => refused_line(refused),
    }
}

/// The program `replay`: an engine after a list or a log, up to its first refusal.
pub fn replay_report(kind: Input, rooms: (usize, usize), input: &[u8]) -> String {
    replay(kind, rooms, input).unwrap_or_else(refused_line)
}

fn replay(kind: Input, (vertices, polygons): (usize, usize), input: &[u8]) -> Result<String, Refused> {
    let mut engine = Engine::start(vertices, polygons)?;
    let mut vertices = vec![0; vertices * VERTEX_NUMBERS];
    let mut polygons = vec![0; polygons * POLYGON_NUMBERS];
    let mut buffers = Buffers { vertices: &mut vertices, polygons: &mut polygons };
    let (taken, refused) = match kind {
        Input::List => {
            check_list(input)?;
            engine.feed_words(input, &mut buffers)
        }
        Input::Log => {
            check_log(input)?;
            engine.feed_writes(input, &mut buffers)
        }
    };
    let refused = refused.map(refused_line).unwrap_or_default();
    Ok(format!("taken {taken}\n{refused}{}", State { engine: &engine, vertices: &vertices, polygons: &polygons }))
}

fn refused_line(refused: Refused) -> String {
    format!("refused {} {}\n", refused.refusal.number(), refused.place)
}

/// An engine and its buffers, as `replay` prints them.
struct State<'a> {
    engine: &'a Engine,
    vertices: &'a [i32],
    polygons: &'a [u32],
}

impl Display for State<'_> {
    fn fmt(&self, out: &mut fmt::Formatter) -> fmt::Result {
        self.registers(out)?;
        self.matrices(out)?;
        let geometry = &self.engine.geometry;
        vertex_lines(out, "waiting", geometry.waiting[..geometry.waiting_count].iter())?;
        vertex_lines(out, "vertices", self.vertices.as_chunks().0[..geometry.used.vertices].iter())?;
        writeln!(out, "polygons {}", geometry.used.polygons)?;
        for polygon in &self.polygons.as_chunks::<POLYGON_NUMBERS>().0[..geometry.used.polygons] {
            writeln!(out, "{} {} {:08x}", polygon[0], polygon[1], polygon[2])?;
        }
        Ok(())
    }
}

impl State<'_> {
    fn registers(&self, out: &mut fmt::Formatter) -> fmt::Result {
        let (transform, geometry) = (&self.engine.transform, &self.engine.geometry);
        let (projection, texture) = (u8::from(transform.projection.pushed), u8::from(transform.texture.pushed));
        writeln!(out, "status {:08x}", self.engine.status())?;
        writeln!(out, "mode {}", transform.mode as u32)?;
        writeln!(out, "levels {} {projection} {texture}", transform.pair.level)?;
        writeln!(out, "overflow {}", u8::from(geometry.overflow))?;
        writeln!(out, "colour {}", geometry.colour)?;
        writeln!(out, "attributes {:08x} {:08x}", geometry.given, geometry.attributes)?;
        writeln!(out, "position {}", spaced(&geometry.position))?;
        writeln!(out, "list {}", list_name(geometry.list))?;
        writeln!(out, "pending {}", u8::from(self.engine.pending()))
    }

    fn matrices(&self, out: &mut fmt::Formatter) -> fmt::Result {
        let transform = &self.engine.transform;
        let lines: [(&str, Matrix); 5] = [
            ("projection", transform.projection.matrix),
            ("position-matrix", transform.pair.position),
            ("vector", transform.pair.vector),
            ("texture", transform.texture.matrix),
            ("clip", self.engine.clip()),
        ];
        for (name, matrix) in lines {
            writeln!(out, "{name} {}", spaced(&matrix))?;
        }
        Ok(())
    }
}

/// A line with the number of vertices, then a line for each.
fn vertex_lines<'a>(
    out: &mut fmt::Formatter,
    name: &str,
    vertices: impl ExactSizeIterator<Item = &'a Vertex>,
) -> fmt::Result {
    writeln!(out, "{name} {}", vertices.len())?;
    for vertex in vertices {
        writeln!(out, "{}", spaced(vertex))?;
    }
    Ok(())
}

fn list_name(list: List) -> &'static str {
    match list {
        List::Closed => "closed",
        List::Triangles => "triangles",
        List::Quads => "quads",
        List::TriangleStrip { odd: false } => "triangle-strip even",
        List::TriangleStrip { odd: true } => "triangle-strip odd",
        List::QuadStrip => "quad-strip",
    }
}

/// Numbers in decimal with single spaces between.
fn spaced<T: Display>(numbers: &[T]) -> String {
    let mut line = String::new();
    for (k, number) in numbers.iter().enumerate() {
        let space = if k == 0 { "" } else { " " };
        write!(line, "{space}{number}").expect("a string takes any text");
    }
    line
}
