//! Engines with the largest rooms, and buffers for them.

use reference::engine::Engine;
use reference::geometry::{Buffers, MOST_POLYGONS, MOST_VERTICES, POLYGON_NUMBERS, VERTEX_NUMBERS};

#[derive(PartialEq, Eq)]
pub struct Lent {
    vertices: Vec<i32>,
    polygons: Vec<u32>,
}

impl Lent {
    pub fn new() -> Self {
        Lent { vertices: vec![0; MOST_VERTICES * VERTEX_NUMBERS], polygons: vec![0; MOST_POLYGONS * POLYGON_NUMBERS] }
    }

    pub fn buffers(&mut self) -> Buffers<'_> {
        Buffers { vertices: &mut self.vertices, polygons: &mut self.polygons }
    }
}

pub fn engine() -> Engine {
    Engine::start(MOST_VERTICES, MOST_POLYGONS).expect("rooms in range")
}
