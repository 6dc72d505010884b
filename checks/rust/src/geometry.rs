//! Vertices, polygons and the commands 20h to 50h (document 01, Vertices and polygons).

use crate::transform::Transform;

/// The range of the room for vertices.
pub const MOST_VERTICES: usize = 6144;

/// The range of the room for polygons.
pub const MOST_POLYGONS: usize = 2048;

/// The numbers of a vertex: X, Y, Z, W, colour.
pub const VERTEX_NUMBERS: usize = 5;

/// The numbers of a polygon: first vertex, 3 or 4, attributes.
pub const POLYGON_NUMBERS: usize = 3;

pub type Vertex = [i32; VERTEX_NUMBERS];

/// The caller's two buffers.
pub struct Buffers<'a> {
    pub vertices: &'a mut [i32],
    pub polygons: &'a mut [u32],
}

/// The open list.
#[derive(Clone, Copy, Debug, PartialEq, Eq)]
pub enum List {
    Closed,
    Triangles,
    Quads,
    /// Whether the next k is odd.
    TriangleStrip {
        odd: bool,
    },
    QuadStrip,
}

impl List {
    /// The list that 40h opens: the kinds are GBATEK's.
    fn from_bits(word: u32) -> Self {
        match word & 3 {
            0 => List::Triangles,
            1 => List::Quads,
            2 => List::TriangleStrip { odd: false },
            _ => List::QuadStrip,
        }
    }

    /// The vertices of a polygon; 0 in a closed list.
    pub fn corners(self) -> usize {
        match self {
            List::Closed => 0,
            List::Triangles | List::TriangleStrip { .. } => 3,
            List::Quads | List::QuadStrip => 4,
        }
    }
}

/// A number of vertices and one of polygons.
#[derive(Clone, Copy, Debug, PartialEq, Eq)]
pub struct Counts {
    pub vertices: usize,
    pub polygons: usize,
}

#[derive(Clone, Debug)]
pub struct Geometry {
    pub colour: u32,
    /// The attributes last given by 29h.
    pub given: u32,
    /// The attributes in force.
    pub attributes: u32,
    pub position: [i16; 3],
    pub list: List,
    /// The first `waiting_count` of them wait; the last place is for the vertex that completes a quad.
    pub waiting: [Vertex; 4],
    pub waiting_count: usize,
    pub used: Counts,
    pub rooms: Counts,
    pub overflow: bool,
}

impl Geometry {
    pub fn fresh(rooms: Counts) -> Self {
        Geometry {
            colour: 0,
            given: 0,
            attributes: 0,
            position: [0; 3],
            list: List::Closed,
            waiting: [[0; VERTEX_NUMBERS]; 4],
            waiting_count: 0,
            used: Counts { vertices: 0, polygons: 0 },
            rooms,
            overflow: false,
        }
    }

    /// Runs one of the commands 20h to 50h; one that is only carried does nothing.
    #[inline]
    pub fn run(&mut self, command: u8, parameters: &[u32], transform: &mut Transform, buffers: &mut Buffers) {
        match command {
            0x20 => self.colour = parameters[0] & 0x7FFF,
            0x23..=0x28 => {
                self.position = moved(self.position, command, parameters);
                if self.list != List::Closed {
                    let [x, y, z, w] = transform.clip_vertex(self.position);
                    self.add([x, y, z, w, self.colour as i32], buffers);
                }
            }
            0x29 => self.given = parameters[0],
            0x40 => {
                self.attributes = self.given;
                self.list = List::from_bits(parameters[0]);
                self.waiting_count = 0;
            }
            0x50 => {
                self.used = Counts { vertices: 0, polygons: 0 };
                self.list = List::Closed;
                self.waiting_count = 0;
            }
            _ => {}
        }
    }

    /// Adds a vertex to the open list, and the polygon that it completes.
    fn add(&mut self, vertex: Vertex, buffers: &mut Buffers) {
        self.waiting[self.waiting_count] = vertex;
        self.waiting_count += 1;
        if self.waiting_count < self.list.corners() {
            return;
        }
        match self.list {
            List::Triangles => self.complete([0, 1, 2], 0, buffers),
            List::Quads => self.complete([0, 1, 2, 3], 0, buffers),
            List::TriangleStrip { odd } => {
                self.complete(if odd { [1, 0, 2] } else { [0, 1, 2] }, 2, buffers);
                self.list = List::TriangleStrip { odd: !odd };
            }
            List::QuadStrip => self.complete([0, 1, 3, 2], 2, buffers),
            List::Closed => {}
        }
    }

    /// Stores the polygon of the waiting vertices in this order; the last `kept` of them go on waiting.
    #[inline]
    fn complete<const N: usize>(&mut self, order: [usize; N], kept: usize, buffers: &mut Buffers) {
        self.store(order, buffers);
        self.waiting.copy_within(N - kept..N, 0);
        self.waiting_count = kept;
    }

    /// Stores a polygon with all its vertices, or drops it whole where a room would be exceeded.
    #[inline]
    fn store<const N: usize>(&mut self, order: [usize; N], buffers: &mut Buffers) {
        let first = self.used;
        if first.vertices + N > self.rooms.vertices || first.polygons == self.rooms.polygons {
            self.overflow = true;
            return;
        }
        let start = first.vertices * VERTEX_NUMBERS;
        let target = &mut buffers.vertices[start..start + N * VERTEX_NUMBERS];
        for (place, k) in target.chunks_exact_mut(VERTEX_NUMBERS).zip(order) {
            place.copy_from_slice(&self.waiting[k]);
        }
        let start = first.polygons * POLYGON_NUMBERS;
        let polygon = [first.vertices as u32, N as u32, self.attributes];
        buffers.polygons[start..start + POLYGON_NUMBERS].copy_from_slice(&polygon);
        self.used = Counts { vertices: first.vertices + N, polygons: first.polygons + 1 };
    }
}

/// The position after one of the commands 23h to 28h.
#[inline]
fn moved([x, y, z]: [i16; 3], command: u8, parameters: &[u32]) -> [i16; 3] {
    let word = parameters[0];
    let (low, high) = (word as i16, (word >> 16) as i16);
    match command {
        0x23 => [low, high, parameters[1] as i16],
        0x24 => [0, 10, 20].map(|shift| field(word, shift) << 6),
        0x25 => [low, high, z],
        0x26 => [low, y, high],
        0x27 => [x, low, high],
        _ => [x.wrapping_add(field(word, 0)), y.wrapping_add(field(word, 10)), z.wrapping_add(field(word, 20))],
    }
}

/// The signed field of ten bits from this bit on.
#[inline]
fn field(word: u32, shift: u32) -> i16 {
    ((word >> shift << 22) as i32 >> 22) as i16
}
