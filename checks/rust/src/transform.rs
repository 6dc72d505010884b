//! The four matrices, their stacks and the commands 10h to 1Ch (document 01, Matrices; document 02, T-02).

use crate::matrix::{self, Matrix, UNIT};

/// The slots of the position and vector stack.
pub const SLOTS: usize = 32;

/// The levels of that stack, 0 to 63: S has six bits.
pub const LEVELS: usize = 64;

/// Push at this level or above, pop to it or above, store and restore of this slot are errors.
const FIRST_ERROR: usize = 31;

/// What the matrix commands act on: bits 0-1 of 10h.
#[derive(Clone, Copy, Debug, PartialEq, Eq)]
pub enum Mode {
    Projection,
    Position,
    PositionAndVector,
    Texture,
}

impl Mode {
    pub fn from_bits(word: u32) -> Self {
        match word & 3 {
            0 => Mode::Projection,
            1 => Mode::Position,
            2 => Mode::PositionAndVector,
            _ => Mode::Texture,
        }
    }
}

/// A matrix with a stack of one slot: projection and texture.
#[derive(Clone, Debug)]
pub struct Single {
    pub matrix: Matrix,
    pub slot: Matrix,
    /// Whether the level is 1.
    pub pushed: bool,
}

impl Single {
    const FRESH: Single = Single { matrix: UNIT, slot: [0; 16], pushed: false };

    /// Stores, and the level flips; true where it is an error, at level 1.
    fn push(&mut self) -> bool {
        let error = self.pushed;
        self.store();
        self.pushed = !self.pushed;
        error
    }

    /// Loads, and the level flips; true where it is an error, at level 0.
    fn pop(&mut self) -> bool {
        let error = !self.pushed;
        self.restore();
        self.pushed = !self.pushed;
        error
    }

    fn store(&mut self) {
        self.slot = self.matrix;
    }

    fn restore(&mut self) {
        self.matrix = self.slot;
    }
}

/// The position and the vector matrix with their stacks, which move together.
#[derive(Clone, Debug)]
pub struct Pair {
    pub position: Matrix,
    pub vector: Matrix,
    pub positions: [Matrix; SLOTS],
    pub vectors: [Matrix; SLOTS],
    /// S, from 0 to 63.
    pub level: usize,
}

impl Pair {
    const FRESH: Pair =
        Pair { position: UNIT, vector: UNIT, positions: [[0; 16]; SLOTS], vectors: [[0; 16]; SLOTS], level: 0 };

    /// Stores at a level or a slot, in slot `place` mod 32; true where it is an error. So also the three below.
    fn store(&mut self, place: usize) -> bool {
        let slot = place % SLOTS;
        self.positions[slot] = self.position;
        self.vectors[slot] = self.vector;
        place >= FIRST_ERROR
    }

    fn restore(&mut self, place: usize) -> bool {
        let slot = place % SLOTS;
        self.position = self.positions[slot];
        self.vector = self.vectors[slot];
        place >= FIRST_ERROR
    }

    /// Stores at S, which becomes (S + 1) mod 64.
    fn push(&mut self) -> bool {
        let error = self.store(self.level);
        self.level = (self.level + 1) % LEVELS;
        error
    }

    /// N is bits 0-5, signed; S becomes T = (S - N) mod 64, and what is stored at T is loaded.
    fn pop(&mut self, parameter: u32) -> bool {
        let number = (parameter << 26) as i32 >> 26;
        self.level = (self.level as i32 - number).rem_euclid(LEVELS as i32) as usize;
        self.restore(self.level)
    }
}

#[derive(Clone, Debug)]
pub struct Transform {
    pub projection: Single,
    pub pair: Pair,
    pub texture: Single,
    pub mode: Mode,
    pub error: bool,
    /// The clip matrix, where neither the position nor the projection matrix has changed since it was worked out.
    clip: Option<Matrix>,
}

impl Transform {
    pub const FRESH: Transform = Transform::new(Single::FRESH, Pair::FRESH, Single::FRESH, Mode::Projection, false);

    pub const fn new(projection: Single, pair: Pair, texture: Single, mode: Mode, error: bool) -> Self {
        Transform { projection, pair, texture, mode, error, clip: None }
    }

    /// position × projection.
    pub fn clip(&self) -> Matrix {
        self.clip.unwrap_or_else(|| matrix::multiply(&self.pair.position, &self.projection.matrix))
    }

    /// (X, Y, Z, 4096) × the clip matrix.
    pub fn clip_vertex(&mut self, [x, y, z]: [i16; 3]) -> [i32; 4] {
        let (position, projection) = (&self.pair.position, &self.projection.matrix);
        let clip = self.clip.get_or_insert_with(|| matrix::multiply(position, projection));
        matrix::transform([i32::from(x), i32::from(y), i32::from(z), matrix::ONE], clip)
    }

    /// Runs one of the commands 10h to 1Ch; any other does nothing.
    pub fn run(&mut self, command: u8, parameters: &[u32]) {
        match command {
            0x10 => self.mode = Mode::from_bits(parameters[0]),
            0x11..=0x14 => self.run_stack(command, parameters[0]),
            0x15 => self.change(|_| UNIT),
            0x16 => self.load(matrix::from_4x4(parameters)),
            0x17 => self.load(matrix::from_4x3(parameters)),
            0x18 => self.multiply(matrix::from_4x4(parameters)),
            0x19 => self.multiply(matrix::from_4x3(parameters)),
            0x1A => self.multiply(matrix::from_3x3(parameters)),
            0x1B => self.scale(matrix::triple(parameters)),
            0x1C => self.change(|current| matrix::translate(matrix::triple(parameters), current)),
            _ => {}
        }
    }

    fn load(&mut self, matrix: Matrix) {
        self.change(|_| matrix);
    }

    fn multiply(&mut self, matrix: Matrix) {
        self.change(|current| matrix::multiply(&matrix, current));
    }

    /// Scale leaves the vector matrix, in mode 2 too.
    fn scale(&mut self, by: [i32; 3]) {
        let current = match self.mode {
            Mode::Projection => &mut self.projection.matrix,
            Mode::Position | Mode::PositionAndVector => &mut self.pair.position,
            Mode::Texture => &mut self.texture.matrix,
        };
        *current = matrix::scale(by, current);
        self.forget_clip();
    }

    /// Changes the matrix of the mode, in mode 2 both.
    fn change(&mut self, new: impl Fn(&Matrix) -> Matrix) {
        match self.mode {
            Mode::Projection => self.projection.matrix = new(&self.projection.matrix),
            Mode::Position => self.pair.position = new(&self.pair.position),
            Mode::PositionAndVector => {
                self.pair.position = new(&self.pair.position);
                self.pair.vector = new(&self.pair.vector);
            }
            Mode::Texture => self.texture.matrix = new(&self.texture.matrix),
        }
        self.forget_clip();
    }

    /// Push, pop, store and restore. On an error the flag is set and the move is made too.
    fn run_stack(&mut self, command: u8, parameter: u32) {
        self.error |= match self.mode {
            Mode::Projection => run_single(&mut self.projection, command),
            Mode::Texture => run_single(&mut self.texture, command),
            Mode::Position | Mode::PositionAndVector => run_pair(&mut self.pair, command, parameter),
        };
        if matches!(command, 0x12 | 0x14) {
            self.forget_clip();
        }
    }

    fn forget_clip(&mut self) {
        if self.mode != Mode::Texture {
            self.clip = None;
        }
    }
}

/// The stack commands in modes 0 and 3; true where it is an error, which store and restore never are. The parameter is
/// not looked at.
fn run_single(single: &mut Single, command: u8) -> bool {
    match command {
        0x11 => single.push(),
        0x12 => single.pop(),
        0x13 => {
            single.store();
            false
        }
        _ => {
            single.restore();
            false
        }
    }
}

/// The stack commands in modes 1 and 2; true where it is an error.
fn run_pair(pair: &mut Pair, command: u8, parameter: u32) -> bool {
    let slot = (parameter & 31) as usize;
    match command {
        0x11 => pair.push(),
        0x12 => pair.pop(parameter),
        0x13 => pair.store(slot),
        _ => pair.restore(slot),
    }
}
