//! Why a call is refused (document 01, Numbers a call can refuse with).

/// The number of a refusal.
#[derive(Clone, Copy, Debug, PartialEq, Eq)]
#[repr(u32)]
pub enum Refusal {
    /// The engine record is not sound.
    Unsound = 1,
    /// A lent buffer is shorter than its room.
    ShortBuffer = 2,
    /// A hole in a command word.
    Hole = 3,
    /// A port write with a packed word unfinished, or a packed word with a port command unfinished.
    Pending = 4,
    /// The address is no known command's port.
    Address = 5,
    /// Another port than the one begun.
    OtherPort = 6,
    /// A log of odd length, an input over 8,192 words, bytes that are not whole words.
    Size = 7,
    /// The log or list ends inside a command or before its dummy.
    Unfinished = 8,
    /// The packed list would pass 8,192 words.
    LongList = 9,
    /// The output is shorter than needed.
    ShortOutput = 10,
    /// A room is out of range.
    Room = 11,
}

impl Refusal {
    pub fn number(self) -> u32 {
        self as u32
    }

    /// This refusal at a place, counted from 0: the pair or the word.
    pub fn at(self, place: usize) -> Refused {
        Refused { refusal: self, place }
    }
}

/// A refusal with its place.
#[derive(Clone, Copy, Debug, PartialEq, Eq)]
pub struct Refused {
    pub refusal: Refusal,
    pub place: usize,
}

/// A refusal that carries no place of its own has place 0.
impl From<Refusal> for Refused {
    fn from(refusal: Refusal) -> Self {
        refusal.at(0)
    }
}
