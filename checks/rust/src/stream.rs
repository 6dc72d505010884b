//! What a packed word or a port command has still to come (document 01, Commands and their parameters).

use crate::table::{is_known, MOST_PARAMETERS};

#[derive(Clone, Copy, Debug, PartialEq, Eq)]
pub enum Pending {
    Nothing,
    /// The rest of a command word: its next command is the lowest byte, which takes parameters; no command is 0.
    Commands(u32),
    /// The dummy of a command word.
    Dummy,
    /// A port command that lacks parameters.
    Port(u8),
}

#[derive(Clone, Debug)]
pub struct Stream {
    pub pending: Pending,
    /// The first `count` of them are the parameters so far of the pending command.
    pub held: [u32; MOST_PARAMETERS],
    pub count: usize,
}

impl Stream {
    pub const FRESH: Stream = Stream { pending: Pending::Nothing, held: [0; MOST_PARAMETERS], count: 0 };

    /// Holds one more parameter; true where these are then all that the command takes, and none is held any more.
    #[inline]
    pub fn hold(&mut self, parameter: u32, taken: usize) -> bool {
        self.held[self.count] = parameter;
        self.count += 1;
        let complete = self.count == taken;
        if complete {
            self.count = 0;
        }
        complete
    }
}

/// The commands of a command word, each byte above the last of them 0; none where the word has a hole.
#[inline]
pub fn commands(word: u32) -> Option<u32> {
    let bytes = word.to_le_bytes();
    let count = bytes.iter().take_while(|&&byte| is_known(byte)).count();
    if bytes[count..].iter().any(|&byte| is_known(byte)) {
        return None;
    }
    let kept = (1_u64 << (8 * count)) - 1;
    Some(word & kept as u32)
}
