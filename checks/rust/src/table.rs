//! The commands, their parameters and their ports (document 01, Commands and their parameters).

/// The parameters that a command takes at most: those of 34h.
pub const MOST_PARAMETERS: usize = 32;

/// Marks a byte that is no command.
const UNKNOWN: u8 = 0xFF;

/// First command, last command, parameters of each of them. Every other byte is no command.
const ROWS: [(u8, u8, u8); 22] = [
    (0x10, 0x10, 1),
    (0x11, 0x11, 0),
    (0x12, 0x14, 1),
    (0x15, 0x15, 0),
    (0x16, 0x16, 16),
    (0x17, 0x17, 12),
    (0x18, 0x18, 16),
    (0x19, 0x19, 12),
    (0x1A, 0x1A, 9),
    (0x1B, 0x1C, 3),
    (0x20, 0x22, 1),
    (0x23, 0x23, 2),
    (0x24, 0x2B, 1),
    (0x30, 0x33, 1),
    (0x34, 0x34, 32),
    (0x40, 0x40, 1),
    (0x41, 0x41, 0),
    (0x50, 0x50, 1),
    (0x60, 0x60, 1),
    (0x70, 0x70, 3),
    (0x71, 0x71, 2),
    (0x72, 0x72, 1),
];

/// One entry for each byte value.
const PARAMETERS: [u8; 256] = table();

const fn table() -> [u8; 256] {
    let mut table = [UNKNOWN; 256];
    let mut row = 0;
    while row < ROWS.len() {
        let (first, last, parameters) = ROWS[row];
        let mut command = first as usize;
        while command <= last as usize {
            table[command] = parameters;
            command += 1;
        }
        row += 1;
    }
    table
}

/// How many parameters the command takes; none where the byte is no command.
#[inline]
pub fn parameters(command: u8) -> Option<usize> {
    match PARAMETERS[usize::from(command)] {
        UNKNOWN => None,
        count => Some(usize::from(count)),
    }
}

#[inline]
pub fn is_known(command: u8) -> bool {
    PARAMETERS[usize::from(command)] != UNKNOWN
}

/// The address of port 0; the ports lie four apart.
const PORTS: u32 = 0x0400_0400;

/// The port of a command.
#[inline]
pub fn port(command: u8) -> u32 {
    PORTS + 4 * u32::from(command)
}

/// The known command whose port the address is.
#[inline]
pub fn command_at(address: u32) -> Option<u8> {
    let offset = address.wrapping_sub(PORTS);
    if offset % 4 != 0 {
        return None;
    }
    let command = u8::try_from(offset / 4).ok()?;
    is_known(command).then_some(command)
}

/// Every known command, lowest first.
pub fn known() -> impl Iterator<Item = u8> {
    (0..=u8::MAX).filter(|&command| is_known(command))
}
