//! The eleven message kinds: opcodes, lengths and the bytes before them.

/// The manufacturer's number.
pub const OBERHEIM: u8 = 0x10;
/// The device number of the Matrix-6, 6R and 1000.
pub const MATRIX: u8 = 0x06;
/// The version a master of the Matrix-1000 carries.
pub const VERSION: u8 = 3;
/// The greatest patch number.
pub const LAST_NUMBER: u8 = 99;
/// The greatest split number.
pub const LAST_SPLIT: u8 = 49;
/// The greatest bank number.
pub const LAST_BANK: u8 = 9;
/// The fewest units in a group.
pub const FEWEST_UNITS: u8 = 2;
/// The most units in a group.
pub const MOST_UNITS: u8 = 6;
/// The greatest ID of a unit in a group.
pub const LAST_ID: u8 = 5;
/// The ID of a store message for any unit in a group.
pub const ANY_UNIT: u8 = 0x7F;
/// The number of packed bytes in a master.
pub const MASTER_LENGTH: usize = 172;

/// F0H, 10H, 06H, the opcode and F7H: what stands around a message's body.
pub(crate) const ENVELOPE: usize = 5;

/// The opcode of each kind.
pub mod opcode {
    /// Single patch.
    pub const SINGLE_PATCH: u8 = 0x01;
    /// Split of the Matrix-6R.
    pub const SPLIT: u8 = 0x02;
    /// Master parameters.
    pub const MASTER: u8 = 0x03;
    /// Request data.
    pub const REQUEST_DATA: u8 = 0x04;
    /// Remote edit.
    pub const REMOTE_EDIT: u8 = 0x06;
    /// Group mode.
    pub const GROUP_MODE: u8 = 0x07;
    /// Set bank.
    pub const SET_BANK: u8 = 0x0A;
    /// Matrix modulation edit.
    pub const BUS_EDIT: u8 = 0x0B;
    /// Unlock bank.
    pub const UNLOCK_BANK: u8 = 0x0C;
    /// Patch to edit buffer.
    pub const EDIT_BUFFER: u8 = 0x0D;
    /// Store edit buffer.
    pub const STORE_EDIT_BUFFER: u8 = 0x0E;
}

/// What a request is for: the types that 000 names.
pub mod request {
    /// All patches in the current bank, and the master parameters.
    pub const ALL: u8 = 0;
    /// A single patch from the current bank.
    pub const SINGLE_PATCH: u8 = 1;
    /// The master parameters.
    pub const MASTER: u8 = 3;
    /// The edit buffer.
    pub const EDIT_BUFFER: u8 = 4;
}

/// The length of each kind, F0H and F7H included, without real time.
pub mod length {
    /// Single patch.
    pub const SINGLE_PATCH: usize = 275;
    /// Split. 003 prints 42, but its header of 5, 36 nibbles, checksum and end are 43.
    pub const SPLIT: usize = 43;
    /// Master parameters, the longest.
    pub const MASTER: usize = 351;
    /// Request data.
    pub const REQUEST_DATA: usize = 7;
    /// Remote edit.
    pub const REMOTE_EDIT: usize = 7;
    /// Group mode.
    pub const GROUP_MODE: usize = 7;
    /// Set bank.
    pub const SET_BANK: usize = 6;
    /// Matrix modulation edit.
    pub const BUS_EDIT: usize = 9;
    /// Unlock bank, the shortest.
    pub const UNLOCK_BANK: usize = 5;
    /// Patch to edit buffer.
    pub const EDIT_BUFFER: usize = 275;
    /// Store edit buffer.
    pub const STORE_EDIT_BUFFER: usize = 8;
}
