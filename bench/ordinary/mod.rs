//! What somebody would write without proof: the same answers, for every input.
pub mod entries;
pub mod phrases;
pub mod reading;
pub mod writing;

/// The most bytes of a block, and the most numbers of a list.
pub const BLOCK_LIMIT: usize = 65536;
pub const LIST_LIMIT: usize = 16384;

/// The refusals, by their numbers.
pub const END: u8 = 1;
pub const OVERFLOW: u8 = 2;
pub const NOT_SHORTEST: u8 = 3;
pub const PLACE: u8 = 4;
pub const NO_ROOM: u8 = 5;
pub const NOT_A_START: u8 = 6;
pub const TOO_LONG: u8 = 7;
pub const NO_START: u8 = 8;
pub const ENTRY: u8 = 10;
pub const TREE: u8 = 13;
