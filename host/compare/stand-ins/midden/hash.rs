//! Stand-in for the unpublished file: constants that only seed hashing, on which no column depends.
pub const GOLDEN_RATIO: u64 = 0x9E37_79B9_7F4A_7C15;
pub const FNV_OFFSET_BASIS: u64 = 0xCBF2_9CE4_8422_2325;
pub const FNV_PRIME: u64 = 0x0000_0100_0000_01B3;
