//! The refusal numbers of 01's table "When the beam won't balance", and request
//! E2's own.

/// The store isn't 100 words.
pub const STORE_LENGTH: u8 = 1;
/// Mode above 3.
pub const MODE: u8 = 2;
/// Space above 1.
pub const SPACE: u8 = 3;
/// Access above 1.
pub const ACCESS: u8 = 4;
/// Phase above 1.
pub const PHASE: u8 = 5;
/// Register address above 777777.
pub const ADDRESS_TOO_HIGH: u8 = 6;
/// Register address odd.
pub const ADDRESS_ODD: u8 = 7;
/// Register address even, but none of the 100.
pub const ADDRESS_UNKNOWN: u8 = 8;
/// Noted register above 7, or amount 0 or out of range.
pub const CHANGE: u8 = 9;
/// Not frozen and both bytes of SR1 are in use.
pub const SR1_FULL: u8 = 10;
/// Unknown record kind.
pub const RECORD_KIND: u8 = 11;
/// Record cut short.
pub const RECORD_CUT_SHORT: u8 = 12;
/// Request E4: recording over 16,777,216 bytes.
pub const RECORDING_TOO_LONG: u8 = 13;
/// Request E2: the record doesn't fit in the lent buffer.
pub const NO_ROOM: u8 = 14;
