//! The numbers that documents 01 and 02 set.

/// A grain is 1/4096 of the user's unit. Entries of A, Q and of a halfspace's normal are in 1/4096 too.
pub const UNIT: i128 = 4_096;
/// A product of two numbers in 1/4096, as a halfspace's bound is, is in 1/16,777,216.
pub const SQUARE_UNIT: i128 = UNIT * UNIT;

pub const MAX_DIMENSION: usize = 6;
pub const MAX_FACTORS: usize = 12;
pub const MAX_TERMS: usize = 40;
pub const MAX_GENERATORS: usize = 24;
pub const MAX_HALFSPACES: usize = 8;
pub const MAX_EXPONENT: u32 = 63;
pub const MAX_IDENTIFIER: i128 = 65_535;
/// How many fields may follow the start set.
pub const MAX_FIELDS: usize = 4_096;

pub const SPAN_LIMIT: i128 = 1_048_576;
pub const ENTRY_LIMIT: i128 = 32_768;
pub const CONSTANT_LIMIT: i128 = 1_048_576;
pub const DISTURBANCE_LIMIT: i128 = 1_048_576;
pub const BOUND_LIMIT: i128 = 1_099_511_627_776;
