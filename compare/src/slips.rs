//! The six slips of request six, and the one number that they were before it.
//!
//! The crate has one error for all that is wrong with the syntax of a text, with
//! its place. It can confirm the place of a slip, and that it is one; which of the
//! six it is, the plain reading alone says.

use std::ops::RangeInclusive;

/// Document 01's number for syntax, which is the crate's alone now.
pub const SYNTAX: u8 = 2;

/// The numbers that it was split into.
pub const SLIPS: RangeInclusive<u8> = 17..=22;

pub fn is_slip(number: u8) -> bool {
    SLIPS.contains(&number)
}

/// The number that the crate has for an answer of the port or of the plain
/// reading: a slip is folded back to 2. An answer of 2 has none, since no entry
/// gives it any more, and so it is never taken for the crate's.
pub fn folded(number: u8) -> Option<u8> {
    match number {
        SYNTAX => None,
        number if is_slip(number) => Some(SYNTAX),
        number => Some(number),
    }
}
