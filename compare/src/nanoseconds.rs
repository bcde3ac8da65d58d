//! Lengths as whole numbers of nanoseconds, in 128 bits: another arithmetic
//! than the port's and the plain reading's, to hold their sums against.

use crate::request::Length;

pub const NANOS: i128 = 1_000_000_000;

/// The largest length. The smallest is as far below zero.
pub const MAX: i128 = (1 << 64) * NANOS - 1;

pub fn nanoseconds(length: Length) -> i128 {
    let size = i128::from(length.seconds) * NANOS + i128::from(length.nanos);
    if length.negative { -size } else { size }
}

pub fn clamped_sum(a: i128, b: i128) -> i128 {
    (a + b).clamp(-MAX, MAX)
}

/// A number of nanoseconds as the writer writes it.
pub fn written(nanoseconds: i128) -> String {
    let sign = if nanoseconds < 0 { '-' } else { '+' };
    let size = nanoseconds.abs();
    let all = format!("{sign}{}.{:09}", size / NANOS, size % NANOS);
    all.trim_end_matches('0').trim_end_matches('.').to_string()
}
