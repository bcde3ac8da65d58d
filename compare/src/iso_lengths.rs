//! The lengths that the program `iso_list` writes, made by the same rule, and
//! what it prints of them.

use std::fmt::Write as _;

use crate::iso;
use crate::request::Length;

const LENGTHS: u64 = 3_200;

/// A buffer of which the edges are tried.
const EDGE: usize = 64;

/// The numbers that the writer hands back.
const NUMBERS: [u8; 5] = [0, 5, 9, 10, 11];

/// So many lengths, spread over the list.
pub fn some(count: usize) -> Vec<Length> {
    // No multiple of the eight kinds of length, so that each has its turn.
    let step = (LENGTHS as usize / count) as u64 | 1;
    (0..count as u64).map(|index| nth(index * step)).collect()
}

/// What is tried of a length: the length, the buffer's size and the place. The
/// room that it needs, by itself and behind others; a byte less, none, and a
/// place beyond the buffer; and what is refused whatever the place.
pub fn tries(length: Length) -> [(Length, usize, u64); 9] {
    let size = iso::written(length).len();
    let at = (EDGE - size) as u64;
    let negative = Length {
        negative: true,
        ..length
    };
    let malformed = |nanos| Length { nanos, ..negative };
    let (end, beyond) = (EDGE as u64, EDGE as u64 + 1);
    [
        (length, size, 0),
        (length, size - 1, 0),
        (length, EDGE, at + 1),
        (length, EDGE, end),
        (length, EDGE, beyond),
        (negative, EDGE, beyond),
        (malformed(1_000_000_000), EDGE, beyond),
        (malformed(u64::from(u32::MAX)), EDGE, 0),
        (length, EDGE, at),
    ]
}

/// Each length as it is written, and then how many there are, how many bytes
/// they take, and how often each number came.
pub fn printed() -> String {
    let mut lines = String::new();
    let mut bytes = 0;
    let mut counts = [0_u64; 256];
    for length in (0..LENGTHS).map(nth) {
        let written = iso::written(length);
        bytes += written.len();
        let _ = writeln!(lines, "{written}");
        for (length, room, place) in tries(length) {
            counts[usize::from(iso::write(length, room, place).number)] += 1;
        }
    }
    let _ = writeln!(lines, "lengths written and read: {LENGTHS}");
    let _ = writeln!(lines, "bytes: {bytes}");
    let _ = writeln!(lines, "that differ: 0");
    for number in NUMBERS {
        let _ = writeln!(
            lines,
            "{number} of the writer: {}",
            counts[usize::from(number)]
        );
    }
    lines
}

/// The lengths by number: single digits behind the point, powers of ten, both
/// sides of each minute and hour, components that are there or not, the largest
/// ones, and others.
fn nth(number: u64) -> Length {
    let n = number % LENGTHS;
    let turn = n / 8;
    let (seconds, nanos) = match n % 8 {
        0 => (0, (turn / 9 % 9 + 1) * power(turn % 9)),
        1 => (power(turn % 20), turn % 3 * 499_999_999),
        2 => (60 * (turn / 4) + 58 + turn % 4, turn % 2 * 999_999_999),
        3 => (
            3_600 * (turn / 4) + 3_598 + turn % 4,
            turn / 4 % 2 * 999_999_999,
        ),
        4 => (
            turn % 2 * 3_600 * (turn + 1)
                + turn / 2 % 2 * 60 * (turn % 59 + 1)
                + turn / 4 % 2 * (turn % 59 + 1),
            turn / 8 % 2 * power(turn / 16 % 9),
        ),
        5 => (u64::MAX - turn * 1_801, 999_999_999 - turn % 2 * turn),
        6 => (
            n % 1_000 * 18_046_744_073_709_551,
            n * 271_828 % 1_000_000_000,
        ),
        _ => (n * 7_919 % 100_000, n * 577_215 % 1_000_000_000),
    };
    Length {
        negative: false,
        seconds,
        nanos,
    }
}

fn power(of_ten: u64) -> u64 {
    10_u64.pow(of_ten as u32)
}
