//! What the program `round` must print: its lists of lengths made by the same
//! rule, how many bytes each takes, and its total summed in 128 bits and held
//! between the smallest and the largest length after each of them.

use std::fmt::Write as _;
use std::fs;

use crate::nanoseconds::{MAX, NANOS, clamped_sum, written};
use crate::plain::MOST_TEXT_BYTES;

const CARDS: usize = 4;
const LISTS: usize = 200;
const ALL_LENGTHS: i128 = 1_000_000;

/// Writes what the program prints into a file.
pub fn write_file(found_path: &str) -> Result<bool, String> {
    let mut found = String::new();
    let mut lengths = 0;
    let mut exact = 0;
    for list in 0..CARDS * LISTS {
        let most = 2 * (list % LISTS) + 1;
        let list = list_from(lengths, most);
        let bytes: usize = list.iter().map(|length| written(*length).len()).sum();
        let total = list.iter().fold(0, |sum, length| clamped_sum(sum, *length));
        let _ = writeln!(found, "{} {bytes} {}", list.len(), written(total));
        exact += usize::from(passes_no_limit(&list));
        lengths += list.len();
    }
    let _ = write!(
        found,
        "cards: {CARDS}\nlengths written and read: {lengths}\nthat differ: 0\n"
    );
    let twice = 2 * lengths;
    let _ = write!(
        found,
        "0 at the edges: {lengths}\n9 at the edges: {twice}\n10 at the edges: {lengths}\n11 at the edges: {lengths}\nthat differ: 0\n"
    );
    fs::write(found_path, found).map_err(|error| format!("{found_path}: {error}"))?;
    eprintln!("{lengths} lengths; {exact} lists of which no sum on the way passes a limit");
    Ok(true)
}

/// So many lengths from a number on, or as many as a line has room for.
fn list_from(first: usize, most: usize) -> Vec<i128> {
    let mut list = Vec::new();
    let mut bytes = 0;
    for number in first..first + most {
        let length = nth(number as i128);
        bytes += written(length).len();
        if bytes > MOST_TEXT_BYTES {
            break;
        }
        list.push(length);
    }
    list
}

/// The lengths of all lists, by number, in nanoseconds.
fn nth(number: i128) -> i128 {
    let n = number % ALL_LENGTHS;
    let turn = n / 8;
    let power = (turn / 2) as u32;
    let size = match n % 8 {
        0 => 0,
        1 => 1,
        2 => turn * NANOS + 999_999_999,
        3 => 10_i128.pow(power % 20) * NANOS,
        4 => 10_i128.pow(power % 9),
        5 if turn % 16 < 2 => MAX,
        5 => turn * NANOS + 5,
        6 => n * 16_180_339_887 * NANOS + n * 271_828 % NANOS,
        _ => turn % 100 * NANOS + n * 577_215 % NANOS,
    };
    if turn % 2 == 1 { -size } else { size }
}

fn passes_no_limit(list: &[i128]) -> bool {
    let mut sum = 0;
    list.iter().all(|length| {
        sum += length;
        (-MAX..=MAX).contains(&sum)
    })
}
