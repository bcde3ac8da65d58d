//! Stored rows moved from the form that they had to the one that they have, and
//! back.
//!
//! A stored row is a line: two lower-case hexadecimal digits for each of its bytes,
//! and a newline. In the old form a row had 32 bytes, with 16 for its name; in the
//! new one it has 48, with 32 for the name and the other fields behind it as they
//! were. Kind, coefficient and power are carried whatever they are. Lines stand one
//! behind another, as a file has them; bytes behind the last newline are a line of
//! wrong length. There and back they are the same bytes; from the new form all can
//! go whose names have at most 16 bytes.
//!
//! Refused is the first line, by its number from 0 on, that is no stored row of the
//! form (24), or whose name the old form has no room for (25); then a target that is
//! too short for all of them (9, at 0).

use crate::raw;
use crate::refusal::{Refusal, place_after};

/// How many bytes the line of a row has in the old form, its newline included.
pub const OLD_LINE: usize = 65;

/// How many bytes the line of a row has in the new form, its newline included.
pub const NEW_LINE: usize = 97;

/// Moves lines of the old form to the new one, to the target's start, and gives the
/// place behind the last byte written. No other byte of the target changes, and none
/// if they are refused (24, 9).
pub fn move_to_new(source: impl AsRef<[u8]>, target: &mut [u8]) -> Result<usize, Refusal> {
    place_after(&raw::move_to_new(source.as_ref(), target))
}

/// Moves lines of the new form to the old one, to the target's start, and gives the
/// place behind the last byte written. No other byte of the target changes, and none
/// if they are refused (24, 25, 9).
pub fn move_to_old(source: impl AsRef<[u8]>, target: &mut [u8]) -> Result<usize, Refusal> {
    place_after(&raw::move_to_old(source.as_ref(), target))
}

/// Lines of the old form in the new one, or the first of them that is refused (24).
///
/// ```
/// use herovinga::{Refusal, moves};
///
/// let old = "0173000000000000000000000000000000030100000000000000000000000000\n";
/// let new = moves::to_new(old)?;
/// assert_eq!(new.len(), moves::NEW_LINE);
/// assert!(new.starts_with(b"017300"));
/// assert_eq!(moves::to_new(&new), Err(Refusal { number: 24, position: 0 }));
/// # Ok::<(), Refusal>(())
/// ```
pub fn to_new(source: impl AsRef<[u8]>) -> Result<Vec<u8>, Refusal> {
    let source = source.as_ref();
    let mut target = vec![0; lines_of(source, OLD_LINE) * NEW_LINE];
    let end = move_to_new(source, &mut target)?;
    target.truncate(end);
    Ok(target)
}

/// Lines of the new form in the old one, or the first of them that is refused (24,
/// 25).
pub fn to_old(source: impl AsRef<[u8]>) -> Result<Vec<u8>, Refusal> {
    let source = source.as_ref();
    let mut target = vec![0; lines_of(source, NEW_LINE) * OLD_LINE];
    let end = move_to_old(source, &mut target)?;
    target.truncate(end);
    Ok(target)
}

/// How many whole lines there is room for in so many bytes: where each line is a
/// stored row, so many there are.
fn lines_of(source: &[u8], line: usize) -> usize {
    source.len() / line
}
