//! A second, plain way of moving stored rows from one form to another: each line
//! is read to the fields of its row, the row is laid out anew with another room for
//! its name, and that is written as a line again.
//!
//! It shares nothing with the reading of tables: a row is moved whatever its kind,
//! coefficient and power are.

use crate::request::{Answer, Length, hex};

/// The numbers of a line that is no stored row of the form, of a name for which the
/// other form has no room, and of a target that is too short.
const NO_STORED_ROW: u8 = 24;
const NAME_TOO_LONG: u8 = 25;
const NO_ROOM: u8 = 9;

/// Bytes of kind, coefficient and power, and of the zeros at a row's end.
const BEHIND_THE_NAME: usize = 1 + 8 + 2;
const ZEROS: usize = 4;

/// A form of rows, by how many bytes it has for the name.
#[derive(Clone, Copy, PartialEq, Eq, Debug)]
pub struct Form {
    pub room: usize,
}

pub const OLD: Form = Form { room: 16 };
pub const NEW: Form = Form { room: 32 };

impl Form {
    pub fn row_bytes(self) -> usize {
        1 + self.room + BEHIND_THE_NAME + ZEROS
    }

    /// Two digits for each byte of the row, and the newline.
    pub fn line_bytes(self) -> usize {
        2 * self.row_bytes() + 1
    }

    /// The form that lines of this one are moved to.
    pub fn other(self) -> Self {
        if self == OLD { NEW } else { OLD }
    }
}

/// The fields of a row that a move carries.
struct Fields {
    name: Vec<u8>,
    behind: Vec<u8>,
}

/// What is handed back, and the target as it is then.
#[derive(Clone, PartialEq, Eq, Debug)]
pub struct Moved {
    pub answer: Answer,
    pub target: Vec<u8>,
}

/// Moves the lines of a form to the other one, into a target that is lent.
pub fn moved(from: Form, source: &[u8], target: &[u8]) -> Moved {
    let lines = match all_lines(from, source) {
        Ok(lines) if lines.len() <= target.len() => lines,
        Ok(_) => return refused(NO_ROOM, 0, target),
        Err((number, line)) => return refused(number, line, target),
    };
    Moved {
        answer: Answer::success(lines.len() as u64, Length::ZERO),
        target: [&lines[..], &target[lines.len()..]].concat(),
    }
}

fn refused(number: u8, position: usize, target: &[u8]) -> Moved {
    Moved {
        answer: Answer::refusal(number, position as u64),
        target: target.to_vec(),
    }
}

/// All lines in the other form, or the first that cannot be moved and why.
fn all_lines(from: Form, source: &[u8]) -> Result<Vec<u8>, (u8, usize)> {
    let mut lines = Vec::new();
    for (number, line) in source.split_inclusive(|byte| *byte == b'\n').enumerate() {
        let fields = fields_of(from, line).ok_or((NO_STORED_ROW, number))?;
        let moved = line_of(from.other(), &fields).ok_or((NAME_TOO_LONG, number))?;
        lines.extend_from_slice(moved.as_bytes());
    }
    Ok(lines)
}

/// The fields of a stored row, or nothing if the line is none of the form.
fn fields_of(form: Form, line: &[u8]) -> Option<Fields> {
    let row = row_of(line.strip_suffix(b"\n")?)?;
    if row.len() != form.row_bytes() {
        return None;
    }
    let (size, rest) = row.split_first()?;
    let size = usize::from(*size);
    if size == 0 || size > form.room {
        return None;
    }
    let (room, rest) = rest.split_at(form.room);
    let (name, padding) = room.split_at(size);
    let (behind, zeros) = rest.split_at(BEHIND_THE_NAME);
    let all_zero = padding.iter().chain(zeros).all(|byte| *byte == 0);
    all_zero.then(|| Fields {
        name: name.to_vec(),
        behind: behind.to_vec(),
    })
}

/// The bytes that digits spell, if they do.
fn row_of(digits: &[u8]) -> Option<Vec<u8>> {
    if digits.len() % 2 != 0 {
        return None;
    }
    let spelled = |pair: &[u8]| Some(16 * digit(pair[0])? + digit(pair[1])?);
    digits.chunks(2).map(spelled).collect()
}

/// What a lower-case hexadecimal digit stands for.
fn digit(character: u8) -> Option<u8> {
    let place = b"0123456789abcdef".iter().position(|it| *it == character);
    place.map(|value| value as u8)
}

/// The line of a row in a form, or nothing if that has no room for the name.
fn line_of(form: Form, fields: &Fields) -> Option<String> {
    if fields.name.len() > form.room {
        return None;
    }
    let mut row = vec![0; form.row_bytes()];
    row[0] = fields.name.len() as u8;
    row[1..=fields.name.len()].copy_from_slice(&fields.name);
    row[1 + form.room..][..BEHIND_THE_NAME].copy_from_slice(&fields.behind);
    Some(hex(&row) + "\n")
}

/// The stored line of a row of a form with a name that it has room for, and behind
/// it kind, coefficient and power, whatever they are.
pub fn line(form: Form, name: &[u8], behind: &[u8; BEHIND_THE_NAME]) -> Vec<u8> {
    let fields = Fields {
        name: name.to_vec(),
        behind: behind.to_vec(),
    };
    line_of(form, &fields)
        .expect("there is room for the name")
        .into_bytes()
}
