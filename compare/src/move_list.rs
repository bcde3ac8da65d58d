//! The rows that the program `moves_list` moves, and what it prints of them: check
//! sums, by the program's rule, of what the plain way hands back.
//!
//! The list is ten stored rows of the new form, a line each: eight whose names the
//! old form has room for, and two whose names are too long for it. What is moved are
//! lists of 0 to 200 of the eight, over and over, as they are and spoiled; all of it
//! follows from the rows.

use std::fmt::Write as _;

use crate::moves::{Form, Moved, NEW, OLD, line, moved};
use crate::stored;
use crate::sums::Sum;

/// The longest list.
const LINES: usize = 200;

/// What a byte of the target holds before: none that is ever written.
const BEFORE: u8 = 7;

/// So many bytes of a longer target are behind the lines.
const SPARE: usize = 3;

/// The ways to spoil a line; the last two, in which the line is one whose name is too
/// long, are of the new form alone.
const WAYS: usize = 13;
const WAYS_OF_BOTH: usize = 11;

/// Names and what is behind them: kinds, coefficients and powers of units and of none.
const ROWS: [(&str, [u8; 11]); 8] = [
    ("s", [3, 1, 0, 0, 0, 0, 0, 0, 0, 0, 0]),
    ("µs", [1, 1, 0, 0, 0, 0, 0, 0, 0, 0, 0]),
    ("turn", [2, 123, 0, 0, 0, 0, 0, 0, 0, 255, 255]),
    (
        "abcdefgh",
        [7, 255, 255, 255, 255, 255, 255, 255, 127, 0, 128],
    ),
    ("абвгд", [0; 11]),
    ("abcdefghijklmno", [255; 11]),
    ("a\0b", [8, 1, 35, 69, 103, 137, 171, 205, 239, 18, 52]),
    (
        "abcdefghijklmnop",
        [10, 10, 10, 10, 10, 10, 10, 10, 10, 10, 10],
    ),
];
const LONG: [&str; 2] = ["abcdefghijklmnopq", "абвгдежзийклмноп"];

/// Writes the rows into one file and what is printed of them into another.
pub fn write_files(rows_path: &str, found_path: &str) -> Result<bool, String> {
    let rows: Vec<Vec<u8>> = ROWS
        .iter()
        .map(|(name, behind)| line(NEW, name.as_bytes(), behind))
        .collect();
    let long = LONG.map(|name| line(NEW, name.as_bytes(), &ROWS[0].1));
    let stored = [rows.concat(), long.concat()].concat();
    let stored = String::from_utf8(stored).map_err(|error| error.to_string())?;
    let mut tried = Tried {
        new: Lists::new(NEW, (0..=LINES).flat_map(|number| rows[number % 8].clone())),
        old: Lists::new(OLD, []),
        long,
    };
    let all = moved(
        NEW,
        &tried.new.lines,
        &vec![BEFORE; (LINES + 1) * OLD.line_bytes()],
    );
    tried.old.lines = all.target;
    let mut found = String::new();
    for count in 0..=LINES {
        let _ = writeln!(
            found,
            "{count} {} {} {} {} {} {}",
            tried.whole(NEW, count).0,
            tried.whole(OLD, count).0,
            tried.short(count).0,
            tried.behind(count).0,
            tried.last_spoiled(NEW, count).0,
            tried.last_spoiled(OLD, count).0,
        );
    }
    for way in 0..WAYS {
        let _ = writeln!(
            found,
            "{} {}",
            tried.each_spoiled(NEW, way).0,
            tried.each_spoiled(OLD, way).0
        );
    }
    let _ = writeln!(found, "{} lists", LINES + 1);
    stored::write_files([(rows_path, stored), (found_path, found)])?;
    Ok(true)
}

/// The lines of a form, one more than the longest list has.
struct Lists {
    form: Form,
    lines: Vec<u8>,
}

impl Lists {
    fn new(form: Form, lines: impl IntoIterator<Item = u8>) -> Self {
        let lines = lines.into_iter().collect();
        Self { form, lines }
    }

    /// The list of so many lines, and some bytes behind it.
    fn list(&self, count: usize, more: usize) -> Vec<u8> {
        self.lines[..count * self.form.line_bytes() + more].to_vec()
    }
}

struct Tried {
    new: Lists,
    old: Lists,
    long: [Vec<u8>; 2],
}

impl Tried {
    fn of(&self, form: Form) -> &Lists {
        if form == NEW { &self.new } else { &self.old }
    }

    /// A list moved into a target of so many bytes.
    fn moved(&self, form: Form, source: &[u8], size: usize) -> Moved {
        moved(form, source, &vec![BEFORE; size])
    }

    /// What is handed back, and whether the target is as it was.
    fn refused(&self, sum: &mut Sum, form: Form, source: &[u8], size: usize) {
        let moved = self.moved(form, source, size);
        sum.answer(&moved.answer);
        sum.number(moved.target.iter().all(|byte| *byte == BEFORE).into());
    }

    /// A whole list, into a target that is just large enough and into a larger one, of
    /// which all bytes count.
    fn whole(&self, form: Form, count: usize) -> Sum {
        let source = self.of(form).list(count, 0);
        let size = count * form.other().line_bytes();
        let mut sum = Sum::begin();
        for size in [size, size + SPARE] {
            let moved = self.moved(form, &source, size);
            sum.answer(&moved.answer);
            sum.bytes(&moved.target);
        }
        sum
    }

    /// A list of at least one line, into a target that is one byte too short and into
    /// one of none, from both forms.
    fn short(&self, count: usize) -> Sum {
        let mut sum = Sum::begin();
        for form in [NEW, OLD] {
            if count > 0 {
                let source = self.of(form).list(count, 0);
                let size = count * form.other().line_bytes();
                self.refused(&mut sum, form, &source, size - 1);
                self.refused(&mut sum, form, &source, 0);
            }
        }
        sum
    }

    /// A list with one byte behind its last line: the first digit of another, and a
    /// newline; from both forms.
    fn behind(&self, count: usize) -> Sum {
        let mut sum = Sum::begin();
        for form in [NEW, OLD] {
            let mut source = self.of(form).list(count, 1);
            let size = (count + 1) * form.other().line_bytes();
            self.refused(&mut sum, form, &source, size);
            if let Some(last) = source.last_mut() {
                *last = b'\n';
            }
            self.refused(&mut sum, form, &source, size);
        }
        sum
    }

    /// A list with its last line spoiled in each way.
    fn last_spoiled(&self, form: Form, count: usize) -> Sum {
        let mut sum = Sum::begin();
        for way in 0..WAYS {
            if count > 0 {
                self.spoiled(&mut sum, form, count, count - 1, way);
            }
        }
        sum
    }

    /// The longest list with each of its lines spoiled in a way.
    fn each_spoiled(&self, form: Form, way: usize) -> Sum {
        let mut sum = Sum::begin();
        for number in 0..LINES {
            self.spoiled(&mut sum, form, LINES, number, way);
        }
        sum
    }

    fn spoiled(&self, sum: &mut Sum, form: Form, count: usize, number: usize, way: usize) {
        if form == OLD && way >= WAYS_OF_BOTH {
            return;
        }
        let mut source = self.of(form).list(count, 0);
        let at = number * form.line_bytes();
        self.spoil(form, &mut source[at..at + form.line_bytes()], way);
        let size = count * form.other().line_bytes();
        self.refused(sum, form, &source, size);
    }

    fn spoil(&self, form: Form, line: &mut [u8], way: usize) {
        let end = line.len();
        match way {
            // No digit first, and an upper-case one last.
            0 => line[0] = b'G',
            1 => line[end - 2] = b'A',
            // No newline at the end; one at the start, and one in the middle.
            2 => line[end - 1] = b'0',
            3 => line[0] = b'\n',
            4 => line[end / 2] = b'\n',
            // Sizes of names: none, one too many, as many as there are.
            5 => line[..2].copy_from_slice(b"00"),
            6 if form == NEW => line[..2].copy_from_slice(b"21"),
            6 => line[..2].copy_from_slice(b"11"),
            7 => line[..2].copy_from_slice(b"ff"),
            // The last byte of the room, and the zeros at the end: the first and the last.
            8 => line[2 * form.room + 1] = b'1',
            9 => line[end - 9] = b'1',
            10 => line[end - 2] = b'1',
            _ => line.copy_from_slice(&self.long[way - WAYS_OF_BOTH]),
        }
    }
}
