//! The entries as the library has them: words and bytes, with nothing checked
//! or changed on this side. `include/herovinga.h` is the same for C.
//!
//! Here a card that is not accepted, an index that is not its table's and a
//! length record that is malformed can be lent; the answer then has the refusal,
//! 7, 23 or 11. A card is settings, the bytes of the hall's unit table, those of
//! the line's and those of the numeral table, in this order, each of which may be
//! empty. An index stands behind its table, and has a byte for each of its rows.

/// Switches, sets, conjunctions and default kind, at the places below.
pub type Settings = [u64; 25];

/// A length record: negative, seconds, nanoseconds.
pub type Record = [u64; 3];

/// The switches, one word each, on if it is not 0: negatives, fractions,
/// exponents, infinity, ago, delimiters after a sign, delimiters between
/// number and unit.
pub const SWITCHES: usize = 0;
/// The inner delimiters, four words: byte b is bit b % 64 of word b / 64.
pub const INNER: usize = 7;
/// The outer delimiters, in the same form.
pub const OUTER: usize = 11;
/// How many conjunctions there are; then four times the size and the letters
/// of one, its first letter in the low byte.
pub const CONJUNCTIONS: usize = 15;
/// The kind of a number without a unit.
pub const DEFAULT_KIND: usize = 24;

/// What an entry hands back.
#[derive(Clone, Copy, PartialEq, Eq, Hash, Debug)]
pub struct Answer {
    /// 0, or the number of the refusal.
    pub number: u8,
    /// The next place, or where the refusal was met.
    pub position: u64,
    /// The length; after a refusal plus zero.
    pub length: Record,
}

impl Answer {
    fn of(number: u8, [position, negative, seconds, nanoseconds]: [u64; 4]) -> Self {
        Self {
            number,
            position,
            length: [negative, seconds, nanoseconds],
        }
    }
}

/// What a lookup hands back.
#[derive(Clone, Copy, PartialEq, Eq, Hash, Debug)]
pub struct Found {
    /// 0, whether a table has the name or not, or the number of the refusal.
    pub number: u8,
    /// 0, or where the refusal was met.
    pub position: u64,
    /// The table that has the name: 1 the hall's, 2 the line's, 0 neither.
    pub table: u64,
    /// The number of its row, or 0.
    pub row: u64,
    /// How many names were compared; after a refusal 0.
    pub compared: u64,
}

impl Found {
    fn of(number: u8, [position, table, row, compared]: [u64; 4]) -> Self {
        Self {
            number,
            position,
            table,
            row,
            compared,
        }
    }
}

#[link(name = "herovinga", kind = "static")]
unsafe extern "C" {
    fn herovinga_read_part(
        settings: *const u64,
        hall: *const u8,
        hall_size: usize,
        line: *const u8,
        line_size: usize,
        numerals: *const u8,
        numerals_size: usize,
        text: *const u8,
        text_size: usize,
        place: usize,
        answer: *mut u64,
    ) -> u8;
    fn herovinga_read_total(
        settings: *const u64,
        hall: *const u8,
        hall_size: usize,
        line: *const u8,
        line_size: usize,
        numerals: *const u8,
        numerals_size: usize,
        text: *const u8,
        text_size: usize,
        answer: *mut u64,
    ) -> u8;
    fn herovinga_write(
        length: *const u64,
        buffer: *mut u8,
        buffer_size: usize,
        place: usize,
        answer: *mut u64,
    ) -> u8;
    fn herovinga_add_total(
        total: *mut u64,
        settings: *const u64,
        hall: *const u8,
        hall_size: usize,
        line: *const u8,
        line_size: usize,
        numerals: *const u8,
        numerals_size: usize,
        text: *const u8,
        text_size: usize,
        answer: *mut u64,
    ) -> u8;
    fn herovinga_read_iso(text: *const u8, text_size: usize, answer: *mut u64) -> u8;
    fn herovinga_write_iso(
        length: *const u64,
        buffer: *mut u8,
        buffer_size: usize,
        place: usize,
        answer: *mut u64,
    ) -> u8;
    fn herovinga_make_index(
        settings: *const u64,
        table: *const u8,
        table_size: usize,
        index: *mut u8,
        index_size: usize,
        answer: *mut u64,
    ) -> u8;
    fn herovinga_check_index(
        settings: *const u64,
        table: *const u8,
        table_size: usize,
        index: *const u8,
        index_size: usize,
        answer: *mut u64,
    ) -> u8;
    fn herovinga_replace_row(
        settings: *const u64,
        table: *mut u8,
        table_size: usize,
        index: *mut u8,
        index_size: usize,
        row: usize,
        new_row: *const u8,
        new_row_size: usize,
        answer: *mut u64,
    ) -> u8;
    fn herovinga_read_part_indexed(
        settings: *const u64,
        hall: *const u8,
        hall_size: usize,
        hall_index: *const u8,
        hall_index_size: usize,
        line: *const u8,
        line_size: usize,
        line_index: *const u8,
        line_index_size: usize,
        numerals: *const u8,
        numerals_size: usize,
        text: *const u8,
        text_size: usize,
        place: usize,
        answer: *mut u64,
    ) -> u8;
    fn herovinga_read_total_indexed(
        settings: *const u64,
        hall: *const u8,
        hall_size: usize,
        hall_index: *const u8,
        hall_index_size: usize,
        line: *const u8,
        line_size: usize,
        line_index: *const u8,
        line_index_size: usize,
        numerals: *const u8,
        numerals_size: usize,
        text: *const u8,
        text_size: usize,
        answer: *mut u64,
    ) -> u8;
    fn herovinga_add_total_indexed(
        total: *mut u64,
        settings: *const u64,
        hall: *const u8,
        hall_size: usize,
        hall_index: *const u8,
        hall_index_size: usize,
        line: *const u8,
        line_size: usize,
        line_index: *const u8,
        line_index_size: usize,
        numerals: *const u8,
        numerals_size: usize,
        text: *const u8,
        text_size: usize,
        answer: *mut u64,
    ) -> u8;
    fn herovinga_look_up(
        settings: *const u64,
        hall: *const u8,
        hall_size: usize,
        line: *const u8,
        line_size: usize,
        name: *const u8,
        name_size: usize,
        found: *mut u64,
    ) -> u8;
    fn herovinga_look_up_indexed(
        settings: *const u64,
        hall: *const u8,
        hall_size: usize,
        hall_index: *const u8,
        hall_index_size: usize,
        line: *const u8,
        line_size: usize,
        line_index: *const u8,
        line_index_size: usize,
        name: *const u8,
        name_size: usize,
        found: *mut u64,
    ) -> u8;
    fn herovinga_move_to_new(
        source: *const u8,
        source_size: usize,
        target: *mut u8,
        target_size: usize,
        answer: *mut u64,
    ) -> u8;
    fn herovinga_move_to_old(
        source: *const u8,
        source_size: usize,
        target: *mut u8,
        target_size: usize,
        answer: *mut u64,
    ) -> u8;
}

/// Reads one part of a text from a place.
pub fn read_part(
    settings: &Settings,
    hall: &[u8],
    line: &[u8],
    numerals: &[u8],
    text: &[u8],
    place: usize,
) -> Answer {
    let mut answer = [0; 4];
    // SAFETY: the settings are 25 words, tables and text are slices lent with
    // their sizes, all of them for the call; the four words of the answer are
    // the entry's alone, and it writes nothing else and keeps no pointer.
    let number = unsafe {
        herovinga_read_part(
            settings.as_ptr(),
            hall.as_ptr(),
            hall.len(),
            line.as_ptr(),
            line.len(),
            numerals.as_ptr(),
            numerals.len(),
            text.as_ptr(),
            text.len(),
            place,
            answer.as_mut_ptr(),
        )
    };
    Answer::of(number, answer)
}

/// Reads a text's total.
pub fn read_total(
    settings: &Settings,
    hall: &[u8],
    line: &[u8],
    numerals: &[u8],
    text: &[u8],
) -> Answer {
    let mut answer = [0; 4];
    // SAFETY: the settings are 25 words, tables and text are slices lent with
    // their sizes, all of them for the call; the four words of the answer are
    // the entry's alone, and it writes nothing else and keeps no pointer.
    let number = unsafe {
        herovinga_read_total(
            settings.as_ptr(),
            hall.as_ptr(),
            hall.len(),
            line.as_ptr(),
            line.len(),
            numerals.as_ptr(),
            numerals.len(),
            text.as_ptr(),
            text.len(),
            answer.as_mut_ptr(),
        )
    };
    Answer::of(number, answer)
}

/// Writes a length at a place of a buffer. After a refusal the buffer is as it
/// was.
pub fn write(length: &Record, buffer: &mut [u8], place: usize) -> Answer {
    let mut answer = [0; 4];
    // SAFETY: the record is three words; the buffer is a slice lent with its
    // size and, like the four words of the answer, the entry's alone for the
    // call. It writes within these two only and keeps no pointer.
    let number = unsafe {
        herovinga_write(
            length.as_ptr(),
            buffer.as_mut_ptr(),
            buffer.len(),
            place,
            answer.as_mut_ptr(),
        )
    };
    Answer::of(number, answer)
}

/// Adds a text's total to a record. After a refusal the record is as it was.
pub fn add_total(
    total: &mut Record,
    settings: &Settings,
    hall: &[u8],
    line: &[u8],
    numerals: &[u8],
    text: &[u8],
) -> Answer {
    let mut answer = [0; 4];
    // SAFETY: the record is three words and the answer four, both the entry's
    // alone for the call; the settings are 25 words, tables and text are slices
    // lent with their sizes. It writes record and answer only and keeps no
    // pointer.
    let number = unsafe {
        herovinga_add_total(
            total.as_mut_ptr(),
            settings.as_ptr(),
            hall.as_ptr(),
            hall.len(),
            line.as_ptr(),
            line.len(),
            numerals.as_ptr(),
            numerals.len(),
            text.as_ptr(),
            text.len(),
            answer.as_mut_ptr(),
        )
    };
    Answer::of(number, answer)
}

/// Reads an ISO 8601 text.
pub fn read_iso(text: &[u8]) -> Answer {
    let mut answer = [0; 4];
    // SAFETY: the text is a slice lent with its size for the call; the four
    // words of the answer are the entry's alone, and it writes nothing else and
    // keeps no pointer.
    let number = unsafe { herovinga_read_iso(text.as_ptr(), text.len(), answer.as_mut_ptr()) };
    Answer::of(number, answer)
}

/// Writes a length at a place of a buffer as an ISO 8601 text. After a refusal
/// the buffer is as it was.
pub fn write_iso(length: &Record, buffer: &mut [u8], place: usize) -> Answer {
    let mut answer = [0; 4];
    // SAFETY: the record is three words; the buffer is a slice lent with its
    // size and, like the four words of the answer, the entry's alone for the
    // call. It writes within these two only and keeps no pointer.
    let number = unsafe {
        herovinga_write_iso(
            length.as_ptr(),
            buffer.as_mut_ptr(),
            buffer.len(),
            place,
            answer.as_mut_ptr(),
        )
    };
    Answer::of(number, answer)
}

/// Makes the index of a unit table under settings; positions are the table's own,
/// without 128. After a refusal the index is as it was.
pub fn make_index(settings: &Settings, table: &[u8], index: &mut [u8]) -> Answer {
    let mut answer = [0; 4];
    // SAFETY: the settings are 25 words and the table is a slice lent with its
    // size; the index is a slice lent with its size and, like the four words of
    // the answer, the entry's alone for the call. It writes within these two only
    // and keeps no pointer.
    let number = unsafe {
        herovinga_make_index(
            settings.as_ptr(),
            table.as_ptr(),
            table.len(),
            index.as_mut_ptr(),
            index.len(),
            answer.as_mut_ptr(),
        )
    };
    Answer::of(number, answer)
}

/// Checks a unit table and its index under settings; positions are the table's
/// own, without 128.
pub fn check_index(settings: &Settings, table: &[u8], index: &[u8]) -> Answer {
    let mut answer = [0; 4];
    // SAFETY: the settings are 25 words, table and index are slices lent with
    // their sizes, all of them for the call; the four words of the answer are the
    // entry's alone, and it writes nothing else and keeps no pointer.
    let number = unsafe {
        herovinga_check_index(
            settings.as_ptr(),
            table.as_ptr(),
            table.len(),
            index.as_ptr(),
            index.len(),
            answer.as_mut_ptr(),
        )
    };
    Answer::of(number, answer)
}

/// Replaces a row of a unit table and makes its index the new table's; positions
/// are the table's own, without 128. After a refusal table and index are as they
/// were.
pub fn replace_row(
    settings: &Settings,
    table: &mut [u8],
    index: &mut [u8],
    row: usize,
    new_row: &[u8],
) -> Answer {
    let mut answer = [0; 4];
    // SAFETY: the settings are 25 words and the new row is a slice lent with its
    // size; table and index are slices lent with their sizes and, like the four
    // words of the answer, the entry's alone for the call. It writes within these
    // three only and keeps no pointer.
    let number = unsafe {
        herovinga_replace_row(
            settings.as_ptr(),
            table.as_mut_ptr(),
            table.len(),
            index.as_mut_ptr(),
            index.len(),
            row,
            new_row.as_ptr(),
            new_row.len(),
            answer.as_mut_ptr(),
        )
    };
    Answer::of(number, answer)
}

/// Reads one part of a text from a place, through the index of each unit table.
#[allow(clippy::too_many_arguments)] // as the library has them
pub fn read_part_indexed(
    settings: &Settings,
    hall: &[u8],
    hall_index: &[u8],
    line: &[u8],
    line_index: &[u8],
    numerals: &[u8],
    text: &[u8],
    place: usize,
) -> Answer {
    let mut answer = [0; 4];
    // SAFETY: the settings are 25 words, tables, indexes and text are slices lent
    // with their sizes, all of them for the call; the four words of the answer are
    // the entry's alone, and it writes nothing else and keeps no pointer.
    let number = unsafe {
        herovinga_read_part_indexed(
            settings.as_ptr(),
            hall.as_ptr(),
            hall.len(),
            hall_index.as_ptr(),
            hall_index.len(),
            line.as_ptr(),
            line.len(),
            line_index.as_ptr(),
            line_index.len(),
            numerals.as_ptr(),
            numerals.len(),
            text.as_ptr(),
            text.len(),
            place,
            answer.as_mut_ptr(),
        )
    };
    Answer::of(number, answer)
}

/// Reads a text's total, through the index of each unit table.
pub fn read_total_indexed(
    settings: &Settings,
    hall: &[u8],
    hall_index: &[u8],
    line: &[u8],
    line_index: &[u8],
    numerals: &[u8],
    text: &[u8],
) -> Answer {
    let mut answer = [0; 4];
    // SAFETY: the settings are 25 words, tables, indexes and text are slices lent
    // with their sizes, all of them for the call; the four words of the answer are
    // the entry's alone, and it writes nothing else and keeps no pointer.
    let number = unsafe {
        herovinga_read_total_indexed(
            settings.as_ptr(),
            hall.as_ptr(),
            hall.len(),
            hall_index.as_ptr(),
            hall_index.len(),
            line.as_ptr(),
            line.len(),
            line_index.as_ptr(),
            line_index.len(),
            numerals.as_ptr(),
            numerals.len(),
            text.as_ptr(),
            text.len(),
            answer.as_mut_ptr(),
        )
    };
    Answer::of(number, answer)
}

/// Adds a text's total to a record, read through the index of each unit table.
/// After a refusal the record is as it was.
#[allow(clippy::too_many_arguments)] // as the library has them
pub fn add_total_indexed(
    total: &mut Record,
    settings: &Settings,
    hall: &[u8],
    hall_index: &[u8],
    line: &[u8],
    line_index: &[u8],
    numerals: &[u8],
    text: &[u8],
) -> Answer {
    let mut answer = [0; 4];
    // SAFETY: the record is three words and the answer four, both the entry's
    // alone for the call; the settings are 25 words, tables, indexes and text are
    // slices lent with their sizes. It writes record and answer only and keeps no
    // pointer.
    let number = unsafe {
        herovinga_add_total_indexed(
            total.as_mut_ptr(),
            settings.as_ptr(),
            hall.as_ptr(),
            hall.len(),
            hall_index.as_ptr(),
            hall_index.len(),
            line.as_ptr(),
            line.len(),
            line_index.as_ptr(),
            line_index.len(),
            numerals.as_ptr(),
            numerals.len(),
            text.as_ptr(),
            text.len(),
            answer.as_mut_ptr(),
        )
    };
    Answer::of(number, answer)
}

/// Looks a name up in the line's table and, if that has not got it, in the
/// hall's, row by row.
pub fn look_up(settings: &Settings, hall: &[u8], line: &[u8], name: &[u8]) -> Found {
    let mut found = [0; 4];
    // SAFETY: the settings are 25 words, tables and name are slices lent with their
    // sizes, all of them for the call; the four words of what is found are the
    // entry's alone, and it writes nothing else and keeps no pointer.
    let number = unsafe {
        herovinga_look_up(
            settings.as_ptr(),
            hall.as_ptr(),
            hall.len(),
            line.as_ptr(),
            line.len(),
            name.as_ptr(),
            name.len(),
            found.as_mut_ptr(),
        )
    };
    Found::of(number, found)
}

/// The same through the index of each table.
pub fn look_up_indexed(
    settings: &Settings,
    hall: &[u8],
    hall_index: &[u8],
    line: &[u8],
    line_index: &[u8],
    name: &[u8],
) -> Found {
    let mut found = [0; 4];
    // SAFETY: the settings are 25 words, tables, indexes and name are slices lent
    // with their sizes, all of them for the call; the four words of what is found
    // are the entry's alone, and it writes nothing else and keeps no pointer.
    let number = unsafe {
        herovinga_look_up_indexed(
            settings.as_ptr(),
            hall.as_ptr(),
            hall.len(),
            hall_index.as_ptr(),
            hall_index.len(),
            line.as_ptr(),
            line.len(),
            line_index.as_ptr(),
            line_index.len(),
            name.as_ptr(),
            name.len(),
            found.as_mut_ptr(),
        )
    };
    Found::of(number, found)
}

/// Moves stored rows from the old form to the new one. After a refusal the target
/// is as it was.
pub fn move_to_new(source: &[u8], target: &mut [u8]) -> Answer {
    let mut answer = [0; 4];
    // SAFETY: the source is a slice lent with its size; the target is a slice lent
    // with its size and, like the four words of the answer, the entry's alone for
    // the call. It writes within these two only and keeps no pointer.
    let number = unsafe {
        herovinga_move_to_new(
            source.as_ptr(),
            source.len(),
            target.as_mut_ptr(),
            target.len(),
            answer.as_mut_ptr(),
        )
    };
    Answer::of(number, answer)
}

/// Moves stored rows from the new form to the old one. After a refusal the target
/// is as it was.
pub fn move_to_old(source: &[u8], target: &mut [u8]) -> Answer {
    let mut answer = [0; 4];
    // SAFETY: the source is a slice lent with its size; the target is a slice lent
    // with its size and, like the four words of the answer, the entry's alone for
    // the call. It writes within these two only and keeps no pointer.
    let number = unsafe {
        herovinga_move_to_old(
            source.as_ptr(),
            source.len(),
            target.as_mut_ptr(),
            target.len(),
            answer.as_mut_ptr(),
        )
    };
    Answer::of(number, answer)
}
