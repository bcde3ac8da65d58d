//! The unit table of document 01, the numeral table of request four and the
//! merged table of request five: rows of 48 bytes, as request eight lays them
//! out, and the eight fixed kinds.

pub const ROW_BYTES: usize = 48;
pub const NAME_BYTES: usize = 32;
pub const MOST_ROWS: usize = 64;
pub const MOST_NUMERALS: usize = 32;

/// The kind of every numeral.
pub const NUMERAL_KIND: u8 = 3;

/// Where the fields of a row stand; its first byte is the length of its name.
pub const NAME_PLACE: usize = 1;
pub const KIND_PLACE: usize = 33;
const COEFFICIENT_PLACE: usize = 34;
const POWER_PLACE: usize = 42;
pub const ZEROS_PLACE: usize = 44;

/// Coefficient and power of ten of the kinds 0 to 7.
pub const KINDS: [(i64, i16); 8] = [
    (1, -9),
    (1, -6),
    (1, -3),
    (1, 0),
    (60, 0),
    (3_600, 0),
    (86_400, 0),
    (604_800, 0),
];

#[derive(Clone, Debug)]
pub struct Row {
    pub name: Vec<u8>,
    pub kind: u8,
    pub coefficient: i64,
    pub power: i16,
}

impl Row {
    /// The 48 bytes of a row; the name has 1 to 32 bytes.
    pub fn to_bytes(&self) -> [u8; ROW_BYTES] {
        let mut bytes = [0; ROW_BYTES];
        bytes[0] = self.name.len() as u8;
        bytes[NAME_PLACE..NAME_PLACE + self.name.len()].copy_from_slice(&self.name);
        bytes[KIND_PLACE] = self.kind;
        bytes[COEFFICIENT_PLACE..POWER_PLACE].copy_from_slice(&self.coefficient.to_le_bytes());
        bytes[POWER_PLACE..ZEROS_PLACE].copy_from_slice(&self.power.to_le_bytes());
        bytes
    }

    /// The row in 48 bytes, or nothing if they are not laid out as a row: the
    /// name length is wrong, or a byte that must be zero is not. What the name,
    /// kind and numbers are worth is for others to judge.
    pub fn from_bytes(bytes: &[u8]) -> Option<Row> {
        let length = usize::from(bytes[0]);
        if length == 0 || length > NAME_BYTES {
            return None;
        }
        let (name, padding) = bytes[NAME_PLACE..KIND_PLACE].split_at(length);
        if !all_zero(padding) || !all_zero(&bytes[ZEROS_PLACE..ROW_BYTES]) {
            return None;
        }
        let mut coefficient = [0; 8];
        coefficient.copy_from_slice(&bytes[COEFFICIENT_PLACE..POWER_PLACE]);
        let mut power = [0; 2];
        power.copy_from_slice(&bytes[POWER_PLACE..ZEROS_PLACE]);
        Some(Row {
            name: name.to_vec(),
            kind: bytes[KIND_PLACE],
            coefficient: i64::from_le_bytes(coefficient),
            power: i16::from_le_bytes(power),
        })
    }
}

/// Whether a name begins as an exponent does.
pub fn is_led_by_e(name: &[u8]) -> bool {
    matches!(name.first(), Some(b'e' | b'E'))
}

/// The table's bytes of a list of rows.
pub fn table_bytes(rows: &[Row]) -> Vec<u8> {
    rows.iter().flat_map(Row::to_bytes).collect()
}

/// The rows of a table of whole rows, or nothing if one is not laid out as a
/// row.
pub fn rows_of(table: &[u8]) -> Option<Vec<Row>> {
    table.chunks(ROW_BYTES).map(Row::from_bytes).collect()
}

/// The merged table of a hall's and a line's: the line's rows, and behind them
/// the hall's rows whose names the line has not. It may have more rows than a
/// table may.
pub fn merged(hall: &[u8], line: &[u8]) -> Option<Vec<Row>> {
    let mut rows = rows_of(line)?;
    let mut behind = rows_of(hall)?;
    behind.retain(|row| rows.iter().all(|other| other.name != row.name));
    rows.append(&mut behind);
    Some(rows)
}

fn all_zero(bytes: &[u8]) -> bool {
    bytes.iter().all(|byte| *byte == 0)
}
