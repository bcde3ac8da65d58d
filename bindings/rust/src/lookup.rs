//! Names looked up in the unit tables of a card.

use crate::raw::Found;

/// One of the two unit tables of a card.
#[derive(Clone, Copy, PartialEq, Eq, Hash, Debug)]
pub enum Table {
    /// The hall's.
    Hall,
    /// The line's own.
    Line,
}

/// Where a name stands, and what it took to find out.
#[derive(Clone, Copy, PartialEq, Eq, Hash, Debug)]
pub struct LookedUp {
    /// The table that has the name and the number of its row, or nothing if
    /// neither has it.
    pub at: Option<(Table, usize)>,
    /// How many names of rows it was compared with: those of the line's table,
    /// and of the hall's too where the line's has not got it.
    pub compared: usize,
}

impl LookedUp {
    /// What was found under an accepted card.
    pub(crate) fn of(found: &Found) -> Self {
        assert_eq!(
            found.number, 0,
            "no lookup is refused under an accepted card"
        );
        let row = found.row as usize;
        Self {
            at: match found.table {
                1 => Some((Table::Hall, row)),
                2 => Some((Table::Line, row)),
                _ => None,
            },
            compared: found.compared as usize,
        }
    }
}
