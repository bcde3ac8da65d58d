//! Check sums of what is handed back, by the rule of the programs that print them.

use crate::index_request::Found;
use crate::request::Answer;

/// A check sum stays below the prime, and is multiplied before a number is added.
const BELOW: u64 = 4_294_967_291;
const FACTOR: u64 = 65_599;

/// A check sum, in which each number counts by its value and by its turn.
pub struct Sum(pub u64);

impl Sum {
    /// It begins with 1, so that zeros count too.
    pub fn begin() -> Self {
        Self(1)
    }

    pub fn number(&mut self, number: u64) {
        self.0 = (self.0 * FACTOR + number % BELOW) % BELOW;
    }

    pub fn answer(&mut self, answer: &Answer) {
        self.number(answer.number.into());
        self.number(answer.position.unwrap_or_default());
        self.number(answer.length.seconds);
        self.number(answer.length.nanos);
    }

    pub fn found(&mut self, found: Found) {
        self.number(found.number.into());
        for number in [found.position, found.table, found.row, found.compared] {
            self.number(number);
        }
    }

    pub fn bytes(&mut self, bytes: &[u8]) {
        for byte in bytes {
            self.number((*byte).into());
        }
    }
}
