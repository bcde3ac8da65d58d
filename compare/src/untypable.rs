//! Units that nobody could type, asked of the crate alone.
//!
//! The crate takes a name led by `e` or `E` under any settings. Where they have
//! neither exponents nor a delimiter before units it never finds that name, and
//! by request two such a card is refused; so there is no reading of it that
//! could be set beside the crate's, and what the crate is to say is written
//! here by hand.

use crate::card_a::{card_a, row};
use crate::crate_side::{CrateAnswer, SetUp, under_untypable};
use crate::request::{Answer, ByteSet, Card};
use crate::table::{Row, table_bytes};

/// The bytes of all short texts: digits, those of the units, a delimiter, signs
/// and the point.
const ALPHABET: &[u8; 10] = b"03eEon +-.";
const MOST_BYTES: usize = 6;

/// Settings that differ in what a name led by `e` needs.
struct Asked {
    name: &'static str,
    exponents: bool,
    unit_delimiter: bool,
    inner: &'static [u8],
    /// Whether such a name can be typed.
    typable: bool,
}

const ASKED: [Asked; 5] = [
    Asked {
        name: "exponents off, no delimiter before units",
        exponents: false,
        unit_delimiter: false,
        inner: b" ",
        typable: false,
    },
    Asked {
        name: "exponents off, a delimiter before units, but no inner one",
        exponents: false,
        unit_delimiter: true,
        inner: b"",
        typable: false,
    },
    Asked {
        name: "exponents off, no delimiter before units, and no inner one",
        exponents: false,
        unit_delimiter: false,
        inner: b"",
        typable: false,
    },
    Asked {
        name: "exponents on, no delimiter before units",
        exponents: true,
        unit_delimiter: false,
        inner: b" ",
        typable: true,
    },
    Asked {
        name: "exponents off, a delimiter before units",
        exponents: false,
        unit_delimiter: true,
        inner: b" ",
        typable: true,
    },
];

/// Texts that might come to such a unit, with the crate's answers; they are the
/// same wherever nobody could type it.
const TEXTS: [(&str, &str); 19] = [
    // An exponent, and none is allowed.
    ("3eon", "2 1 + 0 0"),
    ("3Eon", "2 1 + 0 0"),
    ("3E", "2 1 + 0 0"),
    ("3e0eon", "2 1 + 0 0"),
    ("3e0E", "2 1 + 0 0"),
    ("3.eon", "2 2 + 0 0"),
    (".5E", "2 2 + 0 0"),
    ("-3eon", "2 2 + 0 0"),
    ("3s 3eon", "2 4 + 0 0"),
    // Behind an outer delimiter a part begins, and not with a number.
    ("3 eon", "6 * + 0 0"),
    ("3 E", "6 * + 0 0"),
    ("+3 eon", "6 * + 0 0"),
    ("3 and eon", "6 * + 0 0"),
    ("3s eon", "6 * + 0 0"),
    ("inf eon", "6 * + 0 0"),
    // Nowhere else is a unit looked for.
    ("eon", "6 * + 0 0"),
    ("3seon", "6 * + 0 0"),
    ("+eon", "6 * + 0 0"),
    ("infeon", "2 3 + 0 0"),
];

impl Asked {
    /// Card A with such settings, the delimiter after a sign on too, and units.
    fn card(&self, rows: &[Row]) -> Card {
        let mut card = card_a();
        card.switches.sign_delimiter = true;
        card.switches.exponents = self.exponents;
        card.switches.unit_delimiter = self.unit_delimiter;
        card.inner = ByteSet::of(self.inner);
        card.hall = table_bytes(rows);
        card
    }

    fn with_units(&self) -> Card {
        self.card(&[
            row("s", 3, 1, 0),
            row("eon", 3, 1_000_003, 0),
            row("E", 3, 1_000_033, 0),
        ])
    }

    fn without_units(&self) -> Card {
        self.card(&[row("s", 3, 1, 0)])
    }
}

/// Asks the texts; true if the crate answers each as is written here.
pub fn ask_points() -> Result<bool, String> {
    let mut all_as_written = true;
    for asked in ASKED.iter().filter(|asked| !asked.typable) {
        println!("units `eon` and `E`, {}, of the crate alone", asked.name);
        under_untypable(&asked.with_units(), |set_up| {
            for (text, wanted) in TEXTS {
                let answer = set_up.total(text).to_string();
                let as_written = answer == wanted;
                all_as_written &= as_written;
                let verdict = if as_written {
                    "as written"
                } else {
                    "DIFFERENT"
                };
                println!("    `{text}` crate {answer}, written {wanted}: {verdict}");
            }
        })?;
    }
    Ok(all_as_written)
}

/// Asks about all short texts with the units and without them; true if under
/// the settings where nobody could type them, and only there, they change no
/// answer.
pub fn search() -> Result<bool, String> {
    let mut as_said = true;
    for asked in &ASKED {
        // Both cards have the same sets, so they can be set up at once.
        let found = under_untypable(&asked.with_units(), |with| {
            under_untypable(&asked.without_units(), |without| found(with, without))
        })???;
        println!(
            "{}: {} texts, {} read, {} answered otherwise than without the units",
            asked.name, found.texts, found.read, found.otherwise
        );
        as_said &= asked.typable == (found.otherwise > 0);
    }
    Ok(as_said)
}

#[derive(Default)]
struct Found {
    texts: u64,
    /// Of the texts those that are read, with the units in the table.
    read: u64,
    /// Those that have another answer without the units; a part whose unit is
    /// found would be refused there.
    otherwise: u64,
}

fn found(with: &SetUp, without: &SetUp) -> Result<Found, String> {
    let mut found = Found::default();
    for text in texts() {
        let answer = said(with.total(&text))?;
        found.texts += 1;
        found.read += u64::from(answer.number == 0);
        found.otherwise += u64::from(answer != said(without.total(&text))?);
    }
    Ok(found)
}

fn said(answer: CrateAnswer) -> Result<Answer, String> {
    match answer {
        CrateAnswer::Says(answer) => Ok(answer),
        other => Err(other.to_string()),
    }
}

fn texts() -> impl Iterator<Item = String> {
    (0..=MOST_BYTES).flat_map(|size| {
        let count = ALPHABET.len().pow(size as u32);
        (0..count).map(move |number| text_of(number, size))
    })
}

/// A text as a number, its first byte the lowest digit.
fn text_of(mut number: usize, size: usize) -> String {
    let next_letter = || {
        let letter = ALPHABET[number % ALPHABET.len()];
        number /= ALPHABET.len();
        char::from(letter)
    };
    std::iter::repeat_with(next_letter).take(size).collect()
}
