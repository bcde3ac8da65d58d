//! The points where document 01's rules are a reading of what its authors had
//! no text of: the main driver, `POW10`, `Duration`, `Multiplier` and `Config`;
//! and those on which requests four and five are silent, and names of up to 32 bytes. Each point is asked of the crate by short texts under card A or a card near
//! it, and the answers are set against the plain reading.

use crate::card_a::{card_a, line_7, row, same_answer};
use crate::crate_side::{CrateAnswer, ask};
use crate::plain;
use crate::request::{ByteSet, Card, Conjunctions, Request};
use crate::spoken;
use crate::table::{Row, table_bytes};
use crate::untypable;

/// Asks every point; true if the crate agrees wherever it is compared, and
/// answers as is written where there is nothing to compare.
pub fn ask_points() -> Result<bool, String> {
    let mut asking = Asking { all_agree: true };
    asking.about_the_driver();
    asking.about_connections();
    asking.about_order();
    asking.about_powers_of_ten();
    asking.about_durations();
    asking.about_multipliers();
    asking.about_settings();
    asking.about_spoken_numbers();
    asking.about_two_unit_tables();
    asking.about_long_names();
    let untypable_as_written = untypable::ask_points()?;
    let spoken_as_written = spoken::ask_points()?;
    Ok(asking.all_agree && untypable_as_written && spoken_as_written)
}

struct Asking {
    all_agree: bool,
}

impl Asking {
    fn ask(&mut self, subject: &str, card: &Card, texts: &[&str]) {
        println!("{subject}");
        for text in texts {
            self.ask_text(card, text);
        }
    }

    fn ask_text(&mut self, card: &Card, text: &str) {
        let plain_answer = plain::total(card, text.as_bytes());
        let crate_answer = ask(&Request::Total {
            card: card.clone(),
            text: text.as_bytes().to_vec(),
        });
        let verdict = match &crate_answer {
            CrateAnswer::Says(answer) if same_answer(answer, &plain_answer) => "agrees",
            CrateAnswer::LeftOut(_) => "left out",
            _ => {
                self.all_agree = false;
                "DIFFERENT"
            }
        };
        // A delimiter may be NUL or a line's end, so the text is shown escaped.
        let shown = text.escape_debug();
        println!("    `{shown}` crate {crate_answer}, plain {plain_answer}: {verdict}");
    }

    fn about_the_driver(&mut self) {
        self.ask(
            "main driver, card A",
            &card_a(),
            &[
                "",
                "+",
                "x",
                " ",
                " 1",
                "+ 1",
                "+x",
                ".",
                ".5",
                "+.",
                ".s",
                "1.s",
                "1.e1",
                "1e",
                "1e+",
                "1e-",
                "1ex",
                "1e+x",
                "1E1",
                "1 ",
                "1 s",
                "1x",
                "1sx",
                "1.5.5",
                "inf",
                "INF",
                "+inf",
                "infinity",
                "Infx",
                "infinityx",
                "inf ",
                "inf 1",
                "1inf",
                "1sinf",
                "1s.5",
                "1s+",
                "1s ago",
                "1s AGO",
                "1s agos",
                "1s ago1",
                "1s ago ",
                "1 ago",
                "1ago",
            ],
        );
        self.ask(
            "main driver, delimiter after a sign on",
            &changed(|card| card.switches.sign_delimiter = true),
            &["+ 1", "+ ", "+ x", "+ + 1", "+  inf"],
        );
        self.ask(
            "main driver, no delimiter between number and unit",
            &changed(|card| card.switches.unit_delimiter = false),
            &["1 s", "1 ", "1 1", "1 and 1"],
        );
        self.ask(
            "main driver, fractions off",
            &changed(|card| card.switches.fractions = false),
            &["1.", "1.5", ".5", "."],
        );
        self.ask(
            "main driver, exponents off",
            &changed(|card| card.switches.exponents = false),
            &["1e1", "1E", "1.5e", "1 e"],
        );
        self.ask(
            "main driver, infinity off",
            &changed(|card| card.switches.infinity = false),
            &["inf", "1inf", "+inf"],
        );
        self.ask(
            "main driver, no rows",
            &changed(|card| card.hall.clear()),
            &["1", "1s", "1 s", "1 ago", "1 1", "1 "],
        );
        self.ask(
            "main driver, units `e`, `inf` and `ago`",
            &with_rows(&[row("e", 3, 1, 0), row("inf", 4, 1, 0), row("ago", 5, 1, 0)]),
            &[
                "1e",
                "1 e",
                "1e0e",
                "1inf",
                "1inf inf",
                "1ago",
                "1ago ago",
                "1ago agO1ago",
                "ago",
            ],
        );
        let led_by_e = with_rows(&[row("eon", 3, 5, 0), row("E", 3, 7, 0)]);
        self.ask(
            "main driver, units `eon` and `E`, no delimiter between number and unit",
            &also(&led_by_e, |card| card.switches.unit_delimiter = false),
            &["3eon", "3E", "3e0eon", "3e0E", "3E0Eon", "3 eon"],
        );
        self.ask(
            "main driver, units `eon` and `E`, exponents off",
            &also(&led_by_e, |card| card.switches.exponents = false),
            &["3eon", "3E", "3 eon", "3 E", "3 eon ago", "3e0eon", "3 e0"],
        );
        self.ask(
            "main driver, ago off, inner delimiter `,` and outer ` `",
            &changed(|card| {
                card.switches.ago = false;
                card.inner = ByteSet::of(b",");
            }),
            &[
                "1,s", "1s,", "1s,1", "1s ago", "1s,ago", "1,1", "1, 1", "1 ,1",
            ],
        );
        self.ask(
            "main driver, ago on, inner delimiter `,` and outer ` `",
            &changed(|card| card.inner = ByteSet::of(b",")),
            &[
                "1s,", "1s,1", "1s,ago", "1s,ago 1", "1s,ago,1", "1s ago", "1s,and 1", "1 and 1",
            ],
        );
    }

    fn about_connections(&mut self) {
        self.ask(
            "connection, words `an`, `and`",
            &with_words(&["an", "and"]),
            &[
                "1s an 1", "1s and 1", "1s an1", "1s an+1", "1s an", "1s an ", "1s AN 1",
            ],
        );
        self.ask(
            "connection, words `and`, `an`",
            &with_words(&["and", "an"]),
            &[
                "1s and 1",
                "1s an 1",
                "1s an and 1",
                "1s and.5",
                "1s and inf",
                "inf and inf",
            ],
        );
        self.ask(
            "connection, word `i` before `inf`",
            &with_words(&["i"]),
            &["1s inf", "1s i inf", "1s i1"],
        );
        self.ask(
            "connection, no outer delimiters",
            &changed(|card| card.outer = ByteSet::EMPTY),
            &[
                "1s1s", "1s 1s", "1s+1s", "1+1", "inf 1", "1s ago1", "1s ago 1",
            ],
        );
    }

    fn about_order(&mut self) {
        self.ask(
            "order of refusals, negatives off",
            &changed(|card| card.switches.negatives = false),
            &[
                "-1", "-inf", "1s ago", "-1s ago", "-1 1e", "-1 x", "-1s and", "-1s ", "-1e",
                "-1x", "1-1", "2-1", "-0", "-.1e-9", "-.1e-17", "-.1e-18", "0s ago", "-1e99999",
            ],
        );
    }

    fn about_powers_of_ten(&mut self) {
        self.ask(
            "POW10",
            &card_a(),
            &[
                "1e18",
                "1e19",
                "1e20",
                "1.8e19",
                "1.9e19",
                "0e20",
                "0e32767",
                "0.0e32767",
                ".1e20",
                ".01e21",
                "1e32767",
                "1e-9",
                "1e-10",
                "1e-18block",
                "1e-19block",
                ".1e-17block",
                "19e-19block",
                "1.99999999999999999999e-18block",
                "1e-32768",
                "100000000000000000000e-20",
                "100000000000000000000e-19block",
            ],
        );
    }

    fn about_durations(&mut self) {
        self.ask(
            "Duration",
            &card_a(),
            &[
                "1-1",
                "-1+1",
                "1-2",
                "inf",
                "-inf",
                "inf 1",
                "-inf -1",
                "inf -1",
                "inf -inf",
                "inf inf -inf",
                "18446744073709551615.999999999",
                "18446744073709551615.9999999999",
                "18446744073709551615 .999999999",
                "18446744073709551615 1",
                "-18446744073709551615 -1",
                ".5.5",
                ".999999999 1e-9",
                "-.5 -.5",
                "1-.000000001",
            ],
        );
    }

    fn about_multipliers(&mut self) {
        let rows = [
            row("z", 7, 0, 5),
            row("n", 3, -3, 0),
            row("top", 3, i64::MAX, 0),
            row("low", 3, -i64::MAX, 0),
            row("wk", 7, i64::MAX / 604_800, 0),
            row("up", 3, 1, i16::MAX),
            row("dn", 3, 1, i16::MIN),
            row("nd", 0, 1, i16::MIN + 9),
        ];
        self.ask(
            "Multiplier, rows z (7, 0, 5), n (3, -3, 0), top and low (3, +-9223372036854775807, 0), \
             wk (7, limit, 0), up and dn (3, 1, 32767 and -32768), nd (0, 1, -32759)",
            &with_rows(&rows),
            &[
                "1z", "-1z", "1z ago", "1n", "-1n", "1n ago", "-1n ago", "1top", "2top", "3top",
                "2.0000000001top", "2.000000000000000001top", "1low", "1low ago", "2low", "3low",
                "1e-18top", "1e-18low", "1wk", "2wk", "1up", "1e-32767up", "1e-32768up", "1e32767up",
                "0up", "1dn", "1e32767dn", "1e-32768dn", "1e32767nd", "10e32767dn",
            ],
        );
        self.ask(
            "Multiplier, card A",
            &card_a(),
            &[
                "3turn",
                "3turn ago",
                "1e1turn",
                "1ns",
                "1ms",
                "1min",
                ".1ns",
                "1.5min",
            ],
        );
    }

    fn about_settings(&mut self) {
        for kind in 0..8 {
            let card = changed(|card| card.kind = kind);
            self.ask(&format!("Config, default kind {kind}"), &card, &["1", "1s"]);
        }
        self.ask(
            "Config, negatives on and ago off",
            &changed(|card| card.switches.ago = false),
            &["1s ago", "-1s", "1s 1"],
        );
        self.ask(
            "Config, NUL as the only delimiter",
            &changed(|card| {
                card.inner = ByteSet::of(b"\0");
                card.outer = ByteSet::of(b"\0");
            }),
            &["1\0s", "1s\0and\0ago", "1s\0ago", "1s 1", "1\0"],
        );
    }

    fn about_spoken_numbers(&mut self) {
        let spoken = changed(|card| {
            card.numerals = table_bytes(&[
                row("five", 3, 5, 0),
                row("one", 3, 1, 0),
                row("half", 3, 5, -1),
                row("off", 3, -1, 0),
                row("s", 3, 2, 0),
                row("and", 3, 3, 0),
                row("inf", 3, 4, 0),
                row("infix", 3, 6, 0),
            ]);
        });
        self.ask(
            "spoken numbers, a numeral and what follows it",
            &spoken,
            &[
                "five min",
                "five  min",
                "five",
                "five ",
                "five  ",
                "fivemin",
                "five5 min",
                "five.min",
                "Five min",
                "fiv min",
                "fives min",
                "five x",
                "five and",
                "five 5",
                "five +",
                "five five min",
                "five min5",
                "five min five",
                "half s",
                "off s",
                "five turn",
                "s s",
                "and s",
            ],
        );
        self.ask(
            "spoken numbers, signs, ago and connections",
            &spoken,
            &[
                "-five min",
                "- five min",
                "+off s",
                "-off s",
                "five min ago",
                "-five min ago",
                "five min agos",
                "five min ",
                "five min and",
                "five min and one s",
                "five min and1s",
                "five min one s",
                "1 five min",
                "1five min",
                "1s five min",
                "1s and five min",
                "1sfive min",
                "1s+five min",
                "1.five min",
                "1e0five min",
                "1efive min",
            ],
        );
        self.ask(
            "spoken numbers, a delimiter after a sign",
            &also(&spoken, |card| card.switches.sign_delimiter = true),
            &["- five min", "-five min", "- ", "-  five", "- five "],
        );
        self.ask(
            "spoken numbers, infinity allowed",
            &spoken,
            &["inf s", "infix s", "inf", "-inf s", "Inf s"],
        );
        self.ask(
            "spoken numbers, infinity forbidden",
            &also(&spoken, |card| card.switches.infinity = false),
            &["inf s", "infix s", "inf", "-inf s", "Inf s"],
        );
        self.ask(
            "spoken numbers, no units",
            &also(&spoken, |card| card.hall.clear()),
            &["five min", "five", "five ", "five 5", "1 five 5"],
        );
        self.ask(
            "spoken numbers, no inner delimiter",
            &also(&spoken, |card| card.inner = ByteSet::EMPTY),
            &["five min", "fivemin", "1five"],
        );
        self.ask(
            "spoken numbers, inner comma and outer space",
            &also(&spoken, |card| card.inner = ByteSet::of(b",")),
            &[
                "five,min",
                "five min",
                "five ,min",
                "five,,min",
                "five, min",
                "five,min,ago",
                "five,min ago",
                "five,min five,s",
                "five,",
                "five,,",
                "1,five,min",
                "1 five,min",
            ],
        );
        self.ask(
            "spoken numbers, fractions, exponents and delimiters before units off",
            &also(&spoken, |card| {
                card.switches.fractions = false;
                card.switches.exponents = false;
                card.switches.unit_delimiter = false;
            }),
            &["five min", "half s", "five min and one s", "1 five min"],
        );
        self.ask(
            "spoken numbers, negatives off",
            &also(&spoken, |card| card.switches.negatives = false),
            &[
                "-five min",
                "off s",
                "-off s",
                "five min ago",
                "off s ago",
                "-five min and",
                "-five x",
                "-five ",
            ],
        );
        for power in [-28, -27, -19, -18, -10, -9, -1, 0, 1, 19, 20] {
            self.ask(
                &format!("spoken numbers, worth at the power {power}"),
                &changed(|card| {
                    card.numerals = table_bytes(&[
                        row("one", 3, 1, power),
                        row("nine", 3, 999_999_999, power),
                        row("ten", 3, 10_000_000_000, power),
                        row("most", 3, i64::MAX, power),
                    ]);
                }),
                &["one s", "nine s", "ten s", "most s", "one ns", "nine ns"],
            );
        }
    }

    fn about_two_unit_tables(&mut self) {
        let texts = [
            "1jaw",
            "1 jaw",
            "1jaw ago",
            "1turn",
            "1turn ago",
            "1s",
            "1jaw1turn1s",
            "1jaw and 1turn and 1s",
            "1ja",
            "1jaws",
            "1Jaw",
            "1jaw ",
            "1",
            "five jaw",
            "five turn",
            "five s",
            "five jaws",
        ];
        let on_line_7 = also(&line_7(), |card| {
            card.numerals = table_bytes(&[row("five", 3, 5, 0)]);
        });
        self.ask("two unit tables, a name in both", &on_line_7, &texts);
        self.ask(
            "two unit tables, none of the line's",
            &also(&on_line_7, |card| card.line.clear()),
            &texts,
        );
        self.ask(
            "two unit tables, none of the hall's",
            &also(&on_line_7, |card| card.hall.clear()),
            &texts,
        );
        self.ask(
            "two unit tables, the hall's and the line's exchanged",
            &also(&on_line_7, |card| {
                std::mem::swap(&mut card.hall, &mut card.line);
            }),
            &texts,
        );
        self.ask(
            "two unit tables, the line's names beside the hall's, of conjunctions, infinity and ago",
            &changed(|card| {
                card.line = table_bytes(&[
                    row("S", 4, 1, 0),
                    row("mi", 5, 1, 0),
                    row("mins", 6, 1, 0),
                    row("and", 3, 7, 0),
                    row("inf", 3, 11, 0),
                    row("ago", 3, 13, 0),
                    row("e", 3, 17, 0),
                ]);
            }),
            &[
                "1s1S", "1mi", "1min", "1mins", "1minss", "1and and 1and", "1 and 2", "1inf inf",
                "1ago ago", "1s ago", "1e1e", "1 e", "1e",
            ],
        );
    }

    fn about_long_names(&mut self) {
        let rows = [
            row("abcdefgh", 3, 2, 0),
            row("abcdefghijklmnop", 3, 3, 0),
            row("abcdefghijklmnopqrstuvwx", 3, 5, 0),
            row("abcdefghijklmnopqrstuvwxyzABCDEF", 3, 7, 0),
            row("abcdefghijklmnopqrstuvwxyzABCDEG", 3, 11, 0),
            row("µs", 1, 1, 0),
            row("абвгдежзийклмноп", 3, 13, 0),
            row("абвгдежзийклмноо", 3, 17, 0),
            row("a\0", 3, 19, 0),
            row("a", 3, 23, 0),
        ];
        let numerals = [
            row("abcdefghijklmnopqrstuvwxyzABCDEF", 3, 29, 0),
            row("abcdefghijklmnopqrstuvwxyzABCDEG", 3, 31, 0),
            row("abcdefghijklmnop", 3, 37, 0),
        ];
        self.ask(
            "names of up to 32 bytes, of units and of numerals",
            &also(&with_rows(&rows), |card| {
                card.numerals = table_bytes(&numerals)
            }),
            &[
                "1abcdefg",
                "1abcdefgh",
                "1abcdefghi",
                "1abcdefghijklmnop",
                "1abcdefghijklmnopq",
                "1abcdefghijklmnopqrstuvwx",
                "1abcdefghijklmnopqrstuvwxyzABCDE",
                "1abcdefghijklmnopqrstuvwxyzABCDEF",
                "1abcdefghijklmnopqrstuvwxyzABCDEG",
                "1abcdefghijklmnopqrstuvwxyzABCDEH",
                "1abcdefghijklmnopqrstuvwxyzABCDEFG",
                "61.7µs",
                "1us",
                "1µ",
                "1абвгдежзийклмноп",
                "1абвгдежзийклмноо",
                "1абвгдежзийклмнопр",
                "1абвгдежзийклмно",
                "1абвгдежзийклмноп ago and 2µs",
                "1a",
                "1a\0",
                "1a\0\0",
                "abcdefghijklmnopqrstuvwxyzABCDEF абвгдежзийклмноп",
                "abcdefghijklmnopqrstuvwxyzABCDEG µs",
                "abcdefghijklmnop a",
                "abcdefghijklmnopq a",
            ],
        );
    }
}

fn changed(change: impl FnOnce(&mut Card)) -> Card {
    also(&card_a(), change)
}

fn also(card: &Card, change: impl FnOnce(&mut Card)) -> Card {
    let mut card = card.clone();
    change(&mut card);
    card
}

fn with_rows(rows: &[Row]) -> Card {
    changed(|card| card.hall = table_bytes(rows))
}

fn with_words(words: &[&str]) -> Card {
    let words: Vec<Vec<u8>> = words.iter().map(|word| word.as_bytes().to_vec()).collect();
    changed(|card| card.conjunctions = Conjunctions::of(&words))
}
