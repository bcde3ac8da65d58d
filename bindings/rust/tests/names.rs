//! Names of up to 32 bytes, of letters of one byte and of two.

use herovinga::{Card, CardBuilder, Kind, Length, LookedUp, Refusal, Table};

const LETTERS: &str = "abcdefghijklmnopqrstuvwxyzABCDEF";

/// Sixteen letters of two bytes each, and one more.
const CYRILLIC: &str = "абвгдежзийклмноп";
const ONE_MORE: &str = "абвгдежзийклмнопр";

/// Sizes on both sides of each eighth byte, and the two longest.
const SIZES: [usize; 9] = [7, 8, 9, 16, 17, 24, 25, 31, 32];

fn card(builder: CardBuilder) -> Card {
    builder.build().expect("the card is accepted")
}

fn seconds(count: u64) -> Result<Length, Refusal> {
    Length::new(false, count, 0)
}

fn refusal(number: u8, position: usize) -> Refusal {
    Refusal { number, position }
}

/// Units by these names, worth one second, two, and so on.
fn units<Name: AsRef<[u8]>>(names: &[Name]) -> Card {
    let add = |builder: CardBuilder, (number, name): (usize, &Name)| {
        builder.unit(name, Kind::Second, number as i64 + 1, 0)
    };
    card(names.iter().enumerate().fold(Card::builder(), add))
}

/// A name, and the same with another byte at an edge: each is read as itself.
#[test]
fn apart_at_each_edge() {
    for size in SIZES {
        let name = &LETTERS[..size];
        for place in [0, 7, 8, 15, 16, 23, 24, 31] {
            if place < size {
                let other = [&name[..place], "Z", &name[place + 1..]].concat();
                let both = units(&[name, other.as_str()]);
                assert_eq!(both.read_total(format!("1{name}")), seconds(1));
                assert_eq!(both.read_total(format!("1{other}")), seconds(2));
                let alone = units(&[name]);
                assert_eq!(alone.read_total(format!("1{other}")), Err(refusal(6, 1)));
            }
        }
    }
}

#[test]
fn beginnings_of_one_another() {
    let beginnings = [1, 7, 8, 9, 16, 24, 31, 32].map(|end| &LETTERS[..end]);
    let all = units(&beginnings);
    for (number, beginning) in beginnings.iter().enumerate() {
        let read = all.read_total(format!("1{beginning}"));
        assert_eq!(read, seconds(number as u64 + 1), "{beginning}");
    }
}

/// Bytes of zero belong to a name: its size decides, and not its room.
#[test]
fn zeros_of_a_name() {
    let zeros: Vec<Vec<u8>> = [1, 2, 8, 9, 16, 31, 32].map(|size| vec![0; size]).to_vec();
    let all = units(&zeros);
    for (number, name) in zeros.iter().enumerate() {
        let read = all.read_total([b"1", &name[..]].concat());
        assert_eq!(read, seconds(number as u64 + 1));
        assert_eq!(all.look_up(name).at, Some((Table::Hall, number)));
    }
    assert_eq!(all.look_up([0; 3]).at, None);
    assert_eq!(all.look_up([0; 33]).at, None);
}

#[test]
fn letters_of_two_bytes() {
    let all = units(&["µs", CYRILLIC, "αβγδεζηθικλμνξοπ"]);
    assert_eq!(all.hall_index(), [0, 2, 1]);
    assert_eq!(all.read_total(format!("1µs2{CYRILLIC}")), seconds(5));
    assert_eq!(all.read_total(format!("1{ONE_MORE}")), Err(refusal(6, 1)));
    let found = LookedUp {
        at: Some((Table::Hall, 1)),
        compared: 2,
    };
    assert_eq!(all.look_up(CYRILLIC), found);
    assert_eq!(all.look_up(ONE_MORE).at, None);
    assert_eq!(all.look_up(&CYRILLIC[..30]).at, None);
    let longer = Card::builder().unit(ONE_MORE, Kind::Second, 1, 0);
    assert_eq!(longer.build(), Err(refusal(7, 0)));
}

/// A row's name may become the longest.
#[test]
fn replaced_by_the_longest() {
    let mut card = Card::a();
    card.replace_unit(5, LETTERS, Kind::Second, 7, 0)
        .expect("the row is replaced");
    assert_eq!(card.read_total(format!("1{LETTERS}")), seconds(7));
    let longer = LETTERS.to_string() + "G";
    let refused = card.replace_unit(5, longer, Kind::Second, 7, 0);
    assert_eq!(refused, Err(refusal(7, 5)));
}

#[test]
fn numerals() {
    let spoken = Card::builder().inner(" ").unit("s", Kind::Second, 1, 0);
    let spoken = SIZES.iter().fold(spoken, |card, size| {
        card.numeral(&LETTERS[..*size], *size as i64, 0)
    });
    let spoken = card(spoken);
    for size in SIZES {
        let read = spoken.read_total(format!("{} s", &LETTERS[..size]));
        assert_eq!(read, seconds(size as u64));
    }
    let other = [&LETTERS[..31], "G s"].concat();
    assert_eq!(spoken.read_total(other), Err(refusal(6, 0)));
    let cyrillic = Card::builder().numeral(CYRILLIC, 1, 0);
    assert_eq!(cyrillic.build(), Err(refusal(7, 68)));
}
