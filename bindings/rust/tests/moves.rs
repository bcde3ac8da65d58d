//! Stored rows moved from the old form to the new one and back.

use herovinga::moves::{self, NEW_LINE, OLD_LINE, move_to_new, move_to_old};
use herovinga::{Card, Kind, Refusal, raw};

/// Room for the name in the old form and in the new one.
const OLD_ROOM: usize = 16;
const NEW_ROOM: usize = 32;

/// A name of 17 bytes, and one of sixteen letters of two bytes each.
const LONGER: &str = "abcdefghijklmnopq";
const CYRILLIC: &str = "абвгдежзийклмноп";

fn refusal(number: u8, position: usize) -> Refusal {
    Refusal { number, position }
}

/// A row with so much room for its name. What stands behind it is no unit's, and is
/// carried all the same.
fn row(room: usize, name: &str) -> Vec<u8> {
    let mut row = vec![0; room + 16];
    row[0] = name.len() as u8;
    row[1..1 + name.len()].copy_from_slice(name.as_bytes());
    row[1 + room..12 + room].copy_from_slice(&[255, 1, 2, 3, 4, 5, 6, 7, 8, 0x9a, 0xbc]);
    row
}

/// The stored form of a row.
fn line(row: &[u8]) -> String {
    let digits: String = row.iter().map(|byte| format!("{byte:02x}")).collect();
    digits + "\n"
}

fn lines(room: usize, names: &[&str]) -> String {
    names.iter().map(|name| line(&row(room, name))).collect()
}

#[test]
fn there_and_back() {
    let names = ["s", "µs", "abcdefghijklmno", "abcdefghijklmnop", "секунда"];
    for count in 0..=names.len() {
        let (old, new) = (
            lines(OLD_ROOM, &names[..count]),
            lines(NEW_ROOM, &names[..count]),
        );
        assert_eq!((old.len(), new.len()), (count * OLD_LINE, count * NEW_LINE));
        assert_eq!(moves::to_new(&old), Ok(new.clone().into_bytes()));
        assert_eq!(moves::to_old(&new), Ok(old.into_bytes()));
    }
}

/// What is moved is a row that a card takes.
#[test]
fn into_a_card() {
    let card = Card::builder().unit("µs", Kind::Microsecond, 1, 0).build();
    let card = card.expect("the card is accepted");
    let old = "03c2b57300000000000000000000000000010100000000000000000000000000\n";
    let moved = moves::to_new(old).expect("the line is moved");
    assert_eq!(moved, line(card.hall()).into_bytes());
}

/// Just large enough, larger, and too short by a byte and by all.
#[test]
fn the_targets_size() {
    let (old, new) = (
        lines(OLD_ROOM, &["s", "min"]),
        lines(NEW_ROOM, &["s", "min"]),
    );
    let mut target = [9; 3 * NEW_LINE];
    assert_eq!(move_to_new(&old, &mut target[..new.len()]), Ok(new.len()));
    assert_eq!(&target[..new.len()], new.as_bytes());
    assert!(target[new.len()..].iter().all(|byte| *byte == 9));

    let mut target = [9; 3 * NEW_LINE];
    assert_eq!(move_to_old(&new, &mut target), Ok(old.len()));
    assert_eq!(&target[..old.len()], old.as_bytes());
    assert!(target[old.len()..].iter().all(|byte| *byte == 9));

    let mut target = [9; 3 * NEW_LINE];
    for size in [0, 1, new.len() - 1] {
        assert_eq!(move_to_new(&old, &mut target[..size]), Err(refusal(9, 0)));
    }
    for size in [0, 1, old.len() - 1] {
        assert_eq!(move_to_old(&new, &mut target[..size]), Err(refusal(9, 0)));
    }
    assert_eq!(target, [9; 3 * NEW_LINE]);
    assert_eq!(move_to_new("", &mut []), Ok(0));
    assert_eq!(move_to_old("", &mut []), Ok(0));
}

/// Each line in turn, wrong in its length, its digits, its name's size or its zeros;
/// before a target that is too short.
#[test]
fn no_stored_row() {
    let names = ["s", "ms", "turn"];
    for room in [OLD_ROOM, NEW_ROOM] {
        let good: Vec<String> = names.iter().map(|name| line(&row(room, name))).collect();
        let refused = |lines: &[String], position: usize| {
            let source = lines.concat();
            let mut target = [9; 4 * NEW_LINE];
            for size in [0, 4 * NEW_LINE] {
                let moved = match room {
                    OLD_ROOM => move_to_new(&source, &mut target[..size]),
                    _ => move_to_old(&source, &mut target[..size]),
                };
                assert_eq!(moved, Err(refusal(24, position)), "{source}");
            }
            assert_eq!(target, [9; 4 * NEW_LINE]);
        };
        for (number, name) in names.iter().enumerate() {
            let mut wrong = Vec::new();
            for (place, byte) in [(0, 0), (0, room as u8 + 1), (0, 255), (5, 1), (room, 128)] {
                let mut row = row(room, name);
                row[place] = byte;
                wrong.push(line(&row));
            }
            for zero in 0..4 {
                let mut row = row(room, name);
                row[12 + room + zero] = 1;
                wrong.push(line(&row));
            }
            let right = &good[number];
            wrong.push(right.replacen("f", "F", 1));
            wrong.push(right.replacen("f", "g", 1));
            wrong.push(right.replacen("0", " ", 1));
            wrong.push(right.replacen("0", "", 1));
            wrong.push(right.replacen("0", "00", 1));
            wrong.push(right.replacen("\n", "\r\n", 1));
            wrong.push("\n".to_string());
            wrong.push(line(&row(OLD_ROOM + NEW_ROOM - room, name)));
            for line in wrong {
                let mut lines = good.clone();
                lines[number] = line;
                refused(&lines, number);
            }
        }
        // Behind the last newline no byte may stand, and none be missing.
        let last = |end: &str| [good.clone(), vec![end.to_string()]].concat();
        refused(&last("0"), 3);
        refused(&last("\n"), 3);
        refused(&last(good[0].trim_end()), 3);
    }
}

/// The first bad line decides between the two, and both come before the target.
#[test]
fn a_name_too_long_for_the_old_form() {
    for name in [LONGER, CYRILLIC] {
        for number in 0..3 {
            let mut names = ["s", "ms", "turn"];
            names[number] = name;
            let new = lines(NEW_ROOM, &names);
            assert_eq!(moves::to_old(&new), Err(refusal(25, number)));
            assert_eq!(move_to_old(&new, &mut []), Err(refusal(25, number)));
            let behind = new.clone() + "0";
            assert_eq!(moves::to_old(behind), Err(refusal(25, number)));
            let before = "0\n".to_string() + &new;
            assert_eq!(moves::to_old(before), Err(refusal(24, 0)));
        }
        let mut row = row(NEW_ROOM, name);
        row[NEW_ROOM + 15] = 1;
        assert_eq!(moves::to_old(line(&row)), Err(refusal(24, 0)));
    }
}

#[test]
fn as_they_are_lent() {
    let (old, new) = (lines(OLD_ROOM, &["s"]), lines(NEW_ROOM, &["s"]));
    let mut target = [0; NEW_LINE];
    let moved = raw::move_to_new(old.as_bytes(), &mut target);
    assert_eq!(
        (moved.number, moved.position, moved.length),
        (0, 97, [0; 3])
    );
    assert_eq!(target, new.as_bytes());
    let moved = raw::move_to_old(b"x", &mut target);
    assert_eq!(
        (moved.number, moved.position, moved.length),
        (24, 0, [0; 3])
    );
}
