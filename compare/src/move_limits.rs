//! Moves of stored rows at their limits, with answers written by hand from request
//! eight: lines, digits, sizes of names, zeros, names that are too long for the old
//! form, targets, and the order of the refusals. Each rule is tried from both sides,
//! in both forms where both have it.

use crate::moves::{self, Form, NEW, OLD, line, moved};
use crate::request::{Answer, Length};

/// Card A's `turn` in both forms, by its digits.
const OLD_TURN: &str = "047475726e000000000000000000000000027b00000000000000ffff00000000\n";
const NEW_TURN: &str = "047475726e00000000000000000000000000000000000000000000000000000000027b00000000000000ffff00000000\n";

/// Kind, coefficient and power of no unit.
const ANY: [u8; 11] = [255, 1, 2, 3, 4, 5, 6, 7, 128, 0x9a, 0xbc];

/// What a byte of the target holds before.
const BEFORE: u8 = b'#';

pub struct Case {
    pub name: String,
    /// The form that the lines are moved from.
    pub from: Form,
    pub source: Vec<u8>,
    pub target: Vec<u8>,
    pub wanted: moves::Moved,
}

/// The whole list, each name led by its group's.
pub fn cases() -> Vec<Case> {
    let groups = [
        ("moved", lines_moved()),
        ("length", lengths()),
        ("digit", digits()),
        ("size", sizes()),
        ("zeros", zeros()),
        ("too long", too_long()),
        ("target", targets()),
        ("order", order_of_refusals()),
    ];
    let mut list = Vec::new();
    for (group, cases) in groups {
        for case in cases {
            let name = format!("{group}: {}", case.name);
            list.push(Case { name, ..case });
        }
    }
    list
}

/// Asks the plain way for every case; true if it answers all as written here.
pub fn check() -> bool {
    let cases = cases();
    let mut same = 0;
    for case in &cases {
        let plain = moved(case.from, &case.source, &case.target);
        if plain == case.wanted {
            same += 1;
        } else {
            println!("differs: {}", case.name);
            println!("    plain {}", plain.answer);
            println!("    limit {}", case.wanted.answer);
        }
    }
    let all = cases.len();
    println!("{all} cases at the limits of moves, {same} answered the same by the plain way");
    same == all
}

// Builders.

/// A target that is longer than what is moved into it here.
fn room() -> Vec<u8> {
    vec![BEFORE; 5 * NEW.line_bytes()]
}

/// Lines are moved, and the target begins with these.
fn moves(name: impl Into<String>, from: Form, source: &[u8], target: Vec<u8>, then: &[u8]) -> Case {
    let answer = Answer::success(then.len() as u64, Length::ZERO);
    let wanted = moves::Moved {
        answer,
        target: [then, &target[then.len()..]].concat(),
    };
    Case {
        name: name.into(),
        from,
        source: source.to_vec(),
        target,
        wanted,
    }
}

/// Lines are not, and the target is as it was.
fn refuses(
    name: impl Into<String>,
    from: Form,
    source: &[u8],
    target: Vec<u8>,
    (number, position): (u8, u64),
) -> Case {
    let wanted = moves::Moved {
        answer: Answer::refusal(number, position),
        target: target.clone(),
    };
    Case {
        name: name.into(),
        from,
        source: source.to_vec(),
        target,
        wanted,
    }
}

/// A line of a form with a name, and any row behind it.
fn named(form: Form, name: &str) -> Vec<u8> {
    line(form, name.as_bytes(), &ANY)
}

fn told(form: Form) -> &'static str {
    if form == OLD { "old" } else { "new" }
}

/// The line with other bytes from a place on.
fn changed(line: &[u8], place: usize, bytes: &[u8]) -> Vec<u8> {
    let mut line = line.to_vec();
    line[place..place + bytes.len()].copy_from_slice(bytes);
    line
}

/// A wrong line as the only one, as the first of three, the second and the last: 24
/// at its number.
fn wrong(name: &str, form: Form, line: &[u8]) -> Vec<Case> {
    let good = named(form, "ms");
    let name = format!("{}, {name}", told(form));
    let mut cases = vec![refuses(name.clone(), form, line, room(), (24, 0))];
    for number in 0..3 {
        let mut lines = vec![&good[..]; 3];
        lines[number] = line;
        let source = lines.concat();
        cases.push(refuses(
            format!("{name}, line {number} of 3"),
            form,
            &source,
            room(),
            (24, number as u64),
        ));
    }
    cases
}

// The list. It is kept one case a line where that can be, which rustfmt would break.

// There and back, by digits written out and by lines that the plain way writes; what stands behind a name is carried whatever it is.
#[rustfmt::skip]
fn lines_moved() -> Vec<Case> {
    let (old, new) = (OLD_TURN.as_bytes(), NEW_TURN.as_bytes());
    let mut cases = vec![
        moves("turn to the new form", OLD, old, room(), new),
        moves("turn to the old form", NEW, new, room(), old),
        moves("nothing to the new form", OLD, b"", room(), b""),
        moves("nothing to the old form", NEW, b"", room(), b""),
        moves("nothing into nothing", OLD, b"", Vec::new(), b""),
        moves("nothing into nothing, the other way", NEW, b"", Vec::new(), b""),
    ];
    for name in ["s", "\u{b5}s", "abcdefgh", "abcdefghijklmno", "abcdefghijklmnop", "абвгдежз", "\0", "a\0", "1 +-.", "\n"] {
        let (old, new) = (named(OLD, name), named(NEW, name));
        cases.push(moves(format!("{name:?} to the new form"), OLD, &old, room(), &new));
        cases.push(moves(format!("{name:?} to the old form"), NEW, &new, room(), &old));
        let (olds, news) = ([&old[..], OLD_TURN.as_bytes(), &old].concat(), [&new[..], NEW_TURN.as_bytes(), &new].concat());
        cases.push(moves(format!("{name:?} and others to the new form"), OLD, &olds, room(), &news));
        cases.push(moves(format!("{name:?} and others to the old form"), NEW, &news, room(), &olds));
    }
    cases
}

// 24: a line of wrong length. A line ends with its newline, so bytes behind the last newline are a line.
#[rustfmt::skip]
fn lengths() -> Vec<Case> {
    let mut cases = Vec::new();
    for form in [OLD, NEW] {
        let good = named(form, "ms");
        let end = good.len();
        cases.extend(wrong("a newline alone", form, b"\n"));
        cases.extend(wrong("a digit less", form, &good[1..]));
        cases.extend(wrong("two digits less", form, &good[2..]));
        cases.extend(wrong("a digit more", form, &[b"0", &good[..]].concat()));
        cases.extend(wrong("two digits more", form, &[b"00", &good[..]].concat()));
        cases.extend(wrong("a zero byte more at the end", form, &[&good[..end - 1], b"00\n"].concat()));
        cases.extend(wrong("a zero byte less at the end", form, &[&good[..end - 3], b"\n"].concat()));
        cases.extend(wrong("a carriage return", form, &[&good[..end - 1], b"\r\n"].concat()));
        cases.extend(wrong("the other form's", form, &named(form.other(), "ms")));
        cases.extend(wrong("a newline in the middle", form, &changed(&good, end / 2, b"\n")));
        cases.extend(wrong("no newline", form, &changed(&good, end - 1, b"0")));
        let twice = [&good[..], &good].concat();
        for (what, behind) in [("a digit", b"0"), ("a newline", b"\n"), ("a space", b" ")] {
            cases.push(refuses(format!("{}, {what} behind the last", told(form)), form, &[&twice[..], behind].concat(), room(), (24, 2)));
        }
        cases.push(refuses(format!("{}, the last newline missing", told(form)), form, &twice[..2 * end - 1], room(), (24, 1)));
        cases.push(refuses(format!("{}, all but one byte missing", told(form)), form, &twice[..end + 1], room(), (24, 1)));
    }
    cases
}

// 24: a byte that is no lower-case hexadecimal digit, first and last, and those beside the digits.
#[rustfmt::skip]
fn digits() -> Vec<Case> {
    let mut cases = Vec::new();
    for form in [OLD, NEW] {
        let good = named(form, "ms");
        for place in [0, 1, 2, good.len() / 2, good.len() - 2] {
            for byte in [0, b' ', b'/', b':', b'A', b'F', b'`', b'g', 128, 255] {
                cases.extend(wrong(&format!("byte {byte} at {place}"), form, &changed(&good, place, &[byte])));
            }
        }
        // Each digit is one, in the field that is carried.
        for digit in b"0123456789abcdef" {
            let other = |form: Form| changed(&named(form, "ms"), 2 + 2 * form.room, &[*digit]);
            cases.push(moves(format!("{}, digit {}", told(form), char::from(*digit)), form, &other(form), room(), &other(form.other())));
        }
    }
    cases
}

// 24: the size of a name, 1 to 16 in the old form and 1 to 32 in the new one.
#[rustfmt::skip]
fn sizes() -> Vec<Case> {
    let longest = |form: Form| "n".repeat(form.room);
    let mut cases = Vec::new();
    for form in [OLD, NEW] {
        let over = format!("{:02x}", form.room + 1);
        cases.extend(wrong("size 0", form, &changed(&named(form, "ms"), 0, b"00")));
        cases.extend(wrong("size 0, no name", form, &changed(&named(form, "s"), 0, b"0000")));
        cases.extend(wrong("one too large", form, &changed(&named(form, &longest(form)), 0, over.as_bytes())));
        cases.extend(wrong("127", form, &changed(&named(form, &longest(form)), 0, b"7f")));
        cases.extend(wrong("255", form, &changed(&named(form, &longest(form)), 0, b"ff")));
        cases.extend(wrong("smaller than the name", form, &changed(&named(form, "ms"), 0, b"01")));
        // A size that is larger than the name has bytes 0 in the name.
        cases.push(moves(format!("{}, larger than the name", told(form)), form, &changed(&named(form, "ms"), 0, b"03"), room(),
            &changed(&named(form.other(), "ms"), 0, b"03")));
    }
    cases.push(moves("old, 16", OLD, &named(OLD, &longest(OLD)), room(), &named(NEW, &longest(OLD))));
    cases.push(moves("old, 1", OLD, &named(OLD, "n"), room(), &named(NEW, "n")));
    cases
}

// 24: each byte behind a name, and each of the four at the row's end; what stands between is carried.
#[rustfmt::skip]
fn zeros() -> Vec<Case> {
    let mut cases = Vec::new();
    for form in [OLD, NEW] {
        for size in [1, 8, form.room - 1] {
            let good = named(form, &"n".repeat(size));
            for byte in size + 1..=form.room {
                cases.push(refuses(format!("{}, byte {byte} behind {size}", told(form)), form, &changed(&good, 2 * byte, b"01"), room(), (24, 0)));
            }
        }
        for zero in 0..4 {
            let place = 2 * (form.row_bytes() - 4 + zero);
            cases.extend(wrong(&format!("zero {zero}"), form, &changed(&named(form, "ms"), place, b"10")));
        }
        for behind in [[0; 11], [255; 11]] {
            let with = |form: Form| line(form, b"ms", &behind);
            cases.push(moves(format!("{}, {} behind the name", told(form), behind[0]), form, &with(form), room(), &with(form.other())));
        }
    }
    cases
}

// 25: a name of more than 16 bytes, whatever its letters are; and one of 16.
#[rustfmt::skip]
fn too_long() -> Vec<Case> {
    let mut cases = Vec::new();
    for size in [17, 18, 24, 31, 32] {
        let long = named(NEW, &"n".repeat(size));
        cases.push(refuses(format!("{size} bytes"), NEW, &long, room(), (25, 0)));
        for number in 0..4 {
            let good = named(NEW, "ms");
            let mut lines = vec![&good[..]; 4];
            lines[number] = &long;
            cases.push(refuses(format!("{size} bytes, line {number} of 4"), NEW, &lines.concat(), room(), (25, number as u64)));
        }
    }
    let letters = |count: usize| "абвгдежзийклмноп".chars().take(count).collect::<String>();
    cases.push(moves("8 letters of two bytes", NEW, &named(NEW, &letters(8)), room(), &named(OLD, &letters(8))));
    cases.push(refuses("9 letters of two bytes", NEW, &named(NEW, &letters(9)), room(), (25, 0)));
    cases.push(refuses("16 letters of two bytes", NEW, &named(NEW, &letters(16)), room(), (25, 0)));
    cases.push(refuses("16 bytes and a byte 0", NEW, &changed(&named(NEW, "abcdefghijklmnop"), 0, b"11"), room(), (25, 0)));
    cases.push(refuses("bytes 0 alone", NEW, &changed(&named(NEW, "\0"), 0, b"20"), room(), (25, 0)));
    cases
}

// 9 at 0: the target. What is behind the lines in it stays as it was.
#[rustfmt::skip]
fn targets() -> Vec<Case> {
    let mut cases = Vec::new();
    for form in [OLD, NEW] {
        for count in 1..=4 {
            let (source, then) = (named(form, "ms").repeat(count), named(form.other(), "ms").repeat(count));
            let target = |size: usize| vec![BEFORE; size];
            let name = |what: &str| format!("{}, {count} lines, {what}", told(form));
            cases.push(moves(name("just enough"), form, &source, target(then.len()), &then));
            cases.push(moves(name("one byte more"), form, &source, target(then.len() + 1), &then));
            cases.push(refuses(name("one byte less"), form, &source, target(then.len() - 1), (9, 0)));
            cases.push(refuses(name("one byte"), form, &source, target(1), (9, 0)));
            cases.push(refuses(name("none"), form, &source, Vec::new(), (9, 0)));
            cases.push(refuses(name("a line less"), form, &source, target(then.len() - form.other().line_bytes()), (9, 0)));
        }
    }
    cases
}

// The first bad line first, whichever it has; in one line 24 before 25; and 9 last.
#[rustfmt::skip]
fn order_of_refusals() -> Vec<Case> {
    let (good, long) = (named(NEW, "ms"), named(NEW, "abcdefghijklmnopq"));
    let bad = changed(&good, 0, b"x");
    let both = changed(&long, NEW.line_bytes() - 3, b"1");
    let of = |lines: &[&[u8]]| lines.concat();
    vec![
        refuses("25, then 24", NEW, &of(&[&good, &long, &bad]), room(), (25, 1)),
        refuses("24, then 25", NEW, &of(&[&good, &bad, &long]), room(), (24, 1)),
        refuses("25, then a line cut short", NEW, &of(&[&long, b"0"]), room(), (25, 0)),
        refuses("a line cut short, then 25", NEW, &of(&[b"\n", &long]), room(), (24, 0)),
        refuses("both in a line", NEW, &both, room(), (24, 0)),
        refuses("both in a line, behind 25", NEW, &of(&[&long, &both]), room(), (25, 0)),
        refuses("24 and 9", NEW, &of(&[&good, &bad]), Vec::new(), (24, 1)),
        refuses("25 and 9", NEW, &of(&[&good, &long]), Vec::new(), (25, 1)),
        refuses("24 and 9, old", OLD, &of(&[OLD_TURN.as_bytes(), b"\n"]), Vec::new(), (24, 1)),
        refuses("24 behind what has no room", OLD, &of(&[OLD_TURN.as_bytes(), b"\n"]), vec![BEFORE; 3], (24, 1)),
        refuses("24 twice", OLD, b"\n\n", room(), (24, 0)),
        refuses("25 twice", NEW, &of(&[&good, &long, &long]), room(), (25, 1)),
    ]
}
