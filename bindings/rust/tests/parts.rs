//! Reading part by part, the shift total, and there and back by the writer.

use herovinga::{Card, Length, MOST_WRITTEN, Part, Refusal};

fn length(negative: bool, seconds: u64, nanoseconds: u32) -> Length {
    Length::new(negative, seconds, nanoseconds).expect("a well-formed length")
}

fn part(negative: bool, seconds: u64, next: usize) -> Result<Part, Refusal> {
    let length = length(negative, seconds, 0);
    Ok(Part { length, next })
}

fn refused(number: u8, position: usize) -> Result<Part, Refusal> {
    Err(Refusal { number, position })
}

#[test]
fn parts_up_to_the_end() {
    let card = Card::a();
    let parts: Vec<_> = card.parts("1s and 2s-3 4s ago").collect();
    let wanted = [
        part(false, 1, 7),
        part(false, 2, 9),
        part(true, 3, 12),
        part(true, 4, 18),
    ];
    assert_eq!(parts, wanted);
}

#[test]
fn parts_up_to_a_refusal() {
    let card = Card::a();
    let mut parts = card.parts("1s 2x 3s");
    assert_eq!(parts.next(), Some(part(false, 1, 3)));
    assert_eq!(parts.next(), Some(part(false, 2, 4)));
    assert_eq!(parts.next(), Some(refused(6, 4)));
    assert_eq!(parts.next(), None);
    assert_eq!(parts.next(), None);
}

#[test]
fn an_empty_text_is_refused_once() {
    let card = Card::a();
    let parts: Vec<_> = card.parts("").collect();
    assert_eq!(parts, [refused(1, 0)]);
}

#[test]
fn bytes_that_are_no_letters_are_read_too() {
    let card = Card::a();
    let parts: Vec<_> = card.parts(b"1s\xff".as_slice()).collect();
    assert_eq!(parts, [part(false, 1, 1), refused(6, 1)]);
}

#[test]
fn the_shift_total() {
    let card = Card::a();
    let mut total = Length::ZERO;
    assert_eq!(
        card.add_total(&mut total, "1s and 2s"),
        Ok(length(false, 3, 0))
    );
    assert_eq!(card.add_total(&mut total, "5s ago"), Ok(length(true, 2, 0)));
    assert_eq!(total, length(true, 2, 0));

    let refusal = Refusal {
        number: 18,
        position: 2,
    };
    assert_eq!(card.add_total(&mut total, "1s "), Err(refusal));
    assert_eq!(total, length(true, 2, 0));

    assert_eq!(
        card.add_total(&mut total, "inf"),
        Ok(length(false, u64::MAX - 2, 999_999_999))
    );
    assert_eq!(card.add_total(&mut total, "9s"), Ok(Length::MAX));
    assert_eq!(total, Length::MAX);
    assert_eq!(card.add_total(&mut total, "-inf -inf"), Ok(Length::ZERO));
}

/// Lengths of every size: digits of seconds, decimals, both signs.
fn lengths() -> Vec<Length> {
    let mut lengths = vec![Length::ZERO, Length::MAX, Length::MIN];
    for digits in 0..20 {
        for nanoseconds in [0, 1, 500_000_000, 123_456_789, 999_999_990] {
            for negative in [false, true] {
                lengths.push(length(negative, 10_u64.pow(digits), nanoseconds));
                if nanoseconds != 0 {
                    lengths.push(length(negative, 0, nanoseconds));
                }
            }
        }
    }
    lengths
}

#[test]
fn written_and_read_back() {
    let card = Card::a();
    for length in lengths() {
        assert_eq!(card.read_total(length.to_string()), Ok(length));
    }
    // As many as a text has room for at a time.
    for lengths in lengths().chunks(4_096 / MOST_WRITTEN) {
        let mut text = Vec::new();
        for length in lengths {
            length.append_to(&mut text);
        }
        let read: Result<Vec<Length>, Refusal> = card
            .parts(&text)
            .map(|part| part.map(|part| part.length))
            .collect();
        assert_eq!(read.as_deref(), Ok(lengths));
    }
}

#[test]
fn written_at_a_place_and_nowhere_else() {
    for length in lengths() {
        let text = length.to_string();
        assert!(text.len() <= MOST_WRITTEN);
        let mut buffer = [b'.'; MOST_WRITTEN + 8];
        let next = length.write_at(&mut buffer, 3).expect("there is room");
        assert_eq!(&buffer[3..next], text.as_bytes());
        assert_eq!(next, 3 + text.len());
        assert!(
            buffer[..3]
                .iter()
                .chain(&buffer[next..])
                .all(|byte| *byte == b'.')
        );
        // Just enough room, and one byte less.
        assert_eq!(length.write_at(&mut buffer[..next], 3), Ok(next));
        let refusal = Refusal {
            number: 9,
            position: 3,
        };
        assert_eq!(length.write_at(&mut buffer[..next - 1], 3), Err(refusal));
    }
    assert_eq!(Length::MIN.to_string().len(), MOST_WRITTEN);
}

#[test]
fn appended_to_what_is_there() {
    let mut text = b"1s".to_vec();
    length(true, 7, 250_000_000).append_to(&mut text);
    assert_eq!(text, b"1s-7.25");
}
