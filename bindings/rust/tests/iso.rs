//! ISO 8601 texts, read and written.

use herovinga::{Length, MOST_WRITTEN_ISO, Refusal, raw};

fn plus(seconds: u64, nanoseconds: u32) -> Length {
    Length::new(false, seconds, nanoseconds).expect("a well-formed length")
}

fn refusal(number: u8, position: usize) -> Refusal {
    Refusal { number, position }
}

#[test]
fn read() {
    let readings = [
        ("PT0S", Length::ZERO),
        ("P2W", plus(1_209_600, 0)),
        ("P1D", plus(86_400, 0)),
        ("P1DT12H", plus(129_600, 0)),
        ("PT1H30M", plus(5_400, 0)),
        ("PT90M", plus(5_400, 0)),
        ("PT1M", plus(60, 0)),
        ("PT0,1S", plus(0, 100_000_000)),
        ("PT0.1S", plus(0, 100_000_000)),
        ("PT0.0000000019S", plus(0, 1)),
        ("P0.5D", plus(43_200, 0)),
        ("PT18446744073709551615.9999999999S", Length::MAX),
    ];
    for (text, length) in readings {
        assert_eq!(Length::from_iso(text), Ok(length), "`{text}`");
        let answer = raw::read_iso(text.as_bytes());
        assert_eq!(answer.position as usize, text.len());
        assert_eq!((answer.number, answer.length), (0, length.record()));
    }
}

#[test]
fn refused() {
    let refusals = [
        ("", refusal(12, 0)),
        ("P", refusal(12, 1)),
        ("PT", refusal(12, 2)),
        ("p1D", refusal(12, 0)),
        ("-P1D", refusal(12, 0)),
        ("P-1D", refusal(12, 1)),
        ("P1", refusal(12, 2)),
        ("P1D1M", refusal(12, 3)),
        ("P1DT", refusal(12, 4)),
        ("P1W1D", refusal(12, 3)),
        ("PT1M1H", refusal(12, 5)),
        ("PT1.5H1M", refusal(12, 6)),
        ("PT1.S", refusal(12, 4)),
        ("PT1S ", refusal(12, 4)),
        ("P1Y", refusal(13, 2)),
        ("P1M", refusal(13, 2)),
        ("P1Y ", refusal(13, 2)),
        ("PT18446744073709551616S", refusal(14, 0)),
        ("PT18446744073709551616.9999999999S", refusal(14, 0)),
        ("PT18446744073709551616S ", refusal(12, 23)),
    ];
    for (text, wanted) in refusals {
        assert_eq!(Length::from_iso(text), Err(wanted), "`{text}`");
        assert_eq!(raw::read_iso(text.as_bytes()).length, [0; 3]);
    }
    assert_eq!(Length::from_iso(b"P\xff"), Err(refusal(12, 1)));
}

#[test]
fn the_largest_text_and_one_byte_more() {
    let text = |zeros| format!("PT{}S", "0".repeat(zeros));
    assert_eq!(Length::from_iso(text(4_093)), Ok(Length::ZERO));
    assert_eq!(Length::from_iso(text(4_094)), Err(refusal(8, 4_096)));
    assert_eq!(Length::from_iso("?".repeat(4_096)), Err(refusal(12, 0)));
    assert_eq!(Length::from_iso("?".repeat(4_097)), Err(refusal(8, 4_096)));
}

fn written() -> [(&'static str, Length); 9] {
    [
        ("PT0S", Length::ZERO),
        ("PT0.000000001S", plus(0, 1)),
        ("PT0.0617S", plus(0, 61_700_000)),
        ("PT1M", plus(60, 0)),
        ("PT1H1S", plus(3_601, 0)),
        ("PT25H1M1.5S", plus(90_061, 500_000_000)),
        ("PT1H0.5S", plus(3_600, 500_000_000)),
        ("PT5124095576030431H15.999999999S", Length::MAX),
        (
            "PT1000000000000000H59M59.999999999S",
            plus(3_600_000_000_000_003_599, 999_999_999),
        ),
    ]
}

#[test]
fn written_and_read_back() {
    for (text, length) in written() {
        assert_eq!(length.to_iso().as_deref(), Ok(text));
        assert_eq!(Length::from_iso(text), Ok(length));
    }
    let longest = written().map(|(text, _)| text.len()).into_iter().max();
    assert_eq!(longest, Some(MOST_WRITTEN_ISO));
    // The ends of minutes, hours and days, and each number of digits.
    let around = [60, 3_600, 86_400].map(|second| [second - 1, second, second + 1]);
    let powers = (0..20).map(|digits| 10_u64.pow(digits));
    for seconds in around.into_iter().flatten().chain(powers) {
        for nanoseconds in [0, 1, 120_000_000, 999_999_999] {
            let length = plus(seconds, nanoseconds);
            let text = length.to_iso().expect("it is not negative");
            assert!(text.len() <= MOST_WRITTEN_ISO);
            assert_eq!(Length::from_iso(&text), Ok(length), "`{text}`");
        }
    }
}

#[test]
fn written_at_a_place_and_nowhere_else() {
    for (text, length) in written() {
        let mut buffer = [b'.'; MOST_WRITTEN_ISO + 8];
        let next = 3 + text.len();
        assert_eq!(length.write_iso_at(&mut buffer, 3), Ok(next));
        assert_eq!(&buffer[3..next], text.as_bytes());
        let mut others = buffer[..3].iter().chain(&buffer[next..]);
        assert!(others.all(|byte| *byte == b'.'));

        // One byte too few, and places beyond: nothing is written.
        let mut buffer = [b'.'; MOST_WRITTEN_ISO + 8];
        let room = &mut buffer[..next - 1];
        assert_eq!(length.write_iso_at(room, 3), Err(refusal(9, 3)));
        assert_eq!(length.write_iso_at(room, next), Err(refusal(10, next)));
        let end = usize::MAX;
        assert_eq!(length.write_iso_at(room, end), Err(refusal(10, end)));
        assert_eq!(buffer, [b'.'; MOST_WRITTEN_ISO + 8]);
        assert_eq!(length.write_iso_at(&mut buffer[..next], 3), Ok(next));
    }
    assert_eq!(Length::ZERO.write_iso_at(&mut [], 0), Err(refusal(9, 0)));
}

#[test]
fn a_negative_length_is_not_written() {
    for length in [-plus(0, 1), -plus(1, 0), Length::MIN] {
        assert_eq!(length.to_iso(), Err(refusal(5, 0)));
        let mut buffer = *b"....";
        assert_eq!(length.write_iso_at(&mut buffer, 5), Err(refusal(5, 0)));
        assert_eq!(&buffer, b"....");
    }
}

#[test]
fn a_malformed_record_is_not_written() {
    for record in [[1, 0, 0], [0, 1, 1_000_000_000], [5, 1, 1 << 32]] {
        let mut buffer = *b"....";
        let answer = raw::write_iso(&record, &mut buffer, 5);
        assert_eq!((answer.number, answer.position), (11, 0));
        assert_eq!(answer.length, [0; 3]);
        assert_eq!(&buffer, b"....");
    }
}
