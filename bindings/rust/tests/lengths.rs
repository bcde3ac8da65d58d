//! Lengths: order, signs, conversions, and how they are shown.

use std::time::Duration;

use herovinga::{Length, NegativeLength};

fn length(negative: bool, seconds: u64, nanoseconds: u32) -> Length {
    Length::new(negative, seconds, nanoseconds).expect("a well-formed length")
}

/// From the lowest to the highest.
fn ascending() -> Vec<Length> {
    vec![
        Length::MIN,
        length(true, u64::MAX, 0),
        length(true, 2, 0),
        length(true, 1, 999_999_999),
        length(true, 1, 0),
        length(true, 0, 2),
        length(true, 0, 1),
        Length::ZERO,
        length(false, 0, 1),
        length(false, 0, 999_999_999),
        length(false, 1, 0),
        length(false, 1, 1),
        length(false, u64::MAX, 0),
        Length::MAX,
    ]
}

#[test]
fn ordered_by_value() {
    let lengths = ascending();
    for (place, one) in lengths.iter().enumerate() {
        for (other_place, other) in lengths.iter().enumerate() {
            assert_eq!(
                one.cmp(other),
                place.cmp(&other_place),
                "{one} beside {other}"
            );
            assert_eq!(one == other, place == other_place);
        }
    }
}

#[test]
fn negating_turns_the_order() {
    let lengths = ascending();
    let turned: Vec<Length> = lengths.iter().rev().map(|length| -*length).collect();
    assert!(turned.is_sorted());
    assert_eq!(-Length::ZERO, Length::ZERO);
    assert_eq!(-Length::MAX, Length::MIN);
    for length in lengths {
        assert_eq!(-(-length), length);
    }
}

#[test]
fn durations_there_and_back() {
    for length in ascending() {
        match Duration::try_from(length) {
            Ok(duration) => {
                assert!(!length.is_negative());
                assert_eq!(duration.as_secs(), length.seconds());
                assert_eq!(duration.subsec_nanos(), length.nanoseconds());
                assert_eq!(Length::from(duration), length);
            }
            Err(NegativeLength(refused)) => {
                assert!(length.is_negative());
                assert_eq!(refused, length);
            }
        }
    }
    assert_eq!(Length::from(Duration::MAX), Length::MAX);
    assert_eq!(Length::default(), Length::ZERO);
    assert_eq!(
        NegativeLength(length(true, 1, 500_000_000)).to_string(),
        "-1.5 seconds are below zero"
    );
}

#[test]
fn shown_as_written() {
    let shown = [
        (Length::ZERO, "+0"),
        (length(false, 0, 61_700_000), "+0.0617"),
        (length(true, 0, 1), "-0.000000001"),
        (length(false, 600, 0), "+600"),
        (length(true, 1, 999_999_999), "-1.999999999"),
        (Length::MAX, "+18446744073709551615.999999999"),
        (Length::MIN, "-18446744073709551615.999999999"),
    ];
    for (length, text) in shown {
        assert_eq!(length.to_string(), text);
    }
    assert_eq!(format!("{:>5}", length(false, 1, 0)), "   +1");
}
