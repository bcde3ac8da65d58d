//! Timings that are read exactly.
//!
//! A [`Card`] says how timings are typed: switches, delimiters, conjunctions,
//! the hall's units and the line's own, and numerals. Under it a text is read to a [`Length`], in whole or part
//! by part, and refused with a number and a place ([`Refusal`]) where it cannot
//! be. The reading is done by Herovinga's library, every function of which is
//! proved to meet its contract; this crate lends it words and bytes.
//!
//! ```
//! use herovinga::{Card, Kind, Length, Refusal, Table};
//!
//! let mut card = Card::builder()
//!     .negatives(true)
//!     .fractions(true)
//!     .ago(true)
//!     .inner(" ")
//!     .outer(" ,")
//!     .conjunction("and")
//!     .unit("s", Kind::Second, 1, 0)
//!     .unit("ms", Kind::Millisecond, 1, 0)
//!     .unit("turn", Kind::Millisecond, 123, -1)
//!     .line_unit("jaw", Kind::Millisecond, 40, 0)
//!     .numeral("five", 5, 0)
//!     .build()?;
//!
//! assert_eq!(card.read_total("61.7ms")?, Length::new(false, 0, 61_700_000)?);
//! assert_eq!(card.read_total("1s and 200ms")?.to_string(), "+1.2");
//! assert_eq!(card.read_total("5ms ago, 3turn")?.to_string(), "+0.0319");
//! assert_eq!(card.read_total("five ms")?.to_string(), "+0.005");
//! assert_eq!(card.read_total("2jaw and five turn")?.to_string(), "+0.1415");
//!
//! // What cannot be read is refused with a number and a place.
//! let refused = card.read_total("1s android").unwrap_err();
//! assert_eq!(refused, Refusal { number: 19, position: 6 });
//! assert_eq!(
//!     refused.to_string(),
//!     "a conjunction leads to no part at place 6: type a delimiter and a part behind it, or take it away"
//! );
//!
//! // Part by part, and written back.
//! let mut written = Vec::new();
//! for part in card.parts("1s, 2ms, 3s ago") {
//!     part?.length.append_to(&mut written);
//! }
//! assert_eq!(written, b"+1+0.002-3");
//! assert_eq!(card.read_total(&written)?.to_string(), "-1.998");
//!
//! // The shift total; a text that is refused leaves it as it was.
//! let mut total = Length::ZERO;
//! card.add_total(&mut total, "90s")?;
//! card.add_total(&mut total, "10s and then").unwrap_err();
//! assert_eq!(std::time::Duration::try_from(total)?.as_secs(), 90);
//!
//! // A unit is looked up through an index, and can be replaced.
//! assert_eq!(card.look_up("turn").at, Some((Table::Hall, 2)));
//! card.replace_unit(2, "stroke", Kind::Millisecond, 15, 0)?;
//! assert_eq!(card.look_up("turn").at, None);
//! assert_eq!(card.read_total("2stroke")?.to_string(), "+0.03");
//!
//! // ISO 8601 texts need no card.
//! assert_eq!(Length::from_iso("PT1M30S")?, total);
//! assert_eq!(total.to_iso()?, "PT1M30S");
//!
//! // Rows that were stored with 16 bytes for the name are moved to the new form.
//! let old = "0173000000000000000000000000000000030100000000000000000000000000\n";
//! let new = herovinga::moves::to_new(old)?;
//! assert_eq!((old.len(), new.len()), (65, 97));
//! assert_eq!(herovinga::moves::to_old(&new)?, old.as_bytes());
//! # Ok::<(), Box<dyn std::error::Error>>(())
//! ```

#![warn(missing_docs)]

mod card;
mod length;
mod lookup;
pub mod moves;
mod parts;
pub mod raw;
mod refusal;

pub use card::{Card, CardBuilder, Kind};
pub use length::{Length, MOST_WRITTEN, MOST_WRITTEN_ISO, NegativeLength};
pub use lookup::{LookedUp, Table};
pub use parts::{Part, Parts};
pub use refusal::Refusal;
