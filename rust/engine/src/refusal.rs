//! Refusals, and what they say.

use std::fmt;

/// A refusal: its number, 1 to 17, and its place.
///
/// It is shown in the words of the table in `include/touchchart.h`:
///
/// ```
/// let refusal = engine::Refusal { number: 10, place: 4 };
/// assert_eq!(
///     refusal.to_string(),
///     "refused 10 at 4: the labels break the label rules (place: the lowest context that breaks them)"
/// );
/// ```
#[derive(Clone, Copy, Debug, PartialEq, Eq, PartialOrd, Ord, Hash)]
pub struct Refusal {
    /// The refusal's number.
    pub number: u8,
    /// The refusal's place.
    pub place: u64,
}

/// When each refusal is given, by number from 1, and what its place is.
const WORDS: [(&str, &str); 17] = [
    (
        "a record's length is missing, under 2 or past the end",
        "the record's offset",
    ),
    (
        "a record has another kind or length than due; offered labels are not 6n - 14",
        "the record's offset; 0",
    ),
    ("n is not 5 to 200", "0"),
    (
        "a ring entry is not below n, or is the context itself",
        "the lowest such context",
    ),
    ("a ring repeats an entry", "the lowest such context"),
    (
        "a context lists one that does not list it",
        "the lowest context that lists so",
    ),
    ("all rings together have not 6n - 14 entries", "0"),
    (
        "a border ring does not begin or end as it must, or has the opposite",
        "the lowest such border context",
    ),
    (
        "a dart that is not outer does not come back after three face steps",
        "the lowest context one leaves",
    ),
    (
        "the labels break the label rules",
        "the lowest context that breaks them",
    ),
    ("no placement keeps the compass rules", "0"),
    ("the chart record is not the chart", "0"),
    ("the sheet's stage is too early for the call", "0"),
    ("the sweep is stuck", "0"),
    (
        "a pair is no inner edge or was named before; an item is left over, or the direction is above 1",
        "the pair's index, from 0; the number of whole pairs",
    ),
    ("`out` is too short", "the bytes needed"),
    ("there is no such context", "n"),
];

impl fmt::Display for Refusal {
    fn fmt(&self, to: &mut fmt::Formatter) -> fmt::Result {
        write!(to, "refused {} at {}", self.number, self.place)?;
        match WORDS.get(usize::from(self.number).wrapping_sub(1)) {
            Some((when, "0")) => write!(to, ": {when}"),
            Some((when, place)) => write!(to, ": {when} (place: {place})"),
            None => Ok(()),
        }
    }
}

impl std::error::Error for Refusal {}
