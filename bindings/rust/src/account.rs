//! Accounts, read from their text.

use std::{error::Error, fmt};

use crate::Refusal;

/// What becomes of a change. A number is that of the change that it names, in sorted order, from 0.
#[derive(Clone, Copy, Debug, PartialEq, Eq, Hash)]
pub enum Fate {
    /// It is performed on its own.
    Own,
    /// It is performed as dependent of this change.
    Dependent(usize),
    /// It is discarded under this change.
    Discarded(usize),
    /// It is withdrawn under this change, which has a higher rule number; only with stronger rules first.
    Withdrawn(usize),
}

/// Why there is no fate to tell.
#[derive(Clone, Copy, Debug, PartialEq, Eq, Hash)]
pub enum Unaccounted {
    /// These two changes overlap, and no later one overlaps before the second: the edit is refused by 8.
    Overlap(usize, usize),
    /// The batch is refused otherwise.
    Refused(Refusal),
}

impl fmt::Display for Unaccounted {
    fn fmt(&self, f: &mut fmt::Formatter<'_>) -> fmt::Result {
        match self {
            Unaccounted::Overlap(first, second) => write!(f, "changes {first} and {second} overlap"),
            Unaccounted::Refused(refusal) => refusal.fmt(f),
        }
    }
}

impl Error for Unaccounted {}

impl From<Refusal> for Unaccounted {
    fn from(refusal: Refusal) -> Unaccounted {
        Unaccounted::Refused(refusal)
    }
}

/// What this text says, if it is an account: the fates in sorted order, or the pair that overlaps.
pub(crate) fn read(text: &str) -> Option<Result<Vec<Fate>, Unaccounted>> {
    if let Some(pair) = text.strip_prefix("overlap ") {
        let (first, second) = pair.trim_end().split_once(' ')?;
        return Some(Err(Unaccounted::Overlap(first.parse().ok()?, second.parse().ok()?)));
    }
    text.lines().enumerate().map(|(number, line)| fate(number, line)).collect::<Option<_>>().map(Ok)
}

/// The fate on the line of this number.
fn fate(number: usize, line: &str) -> Option<Fate> {
    let mut words = line.split(' ');
    if words.next()?.parse() != Ok(number) {
        return None;
    }
    let (word, change) = (words.next()?, words.next().and_then(|it| it.parse().ok()));
    match (word, change) {
        ("own", None) => Some(Fate::Own),
        ("dependent", Some(change)) => Some(Fate::Dependent(change)),
        ("discarded", Some(change)) => Some(Fate::Discarded(change)),
        ("withdrawn", Some(change)) => Some(Fate::Withdrawn(change)),
        _ => None,
    }
}
