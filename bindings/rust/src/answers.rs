//! What the calls answer.

use std::error::Error;
use std::fmt;

/// The totals of an accepted log.
#[derive(Clone, Copy, Debug, PartialEq, Eq)]
pub struct Totals {
    /// Records behind the first one.
    pub events: usize,
    /// Events that are marks: as many groups has the report.
    pub marks: usize,
    /// Events that are sends.
    pub sends: usize,
    /// Entries that all messages carried together.
    pub carried: usize,
    /// Bytes of the report, which is so much of the front of its room.
    pub bytes: usize,
}

/// Why there is no answer: a fixed number, and the place that it is about.
///
/// It is shown as `refused 7 at 4: destination equals sender`.
#[derive(Clone, Copy, Debug, PartialEq, Eq)]
pub struct Refusal {
    /// 1 to 13 from a run, 14 to 16 from a comparison; [`name`](crate::name) has each in words.
    pub number: u8,
    /// A place in the log, counted from 0; with 14 a place in the report.
    pub place: usize,
    /// With 13, and only then: how many bytes the report has, for which its room is too small.
    pub needed: Option<usize>,
}

impl fmt::Display for Refusal {
    fn fmt(&self, f: &mut fmt::Formatter<'_>) -> fmt::Result {
        write!(f, "refused {} at {}", self.number, self.place)?;
        match crate::name(self.number) {
            Some(name) => write!(f, ": {name}"),
            None => Ok(()),
        }
    }
}

impl Error for Refusal {}

/// How the first of two marks stands to the second. It is shown as `before`, `after` or `apart`.
#[derive(Clone, Copy, Debug, PartialEq, Eq)]
pub enum Order {
    /// The first led to the second.
    Before,
    /// The second led to the first.
    After,
    /// Neither led to the other, or they are the same mark.
    Apart,
}

impl fmt::Display for Order {
    fn fmt(&self, f: &mut fmt::Formatter<'_>) -> fmt::Result {
        f.write_str(match self {
            Order::Before => "before",
            Order::After => "after",
            Order::Apart => "apart",
        })
    }
}
