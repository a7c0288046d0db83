//! What a run is lent: the work room, and how messages are carried in it.

/// The elements that a run needs of `counts`.
pub const COUNTS: usize = 1_024;
/// The elements that a run needs of `words`.
pub const WORDS: usize = 1_056;
/// The elements that a run needs of `mail`.
pub const MAIL: usize = 4_480;

/// What the messages of a run carry. The report is the same either way.
#[derive(Clone, Copy, Debug, PartialEq, Eq)]
pub enum Mode {
    /// A message carries all counts and flags of its sender.
    Full,
    /// A message carries a controller's count exactly when that count is above zero and either
    /// its flag is clear or no message from the receiver has yet brought the sender that very
    /// count.
    Short,
}

/// The work room of a run: 15,232 bytes in three arrays. They may hold anything when a run begins.
///
/// It may stand in a `static`, since [`Rooms::new`] is a constant function.
#[derive(Clone, Debug, PartialEq, Eq)]
pub struct Rooms {
    /// Each node's counts of all nodes.
    pub counts: [u16; COUNTS],
    /// Each node's flags, and who has brought it which counts.
    pub words: [u32; WORDS],
    /// The messages in flight.
    pub mail: [u16; MAIL],
}

impl Rooms {
    /// Rooms that are all zero.
    pub const fn new() -> Rooms {
        Rooms {
            counts: [0; COUNTS],
            words: [0; WORDS],
            mail: [0; MAIL],
        }
    }
}

impl Default for Rooms {
    fn default() -> Rooms {
        Rooms::new()
    }
}
