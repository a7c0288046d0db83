//! Which marked event of a barn led straight to which: the proved library `libhatsuvren_c.a`,
//! called from Rust.
//!
//! A log of any bytes gets an answer, and the caller checks nothing beforehand. [`run`] makes a
//! report of a log, [`groups`] reads the arrows of a report, [`compare`] says how two of its marks
//! stand to each other. What the library promises of its answers is proved of its code, for every
//! input. This package hands slices to it and reads the bytes of reports; that is tested, and not
//! proved.
//!
//! ```
//! use hatsuvren::{compare, groups, run, Mark, Mode, Order, Refusal, Rooms};
//!
//! // two nodes: node 0 marks, then sends number 1 to node 1, which receives it and marks
//! let log = [0x10, 2, 0x12, 0, 0x13, 0, 1, 1, 0, 0x14, 1, 1, 0, 0x12, 1];
//! let (mut rooms, mut room) = (Rooms::new(), [0; 16_384]);
//! let totals = run(Mode::Short, &log, &mut rooms, &mut room)?;
//! let report = &room[..totals.bytes];
//!
//! let (first, second) = (Mark { node: 0, number: 1 }, Mark { node: 1, number: 1 });
//! let last = groups(report).last().expect("two marks have two groups");
//! assert_eq!(last.mark(), second);
//! assert!(last.predecessors().eq([first]));
//! assert_eq!(compare(report, first, second)?, Order::Before);
//! # Ok::<(), Refusal>(())
//! ```

#![deny(unsafe_code)]
#![warn(missing_docs, clippy::undocumented_unsafe_blocks)]

mod answers;
// the one file that calls the library
#[allow(unsafe_code)]
mod calls;
mod groups;
mod rooms;

pub use answers::{Order, Refusal, Totals};
pub use calls::{compare, name, run, run_in};
pub use groups::{groups, Entry, Group, Groups, Mark};
pub use rooms::{Mode, Rooms, COUNTS, MAIL, WORDS};
