//! How two marks of a report stand to each other, by their stamps.

use crate::groups::Name;
use crate::reader::{Refusal, MOST_NODES};
use crate::stamps::{self, Stamp};

#[derive(Clone, Copy, Debug, PartialEq, Eq)]
pub enum Relation {
    Before,
    After,
    Apart,
}

impl Relation {
    pub fn word(self) -> &'static str {
        match self {
            Relation::Before => "before",
            Relation::After => "after",
            Relation::Apart => "apart",
        }
    }
}

/// Compares two marks of a report, or refuses.
pub fn between(report: &[u8], first: Name, second: Name) -> Result<Relation, Refusal> {
    let refusal = |number, place| Refusal { number, place };
    let stamps = stamps::read(report).map_err(|bad| refusal(14, bad.place))?;
    let e = &stamps.get(&first).ok_or(refusal(15, 0))?.stamp;
    let f = &stamps.get(&second).ok_or(refusal(16, 0))?.stamp;
    Ok(match (precedes(e, f), precedes(f, e)) {
        (true, _) => Relation::Before,
        (_, true) => Relation::After,
        _ => Relation::Apart,
    })
}

/// Whether no entry of the one exceeds the other's, and some entry differs.
fn precedes(one: &Stamp, other: &Stamp) -> bool {
    let none_exceeds = (0..MOST_NODES).all(|node| count(one, node) <= count(other, node));
    let some_differs = (0..MOST_NODES).any(|node| count(one, node) != count(other, node));
    none_exceeds && some_differs
}

/// A stamp's entry at a node; a missing one is zero.
fn count(stamp: &Stamp, node: u8) -> u16 {
    stamp.get(&node).copied().unwrap_or(0)
}
