//! The reader of a report: the stamp of each of its marks, or its first bad group.

use crate::groups::{Count, Group, Name, DIRECT, HEAD, STAMP};
use crate::reader::MOST_NODES;
use std::collections::BTreeMap;

pub const MOST_GROUPS: usize = 4_096;
pub const HIGHEST_NUMBER: u16 = 4_096;

/// The count of each node that a stamp names.
pub type Stamp = BTreeMap<u8, u16>;

/// A mark's group: where it starts, and its stamp.
#[derive(Clone, Debug, PartialEq, Eq)]
pub struct Found {
    pub place: usize,
    pub stamp: Stamp,
}

/// The groups of all marks.
pub type Stamps = BTreeMap<Name, Found>;

/// What a group can break.
#[derive(Clone, Copy, Debug, PartialEq, Eq)]
pub enum Rule {
    /// It starts with 0x21.
    Start,
    /// The head is whole.
    Head,
    /// Each 0x22 record is whole.
    Stamp,
    /// As many whole 0x23 records follow as are announced.
    Announced,
    /// All nodes are below 32.
    Nodes,
    /// All numbers and counts are from 1 to 4,096.
    Numbers,
    /// The nodes of the stamp ascend.
    Counts,
    /// The nodes of the direct predecessors ascend.
    Direct,
    /// The stamp has the mark's number at the mark's node.
    Own,
    /// No earlier group is for the same mark.
    Once,
    /// It is none of more than 4,096.
    Most,
}

/// A bad group: its first byte's place, and what it breaks.
#[derive(Clone, Debug, PartialEq, Eq)]
pub struct Bad {
    pub place: usize,
    pub broken: Vec<Rule>,
}

/// Reads a whole report.
pub fn read(report: &[u8]) -> Result<Stamps, Bad> {
    let mut stamps = Stamps::new();
    let mut rest = report;
    while !rest.is_empty() {
        let place = report.len() - rest.len();
        let (group, behind) = split(rest).map_err(|rule| bad(place, vec![rule]))?;
        let broken = broken(&group, &stamps);
        if !broken.is_empty() {
            return Err(bad(place, broken));
        }
        let stamp = group.stamp.into_iter().collect();
        stamps.insert(group.name, Found { place, stamp });
        rest = behind;
    }
    Ok(stamps)
}

fn bad(place: usize, broken: Vec<Rule>) -> Bad {
    Bad { place, broken }
}

/// Splits bytes into the records of their first group and what is behind it, or says why that is
/// not to be done. The records may hold anything.
fn split(report: &[u8]) -> Result<(Group, &[u8]), Rule> {
    if report[0] != HEAD {
        return Err(Rule::Start);
    }
    let [_, node, low, high, announced, rest @ ..] = report else {
        return Err(Rule::Head);
    };
    let (stamp, rest) = split_stamp(rest).ok_or(Rule::Stamp)?;
    let (direct, rest) = split_direct(rest, *announced).ok_or(Rule::Announced)?;
    let group = Group {
        name: (*node, u16::from_le_bytes([*low, *high])),
        announced: *announced,
        stamp,
        direct,
    };
    Ok((group, rest))
}

/// Splits off all 0x22 records at the front, if each is whole.
fn split_stamp(mut rest: &[u8]) -> Option<(Vec<Count>, &[u8])> {
    let mut stamp = Vec::new();
    while rest.first() == Some(&STAMP) {
        stamp.push(record(&mut rest, STAMP)?);
    }
    Some((stamp, rest))
}

/// Splits off as many 0x23 records as are announced, if so many are there.
fn split_direct(mut rest: &[u8], announced: u8) -> Option<(Vec<Name>, &[u8])> {
    let mut direct = Vec::new();
    for _ in 0..announced {
        direct.push(record(&mut rest, DIRECT)?);
    }
    Some((direct, rest))
}

/// Takes a record of this kind and four bytes off the front.
fn record(rest: &mut &[u8], kind: u8) -> Option<(u8, u16)> {
    match **rest {
        [first, node, low, high, ref behind @ ..] if first == kind => {
            *rest = behind;
            Some((node, u16::from_le_bytes([low, high])))
        }
        _ => None,
    }
}

/// What a group breaks behind those of these marks.
fn broken(group: &Group, earlier: &Stamps) -> Vec<Rule> {
    let (stamp, direct) = (&group.stamp[..], &group.direct[..]);
    let entries = [&[group.name], stamp, direct].concat();
    let in_range = |number: u16| (1..=HIGHEST_NUMBER).contains(&number);
    let kept = [
        (
            Rule::Nodes,
            entries.iter().all(|entry| entry.0 < MOST_NODES),
        ),
        (Rule::Numbers, entries.iter().all(|entry| in_range(entry.1))),
        (Rule::Counts, ascends(stamp)),
        (Rule::Direct, ascends(direct)),
        (Rule::Own, stamp.contains(&group.name)),
        (Rule::Once, !earlier.contains_key(&group.name)),
        (Rule::Most, earlier.len() < MOST_GROUPS),
    ];
    let broken = kept.into_iter().filter(|(_, is_kept)| !is_kept);
    broken.map(|(rule, _)| rule).collect()
}

fn ascends(entries: &[(u8, u16)]) -> bool {
    entries.windows(2).all(|two| two[0].0 < two[1].0)
}
