//! The groups of a report of any bytes. This file needs nothing of the library.

use std::collections::HashSet;
use std::fmt;
use std::iter::FusedIterator;

const HEAD: u8 = 0x21;
const STAMP: u8 = 0x22;
const PREDECESSOR: u8 = 0x23;
const NODES: u8 = 32;
const MOST: u16 = 4_096;

/// A mark: a node, and which of its marks it is. It is shown as `0.1`.
///
/// Marks have no `<`, since their numbers do not say which led to which:
/// [`compare`](crate::compare) does.
#[derive(Clone, Copy, Debug, PartialEq, Eq, Hash)]
pub struct Mark {
    /// The node, counted from 0.
    pub node: u8,
    /// Which of the node's marks, counted from 1.
    pub number: u16,
}

impl fmt::Display for Mark {
    fn fmt(&self, f: &mut fmt::Formatter<'_>) -> fmt::Result {
        write!(f, "{}.{}", self.node, self.number)
    }
}

/// The stamp of a mark at one node.
#[derive(Clone, Copy, Debug, PartialEq, Eq)]
pub struct Entry {
    /// The node.
    pub node: u8,
    /// How many marks of the node are the stamped mark or before it: 1 or more.
    pub count: u16,
}

/// What a report says of one mark.
#[derive(Clone, Copy, Debug, PartialEq, Eq)]
pub struct Group<'a> {
    mark: Mark,
    stamp: &'a [u8],
    predecessors: &'a [u8],
}

impl<'a> Group<'a> {
    /// The mark.
    pub fn mark(&self) -> Mark {
        self.mark
    }

    /// The mark's stamp, by ascending node. At a node that is missing it is 0.
    pub fn stamp(&self) -> impl ExactSizeIterator<Item = Entry> + 'a {
        entries(self.stamp).map(|(node, count)| Entry { node, count })
    }

    /// The mark's direct predecessors, by ascending node: from each an arrow leads to the mark.
    pub fn predecessors(&self) -> impl ExactSizeIterator<Item = Mark> + 'a {
        entries(self.predecessors).map(|(node, number)| Mark { node, number })
    }
}

/// The groups of a report of any bytes, from the front, up to its end or its first bad group.
///
/// The first bad group is the one whose place [`compare`](crate::compare) tells with 14, and so
/// does [`Groups::place`].
pub fn groups(report: &[u8]) -> Groups<'_> {
    Groups {
        report,
        place: 0,
        seen: HashSet::new(),
    }
}

/// A lent report and the place reached in it, from [`groups`].
#[derive(Clone, Debug)]
pub struct Groups<'a> {
    report: &'a [u8],
    place: usize,
    seen: HashSet<Mark>,
}

impl Groups<'_> {
    /// Where the next group starts. When no group is left, that is the report's length, or, if the
    /// report is not well formed, less: the place of its first bad group.
    pub fn place(&self) -> usize {
        self.place
    }
}

impl<'a> Iterator for Groups<'a> {
    type Item = Group<'a>;

    fn next(&mut self) -> Option<Group<'a>> {
        let (group, length) = front(self.report.get(self.place..)?)?;
        if self.seen.len() == usize::from(MOST) || !self.seen.insert(group.mark) {
            return None;
        }
        self.place += length;
        Some(group)
    }
}

impl FusedIterator for Groups<'_> {}

// The group at the front, and its length, if its shape is good.
fn front(bytes: &[u8]) -> Option<(Group<'_>, usize)> {
    let (node, number, announced, body) = match bytes {
        [HEAD, node, low, high, announced, body @ ..] => {
            let number = u16::from_le_bytes([*low, *high]);
            (*node, number, usize::from(*announced), body)
        }
        _ => return None,
    };
    let (stamp, behind) = body.split_at(entries_length(STAMP, usize::MAX, body)?);
    let (predecessors, _) = behind.split_at(entries_length(PREDECESSOR, announced, behind)?);
    // the stamp's entries are in bounds, so the mark is too if it is among them
    let own = entries(stamp).any(|entry| entry == (node, number));
    let group = Group {
        mark: Mark { node, number },
        stamp,
        predecessors,
    };
    let good = own && predecessors.len() == 4 * announced;
    good.then_some((group, 5 + stamp.len() + predecessors.len()))
}

// The length of the entries of one kind at the front, or of so many if there are more; nothing if
// one of them is cut short, out of bounds or not ascending.
fn entries_length(kind: u8, most: usize, bytes: &[u8]) -> Option<usize> {
    let (mut length, mut least) = (0, 0);
    for _ in 0..most {
        match bytes.get(length..)? {
            [first, node, low, high, ..] if *first == kind => {
                let number = u16::from_le_bytes([*low, *high]);
                if !(least..NODES).contains(node) || !(1..=MOST).contains(&number) {
                    return None;
                }
                least = node + 1;
                length += 4;
            }
            [first, ..] if *first == kind => return None,
            _ => break,
        }
    }
    Some(length)
}

// The node and the number of each entry.
fn entries(bytes: &[u8]) -> impl ExactSizeIterator<Item = (u8, u16)> + '_ {
    bytes
        .chunks_exact(4)
        .map(|entry| (entry[1], u16::from_le_bytes([entry[2], entry[3]])))
}

#[cfg(test)]
mod tests {
    use super::{groups, Entry, Mark};

    // the bytes that a line of two-digit numbers names
    fn bytes(text: &str) -> Vec<u8> {
        let byte = |word| u8::from_str_radix(word, 16).expect("a byte");
        text.split_whitespace().map(byte).collect()
    }

    // how many groups there are, and the place reached
    fn reached(report: &[u8]) -> (usize, usize) {
        let mut rows = groups(report);
        (rows.by_ref().count(), rows.place())
    }

    #[test]
    fn a_group_is_read_to_its_end() {
        let report = bytes("21 02 03 01 02  22 01 04 00  22 02 03 01  23 01 04 00  23 1f 00 10");
        let mut rows = groups(&report);
        let group = rows.next().expect("a group");
        let (node, number) = (2, 0x103);
        assert_eq!(group.mark(), Mark { node, number });
        let stamp: Vec<Entry> = group.stamp().collect();
        let (one, two) = (
            Entry { node: 1, count: 4 },
            Entry {
                node,
                count: number,
            },
        );
        assert_eq!(stamp, [one, two]);
        let from: Vec<String> = group.predecessors().map(|mark| mark.to_string()).collect();
        assert_eq!(from, ["1.4", "31.4096"]);
        assert_eq!((rows.next(), rows.place()), (None, report.len()));
    }

    // 01's rules of a well-formed report, each broken once behind a good group of 9 bytes
    #[test]
    fn groups_end_at_the_first_bad_one() {
        let good = "21 00 01 00 00  22 00 01 00";
        assert_eq!(reached(&[]), (0, 0));
        assert_eq!(reached(&bytes(good)), (1, 9));
        let good_too = [
            "21 1f 00 10 00  22 1f 00 10",
            "21 01 01 00 00  22 00 01 00  22 01 01 00",
        ];
        for text in good_too {
            let report = bytes(&format!("{good} {text}"));
            assert_eq!(reached(&report), (2, report.len()), "{text}");
        }
        let bad = [
            "00",
            "23 00 01 00",
            "21 01 01 00",
            "21 01 01 00 00",
            "21 20 01 00 00  22 20 01 00",
            "21 01 00 00 00  22 01 00 00",
            "21 01 01 10 00  22 01 01 10",
            "21 01 01 00 00  22 00 01 00",
            "21 01 01 00 00  22 01 02 00",
            "21 01 01 00 00  22 01 01 00  22",
            "21 01 01 00 00  22 01 01 00  22 02 01",
            "21 01 01 00 00  22 01 01 00  22 00 01 00",
            "21 01 01 00 00  22 01 01 00  22 01 01 00",
            "21 01 01 00 00  22 00 00 00  22 01 01 00",
            "21 01 01 00 01  22 01 01 00",
            "21 01 01 00 01  22 01 01 00  23 00 01",
            "21 01 01 00 01  22 01 01 00  23 20 01 00",
            "21 01 01 00 01  22 01 01 00  23 00 00 00",
            "21 01 01 00 02  22 01 01 00  23 00 01 00  23 00 01 00",
            "21 01 01 00 02  22 01 01 00  23 00 01 00  21 00 02 00",
            "21 00 01 00 00  22 00 01 00",
        ];
        for text in bad {
            assert_eq!(reached(&bytes(&format!("{good} {text}"))), (1, 9), "{text}");
        }
        // a 0x22 behind a stamp belongs to its group, which is then the bad one
        assert_eq!(reached(&bytes(&format!("{good} 22 00 01 00"))), (0, 0));
    }

    #[test]
    fn the_4_097th_group_is_bad() {
        let group = |number: u16, node: u8| {
            let [low, high] = number.to_le_bytes();
            [0x21, node, low, high, 0, 0x22, node, low, high]
        };
        let mut report: Vec<u8> = (1..=4_096).flat_map(|number| group(number, 0)).collect();
        assert_eq!(reached(&report), (4_096, 9 * 4_096));
        report.extend(group(1, 1));
        assert_eq!(reached(&report), (4_096, 9 * 4_096));
    }

    #[test]
    fn any_bytes_have_an_end() {
        let mut chance: u64 = 1;
        let mut next = move || {
            chance = chance
                .wrapping_mul(6_364_136_223_846_793_005)
                .wrapping_add(1);
            (chance >> 33) as usize
        };
        let likely = [0x21, 0x22, 0x23, 0, 0, 1, 1, 2];
        for _ in 0..5_000 {
            let mut byte = || match next() % 9 {
                8 => (next() % 256) as u8,
                which => likely[which],
            };
            let report: Vec<u8> = (0..60).map(|_| byte()).collect();
            for length in 0..report.len() {
                let mut rows = groups(&report[..length]);
                let marks = rows
                    .by_ref()
                    .map(|group| group.stamp().len())
                    .filter(|&n| n > 0)
                    .count();
                assert!(rows.place() <= length && marks <= length / 9);
                assert!(rows.next().is_none());
            }
        }
    }
}
