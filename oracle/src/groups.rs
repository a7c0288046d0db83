//! The groups of a report, as one who writes a report sees them: any records, sound or not.

use crate::report::Mark;

pub const HEAD: u8 = 0x21;
pub const STAMP: u8 = 0x22;
pub const DIRECT: u8 = 0x23;
pub const KINDS: [u8; 3] = [HEAD, STAMP, DIRECT];

/// A mark's name: its node, and its number among the marks of that node.
pub type Name = (u8, u16);

/// A node, and how many of its marks a stamp counts.
pub type Count = (u8, u16);

#[derive(Clone, Debug, PartialEq, Eq)]
pub struct Group {
    pub name: Name,
    pub announced: u8,
    pub stamp: Vec<Count>,
    pub direct: Vec<Name>,
}

impl Group {
    /// The group of a mark: counts above zero alone, and as many predecessors as are announced.
    pub fn of(mark: &Mark) -> Group {
        let counts = mark.stamp.iter().enumerate();
        let direct = mark.direct.iter();
        Group {
            name: (mark.node as u8, mark.number),
            announced: mark.direct.len() as u8,
            stamp: counts
                .filter(|(_, count)| **count > 0)
                .map(|(node, &count)| (node as u8, count))
                .collect(),
            direct: direct.map(|&(node, number)| (node as u8, number)).collect(),
        }
    }

    pub fn bytes(&self) -> Vec<u8> {
        let mut bytes = record(HEAD, self.name).to_vec();
        bytes.push(self.announced);
        bytes.extend(self.stamp.iter().flat_map(|&count| record(STAMP, count)));
        bytes.extend(self.direct.iter().flat_map(|&name| record(DIRECT, name)));
        bytes
    }
}

/// The four bytes that each kind of record begins with.
pub fn record(kind: u8, (node, number): (u8, u16)) -> [u8; 4] {
    let [low, high] = number.to_le_bytes();
    [kind, node, low, high]
}

/// The bytes of a row of groups.
pub fn bytes_of(groups: &[Group]) -> Vec<u8> {
    groups.iter().flat_map(Group::bytes).collect()
}
