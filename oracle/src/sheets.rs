//! Made-up reports that are well formed: those of logs, and some that no log has.

use crate::barn::{Barn, Style};
use crate::chance::Chance;
use crate::frames::LONGEST_REPORT;
use crate::groups::{bytes_of, Count, Group, Name};
use crate::order::Order;
use crate::reader::{self, MOST_NODES};
use crate::report;
use crate::stamps::HIGHEST_NUMBER;

/// Bytes to compare in, and the marks that they should have.
pub struct Sheet {
    pub names: Vec<Name>,
    pub report: Vec<u8>,
}

impl Sheet {
    pub fn of(groups: &[Group]) -> Sheet {
        Sheet {
            names: groups.iter().map(|group| group.name).collect(),
            report: bytes_of(groups),
        }
    }
}

/// The report of a log of so many events.
pub fn grown(chance: &mut Chance, fewest: usize, most: usize) -> Vec<Group> {
    let style = Style::any(chance);
    let events = chance.between(fewest, most);
    of_barn(&Barn::grown(chance, style, events))
}

/// The report of a log that was grown until it had so many marks.
pub fn of_marks(chance: &mut Chance, marks: usize) -> Vec<Group> {
    let style = if chance.one_in(3) {
        Style::any(chance)
    } else {
        Style::knit(chance)
    };
    let mut barn = Barn::grown(chance, style, 0);
    while barn.marks() < marks {
        barn.grow(chance, style);
    }
    of_barn(&barn)
}

pub fn of_barn(barn: &Barn) -> Vec<Group> {
    let log = reader::read(&barn.bytes()).expect("a grown log is accepted");
    let marks = report::marks(&log, &Order::of(&log));
    fitting(marks.iter().map(Group::of).collect())
}

/// As many groups from the front as a frame can bring.
fn fitting(groups: Vec<Group>) -> Vec<Group> {
    let mut bytes = 0;
    let fits = |group: &Group| {
        bytes += group.bytes().len();
        bytes <= LONGEST_REPORT
    };
    groups.into_iter().take_while(fits).collect()
}

/// A report of some groups, mostly that of a log.
pub fn some(chance: &mut Chance) -> Vec<Group> {
    let marks = chance.between(2, 12);
    if chance.one_in(3) {
        return made_up(chance, marks);
    }
    of_marks(chance, marks)
}

/// A report of so many groups that need not be of any log, in any order.
pub fn made_up(chance: &mut Chance, groups: usize) -> Vec<Group> {
    let mut report: Vec<Group> = Vec::new();
    while report.len() < groups {
        let name = (chance.below(MOST_NODES.into()) as u8, number(chance));
        if report.iter().all(|group| group.name != name) {
            report.push(any_group(chance, name));
        }
    }
    report
}

/// A sound group of a mark.
fn any_group(chance: &mut Chance, name: Name) -> Group {
    let fewest = chance.below(3);
    group_with(chance, name, fewest)
}

/// A sound group of a mark, with counts of three nodes or more and as many predecessors.
pub fn rich_group(chance: &mut Chance, name: Name) -> Group {
    group_with(chance, name, 3)
}

fn group_with(chance: &mut Chance, name: Name, fewest: usize) -> Group {
    let mut stamp = entries(chance, fewest);
    put(&mut stamp, name);
    let direct = entries(chance, fewest);
    Group {
        name,
        announced: direct.len() as u8,
        stamp,
        direct,
    }
}

/// Gives a node its count in a stamp.
pub fn put(stamp: &mut Vec<Count>, count: Count) {
    stamp.retain(|other| other.0 != count.0);
    stamp.push(count);
    stamp.sort_unstable();
}

/// Numbers of ascending nodes, so many of them or more.
fn entries(chance: &mut Chance, fewest: usize) -> Vec<(u8, u16)> {
    let mut entries = Vec::new();
    let more = chance.pick(&[0, 0, 1, 4, 60]);
    for _ in 0..more {
        put(&mut entries, entry(chance));
    }
    while entries.len() < fewest {
        put(&mut entries, entry(chance));
    }
    entries
}

fn entry(chance: &mut Chance) -> (u8, u16) {
    (chance.below(MOST_NODES.into()) as u8, number(chance))
}

/// A mark number or a count, rather often at a bound.
pub fn number(chance: &mut Chance) -> u16 {
    let any = chance.between(1, HIGHEST_NUMBER.into()) as u16;
    chance.pick(&[1, 1, 2, 3, 255, 256, 257, 4_095, 4_096, any])
}

/// A group of nine bytes.
pub fn least_group(name: Name) -> Group {
    Group {
        name,
        announced: 0,
        stamp: vec![name],
        direct: Vec::new(),
    }
}
