//! Long reports: thousands of groups, at the bound and just past it.

use crate::barn::{Barn, Style};
use crate::chance::Chance;
use crate::damage;
use crate::groups::{Group, Name, KINDS as RECORDS};
use crate::reader::MOST_NODES;
use crate::sheets::{self, Sheet};
use crate::stamps::MOST_GROUPS;

type Long = fn(&mut Chance) -> Sheet;

const LONGS: [Long; 8] = [
    most_groups,
    one_group_too_many,
    anything_too_much,
    last_group_again,
    of_a_big_log,
    backwards,
    damaged,
    long_groups,
];

pub const KINDS: usize = LONGS.len();

pub fn sheet(chance: &mut Chance, kind: usize) -> Sheet {
    LONGS[kind](chance)
}

/// So many groups of nine bytes, node after node or number after number.
fn least_groups(chance: &mut Chance, groups: usize) -> Vec<Group> {
    let nodes = usize::from(MOST_NODES);
    let numbers = groups.div_ceil(nodes);
    let first = chance.pick(&[1, 200, 3_900]);
    let node_after_node = chance.one_in(2);
    let name = |index: usize| -> Name {
        let (node, number) = if node_after_node {
            (index / numbers, index % numbers)
        } else {
            (index % nodes, index / nodes)
        };
        (node as u8, (first + number) as u16)
    };
    (0..groups)
        .map(|index| sheets::least_group(name(index)))
        .collect()
}

fn most_groups(chance: &mut Chance) -> Sheet {
    Sheet::of(&least_groups(chance, MOST_GROUPS))
}

fn one_group_too_many(chance: &mut Chance) -> Sheet {
    let more = chance.pick(&[1, 1, 100]);
    Sheet::of(&least_groups(chance, MOST_GROUPS + more))
}

/// Behind 4,096 groups all is bad.
fn anything_too_much(chance: &mut Chance) -> Sheet {
    let mut sheet = most_groups(chance);
    let length = chance.pick(&[1, 4, 5, 60]);
    let more = damage::any_bytes(chance, &RECORDS, 32, length);
    sheet.report.extend(more);
    sheet
}

/// The last of 4,096 groups is for a mark that has one already.
fn last_group_again(chance: &mut Chance) -> Sheet {
    let mut groups = least_groups(chance, MOST_GROUPS);
    let earlier = chance.below(MOST_GROUPS - 1);
    groups[MOST_GROUPS - 1] = groups[earlier].clone();
    Sheet::of(&groups)
}

fn of_a_big_log(chance: &mut Chance) -> Sheet {
    let style = Style::any(chance);
    let events = chance.between(1_000, 3_000);
    let barn = Barn::grown(chance, style, events);
    Sheet::of(&sheets::of_barn(&barn))
}

/// The order that is farthest from a log's: none tells by its number that it is new.
fn backwards(chance: &mut Chance) -> Sheet {
    let groups = chance.pick(&[1_000, 1_000, 1_000, MOST_GROUPS]);
    let mut groups = least_groups(chance, groups);
    groups.reverse();
    Sheet::of(&groups)
}

fn damaged(chance: &mut Chance) -> Sheet {
    let mut sheet = most_groups(chance);
    let place = chance.below(sheet.report.len());
    sheet.report[place] = chance.byte();
    sheet
}

/// Groups of 261 bytes, the longest there are, one of them changed.
fn long_groups(chance: &mut Chance) -> Sheet {
    let number = |index: usize| 1 + index as u16;
    let all = |number: u16| (0..MOST_NODES).map(move |node| (node, number));
    let mut groups: Vec<Group> = (0..156)
        .map(|index| Group {
            name: (chance.below(MOST_NODES.into()) as u8, number(index)),
            announced: MOST_NODES,
            stamp: all(number(index)).collect(),
            direct: all(number(index)).collect(),
        })
        .collect();
    let changed = chance.below(groups.len());
    let node = chance.below(MOST_NODES.into());
    groups[changed].stamp[node].1 = sheets::number(chance);
    Sheet::of(&groups)
}
