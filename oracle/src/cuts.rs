//! Groups that are cut short, as the last of a report can be.

use crate::chance::Chance;
use crate::groups::Group;

type Cut = fn(&mut Chance, Group) -> Vec<u8>;

const CUTS: [Cut; 4] = [
    in_the_head,
    in_the_stamp,
    in_the_last_count,
    in_the_predecessors,
];

pub const KINDS: usize = CUTS.len();

/// The front of a group that has counts and predecessors.
pub fn cut(chance: &mut Chance, kind: usize, group: Group) -> Vec<u8> {
    CUTS[kind](chance, group)
}

fn in_the_head(chance: &mut Chance, group: Group) -> Vec<u8> {
    front(chance.between(1, 4), group)
}

fn in_the_stamp(chance: &mut Chance, group: Group) -> Vec<u8> {
    let at = chance.below(group.stamp.len());
    front(5 + 4 * at + chance.below(4), group)
}

/// None is announced, so that all before the cut would be a group.
fn in_the_last_count(chance: &mut Chance, mut group: Group) -> Vec<u8> {
    group.direct.clear();
    group.announced = 0;
    let last = group.stamp.len() - 1;
    front(5 + 4 * last + chance.between(1, 3), group)
}

fn in_the_predecessors(chance: &mut Chance, group: Group) -> Vec<u8> {
    let at = group.stamp.len() + chance.below(group.direct.len());
    front(5 + 4 * at + chance.below(4), group)
}

fn front(length: usize, group: Group) -> Vec<u8> {
    let mut bytes = group.bytes();
    bytes.truncate(length);
    bytes
}
