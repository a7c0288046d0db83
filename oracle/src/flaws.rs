//! Groups with a flaw that is meant, and some that just escape it.

use crate::chance::Chance;
use crate::groups::{record, Group, DIRECT, HEAD, STAMP};
use crate::reader::MOST_NODES;
use crate::sheets::put;

type Flaw = fn(&mut Chance, Group) -> Vec<u8>;

const FLAWS: [Flaw; 29] = [
    node_of_the_mark,
    number_of_the_mark,
    node_of_a_count,
    number_of_a_count,
    node_of_a_predecessor,
    number_of_a_predecessor,
    count_twice,
    counts_descend,
    count_twice_with_none_announced,
    one_count_more_than_nodes,
    predecessor_twice,
    predecessors_descend,
    no_own_count,
    no_stamp,
    other_own_count,
    one_announced_more,
    one_announced_less,
    one_announced_more_than_nodes,
    any_announced,
    predecessor_behind,
    count_behind,
    predecessors_first,
    kind_of_the_head,
    kind_of_a_count,
    kind_of_a_predecessor,
    byte_before,
    record_before,
    no_head,
    nothing_but_the_head,
];

pub const KINDS: usize = FLAWS.len();

/// The bytes of a group with this flaw. The group has counts of three nodes or more and as many
/// predecessors.
pub fn flawed(chance: &mut Chance, kind: usize, group: Group) -> Vec<u8> {
    FLAWS[kind](chance, group)
}

/// The highest node, or one that is too high.
fn high_node(chance: &mut Chance) -> u8 {
    chance.pick(&[31, 32, 33, 255])
}

/// The highest number, or one that is out of range.
fn odd_number(chance: &mut Chance) -> u16 {
    chance.pick(&[0, 4_096, 4_097, 65_535])
}

/// The index of some count that is not the mark's own.
fn other_count(chance: &mut Chance, group: &Group) -> usize {
    let others = (0..group.stamp.len()).filter(|&at| group.stamp[at] != group.name);
    chance.pick(&others.collect::<Vec<usize>>())
}

/// A kind that is not this one.
fn other_kind(chance: &mut Chance, kind: u8) -> u8 {
    let kinds = [HEAD, STAMP, DIRECT, 0x20, 0x24, 0x12, 0x00, chance.byte()];
    let others = kinds.into_iter().filter(|&other| other != kind);
    chance.pick(&others.collect::<Vec<u8>>())
}

/// The stamp follows, so that all but the node is sound.
fn node_of_the_mark(chance: &mut Chance, mut group: Group) -> Vec<u8> {
    let node = high_node(chance);
    group
        .stamp
        .retain(|count| *count != group.name && count.0 < node);
    group.name.0 = node;
    group.stamp.push(group.name);
    group.bytes()
}

/// The stamp follows, so that all but the number is sound.
fn number_of_the_mark(chance: &mut Chance, mut group: Group) -> Vec<u8> {
    let number = odd_number(chance);
    let own = group.stamp.iter_mut().filter(|count| **count == group.name);
    own.for_each(|count| count.1 = number);
    group.name.1 = number;
    group.bytes()
}

fn node_of_a_count(chance: &mut Chance, mut group: Group) -> Vec<u8> {
    let node = high_node(chance);
    group.stamp.retain(|count| count.0 < node);
    group.stamp.push((node, 1));
    group.bytes()
}

fn number_of_a_count(chance: &mut Chance, mut group: Group) -> Vec<u8> {
    let at = other_count(chance, &group);
    group.stamp[at].1 = odd_number(chance);
    group.bytes()
}

fn node_of_a_predecessor(chance: &mut Chance, mut group: Group) -> Vec<u8> {
    let last = group.direct.len() - 1;
    group.direct[last].0 = high_node(chance);
    group.bytes()
}

fn number_of_a_predecessor(chance: &mut Chance, mut group: Group) -> Vec<u8> {
    let at = chance.below(group.direct.len());
    group.direct[at].1 = odd_number(chance);
    group.bytes()
}

fn count_twice(chance: &mut Chance, mut group: Group) -> Vec<u8> {
    let at = chance.below(group.stamp.len());
    group.stamp.insert(at, group.stamp[at]);
    group.bytes()
}

fn counts_descend(chance: &mut Chance, mut group: Group) -> Vec<u8> {
    let at = chance.between(1, group.stamp.len() - 1);
    group.stamp.swap(at - 1, at);
    group.bytes()
}

/// The last record of the group, but of its stamp.
fn count_twice_with_none_announced(chance: &mut Chance, mut group: Group) -> Vec<u8> {
    group.direct.clear();
    group.announced = 0;
    group.stamp.push(chance.pick(&group.stamp));
    group.bytes()
}

/// Whichever node it is of, it is of the same stamp.
fn one_count_more_than_nodes(chance: &mut Chance, mut group: Group) -> Vec<u8> {
    let others = (0..MOST_NODES).filter(|&node| node != group.name.0);
    group.stamp = others.map(|node| (node, 1)).collect();
    put(&mut group.stamp, group.name);
    group.stamp.push((chance.pick(&[0, 31, 32, 255]), 1));
    group.direct.clear();
    group.announced = 0;
    group.bytes()
}

fn predecessor_twice(chance: &mut Chance, mut group: Group) -> Vec<u8> {
    let at = chance.below(group.direct.len());
    group.direct.insert(at, group.direct[at]);
    group.announced += 1;
    group.bytes()
}

fn predecessors_descend(chance: &mut Chance, mut group: Group) -> Vec<u8> {
    let at = chance.between(1, group.direct.len() - 1);
    group.direct.swap(at - 1, at);
    group.bytes()
}

fn no_own_count(_: &mut Chance, mut group: Group) -> Vec<u8> {
    group.stamp.retain(|count| *count != group.name);
    group.bytes()
}

fn no_stamp(_: &mut Chance, mut group: Group) -> Vec<u8> {
    group.stamp.clear();
    group.bytes()
}

fn other_own_count(chance: &mut Chance, mut group: Group) -> Vec<u8> {
    let (_, number) = group.name;
    let others = [
        number % 4_096 + 1,
        (number + 4_094) % 4_096 + 1,
        (number + 255) % 4_096 + 1,
    ];
    let other = chance.pick(&others);
    let own = group.stamp.iter_mut().filter(|count| **count == group.name);
    own.for_each(|count| count.1 = other);
    group.bytes()
}

fn one_announced_more(_: &mut Chance, mut group: Group) -> Vec<u8> {
    group.announced += 1;
    group.bytes()
}

fn one_announced_less(_: &mut Chance, mut group: Group) -> Vec<u8> {
    group.announced -= 1;
    group.bytes()
}

fn one_announced_more_than_nodes(_: &mut Chance, mut group: Group) -> Vec<u8> {
    group.direct = (0..MOST_NODES).map(|node| (node, 1)).collect();
    group.announced = MOST_NODES + 1;
    group.bytes()
}

fn any_announced(chance: &mut Chance, mut group: Group) -> Vec<u8> {
    let any = chance.byte();
    group.announced = chance.pick(&[0, 1, 32, 33, 255, any]);
    group.bytes()
}

/// A sound one, had it been announced.
fn predecessor_behind(_: &mut Chance, mut group: Group) -> Vec<u8> {
    group.direct.retain(|name| name.0 < 31);
    group.announced = group.direct.len() as u8;
    group.direct.push((31, 1));
    group.bytes()
}

/// A sound count, had it been among the others.
fn count_behind(_: &mut Chance, mut group: Group) -> Vec<u8> {
    group.stamp.retain(|count| count.0 < 31);
    [group.bytes(), record(STAMP, (31, 1)).to_vec()].concat()
}

fn predecessors_first(_: &mut Chance, group: Group) -> Vec<u8> {
    let bytes = group.bytes();
    let (front, direct) = bytes.split_at(5 + 4 * group.stamp.len());
    let (head, stamp) = front.split_at(5);
    [head, direct, stamp].concat()
}

fn kind_of_the_head(chance: &mut Chance, group: Group) -> Vec<u8> {
    let mut bytes = group.bytes();
    bytes[0] = other_kind(chance, HEAD);
    bytes
}

fn kind_of_a_count(chance: &mut Chance, group: Group) -> Vec<u8> {
    let mut bytes = group.bytes();
    let at = chance.below(group.stamp.len());
    bytes[5 + 4 * at] = other_kind(chance, STAMP);
    bytes
}

fn kind_of_a_predecessor(chance: &mut Chance, group: Group) -> Vec<u8> {
    let mut bytes = group.bytes();
    let at = group.stamp.len() + chance.below(group.direct.len());
    bytes[5 + 4 * at] = other_kind(chance, DIRECT);
    bytes
}

fn byte_before(chance: &mut Chance, group: Group) -> Vec<u8> {
    [vec![other_kind(chance, HEAD)], group.bytes()].concat()
}

/// It may fit the group before, if that is such that a record of this kind can follow.
fn record_before(chance: &mut Chance, group: Group) -> Vec<u8> {
    let kind = chance.pick(&[STAMP, STAMP, DIRECT]);
    let before = record(kind, (chance.pick(&[0, 31, 32]), 1));
    [before.to_vec(), group.bytes()].concat()
}

fn no_head(_: &mut Chance, group: Group) -> Vec<u8> {
    group.bytes().split_off(5)
}

fn nothing_but_the_head(_: &mut Chance, mut group: Group) -> Vec<u8> {
    group.stamp.clear();
    group.direct.clear();
    group.announced = 0;
    group.bytes()
}
