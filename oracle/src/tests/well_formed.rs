//! Which reports are well formed: each rule of the scope with reports on both sides of it.

use super::{assert_no_relation, assert_relation, ONE, TWO};
use crate::chance::Chance;
use crate::groups::bytes_of;
use crate::relation::Relation;
use crate::sheets;
use crate::stamps::{self, Bad, Rule};

/// Holds the whole report of some groups to be well formed.
fn assert_good(parts: &[&[u8]]) {
    let read = stamps::read(&parts.concat());
    assert!(read.is_ok(), "{parts:02x?}: {read:?}");
}

/// Holds the first bad group to start at this place and to break this rule alone.
fn assert_bad(parts: &[&[u8]], place: usize, rule: Rule) {
    let report = parts.concat();
    let broken = vec![rule];
    let read = stamps::read(&report);
    assert_eq!(read, Err(Bad { place, broken }), "{parts:02x?}");
    // Whatever marks are asked for.
    for name in [(0, 1), (9, 9)] {
        assert_no_relation(&report, name, name, 14, place);
    }
}

#[test]
fn the_empty_report() {
    assert_good(&[]);
}

#[test]
fn first_bytes_of_groups() {
    for byte in [0x00, 0x10, 0x20, 0x22, 0x23, 0x24, 0xFF] {
        assert_bad(&[&[byte]], 0, Rule::Start);
        assert_bad(&[&TWO, &[byte]], 17, Rule::Start);
        assert_bad(&[&TWO, &[byte], &ONE], 17, Rule::Start);
    }
}

#[test]
fn heads() {
    for length in 1..5 {
        assert_bad(&[&ONE[..length]], 0, Rule::Head);
        assert_bad(&[&TWO, &ONE[..length]], 17, Rule::Head);
    }
    assert_bad(&[&ONE[..5]], 0, Rule::Own);
    let of_node = |node| [0x21, node, 1, 0, 0, 0x22, node, 1, 0];
    assert_good(&[&of_node(31)]);
    for node in [32, 33, 255] {
        assert_bad(&[&ONE, &of_node(node)], 9, Rule::Nodes);
    }
    let of_number = |low, high| [0x21, 0, low, high, 0, 0x22, 0, low, high];
    assert_good(&[&of_number(0x00, 0x10)]);
    for (low, high) in [(0, 0), (0x01, 0x10), (0x00, 0x20), (0xFF, 0xFF)] {
        assert_bad(&[&TWO, &of_number(low, high)], 17, Rule::Numbers);
    }
}

#[test]
fn stamps_of_the_own_node() {
    assert_bad(&[&TWO, &[0x21, 0, 1, 0, 0]], 17, Rule::Own);
    assert_bad(&[&[0x21, 0, 1, 0, 0, 0x22, 1, 1, 0]], 0, Rule::Own);
    assert_bad(&[&[0x21, 0, 1, 0, 0, 0x22, 0, 2, 0]], 0, Rule::Own);
    assert_bad(&[&[0x21, 0, 2, 0, 0, 0x22, 0, 1, 0]], 0, Rule::Own);
    assert_bad(&[&[0x21, 0, 1, 1, 0, 0x22, 0, 1, 0]], 0, Rule::Own);
    assert_bad(&[&[0x21, 0, 1, 0, 0], &ONE], 0, Rule::Own);
    // Only a predecessor has it.
    assert_bad(&[&[0x21, 0, 1, 0, 1, 0x23, 0, 1, 0]], 0, Rule::Own);
}

#[test]
fn counts() {
    // Mark 2.1 with one more count and none announced.
    let with = |count: [u8; 4]| [&[0x21, 2, 1, 0, 0, 0x22, 2, 1, 0], &count[..]].concat();
    assert_good(&[&with([0x22, 3, 1, 0]), &ONE]);
    assert_good(&[&with([0x22, 31, 0x00, 0x10])]);
    for count in [[0x22, 2, 1, 0], [0x22, 1, 1, 0], [0x22, 0, 1, 0]] {
        assert_bad(&[&ONE, &with(count)], 9, Rule::Counts);
        assert_bad(&[&ONE, &with(count), &TWO], 9, Rule::Counts);
    }
    for node in [32, 33, 255] {
        assert_bad(&[&ONE, &with([0x22, node, 1, 0])], 9, Rule::Nodes);
    }
    for (low, high) in [(0, 0), (0x01, 0x10), (0xFF, 0xFF)] {
        assert_bad(&[&ONE, &with([0x22, 3, low, high])], 9, Rule::Numbers);
    }
    for length in 1..4 {
        let cut = with([0x22, 3, 1, 0]);
        assert_bad(&[&ONE, &cut[..9 + length]], 9, Rule::Stamp);
        assert_bad(&[&cut[..5 + length]], 0, Rule::Stamp);
    }
}

#[test]
fn counts_swapped_before_the_predecessors() {
    let mut group = TWO;
    (group[6], group[10]) = (1, 0);
    assert_bad(&[&ONE, &group], 9, Rule::Counts);
}

/// Mark 2.1 that announces so many predecessors.
fn announcing(announced: u8, predecessors: &[[u8; 4]]) -> Vec<u8> {
    let front = [0x21, 2, 1, 0, announced, 0x22, 2, 1, 0];
    [&front[..], &predecessors.concat()].concat()
}

#[test]
fn predecessors() {
    let [zero, one] = [[0x23, 0, 1, 0], [0x23, 1, 1, 0]];
    assert_good(&[&announcing(2, &[zero, one]), &ONE]);
    assert_good(&[&announcing(1, &[[0x23, 31, 0x00, 0x10]])]);
    for pair in [[one, zero], [one, one]] {
        assert_bad(&[&ONE, &announcing(2, &pair), &TWO], 9, Rule::Direct);
    }
    for node in [32, 33, 255] {
        let high = [0x23, node, 1, 0];
        assert_bad(&[&ONE, &announcing(2, &[zero, high])], 9, Rule::Nodes);
    }
    for (low, high) in [(0, 0), (0x01, 0x10), (0xFF, 0xFF)] {
        let odd = [0x23, 1, low, high];
        assert_bad(&[&ONE, &announcing(1, &[odd])], 9, Rule::Numbers);
    }
}

#[test]
fn announced_predecessors() {
    let [zero, one] = [[0x23, 0, 1, 0], [0x23, 1, 1, 0]];
    // One is missing: at the end, before a group, before another record.
    assert_bad(&[&ONE, &announcing(1, &[])], 9, Rule::Announced);
    assert_bad(&[&ONE, &announcing(2, &[zero])], 9, Rule::Announced);
    assert_bad(&[&ONE, &announcing(2, &[zero]), &TWO], 9, Rule::Announced);
    let count = [0x22, 3, 1, 0];
    assert_bad(&[&announcing(2, &[zero, count])], 0, Rule::Announced);
    assert_bad(&[&announcing(255, &[zero, one])], 0, Rule::Announced);
    let all = (0..32).map(|node| [0x23, node, 1, 0]);
    let all: Vec<[u8; 4]> = all.collect();
    assert_good(&[&announcing(32, &all), &ONE]);
    assert_bad(&[&announcing(33, &all), &ONE], 0, Rule::Announced);
    // The last one is cut.
    let whole = announcing(2, &[zero, one]);
    for length in 14..17 {
        assert_bad(&[&ONE, &whole[..length]], 9, Rule::Announced);
    }
    // One is too many, and a bad group of its own.
    assert_bad(&[&ONE, &announcing(0, &[zero])], 18, Rule::Start);
    assert_bad(&[&ONE, &announcing(1, &[zero, one])], 22, Rule::Start);
    assert_bad(&[&announcing(1, &[zero, one]), &TWO], 13, Rule::Start);
    // So is a count behind them, though it ascends.
    assert_bad(&[&announcing(1, &[zero, count])], 13, Rule::Start);
}

#[test]
fn one_mark_twice() {
    assert_bad(&[&ONE, &ONE], 9, Rule::Once);
    assert_bad(&[&ONE, &TWO, &ONE], 26, Rule::Once);
    assert_bad(&[&TWO, &ONE, &TWO], 26, Rule::Once);
    // The later one is bad, also if its stamp is another.
    let other = [0x21, 0, 1, 0, 0, 0x22, 0, 1, 0, 0x22, 1, 1, 0];
    assert_bad(&[&TWO, &ONE, &other, &ONE], 26, Rule::Once);
    // The same number of another node, and another number of the same node.
    assert_good(&[&ONE, &TWO, &[0x21, 0, 2, 0, 0, 0x22, 0, 2, 0]]);
}

#[test]
fn the_first_bad_group_counts() {
    let high = [0x21, 32, 1, 0, 0, 0x22, 32, 1, 0];
    assert_bad(&[&ONE, &ONE, &high], 9, Rule::Once);
    assert_bad(&[&ONE, &high, &ONE], 9, Rule::Nodes);
    assert_bad(&[&high, &[0x00]], 0, Rule::Nodes);
}

/// The least group of mark so many, of 128 on each node.
fn least(index: usize) -> [u8; 9] {
    let [node, number] = [(index / 128) as u8, (index % 128) as u8 + 1];
    [0x21, node, number, 0, 0, 0x22, node, number, 0]
}

#[test]
fn bound_of_groups() {
    let most: Vec<u8> = (0..4_096).flat_map(least).collect();
    assert_eq!(most.len(), 36_864);
    assert_good(&[&most]);
    assert_relation(&most, (31, 127), (31, 128), Relation::Before);
    assert_relation(&most, (31, 128), (30, 128), Relation::Apart);
    let new = [0x21, 0, 129, 0, 0, 0x22, 0, 129, 0];
    assert_bad(&[&most, &new], 36_864, Rule::Most);
    assert_bad(&[&most, &[0x21]], 36_864, Rule::Head);
    // The last of 4,096 can be bad for itself.
    assert_bad(&[&most[..36_855], &ONE], 36_855, Rule::Once);
    assert_good(&[&most[..36_855], &new]);
}

/// What a made-up report is made of is read from it again.
#[test]
fn made_up_reports() {
    for question in 0..400 {
        let chance = &mut Chance::of(12, question);
        let groups = match question % 3 {
            0 => sheets::made_up(chance, 12),
            1 => vec![sheets::rich_group(chance, (3, 4_096))],
            _ => sheets::grown(chance, 0, 200),
        };
        let stamps = stamps::read(&bytes_of(&groups)).expect("it is well formed");
        assert_eq!(stamps.len(), groups.len());
        let mut place = 0;
        for group in groups {
            let found = &stamps[&group.name];
            assert_eq!(found.place, place);
            assert!(found
                .stamp
                .iter()
                .eq(group.stamp.iter().map(|(node, count)| (node, count))));
            place += group.bytes().len();
        }
    }
}
