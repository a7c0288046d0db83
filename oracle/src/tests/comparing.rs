//! Comparing two marks of a report that is well formed.

use super::{assert_no_relation, assert_relation, A, B, ONE, TWO};
use crate::groups::{bytes_of, Group};
use crate::order::Order;
use crate::reader;
use crate::relation::{self, Relation};
use crate::report;

fn report_of(log: &[u8]) -> Vec<u8> {
    let log = reader::read(log).expect("the log is accepted");
    report::bytes_of(&report::marks(&log, &Order::of(&log)))
}

#[test]
fn marks_of_log_a() {
    let report = report_of(&A);
    let names = [(0, 1), (1, 1), (2, 1)];
    for (index, &mark) in names.iter().enumerate() {
        for &earlier in &names[..index] {
            assert_relation(&report, earlier, mark, Relation::Before);
            assert_relation(&report, mark, earlier, Relation::After);
        }
        assert_relation(&report, mark, mark, Relation::Apart);
    }
}

#[test]
fn marks_of_log_b() {
    let report = report_of(&B);
    assert_relation(&report, (0, 1), (1, 1), Relation::Before);
    assert_relation(&report, (1, 1), (0, 2), Relation::Before);
    assert_relation(&report, (0, 2), (0, 1), Relation::After);
}

#[test]
fn two_marks_apart() {
    let report = report_of(&[0x10, 2, 0x12, 0, 0x12, 1]);
    assert_relation(&report, (0, 1), (1, 1), Relation::Apart);
    assert_relation(&report, (1, 1), (0, 1), Relation::Apart);
}

#[test]
fn absent_marks() {
    let report = [&ONE[..], &TWO].concat();
    assert_no_relation(&report, (2, 1), (0, 1), 15, 0);
    assert_no_relation(&report, (0, 1), (2, 1), 16, 0);
    assert_no_relation(&report, (2, 1), (3, 1), 15, 0);
    assert_no_relation(&report, (0, 2), (1, 1), 15, 0);
    assert_no_relation(&report, (0, 1), (0, 0x101), 16, 0);
    assert_no_relation(&report, (32, 1), (1, 1), 15, 0);
    assert_no_relation(&report, (0, 1), (1, 0), 16, 0);
    // A direct predecessor is no mark of the report yet.
    assert_no_relation(&TWO, (1, 1), (0, 1), 16, 0);
    assert_relation(&TWO, (1, 1), (1, 1), Relation::Apart);
}

#[test]
fn the_empty_report() {
    assert_no_relation(&[], (0, 1), (0, 1), 15, 0);
}

/// Two groups with these stamps, of nodes 0 and 1.
fn stamped(first: &[(u8, u16)], second: &[(u8, u16)]) -> Vec<u8> {
    let group = |name, stamp: &[(u8, u16)]| Group {
        name,
        announced: 0,
        stamp: stamp.to_vec(),
        direct: Vec::new(),
    };
    bytes_of(&[group(first[0], first), group((1, 7), second)])
}

#[test]
fn missing_entries_are_zero() {
    let relation = |first, second| relation::between(&stamped(first, second), (0, 5), (1, 7));
    assert_eq!(relation(&[(0, 5)], &[(0, 5), (1, 7)]), Ok(Relation::Before));
    assert_eq!(relation(&[(0, 5)], &[(0, 4), (1, 7)]), Ok(Relation::Apart));
    assert_eq!(relation(&[(0, 5)], &[(1, 7)]), Ok(Relation::Apart));
    let more = [(0, 5), (1, 7), (31, 1)];
    assert_eq!(relation(&more, &[(0, 5), (1, 7)]), Ok(Relation::After));
    assert_eq!(relation(&more, &[(1, 7), (31, 1)]), Ok(Relation::After));
    assert_eq!(relation(&more, &[(1, 7), (31, 2)]), Ok(Relation::Apart));
    let much = [(0, 5), (1, 255), (31, 256)];
    assert_eq!(
        relation(&much, &[(0, 5), (1, 7), (31, 255)]),
        Ok(Relation::After)
    );
}

#[test]
fn two_marks_of_one_stamp_are_apart() {
    let report = stamped(&[(0, 5), (1, 7)], &[(0, 5), (1, 7)]);
    assert_relation(&report, (0, 5), (1, 7), Relation::Apart);
}

#[test]
fn groups_stand_in_any_order() {
    let later = [0x21, 0, 2, 0, 0, 0x22, 0, 2, 0];
    let report = [&TWO[..], &later, &ONE].concat();
    assert_relation(&report, (0, 1), (0, 2), Relation::Before);
    assert_relation(&report, (1, 1), (0, 1), Relation::After);
}
