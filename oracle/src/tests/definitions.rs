//! Order, stamps, direct predecessors and flags by their definitions, word for word.

use crate::barn::{Barn, Style};
use crate::chance::Chance;
use crate::order::Order;
use crate::reader::{self, Act, Log};
use crate::relation::{self, Relation};
use crate::report;

/// Which event directly precedes which: the next of its node, and the receipt of a send.
fn links(log: &Log) -> Vec<Vec<bool>> {
    let events = log.events.len();
    let mut links = vec![vec![false; events]; events];
    for (a, event) in log.events.iter().enumerate() {
        let same_node = |b: &usize| log.events[*b].node == event.node;
        let next = (a + 1..events).find(same_node);
        let receipt = match event.act {
            Act::Send(message) => log.messages[message].received,
            _ => None,
        };
        next.into_iter()
            .chain(receipt)
            .for_each(|b| links[a][b] = true);
    }
    links
}

/// Which event is before which: the closure of "directly precedes", by trying all between.
fn closure(log: &Log) -> Vec<Vec<bool>> {
    let events = log.events.len();
    let mut before = links(log);
    for between in 0..events {
        for a in 0..events {
            for b in 0..events {
                before[a][b] |= before[a][between] && before[between][b];
            }
        }
    }
    before
}

fn marks_of(log: &Log, node: usize) -> Vec<usize> {
    let is_mark = |e: &usize| log.events[*e].node == node && log.events[*e].act == Act::Mark;
    (0..log.events.len()).filter(is_mark).collect()
}

fn all_marks(log: &Log) -> Vec<usize> {
    (0..log.nodes)
        .flat_map(|node| marks_of(log, node))
        .collect()
}

fn assert_mark(log: &Log, before: &[Vec<bool>], e: usize, mark: &report::Mark) {
    let number = |f: usize| {
        let of_node = marks_of(log, log.events[f].node);
        of_node.iter().filter(|mark| **mark <= f).count() as u16
    };
    for k in 0..log.nodes {
        let at_or_before = |f: &&usize| **f == e || before[**f][e];
        let stamp = marks_of(log, k).iter().filter(at_or_before).count();
        assert_eq!(usize::from(mark.stamp[k]), stamp);
    }
    let marks = all_marks(log);
    let between = |f: usize| marks.iter().any(|&g| before[f][g] && before[g][e]);
    let direct = marks.iter().filter(|&&f| before[f][e] && !between(f));
    let pairs: Vec<_> = direct.map(|&f| (log.events[f].node, number(f))).collect();
    assert_eq!(mark.direct, pairs);
    assert_eq!((mark.node, mark.number), (log.events[e].node, number(e)));
}

/// At the end of the log: a flag stands for a count above zero whose last mark, of those at or
/// before the node's last event, is before none of them.
fn assert_flags(log: &Log, order: &Order, before: &[Vec<bool>]) {
    for node in 0..log.nodes {
        let last = (0..log.events.len()).rfind(|&e| log.events[e].node == node);
        let held = |f: &usize| last.is_some_and(|last| *f == last || before[*f][last]);
        let marks: Vec<usize> = all_marks(log).into_iter().filter(held).collect();
        let row = order.row(order.past_of_node(node));
        for k in 0..log.nodes {
            let of_k: Vec<usize> = marks_of(log, k).into_iter().filter(held).collect();
            let flag = |f: &usize| !marks.iter().any(|&g| before[*f][g]);
            assert_eq!(usize::from(row.counts[k]), of_k.len());
            assert_eq!(row.flags >> k & 1 == 1, of_k.last().is_some_and(flag));
        }
    }
}

/// In the log's own report a mark is before another exactly if the closure has it, and after it
/// exactly if the closure has it the other way round.
fn assert_relations(log: &Log, before: &[Vec<bool>], marks: &[report::Mark]) {
    let is_mark = |e: &usize| log.events[*e].act == Act::Mark;
    let places: Vec<usize> = (0..log.events.len()).filter(is_mark).collect();
    let bytes = report::bytes_of(marks);
    let name = |mark: &report::Mark| (mark.node as u8, mark.number);
    for (&e, first) in places.iter().zip(marks) {
        for (&f, second) in places.iter().zip(marks) {
            let relation = match (before[e][f], before[f][e]) {
                (true, _) => Relation::Before,
                (_, true) => Relation::After,
                _ => Relation::Apart,
            };
            let found = relation::between(&bytes, name(first), name(second));
            assert_eq!(found, Ok(relation));
        }
    }
}

#[test]
fn small_logs_by_definition() {
    for question in 0..400 {
        let chance = &mut Chance::of(11, question);
        let style = Style::any(chance);
        let barn = Barn::grown(chance, style, 36);
        let log = reader::read(&barn.bytes()).expect("a grown log is accepted");
        let (order, before) = (Order::of(&log), closure(&log));
        for (f, later) in before.iter().enumerate() {
            for (e, &is_later) in later.iter().enumerate() {
                assert_eq!(order.past(e).has(f), f == e || is_later);
            }
        }
        let is_mark = |e: &usize| log.events[*e].act == Act::Mark;
        let places = (0..log.events.len()).filter(is_mark);
        let marks = report::marks(&log, &order);
        for (e, mark) in places.zip(&marks) {
            assert_mark(&log, &before, e, mark);
        }
        assert_relations(&log, &before, &marks);
        assert_flags(&log, &order, &before);
    }
}
