//! The samples: text, bytes and output of each belong together.

use super::{A, B};
use crate::order::Order;
use crate::reader;
use crate::report;
use crate::script;
use crate::text;

fn assert_sample(readable: &str, log: &[u8], output: &str) {
    assert_eq!(script::bytes_of_text(readable).as_deref(), Ok(log));
    assert_eq!(text::of(log), output);
}

#[test]
fn samples() {
    let a = include_bytes!("../../../samples/a.log");
    let b = include_bytes!("../../../samples/b.log");
    let barn = include_bytes!("../../../samples/barn.log");
    assert_eq!((a, b), (&A, &B));
    let text_of_a = include_str!("../../../samples/a.txt");
    let text_of_b = include_str!("../../../samples/b.txt");
    let text_of_barn = include_str!("../../../samples/barn.txt");
    assert_sample(text_of_a, a, include_str!("../../../samples/a.out"));
    assert_sample(text_of_b, b, include_str!("../../../samples/b.out"));
    assert_sample(
        text_of_barn,
        barn,
        include_str!("../../../samples/barn.out"),
    );
}

/// Each `mark` line of the barn's text begins its comment with the mark's name.
#[test]
fn barn_names_its_marks() {
    let readable = include_str!("../../../samples/barn.txt");
    let marked = readable.lines().filter(|line| line.starts_with("mark "));
    let named: Vec<&str> = marked
        .filter_map(|line| line.split_whitespace().nth(3))
        .collect();
    let bytes = script::bytes_of_text(readable).expect("the text is sound");
    let log = reader::read(&bytes).expect("the log is accepted");
    let marks = report::marks(&log, &Order::of(&log));
    let name = |mark: &report::Mark| format!("{}.{}", mark.node, mark.number);
    assert_eq!(named, marks.iter().map(name).collect::<Vec<String>>());
}
