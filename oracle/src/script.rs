//! Logs as readable text: a record on each line, `#` before a comment.

use crate::records::{bytes_of, Record};
use std::str::FromStr;

/// The bytes of the log that a text describes, or what is wrong with which of its lines.
pub fn bytes_of_text(text: &str) -> Result<Vec<u8>, String> {
    let mut records = Vec::new();
    for (index, line) in text.lines().enumerate() {
        let said = line.split('#').next().unwrap_or_default();
        let words: Vec<&str> = said.split_whitespace().collect();
        if !words.is_empty() {
            let record = record(&words).ok_or(format!("line {}: {line}", index + 1))?;
            records.push(record);
        }
    }
    Ok(bytes_of(&records))
}

fn record(words: &[&str]) -> Option<Record> {
    Some(match *words {
        ["nodes", nodes] => Record::Opening {
            nodes: parsed(nodes)?,
        },
        ["idle", node] => Record::Idle {
            node: parsed(node)?,
        },
        ["mark", node] => Record::Mark {
            node: parsed(node)?,
        },
        ["send", node, destination, number] => Record::Send {
            node: parsed(node)?,
            destination: parsed(destination)?,
            number: parsed(number)?,
        },
        ["receipt", node, number] => Record::Receipt {
            node: parsed(node)?,
            number: parsed(number)?,
        },
        _ => return None,
    })
}

fn parsed<T: FromStr>(word: &str) -> Option<T> {
    word.parse().ok()
}
