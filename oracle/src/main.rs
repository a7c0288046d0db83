//! Answers questions about logs from the order of events itself, which it builds as sets, and
//! questions about reports from their groups.
//!
//! It knows nothing of the program whose answers it is held against, and merges no counts.

mod answer;
mod barn;
mod big;
mod cases;
mod census;
mod chance;
mod compare;
mod cuts;
mod damage;
mod digest;
mod faults;
mod flaws;
mod frames;
mod groups;
mod letters;
mod long;
mod order;
mod pair_kinds;
mod pairs;
mod reader;
mod records;
mod relation;
mod report;
mod rooms;
mod script;
mod set;
mod sheets;
mod stamps;
#[cfg(test)]
mod tests;
mod text;

use std::io::{self, BufReader, BufWriter, Read, Write};
use std::process::ExitCode;

const USAGE: &str = "usage: oracle cases SEED COUNT > QUESTIONS
       oracle answer < QUESTIONS > ANSWERS
       oracle census < QUESTIONS
       oracle compare ANSWERS ANSWERS [NAME NAME]
       oracle run < LOG
       oracle log < TEXT > LOG";

fn main() -> ExitCode {
    let words: Vec<String> = std::env::args().skip(1).collect();
    let words: Vec<&str> = words.iter().map(String::as_str).collect();
    match command(&words) {
        Ok(true) => ExitCode::SUCCESS,
        Ok(false) => ExitCode::FAILURE,
        Err(error) => {
            eprintln!("oracle: {error}");
            ExitCode::FAILURE
        }
    }
}

/// Does what the words say, and tells whether all was as it should be.
fn command(words: &[&str]) -> io::Result<bool> {
    let input = &mut BufReader::new(io::stdin().lock());
    let output = &mut BufWriter::new(io::stdout().lock());
    let done = perform(words, input, output)?;
    output.flush()?;
    Ok(done)
}

fn perform(words: &[&str], input: &mut impl Read, output: &mut impl Write) -> io::Result<bool> {
    match words {
        ["cases", seed, count] => match (seed.parse(), count.parse()) {
            (Ok(seed), Ok(count)) => cases::write(seed, count, output).map(|()| true),
            _ => Err(io::Error::other(USAGE)),
        },
        ["answer"] => answer::all(input, output).map(|()| true),
        ["census"] => census::census(input, output),
        ["compare", one, other] => compare_files([one, other], [one, other], output),
        ["compare", one, other, names @ ..] if names.len() == 2 => {
            compare_files([one, other], [names[0], names[1]], output)
        }
        ["run"] => run(input, output).map(|()| true),
        ["log"] => log(input, output).map(|()| true),
        _ => Err(io::Error::other(USAGE)),
    }
}

fn compare_files(files: [&str; 2], names: [&str; 2], output: &mut impl Write) -> io::Result<bool> {
    let (one, other) = (std::fs::read(files[0])?, std::fs::read(files[1])?);
    compare::compare([&one, &other], names, output)
}

fn run(input: &mut impl Read, output: &mut impl Write) -> io::Result<()> {
    let mut bytes = Vec::new();
    // One byte more than a log may have tells that it is too long.
    let most = text::LONGEST_INPUT as u64 + 1;
    input.take(most).read_to_end(&mut bytes)?;
    output.write_all(text::of(&bytes).as_bytes())
}

fn log(input: &mut impl Read, output: &mut impl Write) -> io::Result<()> {
    let text = io::read_to_string(input)?;
    let bytes = script::bytes_of_text(&text).map_err(io::Error::other)?;
    output.write_all(&bytes)
}
