//! Prints the arrows of a log: each direct predecessor and the mark that it led straight to, then
//! how the first mark stands to the last, then the totals. Usage: arrows LOG

use hatsuvren::{compare, groups, run, Mark, Mode, Refusal, Rooms};
use std::process::ExitCode;

fn main() -> ExitCode {
    let file = match std::env::args_os().nth(1) {
        Some(file) => file,
        None => {
            eprintln!("usage: arrows LOG");
            return ExitCode::from(2);
        }
    };
    let log = match std::fs::read(&file) {
        Ok(log) => log,
        Err(error) => {
            eprintln!("arrows: {}: {error}", file.to_string_lossy());
            return ExitCode::from(2);
        }
    };
    match print_arrows(&log) {
        Ok(()) => ExitCode::SUCCESS,
        Err(refusal) => {
            println!("{refusal}");
            ExitCode::FAILURE
        }
    }
}

fn print_arrows(log: &[u8]) -> Result<(), Refusal> {
    let (mut rooms, mut room) = (Rooms::new(), [0; 16_384]);
    let totals = run(Mode::Short, log, &mut rooms, &mut room)?;
    let report = &room[..totals.bytes];
    for group in groups(report) {
        for from in group.predecessors() {
            println!("{from} -> {}", group.mark());
        }
    }
    let marks: Vec<Mark> = groups(report).map(|group| group.mark()).collect();
    if let [first, .., last] = marks[..] {
        println!("{first} {} {last}", compare(report, first, last)?);
    }
    println!(
        "{} events, {} marks, {} sends, {} carried",
        totals.events, totals.marks, totals.sends, totals.carried
    );
    Ok(())
}
