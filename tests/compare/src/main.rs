//! Compares the static library and the sheet program with `second`, document 01 written a second time:
//! document 01's examples and those of the requests, sheets of several pieces, pairs of lists, and more
//! than a million generated calls from fixed seeds, with the counters after each. Calls on books are made in
//! both forms: over any words, and over a book that is known to be one. It fails at the first difference, with
//! its seed and its call.

mod counters;
mod examples;
mod failures;
mod known;
mod lists;
mod pair;
mod prices;
mod program;
mod proved;
mod runs;
mod sheets;
mod two_lists;

use calls::Tally;
use std::process::ExitCode;

type Part = fn(&mut Tally) -> Result<(), String>;

const LEAST_CALLS: u64 = 1_000_000;

fn compare(tally: &mut Tally) -> Result<(), String> {
    examples::compare(tally)?;
    println!("document 01's examples and those of the requests agree");
    program::compare()?;
    two_lists::compare()?;
    let parts: [(&str, Part); 3] = [
        ("sheets", sheets::compare),
        ("lists", lists::compare),
        ("runs", runs::compare),
    ];
    for (name, part) in parts {
        let before = tally.calls();
        part(tally)?;
        println!("{name}: {} calls agree", tally.calls() - before);
    }
    tally.is_complete()?;
    match (tally.calls(), tally.known_calls()) {
        (LEAST_CALLS.., LEAST_CALLS..) => Ok(()),
        (calls, known) => Err(format!(
            "only {calls} calls, and {known} on known books, were made"
        )),
    }
}

fn main() -> ExitCode {
    let mut tally = Tally::default();
    let compared = compare(&mut tally);
    tally.print();
    match compared {
        Ok(()) => {
            println!("{} calls agree", tally.calls());
            println!("{} of them agree on known books too", tally.known_calls());
            ExitCode::SUCCESS
        }
        Err(text) => {
            eprintln!("compare: {text}");
            ExitCode::FAILURE
        }
    }
}
