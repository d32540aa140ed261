//! The three sides that are compared: the proved functions, the fast hand-written ones (b) and the
//! plain ones (a). All work on the words of a run.

use crate::proved::Proved;
use calls::{Answer, Call, StrikeBook};
use hand::{Counter, Tested};
use second::{counter_on_words, lines, make_on_words, parse_line, PlainBook};
use std::hint::black_box;
use strikebook::library::{self, CounterReply};

#[derive(Clone, Copy, PartialEq, Eq)]
pub enum Side {
    Proved,
    Hand,
    Plain,
}

/// What is timed.
pub enum Work {
    IsBook,
    Call(Call),
    Sheet(Vec<u8>),
    /// The counter of a program, of any words.
    ReadCounter(u32),
    /// The same of a run that is known to be a book.
    ReadKnownCounter(u32),
}

/// A reading of a known counter is too short for the clock: it is done so often.
const READINGS: usize = 64;

impl Work {
    /// How often it is done at once.
    pub fn times(&self) -> usize {
        match self {
            Work::ReadKnownCounter(_) => READINGS,
            _ => 1,
        }
    }
}

/// The lent runs beside the book.
#[derive(Clone, PartialEq, Eq)]
pub struct Lent {
    pub second: Vec<u32>,
    pub answers: Vec<u32>,
}

/// Does the work once, or as often as it is done at once. Answers the number and the value; for the test of
/// a run whether it is a book, for a sheet its lines.
#[inline(always)]
pub fn work(side: Side, work: &Work, run: &mut [u32], lent: &mut Lent) -> Answer {
    let (second, answers) = (&mut lent.second[..], &mut lent.answers[..]);
    let number = match (work, side) {
        (Work::Call(call), Side::Proved) => return Proved(run).make(call, second),
        (Work::Call(call), Side::Hand) => return Tested(run).make(call, second),
        (Work::Call(call), Side::Plain) => return make_on_words(run, second, call),
        (Work::ReadCounter(program), _) => return read_counter(side, run, *program),
        (Work::ReadKnownCounter(program), _) => {
            return readings(|| read_known_counter(side, black_box(run), *program))
        }
        (Work::IsBook, Side::Proved) => library::is_book(run) as usize,
        (Work::IsBook, Side::Hand) => hand::is_book(run) as usize,
        (Work::IsBook, Side::Plain) => PlainBook::read(run).is_some() as usize,
        (Work::Sheet(sheet), Side::Proved) => library::run_sheet(run, second, sheet, answers),
        (Work::Sheet(sheet), Side::Hand) => hand::run_sheet(run, second, sheet, answers),
        (Work::Sheet(sheet), Side::Plain) => plain_sheet(run, second, sheet, answers),
    };
    Answer {
        number: number as u32,
        value: 0,
    }
}

/// Reads as often as a known counter is read at once.
#[inline(always)]
pub fn readings(mut read: impl FnMut() -> Answer) -> Answer {
    for _ in 1..READINGS {
        black_box(read());
    }
    read()
}

#[inline(always)]
fn read_counter(side: Side, run: &[u32], program: u32) -> Answer {
    match side {
        Side::Proved => told_counter(library::read_counter(run, program)),
        Side::Hand => told_counter_by_hand(hand::read_counter(run, program)),
        Side::Plain => plain_counter(run, program),
    }
}

/// (a) knows no words to be a book's, and reads them all.
#[inline(always)]
fn read_known_counter(side: Side, run: &[u32], program: u32) -> Answer {
    match side {
        Side::Proved => told_counter(library::read_known_counter(run, program)),
        Side::Hand => told_counter_by_hand(hand::read_known_counter(run, program)),
        Side::Plain => plain_counter(run, program),
    }
}

/// What is read of a counter: both counts make the value.
#[inline(always)]
fn read(number: u32, own_classes: u32, strikes: u32) -> Answer {
    let value = own_classes | strikes << 8;
    Answer { number, value }
}

#[inline(always)]
pub fn told_counter(reply: CounterReply) -> Answer {
    read(reply.number, reply.own_classes, reply.strikes)
}

#[inline(always)]
fn told_counter_by_hand(counter: Counter) -> Answer {
    read(counter.number, counter.own_classes, counter.strikes)
}

fn plain_counter(run: &[u32], program: u32) -> Answer {
    match counter_on_words(run, program) {
        Ok(counter) => read(0, counter.own_classes, counter.strikes),
        Err(number) => read(number, 0, 0),
    }
}

/// A sheet by (a): the words are read once, and written once after the last line.
fn plain_sheet(run: &mut [u32], second: &mut [u32], sheet: &[u8], answers: &mut [u32]) -> usize {
    let mut book = PlainBook::read(run).expect("the run is a book");
    let lines = lines(sheet);
    for (line, places) in lines.iter().zip(answers.chunks_mut(2)) {
        let answer = book.make(&parse_line(line), second);
        places.copy_from_slice(&[answer.number, answer.value]);
    }
    run.copy_from_slice(&book.words());
    lines.len()
}
