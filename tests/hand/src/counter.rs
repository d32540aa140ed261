//! The reading of counters.

use crate::is_book;
use crate::word::{own_classes, strikes, FIRST_CLASS};

/// A program's counter: document 01's number, 0 where it is read, the classes that are ours and the strikes
/// that stand on the program's grounds.
#[derive(Clone, Copy, PartialEq, Eq, Debug)]
pub struct Counter {
    pub number: u32,
    pub own_classes: u32,
    pub strikes: u32,
}

impl Counter {
    const fn refused(number: u32) -> Counter {
        Counter {
            number,
            own_classes: 0,
            strikes: 0,
        }
    }
}

/// The counter of a program, of any words.
pub fn read_counter(run: &[u32], program: u32) -> Counter {
    if !is_book(run) {
        return Counter::refused(1);
    }
    read_known_counter(run, program)
}

/// The same of a run that is known to be a book. Of other words it reads what stands in the counter's place,
/// and answers 1 only where they are too few. It is called, as a function of a static library is.
#[inline(never)]
pub fn read_known_counter(run: &[u32], program: u32) -> Counter {
    let Some([_, counters @ ..]) = run.first_chunk::<FIRST_CLASS>() else {
        return Counter::refused(1);
    };
    match counters.get(program.wrapping_sub(1) as usize) {
        Some(&word) => Counter {
            number: 0,
            own_classes: own_classes(word),
            strikes: strikes(word),
        },
        None => Counter::refused(2),
    }
}
