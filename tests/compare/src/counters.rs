//! Counters read through the library, over books and over any words.

use crate::pair::same;
use calls::words::{own_classes, standing_strikes, FIRST_CLASS, PROGRAMS};
use calls::{Read, Tally};
use second::{counter_on_words, Counter, PlainBook};
use strikebook::library::{self, CounterReply};

/// The reply that tells a counter, or the number of a refusal, which has no counts.
fn reply(counter: Result<Counter, u32>) -> CounterReply {
    let (number, own_classes, strikes) = match counter {
        Ok(counter) => (0, counter.own_classes, counter.strikes),
        Err(number) => (number, 0, 0),
    };
    CounterReply {
        number,
        own_classes,
        strikes,
    }
}

/// Reads a counter by both functions of the library.
fn read(words: &[u32], program: u32, tally: &mut Tally) -> [CounterReply; 2] {
    let any = library::read_counter(words, program);
    let known = library::read_known_counter(words, program);
    tally.count_read(Read::Any, program, any.number);
    tally.count_read(Read::Known, program, known.number);
    [any, known]
}

/// Reads the counter of each program in a book: both functions tell what the plain book counts.
pub fn read_book(words: &[u32], plain: &PlainBook, tally: &mut Tally) -> Result<(), String> {
    for program in 1..=PROGRAMS.len() as u32 {
        let expected = reply(Ok(plain.counter(program)));
        let what = format!("the counter of program {program}, read in two ways");
        same(&what, read(words, program, tally), [expected; 2])?;
    }
    Ok(())
}

/// The programs, and numbers of none.
const ANY_PROGRAM: [u32; 7] = [0, 1, 2, 3, 4, 1 << 8 | 1, u32::MAX];

/// Reads the counters of any words, which may be no book.
pub fn read_any(words: &[u32], tally: &mut Tally) -> Result<(), String> {
    for program in ANY_PROGRAM {
        let [any, known] = read(words, program, tally);
        let expected = reply(counter_on_words(words, program));
        let what = format!("the counter of program {program}");
        same(&what, any, expected)?;
        same(
            &format!("{what}, untested"),
            known,
            reply(bits(words, program)),
        )?;
        // The bits of a book are its counter.
        if expected.number != 1 {
            same(&format!("{what}, of a book"), known, expected)?;
        }
    }
    Ok(())
}

/// What the bits of a program's counter say, true or not.
fn bits(words: &[u32], program: u32) -> Result<Counter, u32> {
    if words.len() < FIRST_CLASS {
        return Err(1);
    }
    if !(1..=PROGRAMS.len() as u32).contains(&program) {
        return Err(2);
    }
    let word = words[program as usize];
    Ok(Counter {
        own_classes: own_classes(word),
        strikes: standing_strikes(word),
    })
}
