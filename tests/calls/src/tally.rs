//! How often each call drew each number, for each program and on each ground, and each read of a counter.

use crate::words::{GROUNDS, PROGRAMS};
use crate::{Answer, Call};
use std::collections::BTreeMap;
use std::ops::Range;

/// The numbers of the answers: acceptance, and the refusals of document 01 and of the requests.
const NUMBERS: Range<u32> = 0..17;

/// The numbers that each call can draw; `-` is a malformed line.
const DRAWN: [(char, &[u32]); 13] = [
    ('-', &[1, 2]),
    ('A', &[0, 1, 2, 4, 5, 8, 15]),
    ('C', &[0, 1, 2, 4]),
    ('D', &[0, 1, 2, 4, 8, 9, 10]),
    ('H', &[0, 1, 2, 4, 8, 16]),
    ('I', &[0, 1, 2, 4, 7]),
    ('J', &[0, 1, 2, 4, 5, 6, 8, 11, 12, 13]),
    ('L', &[0, 1, 2, 4, 5, 6, 8, 11, 12, 13, 15]),
    ('M', &[0, 1, 2, 5]),
    ('O', &[0, 1, 2, 3, 15]),
    ('R', &[0, 1, 2, 4, 8]),
    ('V', &[0, 1, 2, 4]),
    ('X', &[0, 1, 2, 4, 7, 14]),
];

/// The number of the caps.
const CAP_REACHED: u32 = 10;

/// What tells answers of one number apart: the program whose cap is reached, the ground that is granted.
/// Any other number has only 0.
fn details(letter: char, number: u32) -> Range<u32> {
    match (letter, number) {
        ('D', CAP_REACHED) => 1..PROGRAMS.len() as u32 + 1,
        ('J' | 'L', 0) => 0..GROUNDS.len() as u32,
        _ => 0..1,
    }
}

/// A way to read a counter: over any words, or over words that are known to be a book.
#[derive(Clone, Copy, Debug, PartialEq, Eq, PartialOrd, Ord)]
pub enum Read {
    Any,
    Known,
}

const READS: [Read; 2] = [Read::Any, Read::Known];

/// The numbers that a read can draw.
const READ_NUMBERS: Range<u32> = 0..3;

/// The programs whose counter is read. Any other number has only 0.
fn read_details(number: u32) -> Range<u32> {
    match number {
        0 => 1..PROGRAMS.len() as u32 + 1,
        _ => 0..1,
    }
}

/// How often each of them must have been drawn.
const LEAST: u64 = 100;

#[derive(Default)]
pub struct Tally {
    /// By letter, number and what tells its answers apart.
    times: BTreeMap<(char, u32, u32), u64>,
    /// By way, number and program.
    reads: BTreeMap<(Read, u32, u32), u64>,
    /// How many calls were made a second time, over a book that is known to be one.
    known: u64,
}

impl Tally {
    pub fn count(&mut self, call: &Call, answer: Answer) {
        let Answer { number, value } = answer;
        let detail = match (call, number) {
            (Call::D { p, .. }, CAP_REACHED) => *p,
            (Call::J { .. } | Call::L { .. }, 0) => value,
            _ => 0,
        };
        let drawn = (call.letter(), number, detail);
        *self.times.entry(drawn).or_default() += 1;
    }

    pub fn count_read(&mut self, read: Read, program: u32, number: u32) {
        let detail = match number {
            0 => program,
            _ => 0,
        };
        *self.reads.entry((read, number, detail)).or_default() += 1;
    }

    /// How often a read drew a number: 0 of one program, or another.
    pub fn times_read(&self, read: Read, number: u32, detail: u32) -> u64 {
        let drawn = (read, number, detail);
        self.reads.get(&drawn).copied().unwrap_or(0)
    }

    pub fn count_known(&mut self, calls: u64) {
        self.known += calls;
    }

    pub fn known_calls(&self) -> u64 {
        self.known
    }

    pub fn calls(&self) -> u64 {
        self.times.values().sum()
    }

    pub fn times(&self, letter: char, number: u32) -> u64 {
        let all = (letter, number, 0)..=(letter, number, u32::MAX);
        self.times.range(all).map(|(_, times)| times).sum()
    }

    /// How often a call drew a number for one program, or on one ground.
    pub fn times_of(&self, letter: char, number: u32, detail: u32) -> u64 {
        let drawn = (letter, number, detail);
        self.times.get(&drawn).copied().unwrap_or(0)
    }

    /// Each call drew each number that it can draw often enough, for each program and on each ground, and
    /// no other; and so did each read.
    pub fn is_complete(&self) -> Result<(), String> {
        for (letter, can) in DRAWN {
            for number in NUMBERS {
                if can.contains(&number) {
                    self.is_drawn(letter, number)?;
                } else if self.times(letter, number) > 0 {
                    return Err(format!("{letter} drew {number}, which it can't"));
                }
            }
        }
        READS.into_iter().try_for_each(|read| self.is_read(read))
    }

    fn is_read(&self, read: Read) -> Result<(), String> {
        for number in READ_NUMBERS {
            for detail in read_details(number) {
                let times = self.times_read(read, number, detail);
                if times < LEAST {
                    return Err(format!(
                        "{read:?} read {number} ({detail}) {times} times, and is to read it {LEAST} times"
                    ));
                }
            }
        }
        Ok(())
    }

    fn is_drawn(&self, letter: char, number: u32) -> Result<(), String> {
        for detail in details(letter, number) {
            let times = self.times_of(letter, number, detail);
            if times < LEAST {
                return Err(format!(
                    "{letter} drew {number} ({detail}) {times} times, and is to draw it {LEAST} times"
                ));
            }
        }
        Ok(())
    }

    /// Prints a line for each call, and for each read if there were any: each number that it drew, and how
    /// often.
    pub fn print(&self) {
        for (letter, _) in DRAWN {
            let drawn: Vec<String> = NUMBERS
                .filter(|number| self.times(letter, *number) > 0)
                .map(|number| self.told(letter, number))
                .collect();
            println!("  {letter}  {}", drawn.join(", "));
        }
        if self.reads.is_empty() {
            return;
        }
        for read in READS {
            let drawn = READ_NUMBERS.map(|number| self.told_read(read, number));
            println!("  {read:?} read  {}", drawn.collect::<Vec<_>>().join(", "));
        }
    }

    /// How often a number was read, and then for each program.
    fn told_read(&self, read: Read, number: u32) -> String {
        let times = read_details(number).map(|detail| self.times_read(read, number, detail));
        told(number, &times.collect::<Vec<_>>(), read_details(number))
    }

    /// How often a number was drawn, and then for each program or on each ground.
    fn told(&self, letter: char, number: u32) -> String {
        let details = details(letter, number);
        let times = details
            .clone()
            .map(|detail| self.times_of(letter, number, detail));
        told(number, &times.collect::<Vec<_>>(), details)
    }
}

/// How often a number was drawn, and then for each of its details.
fn told(number: u32, times: &[u64], details: Range<u32>) -> String {
    let told = format!("{number}: {}", times.iter().sum::<u64>());
    let apart: Vec<String> = details
        .zip(times)
        .map(|(detail, times)| format!("{detail}: {times}"))
        .collect();
    match apart.len() {
        1 => told,
        _ => format!("{told} ({})", apart.join(", ")),
    }
}

#[cfg(test)]
mod tests {
    use super::*;

    /// Each call and each read drew each number that it can draw as often as it must.
    fn complete() -> Tally {
        let mut tally = Tally::default();
        for (letter, can) in DRAWN {
            for number in can {
                for detail in details(letter, *number) {
                    tally.times.insert((letter, *number, detail), LEAST);
                }
            }
        }
        for read in READS {
            for number in READ_NUMBERS {
                for detail in read_details(number) {
                    tally.reads.insert((read, number, detail), LEAST);
                }
            }
        }
        tally
    }

    #[test]
    fn what_is_rare_is_missed() {
        assert_eq!(complete().is_complete(), Ok(()));
        for (letter, can) in DRAWN {
            for number in NUMBERS {
                for detail in details(letter, number) {
                    let mut tally = complete();
                    match tally.times.get_mut(&(letter, number, detail)) {
                        Some(times) => *times -= 1,
                        None => {
                            tally.times.insert((letter, number, detail), 1);
                        }
                    }
                    let said = tally.is_complete().unwrap_err();
                    let wanted = format!("{letter} drew {number}");
                    assert!(said.starts_with(&wanted), "{said}, {can:?}");
                }
            }
        }
    }

    #[test]
    fn reads_that_are_rare_are_missed() {
        let whole = complete().reads;
        assert_eq!(whole.len(), 2 * (3 + 2));
        for drawn in whole.keys() {
            let mut tally = complete();
            tally.reads.insert(*drawn, LEAST - 1);
            let said = tally.is_complete().unwrap_err();
            let (read, number, detail) = drawn;
            let wanted = format!("{read:?} read {number} ({detail}) 99 times");
            assert!(said.starts_with(&wanted), "{said}");
        }
    }

    #[test]
    fn calls_are_counted() {
        let mut tally = Tally::default();
        let mut count = |call, number, value| tally.count(&call, Answer { number, value });
        count(Call::M { m: 4 }, 0, 0);
        count(Call::M { m: 3 }, 5, 0);
        count(Call::M { m: 2 }, 5, 0);
        let (c, d, m, h) = (7, 1, 5, 105);
        for p in [2, 3, 3] {
            count(Call::D { c, p, d }, 10, 0);
        }
        count(Call::L { c, m, h }, 0, 4);
        count(Call::J { c, m, h }, 0, 4);
        assert_eq!(tally.calls(), 8);
        assert_eq!([0, 5].map(|number| tally.times('M', number)), [1, 2]);
        assert_eq!(tally.told('D', 10), "10: 3 (1: 0, 2: 1, 3: 2)");
        assert_eq!(tally.times_of('L', 0, 4), 1);
        for (program, number) in [(1, 0), (3, 0), (3, 0), (3, 1), (4, 2)] {
            tally.count_read(Read::Known, program, number);
        }
        assert_eq!(tally.told_read(Read::Known, 0), "0: 3 (1: 1, 2: 0, 3: 2)");
        assert_eq!(
            [1, 2].map(|n| tally.told_read(Read::Known, n)),
            ["1: 1", "2: 1"]
        );
        assert_eq!(tally.told_read(Read::Any, 1), "1: 0");
        assert_eq!(tally.calls(), 8);
    }
}
