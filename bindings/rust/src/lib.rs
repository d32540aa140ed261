//! The strike book: which strike prices may be listed on individual stocks, by functions that are
//! proved for every input (`include/strikebook.h` says what each means).
//!
//! A book lives in a run of 4 to 65,535 words that the caller lends. Classes are numbered 1 to
//! 16,383, months 0 to 1,023, prices are in cents (1 to 999,999), volumes in contracts a day (0 to
//! 9,999,999) and strikes in half dollars (1 to 19,999: 25 is $12.50). Any other number is refused
//! with [`Refusal::BeyondLimits`]. A refused call changes nothing.
//!
//! ```
//! use strikebook::{Book, Counter, Designation, Ground, Program, Refusal};
//!
//! let mut run = [0; 4096];
//! let mut second = [0; 512];
//! let mut book = Book::fresh(&mut run)?;
//! book.set_month(4)?;
//! book.open_class(7)?;
//! book.set_close(7, 200)?;
//! book.designate(7, Program::Dollar, Designation::Ours)?;
//! assert_eq!(book.list_permitted(7, 5, &mut second)?, [2, 4, 6, 8, 10, 12, 14]);
//! assert_eq!(book.list_strike(7, 5, 14), Ok(Ground::Dollar));
//! assert_eq!(book.list_strike(7, 5, 16), Err(Refusal::OutOfRange));
//! assert_eq!(book.list_strike(7, 5, 14), Err(Refusal::AlreadyStanding));
//! assert_eq!(book.counter(Program::Dollar), Counter { own_classes: 1, strikes: 1 });
//! # Ok::<(), Refusal>(())
//! ```
//!
//! # Why a book is not tested again
//!
//! A call of [`library`] walks its run first, to test whether it is a book. The calls of a [`Book`] don't:
//! over words that are no book nothing is promised of them, not even memory safety. Safe code can't bring
//! them there, by what is proved of the library and by Rust's borrows:
//!
//! - [`Book::fresh`] makes a book. Where it accepts it leaves the layout of the fresh facts (the contract of
//!   `scan::fresh`, `Begun`), which is a book (`fresh_well_formed` and `book_layout` of book `Layouts`).
//! - [`Book::open`] takes a book: `scan::is_book` answers exactly what the definition `is_book` says.
//! - A call on a book leaves a book of as many words. Each call is `Made`, which is its contract, and a run
//!   that is a book is one after a call that is `Made` (`made_book` of book `Followed`). A sheet leaves the
//!   layout of the facts after all its calls (`SheetRun`), which is a book too (`steps_keep` of book `Keep`).
//! - Nobody else writes the words. A `Book` has the only mutable borrow of them from when it is made on, and
//!   lends them for reading alone ([`Book::words`]). No code outside of the module that makes these calls can
//!   reach its borrow, or make a `Book` of other words.
//!
//! ```compile_fail,E0506
//! # use strikebook::Book;
//! let mut run = [0; 64];
//! let mut book = Book::fresh(&mut run).unwrap();
//! run[0] = 5;
//! book.open_class(7).unwrap();
//! ```
#![warn(missing_docs)]

mod answer;
mod known;
pub mod library;
#[cfg(test)]
mod tests;

pub use answer::{Counter, Ground, Refusal};

use answer::{accepted, counter, done, equal, ground, known_counter};
use known::Known;
use std::fmt;

/// A program that gives its classes more strikes.
#[derive(Clone, Copy, Debug, PartialEq, Eq)]
pub enum Program {
    /// The $1 program, at most 150 classes of our own.
    Dollar = 1,
    /// The $0.50 program, at most 20 classes of our own.
    Half = 2,
    /// The $2.50 program, at most 60 classes of our own.
    TwoFifty = 3,
}

/// How a class stands in a program.
#[derive(Clone, Copy, Debug, PartialEq, Eq)]
pub enum Designation {
    /// It is not in the program.
    None = 0,
    /// It is in it, and counts against the cap.
    Ours = 1,
    /// It is in it by another exchange's designation, and counts against no cap of ours.
    Another = 2,
}

/// Whether the run is a book.
pub fn is_book(run: &[u32]) -> bool {
    library::is_book(run)
}

/// Reads the counter of a program over any words, or refuses with [`Refusal::NotABook`]. It asks
/// whether the run is a book; [`Book::counter`] has no need to.
pub fn read_counter(run: &[u32], program: Program) -> Result<Counter, Refusal> {
    counter(library::read_counter(run, program as u32))
}

/// A call of a list for [`compare_lists`]: its letter as a sheet writes it, its numbers, and the
/// length of the second run that it is lent.
pub type CallRecord = [u32; 8];

/// Makes a fresh book of each of two runs, whatever they hold, makes one list of calls on each, and
/// answers whether the two books are equal in every word. They are exactly when the same facts
/// stand: the current month, and each open class with its figures and its strikes.
///
/// A call is eight words: the ASCII code of its letter, how many numbers it has, five numbers of
/// which the first so many count, and for `A` the length of the second run. A letter that is none
/// of the twelve, or another count of numbers, is a malformed line, which changes nothing. Each `A`
/// writes to the front of the pool, and is lent as many of its words as it asks for, or all.
///
/// [`Refusal::NotABook`] where the runs have fewer than 4 words, more than 65,535, or not the same
/// length; then nothing is written.
///
/// ```
/// use strikebook::{compare_lists, Refusal};
///
/// let (mut left, mut right) = ([0; 64], [0; 64]);
/// let month = |m| [u32::from(b'M'), 1, m, 0, 0, 0, 0, 0];
/// let open = [u32::from(b'O'), 1, 7, 0, 0, 0, 0, 0];
/// let calls = [month(4), open];
/// assert!(compare_lists(&mut left, &mut right, &mut [], &calls, &[open, month(4)])?);
/// assert!(!compare_lists(&mut left, &mut right, &mut [], &calls, &[open])?);
/// # Ok::<(), Refusal>(())
/// ```
pub fn compare_lists(
    left: &mut [u32],
    right: &mut [u32],
    pool: &mut [u32],
    calls: &[CallRecord],
    others: &[CallRecord],
) -> Result<bool, Refusal> {
    let (calls, others) = (calls.as_flattened(), others.as_flattened());
    equal(library::compare_lists(left, right, pool, calls, others))
}

/// A book in a lent run of words. It stays one: as long as this lives, only its calls write the run. So
/// they don't test whether it is a book, as those of [`library`] do.
///
/// It remembers where classes were found, in a few words that it has beside the run, and so finds them
/// sooner in the next calls; no answer depends on that. [`judge_strike`](Book::judge_strike) and
/// [`list_permitted`](Book::list_permitted) make use of what other calls have found, and remember
/// nothing: a book that is shared may be judged in several threads at once.
pub struct Book<'a> {
    known: Known<'a>,
}

impl fmt::Debug for Book<'_> {
    /// Its words, without what it remembers.
    fn fmt(&self, formatter: &mut fmt::Formatter<'_>) -> fmt::Result {
        let mut book = formatter.debug_struct("Book");
        book.field("run", &self.words()).finish()
    }
}

impl<'a> Book<'a> {
    /// Makes a fresh book of the run, whatever it holds: current month 0 and no class.
    /// [`Refusal::NotABook`] where the run has fewer than 4 words or more than 65,535.
    pub fn fresh(run: &'a mut [u32]) -> Result<Book<'a>, Refusal> {
        let known = Known::fresh(run).map_err(Refusal::of)?;
        Ok(Book { known })
    }

    /// Takes a run that is a book already, or refuses with [`Refusal::NotABook`].
    pub fn open(run: &'a mut [u32]) -> Result<Book<'a>, Refusal> {
        let known = Known::open(run).ok_or(Refusal::NotABook)?;
        Ok(Book { known })
    }

    /// The words of the book.
    pub fn words(&self) -> &[u32] {
        self.known.words()
    }

    /// The counter of a program, at a constant cost.
    pub fn counter(&self, program: Program) -> Counter {
        known_counter(library::read_known_counter(self.words(), program as u32))
    }

    /// Sets the current month, and removes the strikes of earlier months.
    pub fn set_month(&mut self, month: u32) -> Result<(), Refusal> {
        done(self.known.set_month(month))
    }

    /// Opens a class with no close, volume 0, in no program, with no strike.
    pub fn open_class(&mut self, class: u32) -> Result<(), Refusal> {
        done(self.known.open_class(class))
    }

    /// Sets the close of a class, in cents, and its low and its high to the same price.
    pub fn set_close(&mut self, class: u32, close: u32) -> Result<(), Refusal> {
        done(self.known.set_close(class, close))
    }

    /// Sets the day's low and high of a class, in cents, until its next close. The low is at most the
    /// close, the high at least the close. A strike is in range where it is at the low or at the high.
    pub fn set_low_high(&mut self, class: u32, low: u32, high: u32) -> Result<(), Refusal> {
        done(self.known.set_low_high(class, low, high))
    }

    /// Sets the volume of a class, in contracts a day.
    pub fn set_volume(&mut self, class: u32, volume: u32) -> Result<(), Refusal> {
        done(self.known.set_volume(class, volume))
    }

    /// Gives a class a designation in a program. The present one again is accepted untested; a new
    /// [`Designation::Ours`] needs a close (and for [`Program::Half`] a volume) that qualifies, and
    /// a place under the cap; for [`Program::TwoFifty`] it needs that place only.
    pub fn designate(
        &mut self,
        class: u32,
        program: Program,
        designation: Designation,
    ) -> Result<(), Refusal> {
        let (program, designation) = (program as u32, designation as u32);
        done(self.known.designate(class, program, designation))
    }

    /// Lists a strike, with no open interest.
    pub fn list_strike(&mut self, class: u32, month: u32, strike: u32) -> Result<Ground, Refusal> {
        ground(self.known.list_strike(class, month, strike))
    }

    /// Answers what [`list_strike`](Book::list_strike) would if words were left, and lists nothing.
    pub fn judge_strike(&self, class: u32, month: u32, strike: u32) -> Result<Ground, Refusal> {
        ground(self.known.judge_strike(class, month, strike))
    }

    /// Delists a strike that has no open interest.
    pub fn delist_strike(&mut self, class: u32, month: u32, strike: u32) -> Result<(), Refusal> {
        done(self.known.delist_strike(class, month, strike))
    }

    /// Says of a strike whether its put and its call have open interest.
    pub fn mark_strike(
        &mut self,
        class: u32,
        month: u32,
        strike: u32,
        put: bool,
        call: bool,
    ) -> Result<(), Refusal> {
        let (put, call) = (u32::from(put), u32::from(call));
        done(self.known.mark_strike(class, month, strike, put, call))
    }

    /// The monthly review of a class: removes each Dollar and Wing strike that is more than $5 from
    /// the close, has no open interest, and is above or below every strike with open interest of its
    /// expiration. Answers how many it removed.
    pub fn review_class(&mut self, class: u32) -> Result<u32, Refusal> {
        accepted(self.known.review_class(class))
    }

    /// Writes every strike that [`judge_strike`](Book::judge_strike) would accept to the front of
    /// the second run, rising, and answers them. Where it is too short nothing is written, and
    /// [`Refusal::OutOfWords`] says how many words it needs.
    pub fn list_permitted<'s>(
        &self,
        class: u32,
        month: u32,
        second: &'s mut [u32],
    ) -> Result<&'s [u32], Refusal> {
        let count = accepted(self.known.list_permitted(second, class, month))?;
        Ok(&second[..count as usize])
    }

    /// Reads a whole sheet, one call a line, makes the calls in turn, and answers how many lines
    /// there are. Each line's number and value are written to `answers` as far as it has places;
    /// each `A` writes to the front of the second run.
    pub fn run_sheet(
        &mut self,
        second: &mut [u32],
        sheet: &[u8],
        answers: &mut [[u32; 2]],
    ) -> usize {
        let answers = answers.as_flattened_mut();
        self.known.run_sheet(second, sheet, answers)
    }
}
