//! One call made on both sides, on the library's in both forms, and what it left compared.

use crate::counters::read_book;
use crate::known::{Known, Left};
use crate::proved::{told, Proved};
use calls::{Answer, Call, StrikeBook, Tally};
use second::{make_on_words, PlainBook};
use strikebook::library;

/// The refusal of words that are no book.
const NOT_A_BOOK: u32 = 1;

/// A book on both sides: the words that the library has, and the plain book.
pub struct Pair {
    pub plain: PlainBook,
    pub words: Vec<u32>,
}

impl Pair {
    /// A fresh book, made of any words of a good length.
    pub fn fresh(words: Vec<u32>) -> Result<Pair, String> {
        fresh(words).map(Pair::of)
    }

    /// A book that stands in its words.
    pub fn of(words: Vec<u32>) -> Pair {
        let plain = PlainBook::read(&words).expect("a book");
        Pair { plain, words }
    }

    /// Makes the call on both sides and on a book with the same words that is known to be one, with the
    /// same second run, and compares number, value, every word of both runs and the counters. Answers what
    /// all answered, and the second run as it is left.
    pub fn make(
        &mut self,
        known: &mut Known,
        call: &Call,
        second: &[u32],
        tally: &mut Tally,
    ) -> Result<(Answer, Vec<u32>), String> {
        let mut expected = second.to_vec();
        let mut written = second.to_vec();
        let wanted = self.plain.make(call, &mut expected);
        let answer = Proved(&mut self.words).make(call, &mut written);
        same("the number and the value", answer, wanted)?;
        same_words("the run", &self.words, &self.plain.words())?;
        same_words("the second run", &written, &expected)?;
        read_book(&self.words, &self.plain, tally)?;
        tally.count(call, answer);
        let left = Left {
            answer: wanted,
            words: &self.words,
            second: &expected,
        };
        known.make_as(call, second, &left, tally)?;
        Ok((answer, written))
    }
}

/// The same over any words, which may be no book: each gets a copy, a known book only of a book.
pub fn make_on_any(
    words: &[u32],
    call: &Call,
    second: &[u32],
    tally: &mut Tally,
) -> Result<(), String> {
    let (mut expected, mut left) = (words.to_vec(), words.to_vec());
    let (mut expected_second, mut left_second) = (second.to_vec(), second.to_vec());
    let wanted = make_on_words(&mut expected, &mut expected_second, call);
    let answer = Proved(&mut left).make(call, &mut left_second);
    same("the number and the value", answer, wanted)?;
    same_words("the run", &left, &expected)?;
    same_words("the second run", &left_second, &expected_second)?;
    tally.count(call, answer);
    if wanted.number == NOT_A_BOOK {
        return Ok(());
    }
    let left = Left {
        answer: wanted,
        words: &expected,
        second: &expected_second,
    };
    Known::of(&mut words.to_vec())?.make_as(call, second, &left, tally)
}

/// Makes a fresh book of any words on both sides. Answers the words that it left.
pub fn fresh(mut words: Vec<u32>) -> Result<Vec<u32>, String> {
    let (number, expected) = match PlainBook::fresh(words.len()) {
        Some(book) => (0, book.words()),
        None => (1, words.clone()),
    };
    let answer = told(library::fresh(&mut words));
    same("the answer to fresh", answer, Answer { number, value: 0 })?;
    same_words("the run after fresh", &words, &expected)?;
    Ok(words)
}

pub fn same<T: PartialEq + std::fmt::Debug>(
    what: &str,
    library: T,
    expected: T,
) -> Result<(), String> {
    if library == expected {
        return Ok(());
    }
    Err(format!(
        "{what}: the library has {library:?}, expected {expected:?}"
    ))
}

/// Compares two runs. Fails at the first word that differs.
pub fn same_words(what: &str, library: &[u32], expected: &[u32]) -> Result<(), String> {
    if library == expected {
        return Ok(());
    }
    let pairs = library.iter().zip(expected);
    let at = pairs.take_while(|(word, wanted)| word == wanted).count();
    let what = format!("{what}, word {at}");
    same(&what, library.get(at), expected.get(at))
}
