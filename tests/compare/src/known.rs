//! The calls over a book that is known to be one, which test no word: those of a `Book`.

use crate::pair::{same, same_words};
use calls::{Answer, Call, StrikeBook, Tally};
use strikebook::{Book, Designation, Ground, Program, Refusal};

/// A book over a copy of the words. While it is kept it remembers where classes stand.
pub struct Known<'a>(Book<'a>);

/// What the plain book answered to a call, and the words of both runs that it left.
pub struct Left<'a> {
    pub answer: Answer,
    pub words: &'a [u32],
    pub second: &'a [u32],
}

/// What the plain book answered to a sheet, and the words of both runs that it left.
pub struct SheetLeft<'a> {
    pub lines: usize,
    pub answers: &'a [u32],
    pub words: &'a [u32],
    pub second: &'a [u32],
}

impl<'a> Known<'a> {
    /// Takes words that are a book.
    pub fn of(words: &'a mut [u32]) -> Result<Known<'a>, String> {
        match Book::open(words) {
            Ok(book) => Ok(Known(book)),
            Err(refusal) => Err(format!("a book is not opened: {refusal}")),
        }
    }

    /// Makes the call with a second run, and compares number, value and every word of both runs.
    pub fn make_as(
        &mut self,
        call: &Call,
        second: &[u32],
        left: &Left,
        tally: &mut Tally,
    ) -> Result<(), String> {
        let mut written = second.to_vec();
        let answer = self.make(call, &mut written);
        let told = |text| format!("a known book, {text}");
        same("the number and the value", answer, left.answer).map_err(told)?;
        same_words("the run", self.0.words(), left.words).map_err(told)?;
        same_words("the second run", &written, left.second).map_err(told)?;
        tally.count_known(1);
        Ok(())
    }

    /// Reads a sheet with a second run and an even count of places for answers, and compares every answer and
    /// every word.
    pub fn read_as(
        &mut self,
        sheet: &[u8],
        second: &[u32],
        answers: &[u32],
        left: &SheetLeft,
        tally: &mut Tally,
    ) -> Result<(), String> {
        let mut written = second.to_vec();
        let mut pairs: Vec<[u32; 2]> = answers
            .chunks_exact(2)
            .map(|pair| [pair[0], pair[1]])
            .collect();
        let lines = self.0.run_sheet(&mut written, sheet, &mut pairs);
        let told = |text| format!("a known book, {text}");
        same("the count of lines", lines, left.lines).map_err(told)?;
        same_words("the answers", pairs.as_flattened(), left.answers).map_err(told)?;
        same_words("the run", self.0.words(), left.words).map_err(told)?;
        same_words("the second run", &written, left.second).map_err(told)?;
        tally.count_known(lines as u64);
        Ok(())
    }

    /// Makes a call as the one line of a sheet: its numbers may be such as the types of a `Book` lack.
    fn make_line(&mut self, call: &Call) -> Answer {
        let mut answers = [[0; 2]];
        self.0
            .run_sheet(&mut [], call.line().as_bytes(), &mut answers);
        let [[number, value]] = answers;
        Answer { number, value }
    }
}

/// The answer in numbers, with the value of an accepted call.
fn told<T>(answer: Result<T, Refusal>, value: impl Fn(T) -> u32) -> Answer {
    let (number, value) = match answer {
        Ok(accepted) => (0, value(accepted)),
        Err(Refusal::OutOfWords { needed }) => (15, needed),
        Err(refusal) => (refusal.number(), 0),
    };
    Answer { number, value }
}

fn nothing(_: ()) -> u32 {
    0
}

fn ground(ground: Ground) -> u32 {
    ground as u32
}

fn program(number: u32) -> Option<Program> {
    let mut programs = [Program::Dollar, Program::Half, Program::TwoFifty].into_iter();
    programs.find(|program| *program as u32 == number)
}

fn designation(number: u32) -> Option<Designation> {
    use Designation::{Another, None, Ours};
    let mut designations = [None, Ours, Another].into_iter();
    designations.find(|designation| *designation as u32 == number)
}

fn mark(number: u32) -> Option<bool> {
    [false, true]
        .into_iter()
        .find(|mark| u32::from(*mark) == number)
}

impl StrikeBook for Known<'_> {
    fn set_month(&mut self, m: u32) -> Answer {
        told(self.0.set_month(m), nothing)
    }

    fn open_class(&mut self, c: u32) -> Answer {
        told(self.0.open_class(c), nothing)
    }

    fn set_close(&mut self, c: u32, p: u32) -> Answer {
        told(self.0.set_close(c, p), nothing)
    }

    fn set_low_high(&mut self, c: u32, low: u32, high: u32) -> Answer {
        told(self.0.set_low_high(c, low, high), nothing)
    }

    fn set_volume(&mut self, c: u32, n: u32) -> Answer {
        told(self.0.set_volume(c, n), nothing)
    }

    fn designate(&mut self, c: u32, p: u32, d: u32) -> Answer {
        match (program(p), designation(d)) {
            (Some(p), Some(d)) => told(self.0.designate(c, p, d), nothing),
            _ => self.make_line(&Call::D { c, p, d }),
        }
    }

    fn list_strike(&mut self, c: u32, m: u32, h: u32) -> Answer {
        told(self.0.list_strike(c, m, h), ground)
    }

    fn judge_strike(&mut self, c: u32, m: u32, h: u32) -> Answer {
        told(self.0.judge_strike(c, m, h), ground)
    }

    fn delist_strike(&mut self, c: u32, m: u32, h: u32) -> Answer {
        told(self.0.delist_strike(c, m, h), nothing)
    }

    fn mark_strike(&mut self, c: u32, m: u32, h: u32, a: u32, b: u32) -> Answer {
        match (mark(a), mark(b)) {
            (Some(put), Some(call)) => told(self.0.mark_strike(c, m, h, put, call), nothing),
            _ => self.make_line(&Call::I { c, m, h, a, b }),
        }
    }

    fn review_class(&mut self, c: u32) -> Answer {
        told(self.0.review_class(c), |removed| removed)
    }

    fn list_permitted(&mut self, second: &mut [u32], c: u32, m: u32) -> Answer {
        let permitted = self.0.list_permitted(c, m, second);
        told(permitted, |strikes| strikes.len() as u32)
    }

    fn malformed(&mut self) -> Answer {
        self.make_line(&Call::Malformed)
    }
}
