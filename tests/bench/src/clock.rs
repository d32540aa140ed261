//! Rounds that time two sides in turn.

use crate::books::Book;
use crate::side::{work, Lent, Side, Work};
use calls::Answer;
use std::hint::black_box;
use std::time::Instant;

/// Different books, so that the processor can't learn one by heart, and the work on each. They are
/// copied outside of the timed part, so that each call, whether it changes the book or not, is
/// timed on the same words.
pub struct Batch<'a> {
    books: &'a [Book],
    works: &'a [Work],
    runs: Vec<Vec<u32>>,
    lent: Lent,
}

impl<'a> Batch<'a> {
    pub fn of(books: &'a [Book], works: &'a [Work], lent: &Lent) -> Batch<'a> {
        Batch {
            books,
            works,
            runs: books.iter().map(|book| book.run.clone()).collect(),
            lent: lent.clone(),
        }
    }

    /// The nanoseconds for one book, of a side's work done once on each.
    pub fn time(&mut self, side: Side) -> f64 {
        let on = self.books;
        match side {
            Side::Proved => self.time_by(on, |what, run, lent| work(Side::Proved, what, run, lent)),
            Side::Hand => self.time_by(on, |what, run, lent| work(Side::Hand, what, run, lent)),
            Side::Plain => self.time_by(on, |what, run, lent| work(Side::Plain, what, run, lent)),
        }
    }

    /// The same of work that is given, on books of the same lengths.
    #[inline(always)]
    pub fn time_by(
        &mut self,
        books: &[Book],
        once: impl Fn(&Work, &mut [u32], &mut Lent) -> Answer,
    ) -> f64 {
        for (run, book) in self.runs.iter_mut().zip(books) {
            run.copy_from_slice(&book.run);
        }
        let start = Instant::now();
        for (run, what) in self.runs.iter_mut().zip(self.works) {
            black_box(once(what, black_box(run), &mut self.lent));
        }
        let times = self.runs.len() * self.works[0].times();
        start.elapsed().as_secs_f64() * 1e9 / times as f64
    }
}

/// The best times of two sides, and the median of the rounds' ratios.
#[derive(Clone, Copy)]
pub struct Compared {
    pub first: f64,
    pub second: f64,
    pub median: f64,
}

impl Compared {
    pub fn best(&self) -> f64 {
        self.first / self.second
    }
}

/// Times two sides in turn, either first in every other round.
pub fn compare(rounds: usize, mut time: impl FnMut(bool) -> f64) -> Compared {
    let (mut first, mut second) = (f64::MAX, f64::MAX);
    let mut ratios = Vec::with_capacity(rounds);
    for round in 0..rounds {
        let (a, b) = if round % 2 == 0 {
            let a = time(true);
            (a, time(false))
        } else {
            let b = time(false);
            (time(true), b)
        };
        first = first.min(a);
        second = second.min(b);
        ratios.push(a / b);
    }
    ratios.sort_by(f64::total_cmp);
    Compared {
        first,
        second,
        median: ratios[rounds / 2],
    }
}

/// Times several sides in turn, another first in each round: the times of each.
pub fn in_turn<const SIDES: usize>(
    rounds: usize,
    mut time: impl FnMut(usize) -> f64,
) -> [Vec<f64>; SIDES] {
    let mut times = [const { Vec::new() }; SIDES];
    for round in 0..rounds {
        for turn in 0..SIDES {
            let side = (round + turn) % SIDES;
            times[side].push(time(side));
        }
    }
    times
}

/// The median of the rounds' ratios.
pub fn median_of(first: &[f64], second: &[f64]) -> f64 {
    let mut ratios: Vec<f64> = first.iter().zip(second).map(|(a, b)| a / b).collect();
    ratios.sort_by(f64::total_cmp);
    ratios[ratios.len() / 2]
}

/// A time as it is printed.
pub fn nanoseconds(time: f64) -> String {
    let places = usize::from(time < 10.0);
    format!("{time:.places$}")
}
