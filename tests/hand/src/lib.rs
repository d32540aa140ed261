//! The strike book of document 01 by hand: Rust made for speed, over the lent words, without proofs.
//!
//! The functions here test first that the run is a book; those of [`known`], and [`read_known_counter`], take
//! that for granted.

#![forbid(unsafe_code)]

mod book;
mod counter;
mod find;
mod inner;
pub mod known;
mod permitted;
mod program;
mod rule;
pub mod sheet;
mod strike_book;
mod word;

pub use book::{fresh, is_book};
pub use counter::{read_counter, read_known_counter, Counter};
pub use find::Nowhere;
pub use sheet::run_sheet;
pub use strike_book::{Known, Tested};

/// What a call answers: document 01's number, 0 if accepted, and the value.
#[derive(Clone, Copy, PartialEq, Eq, Debug)]
pub struct Answer {
    pub number: u32,
    pub value: u32,
}

impl Answer {
    #[inline(always)]
    const fn accepted(value: u32) -> Answer {
        Answer { number: 0, value }
    }

    #[inline(always)]
    const fn refused(number: u32) -> Answer {
        Answer { number, value: 0 }
    }
}

const NO_BOOK: Answer = Answer::refused(1);

/// `M m`
pub fn set_month(run: &mut [u32], m: u32) -> Answer {
    if !is_book(run) {
        return NO_BOOK;
    }
    inner::set_month(run, m)
}

/// `O c`
pub fn open_class(run: &mut [u32], c: u32) -> Answer {
    if !is_book(run) {
        return NO_BOOK;
    }
    inner::open_class(run, &mut Nowhere, c)
}

/// `C c P`
pub fn set_close(run: &mut [u32], c: u32, p: u32) -> Answer {
    if !is_book(run) {
        return NO_BOOK;
    }
    inner::set_close(run, &mut Nowhere, c, p)
}

/// `H c low high`
pub fn set_low_high(run: &mut [u32], c: u32, low: u32, high: u32) -> Answer {
    if !is_book(run) {
        return NO_BOOK;
    }
    inner::set_low_high(run, &mut Nowhere, c, low, high)
}

/// `V c n`
pub fn set_volume(run: &mut [u32], c: u32, n: u32) -> Answer {
    if !is_book(run) {
        return NO_BOOK;
    }
    inner::set_volume(run, &mut Nowhere, c, n)
}

/// `D c p d`
pub fn designate(run: &mut [u32], c: u32, p: u32, d: u32) -> Answer {
    if !is_book(run) {
        return NO_BOOK;
    }
    inner::designate(run, &mut Nowhere, c, p, d)
}

/// `L c m h`
pub fn list_strike(run: &mut [u32], c: u32, m: u32, h: u32) -> Answer {
    if !is_book(run) {
        return NO_BOOK;
    }
    inner::list_strike(run, &mut Nowhere, c, m, h)
}

/// `J c m h`
pub fn judge_strike(run: &[u32], c: u32, m: u32, h: u32) -> Answer {
    if !is_book(run) {
        return NO_BOOK;
    }
    inner::judge_strike(run, &mut Nowhere, c, m, h)
}

/// `X c m h`
pub fn delist_strike(run: &mut [u32], c: u32, m: u32, h: u32) -> Answer {
    if !is_book(run) {
        return NO_BOOK;
    }
    inner::delist_strike(run, &mut Nowhere, c, m, h)
}

/// `I c m h a b`
pub fn mark_strike(run: &mut [u32], c: u32, m: u32, h: u32, a: u32, b: u32) -> Answer {
    if !is_book(run) {
        return NO_BOOK;
    }
    inner::mark_strike(run, &mut Nowhere, c, m, h, a, b)
}

/// `R c`
pub fn review_class(run: &mut [u32], c: u32) -> Answer {
    if !is_book(run) {
        return NO_BOOK;
    }
    inner::review_class(run, &mut Nowhere, c)
}

/// `A c m`
pub fn list_permitted(run: &[u32], second: &mut [u32], c: u32, m: u32) -> Answer {
    if !is_book(run) {
        return NO_BOOK;
    }
    inner::list_permitted(run, second, &mut Nowhere, c, m)
}
