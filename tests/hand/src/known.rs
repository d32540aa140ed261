//! The calls over a run that is known to be a book. `places` are words in which they remember where classes
//! were found: any words, any count of them, none too; no answer and no word of the book depends on them. Each
//! is called, as a function of a static library is.

use crate::{inner, sheet, Answer};

/// `M m`
#[inline(never)]
pub fn set_month(run: &mut [u32], m: u32) -> Answer {
    inner::set_month(run, m)
}

/// `O c`
#[inline(never)]
pub fn open_class(run: &mut [u32], places: &mut [u32], c: u32) -> Answer {
    inner::open_class(run, places, c)
}

/// `C c P`
#[inline(never)]
pub fn set_close(run: &mut [u32], places: &mut [u32], c: u32, p: u32) -> Answer {
    inner::set_close(run, places, c, p)
}

/// `H c low high`
#[inline(never)]
pub fn set_low_high(run: &mut [u32], places: &mut [u32], c: u32, low: u32, high: u32) -> Answer {
    inner::set_low_high(run, places, c, low, high)
}

/// `V c n`
#[inline(never)]
pub fn set_volume(run: &mut [u32], places: &mut [u32], c: u32, n: u32) -> Answer {
    inner::set_volume(run, places, c, n)
}

/// `D c p d`
#[inline(never)]
pub fn designate(run: &mut [u32], places: &mut [u32], c: u32, p: u32, d: u32) -> Answer {
    inner::designate(run, places, c, p, d)
}

/// `L c m h`
#[inline(never)]
pub fn list_strike(run: &mut [u32], places: &mut [u32], c: u32, m: u32, h: u32) -> Answer {
    inner::list_strike(run, places, c, m, h)
}

/// `J c m h`
#[inline(never)]
pub fn judge_strike(run: &[u32], places: &mut [u32], c: u32, m: u32, h: u32) -> Answer {
    inner::judge_strike(run, places, c, m, h)
}

/// `X c m h`
#[inline(never)]
pub fn delist_strike(run: &mut [u32], places: &mut [u32], c: u32, m: u32, h: u32) -> Answer {
    inner::delist_strike(run, places, c, m, h)
}

/// `I c m h a b`
#[inline(never)]
pub fn mark_strike(
    run: &mut [u32],
    places: &mut [u32],
    c: u32,
    m: u32,
    h: u32,
    a: u32,
    b: u32,
) -> Answer {
    inner::mark_strike(run, places, c, m, h, a, b)
}

/// `R c`
#[inline(never)]
pub fn review_class(run: &mut [u32], places: &mut [u32], c: u32) -> Answer {
    inner::review_class(run, places, c)
}

/// `A c m`
#[inline(never)]
pub fn list_permitted(
    run: &[u32],
    second: &mut [u32],
    places: &mut [u32],
    c: u32,
    m: u32,
) -> Answer {
    inner::list_permitted(run, second, places, c, m)
}

/// The calls of a whole sheet.
#[inline(never)]
pub fn run_sheet(
    run: &mut [u32],
    second: &mut [u32],
    places: &mut [u32],
    sheet: &[u8],
    answers: &mut [u32],
) -> usize {
    sheet::run_known_sheet(run, second, places, sheet, answers)
}
