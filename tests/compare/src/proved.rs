//! The calls through the static library.

use calls::{Answer, StrikeBook};
use strikebook::library::{self, Reply};

/// A lent run of any words.
pub struct Proved<'a>(pub &'a mut [u32]);

#[inline(always)]
pub fn told(reply: Reply) -> Answer {
    let Reply { number, value } = reply;
    Answer { number, value }
}

impl StrikeBook for Proved<'_> {
    #[inline(always)]
    fn set_month(&mut self, m: u32) -> Answer {
        told(library::set_month(self.0, m))
    }

    #[inline(always)]
    fn open_class(&mut self, c: u32) -> Answer {
        told(library::open_class(self.0, c))
    }

    #[inline(always)]
    fn set_close(&mut self, c: u32, p: u32) -> Answer {
        told(library::set_close(self.0, c, p))
    }

    #[inline(always)]
    fn set_low_high(&mut self, c: u32, low: u32, high: u32) -> Answer {
        told(library::set_low_high(self.0, c, low, high))
    }

    #[inline(always)]
    fn set_volume(&mut self, c: u32, n: u32) -> Answer {
        told(library::set_volume(self.0, c, n))
    }

    #[inline(always)]
    fn designate(&mut self, c: u32, p: u32, d: u32) -> Answer {
        told(library::designate(self.0, c, p, d))
    }

    #[inline(always)]
    fn list_strike(&mut self, c: u32, m: u32, h: u32) -> Answer {
        told(library::list_strike(self.0, c, m, h))
    }

    #[inline(always)]
    fn judge_strike(&mut self, c: u32, m: u32, h: u32) -> Answer {
        told(library::judge_strike(self.0, c, m, h))
    }

    #[inline(always)]
    fn delist_strike(&mut self, c: u32, m: u32, h: u32) -> Answer {
        told(library::delist_strike(self.0, c, m, h))
    }

    #[inline(always)]
    fn mark_strike(&mut self, c: u32, m: u32, h: u32, a: u32, b: u32) -> Answer {
        told(library::mark_strike(self.0, c, m, h, a, b))
    }

    #[inline(always)]
    fn review_class(&mut self, c: u32) -> Answer {
        told(library::review_class(self.0, c))
    }

    #[inline(always)]
    fn list_permitted(&mut self, second: &mut [u32], c: u32, m: u32) -> Answer {
        told(library::list_permitted(self.0, second, c, m))
    }

    /// As the one line, an empty one, of a sheet.
    fn malformed(&mut self) -> Answer {
        let mut answers = [0; 2];
        library::run_sheet(self.0, &mut [], b"\n", &mut answers);
        let [number, value] = answers;
        Answer { number, value }
    }
}
