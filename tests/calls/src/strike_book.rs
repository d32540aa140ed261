//! A strike book of any implementation.

use crate::Call;

/// What a call answers: its number, 0 where it is accepted, and its value.
#[derive(Clone, Copy, Debug, PartialEq, Eq)]
pub struct Answer {
    pub number: u32,
    pub value: u32,
}

/// The twelve calls over a book, or over lent words that may be none, and what a malformed line gets.
/// The second run is lent to `A`.
pub trait StrikeBook {
    fn set_month(&mut self, m: u32) -> Answer;
    fn open_class(&mut self, c: u32) -> Answer;
    fn set_close(&mut self, c: u32, p: u32) -> Answer;
    fn set_low_high(&mut self, c: u32, low: u32, high: u32) -> Answer;
    fn set_volume(&mut self, c: u32, n: u32) -> Answer;
    fn designate(&mut self, c: u32, p: u32, d: u32) -> Answer;
    fn list_strike(&mut self, c: u32, m: u32, h: u32) -> Answer;
    fn judge_strike(&mut self, c: u32, m: u32, h: u32) -> Answer;
    fn delist_strike(&mut self, c: u32, m: u32, h: u32) -> Answer;
    fn mark_strike(&mut self, c: u32, m: u32, h: u32, a: u32, b: u32) -> Answer;
    fn review_class(&mut self, c: u32) -> Answer;
    fn list_permitted(&mut self, second: &mut [u32], c: u32, m: u32) -> Answer;
    fn malformed(&mut self) -> Answer;

    /// Makes one call.
    #[inline(always)]
    fn make(&mut self, call: &Call, second: &mut [u32]) -> Answer {
        match *call {
            Call::M { m } => self.set_month(m),
            Call::O { c } => self.open_class(c),
            Call::C { c, p } => self.set_close(c, p),
            Call::H { c, low, high } => self.set_low_high(c, low, high),
            Call::V { c, n } => self.set_volume(c, n),
            Call::D { c, p, d } => self.designate(c, p, d),
            Call::L { c, m, h } => self.list_strike(c, m, h),
            Call::J { c, m, h } => self.judge_strike(c, m, h),
            Call::X { c, m, h } => self.delist_strike(c, m, h),
            Call::I { c, m, h, a, b } => self.mark_strike(c, m, h, a, b),
            Call::R { c } => self.review_class(c),
            Call::A { c, m } => self.list_permitted(second, c, m),
            Call::Malformed => self.malformed(),
        }
    }
}
