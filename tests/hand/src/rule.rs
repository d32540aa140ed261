//! Grids, range and spacing.

use crate::program::{DOLLAR, HALF, TWO_FIFTY};
use crate::word::{strike, AS_STANDARD, CLASS_WORDS, KEY, STRIKE, UNMARKED};
use crate::Answer;

/// The strikes in range at a price: the lowest and the highest on grounds 0, 1 and 4, and the ends of the
/// range for a wing's two multiples of $5. In a near expiration the fifth strike above the price is at most
/// $25 or at most twice the price, so that ground 4 gains nothing from it.
pub struct Range {
    pub price: u32,
    pub from: u32,
    pub to: u32,
}

impl Range {
    #[inline(always)]
    fn at(price: u32, near: bool, dollar: bool) -> Range {
        let (from, to) = if price > 2_000 {
            ((price + 99) / 100, 3 * price / 100)
        } else {
            (1, (price / 25).max(fifth_above(price / 50, near, dollar)))
        };
        Range { price, from, to }
    }

    #[inline(always)]
    fn has(&self, h: u32) -> bool {
        (self.from <= h) & (h <= self.to)
    }

    /// The highest strike in range on ground 2, whose grid ends at $5.50; 0 where none is.
    #[inline(always)]
    fn half_to(&self) -> u32 {
        if self.price > 2_000 {
            return 0;
        }
        (self.price / 25).max(self.price / 50 + 5).min(11)
    }
}

/// What the rules read of a class and an expiration, with the ranges at the low and at the high, or at the
/// one price that both are.
pub struct Terms<const PRICES: usize> {
    close: u32,
    pub near: bool,
    /// A $1 class.
    pub dollar: bool,
    /// Ground 1 or 3 may be had: a $1 class, P below 5,000.
    pub dollar_program: bool,
    /// Ground 2 may be had: near, a half class, P at most 500, volume at least 1,000.
    pub half_program: bool,
    /// Ground 4 may be had: near, a class of the $2.50 program.
    two_fifty_program: bool,
    /// The one at the high begins where the one at the low does, or above.
    pub ranges: [Range; PRICES],
}

impl<const PRICES: usize> Terms<PRICES> {
    /// `class` are the words of a class that has a close.
    #[inline(always)]
    pub fn of(class: &[u32; CLASS_WORDS], prices: [u32; PRICES], near: bool) -> Terms<PRICES> {
        let &[class, close, volume, ..] = class;
        let close = close & 0x000f_ffff;
        let volume = volume & 0x00ff_ffff;
        let dollar = DOLLAR.designation(class) != 0;
        let half = HALF.designation(class) != 0;
        let two_fifty = TWO_FIFTY.designation(class) != 0;
        Terms {
            close,
            near,
            dollar,
            dollar_program: dollar & DOLLAR.qualifies(close, volume),
            half_program: near & half & HALF.qualifies(close, volume),
            two_fifty_program: near & two_fifty,
            ranges: prices.map(|price| Range::at(price, near, dollar)),
        }
    }

    /// Whether it holds at the low or at the high.
    #[inline(always)]
    fn any(&self, holds: impl Fn(&Range) -> bool) -> bool {
        self.ranges
            .iter()
            .fold(false, |any, range| any | holds(range))
    }

    /// The highest strike in range at the low or at the high.
    #[inline(always)]
    pub fn highest(&self) -> u32 {
        self.ranges
            .iter()
            .fold(0, |highest, range| highest.max(range.to))
    }

    /// The same on ground 2.
    #[inline(always)]
    pub fn half_highest(&self) -> u32 {
        self.ranges
            .iter()
            .fold(0, |highest, range| highest.max(range.half_to()))
    }

    /// From where to where ground 4, where it may be had, has the odd multiples of $2.50: above $25 and
    /// below $50, which a $1 class lacks; and from $50 to $100 at most $10 from the close. Its multiples of
    /// $5 are Standard's.
    #[inline(always)]
    pub fn two_fifty_spans(&self) -> Option<[(u32, u32); 2]> {
        if !self.two_fifty_program {
            return None;
        }
        let low = self.close.saturating_sub(1_000).div_ceil(50);
        let high = (self.close + 1_000) / 50;
        let below = if self.dollar { (1, 0) } else { (51, 99) };
        Some([below, (low.max(100), high.min(200))])
    }

    /// Whether ground 4 adds the strike to Standard's.
    #[inline(always)]
    fn is_added(&self, h: u32) -> bool {
        let is_in = |(from, to): (u32, u32)| (from <= h) & (h <= to);
        match self.two_fifty_spans() {
            Some([below, about]) => (h % 10 == 5) & (is_in(below) | is_in(about)),
            None => false,
        }
    }

    /// The ground of a strike that isn't standing, or 11, 12 or 13. `below` and `above` are the
    /// words before and after its place among the standing strikes; those that are no strikes don't
    /// count.
    #[inline(always)]
    pub fn judge(&self, h: u32, below: u32, above: u32) -> Answer {
        let rest = h % 10;
        let in_range = self.any(|range| range.has(h));
        let standard = if h > 400 {
            (rest == 0) & (h & 3 == 0)
        } else {
            (rest == 0) | ((rest == 5) & (h <= 50) & !self.dollar)
        };
        if self.near {
            // Ground 4 has Standard's range and spacing, and no other ground has what it adds.
            let two_fifty = self.is_added(h);
            let standard = standard | two_fifty;
            let is_dollar = |w: u32, h: u32| w & UNMARKED == strike(h, 1);
            if standard & in_range {
                let crowded = (rest == 5) & (is_dollar(below, h - 1) | is_dollar(above, h + 1));
                if !crowded {
                    return Answer::accepted(if two_fifty { 4 } else { 0 });
                }
            }
            let dollar = self.dollar_program & (h & 1 == 0) & (h <= 100);
            if dollar & in_range {
                let is_standard = |w: u32, h: u32| w & AS_STANDARD == strike(h, 0);
                let crowded = ((rest == 4) & is_standard(above, h + 1))
                    | ((rest == 6) & is_standard(below, h - 1));
                if !crowded {
                    return Answer::accepted(1);
                }
            }
            let half = self.half_program & (h <= 11);
            if half & (h <= self.half_highest()) {
                return Answer::accepted(2);
            }
            // Standard, ground 4 and Dollar have the same range; Half has no spacing.
            if !(standard | dollar | half) {
                Answer::refused(11)
            } else if !((standard | dollar) & in_range) {
                Answer::refused(12)
            } else {
                Answer::refused(13)
            }
        } else {
            // In a wing's stretch of $5, L is its lower end.
            let lower = h - rest;
            let upper = lower + 10;
            let is_placed = |range: &Range| {
                ((rest == 4) & (range.price <= 50 * upper))
                    | ((rest == 6) & (50 * upper <= range.price))
            };
            let wing = self.dollar_program & (10 <= lower) & (lower <= 90) & self.any(is_placed);
            let wing_in_range =
                self.any(|range| is_placed(range) & range.has(lower) & range.has(upper));
            if !(standard | wing) {
                return Answer::refused(11);
            }
            if !((standard & in_range) | (wing & wing_in_range)) {
                return Answer::refused(12);
            }
            let here = STRIKE + h;
            let crowded =
                (here.wrapping_sub(below & KEY) <= 2) | ((above & KEY).wrapping_sub(here) <= 2);
            if crowded {
                return Answer::refused(13);
            }
            Answer::accepted(if standard { 0 } else { 3 })
        }
    }
}

/// The fifth of the lowest strikes above `q`, a price in half dollars, at most 40: on whole
/// dollars, on multiples of $5, or on the ladder.
#[inline(always)]
fn fifth_above(q: u32, near: bool, dollar: bool) -> u32 {
    if dollar {
        if near {
            q / 2 * 2 + 10
        } else {
            q / 10 * 10 + 50
        }
    } else if q < 30 {
        q / 5 * 5 + 25
    } else {
        q / 5 * 10
    }
}
