//! All permitted strikes of an expiration, for `A`: 128 of them as a set of bits, the others, which are
//! higher, as stretches of the ladder between standing strikes. The set has those below $64; where the
//! $2.50 program adds strikes beyond, it starts at the range, or there are two sets.

use crate::rule::{Range, Terms};
use crate::word::{strike, AS_STANDARD, UNMARKED};
use crate::Answer;

/// How many strikes a set of bits can tell of. Its bit 0 stands for its start, a multiple of $5.
const SIZE: u32 = 128;

const fn every(step: u32, last: u32) -> u128 {
    let mut bits = 0;
    let mut h = 0;
    while h <= last {
        bits |= 1 << h;
        h += step;
    }
    bits
}

const TENS: u128 = every(10, SIZE - 1);
/// The odd multiples of $2.50.
const ODD: u128 = every(5, SIZE - 1) & !TENS;
const LADDER: u128 = TENS | every(5, 50);
const WHOLE_DOLLARS: u128 = every(2, 100);

/// The strikes from `from` to `to`, none where `to` is below `from`.
#[inline(always)]
fn between(start: u32, from: u32, to: u32) -> u128 {
    if from > to || from >= start + SIZE || to < start {
        return 0;
    }
    let from = from.saturating_sub(start);
    let to = (to - start).min(SIZE - 1);
    (u128::MAX << from) & (u128::MAX >> (SIZE - 1 - to))
}

/// The strikes at $0.50 from any of these.
#[inline(always)]
fn beside(strikes: u128) -> u128 {
    strikes << 1 | strikes >> 1
}

/// The standing strikes, those that count as Standard and those on Dollar.
struct Standing {
    all: u128,
    standard: u128,
    dollar: u128,
}

impl Standing {
    #[inline(always)]
    fn of(start: u32, standing: &[u32]) -> Standing {
        let (mut all, mut standard, mut dollar) = (0, 0, 0);
        for &w in standing {
            let h = w & 0x7fff;
            if h < start {
                continue;
            }
            if h >= start + SIZE {
                break;
            }
            let bit = 1u128 << (h - start);
            let bit_if = |is: bool| if is { bit } else { 0 };
            all |= bit;
            standard |= bit_if(w & AS_STANDARD == strike(h, 0));
            dollar |= bit_if(w & UNMARKED == strike(h, 1));
        }
        Standing {
            all,
            standard,
            dollar,
        }
    }
}

/// The strikes in range on grounds 0, 1 and 4.
#[inline(always)]
fn in_range<const PRICES: usize>(start: u32, terms: &Terms<PRICES>) -> u128 {
    let strikes = |range: &Range| between(start, range.from, range.to);
    terms
        .ranges
        .iter()
        .fold(0, |all, range| all | strikes(range))
}

/// The strikes that ground 4 adds to Standard's.
#[inline(always)]
fn added<const PRICES: usize>(start: u32, terms: &Terms<PRICES>) -> u128 {
    let is_in = |(from, to)| between(start, from, to);
    match terms.two_fifty_spans() {
        Some([below, about]) => ODD & (is_in(below) | is_in(about)),
        None => 0,
    }
}

/// The wings of a $1 class at a price, in range.
#[inline(always)]
fn wings(range: &Range) -> u128 {
    // The L that are in range with their L + $5.
    let last = 90.min(range.to.saturating_sub(10));
    let lower = TENS & between(0, range.from.max(10), last);
    let from = ((range.price + 49) / 50).saturating_sub(10);
    let rising = lower & between(0, from, 90);
    let falling = match (range.price / 50).checked_sub(10) {
        Some(to) => lower & between(0, 0, to),
        None => 0,
    };
    rising << 4 | falling << 6
}

/// The permitted strikes below $64.
#[inline(always)]
fn low<const PRICES: usize>(terms: &Terms<PRICES>, standing: &[u32]) -> u128 {
    let range = in_range(0, terms);
    if terms.near {
        let half = if terms.half_program {
            between(0, 1, terms.half_highest())
        } else {
            0
        };
        let added = added(0, terms);
        if terms.dollar {
            let Standing { all, standard, .. } = Standing::of(0, standing);
            let dollars = if terms.dollar_program {
                WHOLE_DOLLARS & !beside(standard & ODD)
            } else {
                0
            };
            let added = if added != 0 {
                added & !beside(Standing::of(0, standing).dollar)
            } else {
                0
            };
            ((TENS | dollars | added) & range | half) & !all
        } else {
            let Standing { all, dollar, .. } = Standing::of(0, standing);
            let ladder = (LADDER | added) & !(ODD & beside(dollar));
            (ladder & range | half) & !all
        }
    } else {
        let Standing { all, .. } = Standing::of(0, standing);
        let mut grids = if terms.dollar { TENS } else { LADDER } & range;
        if terms.dollar_program {
            grids |= terms.ranges.iter().fold(0, |all, range| all | wings(range));
        }
        let near = all | beside(all) | all << 2 | all >> 2;
        grids & !near
    }
}

/// The last strike that ground 4 adds, where it is at $64 or above: the close is then at least $54.
#[inline(always)]
fn last_added<const PRICES: usize>(terms: &Terms<PRICES>) -> Option<u32> {
    let [_, (from, to)] = terms.two_fifty_spans()?;
    (from <= to && to >= SIZE).then_some(to)
}

/// The permitted strikes from a start on, at $25 or above, where the close is at least $54: Standard has
/// the multiples of $5, and Dollar and Half have none.
#[inline(always)]
fn about_close<const PRICES: usize>(start: u32, terms: &Terms<PRICES>, standing: &[u32]) -> u128 {
    let Standing { all, dollar, .. } = Standing::of(start, standing);
    let grids = TENS | added(start, terms) & !beside(dollar);
    grids & in_range(start, terms) & !all
}

/// Hands on the permitted strikes from `end` up, the end of the sets, as stretches: the first strike, the
/// step and the count. Here only the ladder is left, by $5 to $200 and by $10 above.
#[inline(always)]
fn high<const PRICES: usize>(
    end: u32,
    terms: &Terms<PRICES>,
    standing: &[u32],
    mut each: impl FnMut(u32, u32, u32),
) {
    let reach = if terms.near { 0 } else { 2 };
    let mut at = 0;
    // All below it have been handed on.
    let mut open = end;
    for range in &terms.ranges {
        open = open.max(range.from);
        for (from, to, step) in [(0, 400, 10), (401, 19_999, 20)] {
            let mut next = open.max(from).next_multiple_of(step);
            let last = to.min(range.to) / step * step;
            while next <= last {
                // The first standing strike that bars one of the others.
                let barred = loop {
                    let Some(w) = standing.get(at) else {
                        break last + step;
                    };
                    let h = w & 0x7fff;
                    let near = (h + reach) / step * step;
                    if near >= next && h.abs_diff(near) <= reach {
                        break near.min(last + step);
                    }
                    if h > last {
                        break last + step;
                    }
                    at += 1;
                };
                if barred > next {
                    each(next, step, (barred - next) / step);
                }
                next = barred + step;
            }
        }
        open = open.max(range.to + 1);
    }
}

/// Writes the permitted strikes beside the standing ones.
pub fn list<const PRICES: usize>(
    terms: &Terms<PRICES>,
    standing: &[u32],
    second: &mut [u32],
) -> Answer {
    let Some(last) = last_added(terms) else {
        let set = (0, low(terms, standing));
        return write([set], terms, standing, second);
    };
    // From half the close to $10 above it, or to $100, there are fewer strikes than a set has. From half a
    // low there may be more.
    let start = terms.ranges[0].from / 10 * 10;
    if start >= 50 && last < start + SIZE {
        let set = (start, about_close(start, terms, standing));
        return write([set], terms, standing, second);
    }
    let first = (0, low(terms, standing) & between(0, 0, 119));
    let next = (120, about_close(120, terms, standing));
    write([first, next], terms, standing, second)
}

/// Writes the permitted strikes: those of the sets, and all higher ones.
#[inline(always)]
fn write<const SETS: usize, const PRICES: usize>(
    sets: [(u32, u128); SETS],
    terms: &Terms<PRICES>,
    standing: &[u32],
    second: &mut [u32],
) -> Answer {
    let end = sets[SETS - 1].0 + SIZE;
    let highest = terms.highest();
    let has_high = highest >= end;
    let mut count = sets.iter().map(|(_, set)| set.count_ones()).sum();
    if has_high {
        // At most the strikes of the ladder; they are counted only if need be.
        let most = (highest.min(19_999) - terms.ranges[0].from.max(end)) / 10 + 1;
        if (count + most) as usize > second.len() {
            high(end, terms, standing, |_, _, n| count += n);
        }
    }
    if count as usize > second.len() {
        return Answer {
            number: 15,
            value: count,
        };
    }
    let mut at = 0;
    for (start, set) in sets {
        for (first, mut bits) in [(start, set as u64), (start + 64, (set >> 64) as u64)] {
            while bits != 0 {
                second[at] = first + bits.trailing_zeros();
                at += 1;
                bits &= bits - 1;
            }
        }
    }
    if has_high {
        high(end, terms, standing, |first, step, n| {
            let stretch = &mut second[at..at + n as usize];
            for (i, slot) in stretch.iter_mut().enumerate() {
                *slot = first + i as u32 * step;
            }
            at += n as usize;
        });
    }
    Answer::accepted(at as u32)
}
