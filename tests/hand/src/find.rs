//! Searches over the words of a book. They stop at the zeros past the words used, or at the end of the run.
//!
//! Each looks for the first word that is at most a bound, with its lowest field turned over where
//! that counts: a higher kind still counts for more, and of two words of one kind the later counts
//! for less.

use crate::word::{word, CLASS, CLASS_WORDS, EXPIRATION, FIRST_CLASS, STRIKE, VOLUME};

/// The first place from `from` on where the word, its bits `turn` turned over and only those of
/// `keep` kept, is at most `bound`; or, where none is before `to`, some place from `to` on.
#[inline(always)]
fn first<const LANES: usize>(
    run: &[u32],
    from: usize,
    to: usize,
    turn: u32,
    keep: u32,
    bound: u32,
) -> usize {
    let stops = |w: u32| ((w ^ turn) & keep) as i32 <= bound as i32;
    let mut at = from;
    while at < to {
        let Some(part) = run.get(at..at + LANES) else {
            break;
        };
        let part: &[u32; LANES] = part.try_into().unwrap();
        let mut bits: u32 = 0;
        for i in 0..LANES {
            bits |= if stops(part[i]) { 1 << i } else { 0 };
        }
        if bits != 0 {
            return at + bits.trailing_zeros() as usize;
        }
        at += LANES;
    }
    while at < to && !stops(run[at]) {
        at += 1;
    }
    at
}

/// The first class or close word from `from` on, or the words used.
#[inline(always)]
pub fn class_or_close(run: &[u32], from: usize) -> usize {
    first::<32>(run, from, run.len(), 0, u32::MAX, VOLUME - 1)
}

/// The first word from `from` on that is an expiration of month `m` or later, or no longer of the class.
#[inline(always)]
pub fn expiration_from(run: &[u32], from: usize, m: u32) -> usize {
    first::<32>(
        run,
        from,
        run.len(),
        0x0fff_ffff,
        u32::MAX,
        EXPIRATION + 0x0fff_ffff - m,
    )
}

/// The first word from `from` on that is a strike of `h` or more, or no longer of the expiration.
#[inline(always)]
pub fn strike_from(run: &[u32], from: usize, h: u32) -> usize {
    first::<16>(
        run,
        from,
        run.len(),
        0x7fff,
        0xf000_7fff,
        STRIKE + 0x7fff - h,
    )
}

/// Where the class `c` stands, or where its words would be put: the place of the first class word
/// whose number is `c` or more, or the words used. Of three steps one halves the words and two
/// split them where `c` is to be expected.
#[inline]
pub fn class_place(run: &[u32], used: usize, c: u32) -> usize {
    // All classes before `low` are below c. Those from `high` on aren't, and none begins from
    // `edge` on before `high`. `low` may pass `edge` by a few words, and `high` may be the word
    // before it.
    let (mut low, mut edge, mut high) = (FIRST_CLASS, used, used);
    // The last number before `low`, and that at `high`; 0 where unknown.
    let (mut below, mut above) = (0, 0);
    let mut steps = 0;
    while low + SPAN < edge {
        let span = edge - low;
        let ahead = (c - below - 1) as usize;
        let middle = if steps % 3 == 0 {
            low + span / 2
        } else if above != 0 {
            low + ahead * span / (above - below) as usize
        } else {
            low + (ahead * low / (below + 1) as usize).min(span / 4 * 3)
        };
        steps += 1;
        let found = class_or_close(run, middle);
        if found >= edge {
            edge = middle;
            continue;
        }
        let place = found - (run[found] >> 28 == 3) as usize;
        let number = run[place] & 16_383;
        if number < c {
            (low, below) = (place + CLASS_WORDS, number);
        } else if number == c {
            return place;
        } else {
            (high, above) = (place, number);
            edge = middle;
        }
    }
    let place = first::<32>(run, low, edge, 0x3fff, 0xf000_3fff, CLASS + 0x3fff - c);
    if place < edge {
        place
    } else {
        high
    }
}

const SPAN: usize = 96;

/// What calls over one book remember of where its classes stand.
pub trait Places {
    /// As [`class_place`], which it may shorten.
    fn class_place(&mut self, run: &[u32], used: usize, c: u32) -> usize;
}

/// Remembers nothing.
pub struct Nowhere;

impl Places for Nowhere {
    #[inline(always)]
    fn class_place(&mut self, run: &[u32], used: usize, c: u32) -> usize {
        class_place(run, used, c)
    }
}

/// Where classes were found last, each in the slot that its number has modulo their count. Any numbers will
/// do: what stands there is looked at. A book that is searched in one go has nothing to gain.
impl Places for [u32] {
    #[inline(always)]
    fn class_place(&mut self, run: &[u32], used: usize, c: u32) -> usize {
        if self.is_empty() || used <= SPAN {
            return class_place(run, used, c);
        }
        let slot = c as usize % self.len();
        let last = self[slot] as usize;
        if is_class_word(word(run, last), c) {
            return last;
        }
        let place = near_place(run, last, c).unwrap_or_else(|| class_place(run, used, c));
        self[slot] = place as u32;
        place
    }
}

#[inline(always)]
fn is_class_word(w: u32, c: u32) -> bool {
    w & 0xf000_3fff == CLASS | c
}

/// How many words before a remembered place are looked at.
const BEFORE: usize = 8;

/// Where the class `c` stands, if that is among 32 words about `last`.
#[inline(always)]
fn near_place(run: &[u32], last: usize, c: u32) -> Option<usize> {
    let from = last.checked_sub(BEFORE)?;
    let part: &[u32; 32] = run.get(from..from + 32)?.try_into().unwrap();
    let mut bits: u32 = 0;
    for (i, &w) in part.iter().enumerate() {
        bits |= if is_class_word(w, c) { 1 << i } else { 0 };
    }
    (bits != 0).then(|| from + bits.trailing_zeros() as usize)
}
