//! The fields of the words.

/// The bits of a word's kind.
pub const KIND: u32 = 15 << 28;

pub const HEAD: u32 = 1 << 28;
pub const CLASS: u32 = 2 << 28;
pub const CLOSE: u32 = 3 << 28;
pub const VOLUME: u32 = 4 << 28;
pub const EXPIRATION: u32 = 5 << 28;
pub const STRIKE: u32 = 6 << 28;
pub const LOW_HIGH: u32 = 7 << 28;
pub const COUNTER: u32 = 8 << 28;

/// The words before the first class: the head, and a counter for each program.
pub const FIRST_CLASS: usize = 4;

/// The words of a class before its expirations: class, close, volume, low and high.
pub const CLASS_WORDS: usize = 5;

/// The kind and the widest number that orders words of one kind: h, or a month, or a class number
/// with its designations.
pub const KEY: u32 = 0xf000_7fff;

/// All of a strike word but its marks.
pub const UNMARKED: u32 = !MARKS;

/// The two marks of a strike word.
pub const MARKS: u32 = 3 << 18;

/// All of a strike word but its marks and the highest bit of its ground, by which ground 4 differs from
/// ground 0.
pub const AS_STANDARD: u32 = UNMARKED & !(4 << 15);

/// One strike in a counter.
pub const ONE_STRIKE: u32 = 1 << 8;

/// The counter of a program.
#[inline(always)]
pub fn counter(own_classes: u32, strikes: u32) -> u32 {
    COUNTER | own_classes | strikes << 8
}

/// The own classes of a counter.
#[inline(always)]
pub fn own_classes(counter: u32) -> u32 {
    counter & 255
}

/// The strikes of a counter.
#[inline(always)]
pub fn strikes(counter: u32) -> u32 {
    (counter >> 8) & 65_535
}

/// A strike word without marks.
#[inline(always)]
pub fn strike(h: u32, ground: u32) -> u32 {
    STRIKE | ground << 15 | h
}

/// The ground of a strike word.
#[inline(always)]
pub fn ground(strike: u32) -> u32 {
    (strike >> 15) & 7
}

#[inline(always)]
pub fn now(run: &[u32]) -> u32 {
    run[0] & 1_023
}

#[inline(always)]
pub fn used(run: &[u32]) -> usize {
    ((run[0] >> 10) & 65_535) as usize
}

#[inline(always)]
pub fn head(now: u32, used: usize) -> u32 {
    HEAD | now | (used as u32) << 10
}

/// The word at a place, 0 past the end.
#[inline(always)]
pub fn word(run: &[u32], place: usize) -> u32 {
    run.get(place).copied().unwrap_or(0)
}
