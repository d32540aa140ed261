//! Whether a run is a book: one pass, 64 words at a time, and one that counts strikes.

use crate::program::{strikes_among, ByProgram, PROGRAMS};
use crate::word::{counter, head, strike, used, CLASS_WORDS, CLOSE, COUNTER, EXPIRATION};
use crate::word::{FIRST_CLASS, KEY, LOW_HIGH, STRIKE, UNMARKED, VOLUME};

/// Makes a fresh book of the run, whatever it held; false, and nothing changed, where its length is bad.
pub fn fresh(run: &mut [u32]) -> bool {
    if !is_length(run.len()) {
        return false;
    }
    run.fill(0);
    run[0] = head(0, FIRST_CLASS);
    run[1..FIRST_CLASS].fill(COUNTER);
    true
}

fn is_length(length: usize) -> bool {
    (FIRST_CLASS..=65_535).contains(&length)
}

/// Whether `w` is a strike word that may follow `before`, an expiration or a strike. That h is at
/// least 1 after an expiration, and at most 19,999 at the end of a stretch of strikes, is tested
/// elsewhere. Words of lower kinds pass too where `before` is of a lower kind than a strike: what
/// follows an expiration, or the words of a class, is tested with these.
#[inline(always)]
fn is_next_strike(before: u32, w: u32) -> bool {
    let last = strike(0x7fff, 4) as i32;
    ((w & UNMARKED) as i32 <= last) & ((w & KEY) as i32 > (before & KEY) as i32)
}

/// False for a strike above 19,999. It is asked of the word before an expiration, the first of a class
/// excepted.
#[inline(always)]
fn is_strike_low(w: u32) -> bool {
    w & KEY <= STRIKE + 19_999
}

/// The same of the word before a class, and of the last one: either may be a high.
#[inline(always)]
fn is_end_low(w: u32) -> bool {
    (w & KEY).wrapping_sub(STRIKE + 20_000) > 0x7fff - 20_000
}

/// Whether a class may have these: all 0, or the close between the low, which is at least 1, and the high.
#[inline(always)]
fn are_prices(low: u32, close: u32, high: u32) -> bool {
    (low <= close) & (close <= high) & (high <= 999_999) & ((low != 0) | (high == 0))
}

/// One bit for each word, from the lowest, that is no next strike.
#[inline(always)]
fn others(before: &[u32; 32], words: &[u32; 32]) -> u64 {
    let mut bits: u32 = 0;
    for i in 0..32 {
        bits |= if is_next_strike(before[i], words[i]) {
            0
        } else {
            1 << i
        };
    }
    u64::from(bits)
}

/// The same of the 32 words from `at` on.
#[inline(always)]
fn others_of_32(run: &[u32], at: usize) -> u64 {
    let part: &[u32; 33] = run[at - 1..at + 32].try_into().unwrap();
    others(
        part[..32].try_into().unwrap(),
        part[1..].try_into().unwrap(),
    )
}

/// The same of the 64 words from `at` on.
#[inline(always)]
fn others_of_64(run: &[u32], at: usize) -> u64 {
    let part: &[u32; 65] = run[at - 1..at + 64].try_into().unwrap();
    let low = others(
        part[..32].try_into().unwrap(),
        part[1..33].try_into().unwrap(),
    );
    let high = others(
        part[32..64].try_into().unwrap(),
        part[33..].try_into().unwrap(),
    );
    low | high << 32
}

/// The same of the words from `at` on, 64 or as many as the run has.
#[inline(always)]
fn others_from(run: &[u32], at: usize, used: usize) -> u64 {
    if at + 64 <= run.len() {
        others_of_64(run, at)
    } else {
        others_of_rest(run, at, used)
    }
}

/// The same of the words from `at` on where these are fewer than 64; at least of those that are used.
fn others_of_rest(run: &[u32], at: usize, used: usize) -> u64 {
    let length = run.len();
    if length > 64 {
        // The last 64, less those before `at`.
        return others_of_64(run, length - 64) >> (at + 64 - length);
    }
    if length >= at + 32 {
        // The first and the last 32, which have some in common.
        let first = others_of_32(run, at);
        if used <= at + 32 {
            return first;
        }
        return first | others_of_32(run, length - 32) << (length - 32 - at);
    }
    let pairs = run[at - 1..].windows(2).enumerate();
    pairs.fold(0, |bits, (i, pair)| {
        bits | u64::from(!is_next_strike(pair[0], pair[1])) << i
    })
}

/// What is remembered of the classes and months passed.
struct Passed {
    now: u32,
    latest: u32,
    least_month: u32,
    class: u32,
    /// The own classes of each program.
    own: ByProgram,
    /// Where the words that were passed with the last class end.
    next: usize,
}

impl Passed {
    /// An expiration, and the word after it.
    #[inline(always)]
    fn expiration(&mut self, w: u32, after: u32) -> bool {
        let month = w - EXPIRATION;
        let good = (month >= self.least_month) & (month <= self.latest) & (after & KEY > STRIKE);
        self.least_month = month + 1;
        good
    }

    /// The words whose bits are set, the lowest being that of the word at `at`, but for those that were
    /// passed with a class before it.
    #[inline(always)]
    fn others(&mut self, words: &[u32], at: usize, mut bits: u64) -> bool {
        bits &= u64::MAX << self.next.saturating_sub(at);
        let part = &words[at - 1..];
        while bits != 0 {
            let i = bits.trailing_zeros() as usize;
            // The last word is neither an expiration nor a class.
            let Some(&[before, w, after]) = part.get(i..i + 3) else {
                return false;
            };
            if w >> 28 == 5 {
                if !(is_strike_low(before) & self.expiration(w, after)) {
                    return false;
                }
                bits &= bits - 1;
            } else {
                let Some(count) = self.class(words, at + i) else {
                    return false;
                };
                bits &= u64::MAX << i << count;
            }
        }
        true
    }

    /// The words of a class, at `at`, and its first expiration where one follows. Answers how many words
    /// these are; none where they are no class's.
    #[inline(always)]
    fn class(&mut self, words: &[u32], at: usize) -> Option<usize> {
        let end = at + CLASS_WORDS;
        let &[before, w, close, volume, low, high] = words.get(at - 1..end)? else {
            return None;
        };
        let class = w & 16_383;
        let mut designated = true;
        for (own, program) in self.own.iter_mut().zip(&PROGRAMS) {
            let designation = program.designation(w);
            *own += (designation == 1) as u32;
            designated &= designation != 3;
        }
        let good = (w >> 20 == 2 << 8)
            & (class > self.class)
            & designated
            & are_prices(
                low.wrapping_sub(LOW_HIGH),
                close.wrapping_sub(CLOSE),
                high.wrapping_sub(LOW_HIGH),
            )
            & (volume.wrapping_sub(VOLUME) <= 9_999_999)
            & is_end_low(before);
        if !good {
            return None;
        }
        self.class = class;
        self.least_month = self.now;
        let count = match words.get(end).map(|next| next >> 28) {
            None | Some(2) => CLASS_WORDS,
            Some(5) if self.expiration(words[end], *words.get(end + 1)?) => CLASS_WORDS + 1,
            Some(_) => return None,
        };
        self.next = at + count;
        Some(count)
    }

    /// The counters of a book with these classes and so many strikes.
    fn counters(&self, strikes: ByProgram) -> ByProgram {
        std::array::from_fn(|place| counter(self.own[place], strikes[place]))
    }

    fn caps_hold(&self) -> bool {
        let mut counts = self.own.iter().zip(&PROGRAMS);
        counts.all(|(own, program)| *own <= program.cap)
    }
}

pub fn is_book(run: &[u32]) -> bool {
    if !is_length(run.len()) {
        return false;
    }
    let used = used(run);
    if run[0] >> 26 != 4 || used < FIRST_CLASS || used > run.len() {
        return false;
    }
    are_words(run, used) && are_zero(&run[used..])
}

/// Not compiled into its caller, so that its loop begins where the function does.
#[inline(never)]
fn are_zero(words: &[u32]) -> bool {
    words.iter().fold(0, |all, w| all | w) == 0
}

/// Whether the words used, with their good head, are those of a book.
fn are_words(run: &[u32], used: usize) -> bool {
    let words = &run[..used];
    let now = words[0] & 1_023;
    let mut passed = Passed {
        now,
        latest: (now + 39).min(1_023),
        least_month: now,
        class: 0,
        own: [0; PROGRAMS.len()],
        next: 0,
    };
    let mut at = FIRST_CLASS;
    let mut ahead = others_from(run, at, used);
    // The first class is one, whatever they are.
    if at < used && passed.class(words, at).is_none() {
        return false;
    }
    while at < used {
        let mut bits = ahead;
        if at + 64 < used {
            // Before these are looked at: it doesn't wait for what they are.
            ahead = others_from(run, at + 64, used);
        } else {
            bits &= u64::MAX >> (64 - (used - at));
        }
        if !passed.others(words, at, bits) {
            return false;
        }
        at += 64;
    }
    is_end_low(words[used - 1])
        && passed.caps_hold()
        && passed.counters(strikes_among(&words[FIRST_CLASS..])) == words[1..FIRST_CLASS]
}
