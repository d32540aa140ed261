//! The programs.

use crate::word::{ground, KIND, ONE_STRIKE, STRIKE};

/// A program of classes.
pub struct Program {
    /// Where its counter stands.
    pub counter: usize,
    /// The lowest bit of its designation in a class word.
    pub low: u32,
    /// How many classes may be ours.
    pub cap: u32,
    /// What a new class of ours needs besides a place under the cap; where it is none, not even a close.
    pub needs: Option<Needs>,
    /// The bits by which a strike on one of its grounds is told from all other words of a book.
    pub told_by: u32,
    /// What these bits are in such a strike.
    pub grounds: u32,
}

pub struct Needs {
    pub highest_close: u32,
    pub least_volume: u32,
}

impl Program {
    /// Its designation in a class word.
    #[inline(always)]
    pub fn designation(&self, class: u32) -> u32 {
        (class >> self.low) & 3
    }

    /// Whether a word of a book is a strike on one of its grounds.
    #[inline(always)]
    pub fn has_strike(&self, word: u32) -> bool {
        word & self.told_by == self.grounds
    }

    /// Whether close and volume qualify.
    #[inline(always)]
    pub fn qualifies(&self, close: u32, volume: u32) -> bool {
        match &self.needs {
            Some(needs) => (close <= needs.highest_close) & (volume >= needs.least_volume),
            None => true,
        }
    }
}

pub const DOLLAR: Program = Program {
    counter: 1,
    low: 14,
    cap: 150,
    needs: Some(Needs {
        highest_close: 4_999,
        least_volume: 0,
    }),
    // Grounds 1 and 3: of 0 to 4, the odd ones.
    told_by: KIND | 1 << 15,
    grounds: STRIKE | 1 << 15,
};

pub const HALF: Program = Program {
    counter: 2,
    low: 16,
    cap: 20,
    needs: Some(Needs {
        highest_close: 500,
        least_volume: 1_000,
    }),
    told_by: KIND | 7 << 15,
    grounds: STRIKE | 2 << 15,
};

pub const TWO_FIFTY: Program = Program {
    counter: 3,
    low: 18,
    cap: 60,
    needs: None,
    told_by: KIND | 7 << 15,
    grounds: STRIKE | 4 << 15,
};

/// By the number that `D` gives them, from 1 up.
pub const PROGRAMS: [Program; 3] = [DOLLAR, HALF, TWO_FIFTY];

/// A number for each program.
pub type ByProgram = [u32; PROGRAMS.len()];

/// How many strikes of each program are among the words.
#[inline(always)]
pub fn strikes_among(words: &[u32]) -> ByProgram {
    let mut counts = [0; PROGRAMS.len()];
    for &word in words {
        for (count, program) in counts.iter_mut().zip(&PROGRAMS) {
            *count += program.has_strike(word) as u32;
        }
    }
    counts
}

/// The same of expirations and strikes, 16 bits for each program: few words are counted faster one by one.
#[inline(always)]
pub fn packed_strikes(expirations: &[u32]) -> u64 {
    // By ground. An expiration reads as one of ground 0.
    const PACKED: [u64; 8] = [0, 1, 1 << 16, 1, 1 << 32, 0, 0, 0];
    let words = expirations.iter();
    words.map(|word| PACKED[ground(*word) as usize]).sum()
}

#[inline(always)]
pub fn unpacked(strikes: u64) -> ByProgram {
    std::array::from_fn(|place| (strikes >> (16 * place)) as u16 as u32)
}

/// Where the counter stands that has a strike on this ground, and what the strike is in it. On ground 0 it
/// is nothing, in any counter.
#[inline(always)]
pub fn counted(ground: u32) -> (usize, u32) {
    const COUNTERS: [usize; 5] = [1, 1, 2, 1, 3];
    let strike = (ground != 0) as u32 * ONE_STRIKE;
    (COUNTERS[ground as usize], strike)
}
