//! Words of books: any that the layout allows, those that no call makes too.

use crate::figures;
use crate::words::{class_words, headed, strike, ByProgram, Prices};
use crate::words::{CLASS_WORDS, EXPIRATION, FIRST_CLASS, GROUNDS, PROGRAMS};
use crate::Random;
use std::collections::BTreeSet;

/// A book of the length, at least [`FIRST_CLASS`], with any number of its words used.
pub fn any(random: &mut Random, length: usize) -> Vec<u32> {
    match random.one_in(2) {
        true => full(random, length),
        false => {
            let most = FIRST_CLASS + random.index(length - FIRST_CLASS + 1);
            filled(random, length, most)
        }
    }
}

/// A book of the length that is full, or nearly so.
pub fn full(random: &mut Random, length: usize) -> Vec<u32> {
    let most = length - random.index(4).min(length - FIRST_CLASS);
    filled(random, length, most)
}

/// A book of the length with at most `most` words used, and nearly so many.
fn filled(random: &mut Random, length: usize, most: usize) -> Vec<u32> {
    let mut filler = Filler {
        classes: Vec::new(),
        most: most - FIRST_CLASS,
        now: match random.below(4) {
            0 => random.between(980, 1_023),
            1 => random.below(1_024),
            _ => random.below(12),
        },
        expirations: random.pick(&[0, 2, 4, 4, 8]),
        strikes: random.pick(&[1, 2, 6, 12, 25, 70]),
        ours: random.one_in(6),
        own: [0; PROGRAMS.len()],
    };
    let step = random.pick(&[1, 1, 1, 3, 40, 400]);
    let mut number = random.between(1, step);
    while number <= 16_383 && filler.classes.len() + CLASS_WORDS <= filler.most {
        filler.add_class(random, number);
        number += random.between(1, step);
    }
    let mut words = headed(filler.now, &filler.classes);
    words.resize(length, 0);
    words
}

/// The words of a book's classes so far, and what it is to be like.
struct Filler {
    classes: Vec<u32>,
    /// The words that the classes may take.
    most: usize,
    now: u32,
    /// Of a class, at most.
    expirations: u32,
    /// Of an expiration, at most.
    strikes: u32,
    /// Whether all designations are ours, as far as the caps allow.
    ours: bool,
    /// The counts against the caps.
    own: ByProgram,
}

impl Filler {
    fn add_class(&mut self, random: &mut Random, number: u32) {
        let mut designations = match self.ours {
            true => [1; PROGRAMS.len()],
            false => any_designations(random),
        };
        for (place, designation) in designations.iter_mut().enumerate() {
            if *designation == 1 && self.own[place] == PROGRAMS[place].cap {
                *designation = random.pick(&[0, 2]);
            }
            self.own[place] += u32::from(*designation == 1);
        }
        let prices = match random.one_in(8) {
            true => Prices::at(0),
            false => {
                let close = figures::close(random);
                any_prices(random, close)
            }
        };
        let volume = figures::volume(random);
        let words = class_words(number, designations, prices, volume);
        self.classes.extend(words);
        let mut month = self.now;
        for _ in 0..random.below(self.expirations + 1) {
            month += random.pick(&[0, 1, 1, 2, 8, 9, 15]);
            if month > 1_023.min(self.now + 39) || self.classes.len() + 2 > self.most {
                return;
            }
            self.add_expiration(random, month, prices);
            month += 1;
        }
    }

    fn add_expiration(&mut self, random: &mut Random, month: u32, prices: Prices) {
        self.classes.push(EXPIRATION | month);
        let left = self.most - self.classes.len();
        let count = (random.between(1, self.strikes) as usize).min(left);
        for h in strikes(random, count, prices) {
            self.classes.push(any_strike(random, h, &GROUNDS));
        }
    }
}

/// A close alone, or with another low or high.
fn any_prices(random: &mut Random, close: u32) -> Prices {
    match random.one_in(3) {
        true => Prices::at(close),
        false => figures::prices(random, close),
    }
}

fn any_designations(random: &mut Random) -> ByProgram {
    PROGRAMS.map(|_| random.below(3))
}

/// A strike word of one of the grounds and any marks.
fn any_strike(random: &mut Random, h: u32, grounds: &[u32]) -> u32 {
    let marked = random.one_in(3);
    let [put, call] = [0, 1].map(|_| u32::from(marked && random.one_in(2)));
    strike(h, random.pick(grounds), put, call)
}

/// Up to `count` strikes, at least one, near each other and near the grids.
fn strikes(random: &mut Random, count: usize, prices: Prices) -> BTreeSet<u32> {
    let Prices { close, low, high } = prices;
    let about = [close, low, high].map(|price| price / 100 + random.below(price / 50 + 1));
    let about = random.pick(&about);
    let lowest = random.pick(&[1, 1, 10, 20, 40, 90, 19_900, about, about, about]);
    let mut strikes = BTreeSet::new();
    for _ in 0..count {
        let h = match random.below(3) {
            0 => lowest + random.below(100),
            1 => lowest / 2 * 2 + 2 * random.below(50),
            _ => lowest / 5 * 5 + 5 * random.below(20),
        };
        strikes.insert(h.clamp(1, 19_999));
    }
    strikes
}

/// How many words a run has room for that has as many own classes as the caps allow, and more classes.
pub const CAPPED_WORDS: usize = FIRST_CLASS + 200 * CLASS_WORDS;

/// A book at or just below each cap.
pub fn near_caps(random: &mut Random, length: usize) -> Vec<u32> {
    let own = PROGRAMS.map(|program| random.between(program.cap - 2, program.cap));
    with_own_classes(random, length, own)
}

/// A run with so many own classes in each program, and true counters, of 151 to 200 classes that mostly
/// qualify. They take at most [`CAPPED_WORDS`].
pub fn with_own_classes(random: &mut Random, length: usize, own: ByProgram) -> Vec<u32> {
    let mut classes = Vec::new();
    for number in 1..=random.between(151, 200) {
        let designations = own.map(|last| match number <= last {
            true => 1,
            false => random.pick(&[0, 2]),
        });
        let close = random.pick(&[0, 200, 499, 500, 500, 501, 4_999, 5_000]);
        let volume = random.pick(&[999, 1_000, 1_000, 1_000, 1_001]);
        let prices = match close {
            0 => Prices::at(0),
            _ => any_prices(random, close),
        };
        classes.extend(class_words(number, designations, prices, volume));
    }
    let mut words = headed(0, &classes);
    words.resize(length, 0);
    words
}

/// The class of a crowded book, and of a book of one class.
pub const CROWDED: u32 = 7;

/// A book of one class, mostly a $1 class below $60, with a low and a high and no strike.
pub fn one_class(random: &mut Random) -> Vec<u32> {
    let close = match random.one_in(4) {
        true => figures::close(random),
        false => random.between(1, 6_000),
    };
    let mut designations = any_designations(random);
    designations[0] = random.pick(&[0, 1, 2, 2]);
    let (prices, volume) = (figures::prices(random, close), random.pick(&[999, 1_000]));
    let class = class_words(CROWDED, designations, prices, volume);
    let mut words = headed(random.below(980), &class);
    let left = random.index(40);
    words.resize(words.len() + left, 0);
    words
}

/// A book with one crowded expiration, over the ranges of its class; and its month. Its strikes are of any
/// grounds, or of Dollar and one that stays away from it.
pub fn crowded(random: &mut Random) -> (Vec<u32>, u32) {
    let now = random.below(980);
    let month = now + random.pick(&[1, 2, 7, 8, 9, 10, 20, 39]);
    let close = match random.below(4) {
        0 => random.between(1, 700),
        1 => random.between(1, 6_000),
        2 => figures::about_two_fifty(random),
        _ => random.pick(&figures::CLOSES).min(60_000),
    };
    let mut prices = any_prices(random, close);
    prices.high = prices.high.min(60_000);
    let (designations, volume) = (any_designations(random), random.pick(&[999, 1_000]));
    let mut classes = class_words(CROWDED, designations, prices, volume).to_vec();
    if random.one_in(2) {
        // An expiration before it, whose strikes don't count.
        classes.push(EXPIRATION | (month - 1));
        classes.extend([1, 2].map(|more| strike(close / 50 + more, 0, 0, 0)));
    }
    classes.push(EXPIRATION | month);
    let grounds = random.pick(&[&GROUNDS[..], &[0, 1], &[1, 4]]);
    let last = 3 * prices.high / 100 + 60;
    let most = random.pick(&[2, 4, 9, 30]);
    let mut h = prices.low / 100 + random.between(1, most);
    while h <= last {
        classes.push(any_strike(random, h, grounds));
        h += random.between(1, most);
    }
    if random.one_in(2) && month < now + 39 {
        classes.extend([EXPIRATION | (month + 1), strike(h, 0, 0, 0)]);
    }
    if random.one_in(2) {
        let designations = [0; PROGRAMS.len()];
        classes.extend(class_words(CROWDED + 2, designations, Prices::at(0), 0));
    }
    let mut words = headed(now, &classes);
    let left = random.index(40);
    words.resize(words.len() + left, 0);
    (words, month)
}

#[cfg(test)]
mod tests {
    use super::*;
    use crate::words::{counters, own_classes};

    #[test]
    fn each_cap_is_reached_and_none_is_passed() {
        let mut random = Random::new(0);
        let mut most = [0; PROGRAMS.len()];
        for _ in 0..300 {
            let own = counters(&any(&mut random, 1_000)).map(own_classes);
            most = std::array::from_fn(|place| most[place].max(own[place]));
        }
        assert_eq!(most, PROGRAMS.map(|program| program.cap));
    }
}
