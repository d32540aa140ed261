//! "Units and the words of the book": the layout of a book in its run.

use crate::book::{Class, Counter, PlainBook, Strike};
use crate::units::*;
use std::collections::BTreeMap;

/// Bits `low` to `high` of a word, bit 0 the lowest.
fn bits(word: u32, low: u32, high: u32) -> u32 {
    let mut found = 0;
    for bit in low..=high {
        if word & (1 << bit) != 0 {
            found |= 1 << (bit - low);
        }
    }
    found
}

/// "Bits 28 to 31 of a word are its kind"
fn kind(word: u32) -> u32 {
    bits(word, 28, 31)
}

fn of_kind(kind: u32) -> u32 {
    kind << 28
}

/// "Kind 1, the head, first: `now` in bits 0–9, words used in bits 10–25."
fn head_word(now: u32, used: u32) -> u32 {
    of_kind(1) | now | used << 10
}

fn read_head(word: u32) -> Option<(u32, u32)> {
    if kind(word) != 1 || bits(word, 26, 27) != 0 {
        return None;
    }
    Some((bits(word, 0, 9), bits(word, 10, 25)))
}

/// #104: "one kind 8 word per program ... own classes in bits 0–7, standing
/// strikes on that program's grounds in bits 8–23."
fn counter_word(counter: Counter) -> u32 {
    of_kind(8) | counter.own_classes | counter.strikes << 8
}

fn read_counter_word(word: u32) -> Option<Counter> {
    if kind(word) != 8 || bits(word, 24, 27) != 0 {
        return None;
    }
    Some(Counter {
        own_classes: bits(word, 0, 7),
        strikes: bits(word, 8, 23),
    })
}

/// "Kind 2, a class: number in bits 0–13, $1 designation in 14–15, $0.50
/// designation in 16–17 (0 none, 1 ours, 2 another exchange's)." #101: "with a
/// designation in bits 18–19 of the class word"
fn class_word(number: u32, dollar: u32, half: u32, two_fifty: u32) -> u32 {
    of_kind(2) | number | dollar << 14 | half << 16 | two_fifty << 18
}

fn read_class_word(word: u32) -> Option<(u32, u32, u32, u32)> {
    if kind(word) != 2 || bits(word, 20, 27) != 0 {
        return None;
    }
    let number = bits(word, 0, 13);
    let dollar = bits(word, 14, 15);
    let half = bits(word, 16, 17);
    let two_fifty = bits(word, 18, 19);
    let designations = [dollar, half, two_fifty];
    if !is_class_number(number) || !designations.into_iter().all(is_designation) {
        return None;
    }
    Some((number, dollar, half, two_fifty))
}

/// "Kind 3: close in bits 0–19, 0 when none has come."
fn close_word(close: u32) -> u32 {
    of_kind(3) | close
}

fn read_close_word(word: u32) -> Option<u32> {
    if kind(word) != 3 || bits(word, 20, 27) != 0 {
        return None;
    }
    let close = bits(word, 0, 19);
    if close != 0 && !is_price(close) {
        return None;
    }
    Some(close)
}

/// "Kind 4: volume in bits 0–23, 0 at first."
fn volume_word(volume: u32) -> u32 {
    of_kind(4) | volume
}

fn read_volume_word(word: u32) -> Option<u32> {
    if kind(word) != 4 || bits(word, 24, 27) != 0 {
        return None;
    }
    let volume = bits(word, 0, 23);
    if !is_volume(volume) {
        return None;
    }
    Some(volume)
}

/// #103: low and high are "stored in two kind 7 words (bits 0–19)"
fn low_or_high_word(price: u32) -> u32 {
    of_kind(7) | price
}

fn read_low_or_high_word(word: u32) -> Option<u32> {
    if kind(word) != 7 || bits(word, 20, 27) != 0 {
        return None;
    }
    let price = bits(word, 0, 19);
    if price != 0 && !is_price(price) {
        return None;
    }
    Some(price)
}

/// "Kind 5, an expiration: month in bits 0–9"
fn expiration_word(month: u32) -> u32 {
    of_kind(5) | month
}

fn read_expiration_word(word: u32) -> Option<u32> {
    if kind(word) != 5 || bits(word, 10, 27) != 0 {
        return None;
    }
    Some(bits(word, 0, 9))
}

/// "Kind 6, a strike: h in bits 0–14, ground in 15–17 (0 to 3), put open
/// interest in 18, call open interest in 19 (1 yes)." #101: "This is ground 4"
fn strike_word(h: u32, strike: &Strike) -> u32 {
    of_kind(6) | h | strike.ground << 15 | strike.put << 18 | strike.call << 19
}

fn read_strike_word(word: u32) -> Option<(u32, Strike)> {
    if kind(word) != 6 || bits(word, 20, 27) != 0 {
        return None;
    }
    let h = bits(word, 0, 14);
    let ground = bits(word, 15, 17);
    if !is_strike(h) || !is_ground(ground) {
        return None;
    }
    let put = bits(word, 18, 18);
    let call = bits(word, 19, 19);
    Some((h, Strike { ground, put, call }))
}

/// The words used, taken one after the other.
struct Walk<'a> {
    left: &'a [u32],
}

impl Walk<'_> {
    fn next_kind(&self) -> Option<u32> {
        self.left.first().map(|word| kind(*word))
    }

    fn take(&mut self) -> Option<u32> {
        let word = *self.left.first()?;
        self.left = &self.left[1..];
        Some(word)
    }
}

/// #104: "one kind 8 word per program after the head, program 1 first"
fn read_counters(walk: &mut Walk) -> Option<Vec<Counter>> {
    let mut counters = Vec::new();
    for _ in PROGRAMS {
        counters.push(read_counter_word(walk.take()?)?);
    }
    Some(counters)
}

/// "Classes rise by number, ... none twice." The walk ends with the words
/// used; a word that begins no class ends it with no book.
fn read_classes(walk: &mut Walk) -> Option<BTreeMap<u32, Class>> {
    let mut classes = BTreeMap::new();
    let mut last = None;
    while let Some(word) = walk.take() {
        let (number, dollar, half, two_fifty) = read_class_word(word)?;
        if !rises(last, number) {
            return None;
        }
        last = Some(number);
        // "One of each follows its class word, close first."
        let close = read_close_word(walk.take()?)?;
        let volume = read_volume_word(walk.take()?)?;
        // #103: "after the volume word, low first"
        let low = read_low_or_high_word(walk.take()?)?;
        let high = read_low_or_high_word(walk.take()?)?;
        let strikes = read_expirations(walk)?;
        let class = Class {
            close,
            low,
            high,
            volume,
            dollar_designation: dollar,
            half_designation: half,
            two_fifty_designation: two_fifty,
            strikes,
        };
        if !class.prices_hold() {
            return None;
        }
        classes.insert(number, class);
    }
    Some(classes)
}

/// "a class's expirations [rise] by month, ... none twice"
fn read_expirations(walk: &mut Walk) -> Option<BTreeMap<(u32, u32), Strike>> {
    let mut strikes = BTreeMap::new();
    let mut last = None;
    while walk.next_kind() == Some(5) {
        let month = read_expiration_word(walk.take()?)?;
        if !rises(last, month) {
            return None;
        }
        last = Some(month);
        for (h, strike) in read_strikes(walk)? {
            strikes.insert((month, h), strike);
        }
    }
    Some(strikes)
}

/// "followed by at least one strike"; "an expiration's strikes [rise] by h,
/// none twice."
fn read_strikes(walk: &mut Walk) -> Option<Vec<(u32, Strike)>> {
    let mut strikes = Vec::new();
    let mut last = None;
    while walk.next_kind() == Some(6) {
        let (h, strike) = read_strike_word(walk.take()?)?;
        if !rises(last, h) {
            return None;
        }
        last = Some(h);
        strikes.push((h, strike));
    }
    if strikes.is_empty() {
        return None;
    }
    Some(strikes)
}

fn rises(last: Option<u32>, next: u32) -> bool {
    match last {
        None => true,
        Some(last) => last < next,
    }
}

impl PlainBook {
    /// "A run is a book exactly when it has this form with every field in its
    /// limits, each expiration from `now` to `now` + 39, at most 150 classes
    /// with $1 designation 1 and at most 20 with $0.50 designation 1." #101: "a
    /// run over the cap being no book" #103: "In every book all three are 0, or
    /// 1 ≤ low ≤ close ≤ high." #104: "a run whose counters disagree with its
    /// classes or strikes is no book."
    pub fn read(words: &[u32]) -> Option<PlainBook> {
        if !is_length(words.len()) {
            return None;
        }
        let (now, used) = read_head(words[0])?;
        let used = used as usize;
        if used < 1 || used > words.len() {
            return None;
        }
        // "Words past those used are zero."
        if words[used..].iter().any(|word| *word != 0) {
            return None;
        }
        let mut walk = Walk {
            left: &words[1..used],
        };
        let counters = read_counters(&mut walk)?;
        let classes = read_classes(&mut walk)?;
        let book = PlainBook {
            now,
            length: words.len(),
            classes,
        };
        if !book.expirations_in_limits() || !book.caps_hold() {
            return None;
        }
        if counters != book.counters() {
            return None;
        }
        Some(book)
    }

    /// The counters, "program 1 first".
    fn counters(&self) -> Vec<Counter> {
        let counter = |program: u32| self.counter(program);
        PROGRAMS.into_iter().map(counter).collect()
    }

    /// "each expiration from `now` to `now` + 39"
    fn expirations_in_limits(&self) -> bool {
        for class in self.classes.values() {
            for month in class.expirations() {
                if month < self.now || month > self.now + MONTHS_AHEAD {
                    return false;
                }
            }
        }
        true
    }

    /// The layout of this book at the run's length.
    pub fn words(&self) -> Vec<u32> {
        let mut words = vec![head_word(self.now, self.words_taken() as u32)];
        words.extend(self.counters().into_iter().map(counter_word));
        for (number, class) in &self.classes {
            words.push(class_word(
                *number,
                class.dollar_designation,
                class.half_designation,
                class.two_fifty_designation,
            ));
            words.push(close_word(class.close));
            words.push(volume_word(class.volume));
            words.push(low_or_high_word(class.low));
            words.push(low_or_high_word(class.high));
            for month in class.expirations() {
                words.push(expiration_word(month));
                for (h, strike) in class.strikes_of(month) {
                    words.push(strike_word(h, &strike));
                }
            }
        }
        assert_eq!(words.len(), self.words_taken());
        assert!(words.len() <= self.length);
        // "Words past those used are zero."
        words.resize(self.length, 0);
        words
    }
}
