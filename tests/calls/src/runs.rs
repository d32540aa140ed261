//! Runs that are mostly no books.

use crate::books;
use crate::words::{close, designation, ground, head, headed, places, price_places, recount, used};
use crate::words::{with_designation, with_ground, CLASS, FIRST_CLASS, GROUNDS, PROGRAMS, STRIKE};
use crate::Random;

/// A book of up to `most` words, or a run that is too short for one, with a few words changed.
pub fn damaged(random: &mut Random, most: usize) -> Vec<u32> {
    let length = 1 + random.index(most);
    let mut words = match length < FIRST_CLASS {
        true => cut_short(random, length),
        false => books::any(random, length),
    };
    for _ in 0..random.pick(&[1, 1, 1, 2, 5]) {
        if !words.is_empty() {
            damage(random, &mut words);
        }
    }
    words
}

/// The first words of a fresh book, as many as its head counts, or fewer or more.
fn cut_short(random: &mut Random, length: usize) -> Vec<u32> {
    let now = random.below(12);
    let mut words = headed(now, &[]);
    words.truncate(length);
    words[0] = head(now, random.pick(&[1, length, FIRST_CLASS]));
    words
}

/// A run that would be a book but for its own classes: in each program one less than the cap, as many
/// or one more.
pub fn about_caps(random: &mut Random) -> Vec<u32> {
    let own = PROGRAMS.map(|program| random.between(program.cap - 1, program.cap + 1));
    let length = books::CAPPED_WORDS + random.index(100);
    books::with_own_classes(random, length, own)
}

/// Changes one word of a run, and half of the time its counters too, so that they are true; or a counter.
pub fn damage(random: &mut Random, words: &mut Vec<u32>) {
    if words.len() >= FIRST_CLASS && random.one_in(5) {
        return miscount(random, words);
    }
    change(random, words);
    if random.one_in(2) {
        recount(words);
    }
}

/// Changes one word of a run, mostly a little and mostly one that is used; or its length by one.
fn change(random: &mut Random, words: &mut Vec<u32>) {
    let reach = match random.one_in(8) {
        true => words.len(),
        false => used(words).clamp(1, words.len()),
    };
    let at = match random.one_in(12) {
        true => 0,
        false => random.index(reach),
    };
    let other = random.index(reach);
    match random.below(24) {
        0..=2 => words[at] ^= 1 << random.below(32),
        3 => words[at] ^= 1 << random.below(10),
        4 => words[at] = words[at].wrapping_add(1),
        5 => words[at] = words[at].wrapping_sub(1),
        6 => words[at] = words[at] & 0x0fff_ffff | random.below(16) << 28,
        7 => words[at] = random.word() & 0x0003_ffff | words[at] & 0xf000_0000,
        8 => words[0] = words[0].wrapping_add(random.pick(&[1 << 10, u32::MAX << 10])),
        9 => words[at] = words[other],
        10 => words.swap(at, other),
        11 => words[at] = random.word(),
        12..=13 => {
            // A word goes and a zero comes in, with or without the count.
            words.remove(at);
            words.push(0);
            if random.one_in(2) {
                words[0] = words[0].wrapping_sub(1 << 10);
            }
        }
        14 => {
            words.remove(at);
        }
        // The designations of a class, the ground and the marks of a strike, and the bit after them.
        15..=16 => words[at] ^= random.between(1, 63) << 15,
        17..=18 => move_price(random, words),
        // A word comes twice, with or without the count.
        19 => {
            words.insert(at, words[at]);
            if random.one_in(2) {
                words[0] = words[0].wrapping_add(1 << 10);
            }
        }
        20 => change_ground(random, words),
        21 => exchange_grounds(random, words),
        22 => change_designation(random, words),
        _ => words.push(random.pick(&[0, 0, 1, 6 << 28 | 19_999])),
    }
}

/// Changes a counter, or two.
fn miscount(random: &mut Random, words: &mut [u32]) {
    let [at, other] = [0, 1].map(|_| 1 + random.index(PROGRAMS.len()));
    // An own class, or a strike.
    let one = random.pick(&[1, 1 << 8]);
    match random.below(6) {
        0 => words[at] = words[at].wrapping_add(one),
        1 => words[at] = words[at].wrapping_sub(one),
        2 => {
            // The sum over all programs stays true.
            words[at] = words[at].wrapping_sub(one);
            words[other] = words[other].wrapping_add(one);
        }
        3 => words[at] ^= 1 << random.between(24, 27),
        4 => words[at] = words[at] & 0x0fff_ffff | random.below(16) << 28,
        _ => words.swap(at, other),
    }
}

/// Moves a strike to another ground.
fn change_ground(random: &mut Random, words: &mut [u32]) {
    let strikes = places(words, STRIKE);
    if !strikes.is_empty() {
        let at = random.pick(&strikes);
        words[at] = with_ground(words[at], random.pick(&GROUNDS));
    }
}

/// Exchanges the grounds of two strikes: what the counters say of them stays true.
fn exchange_grounds(random: &mut Random, words: &mut [u32]) {
    let strikes = places(words, STRIKE);
    if !strikes.is_empty() {
        let [at, other] = [0, 1].map(|_| random.pick(&strikes));
        let [ground, other_ground] = [at, other].map(|at| ground(words[at]));
        words[at] = with_ground(words[at], other_ground);
        words[other] = with_ground(words[other], ground);
    }
}

/// Moves a class to another designation in one program, or exchanges two of its designations.
fn change_designation(random: &mut Random, words: &mut [u32]) {
    let classes = places(words, CLASS);
    if classes.is_empty() {
        return;
    }
    let at = random.pick(&classes);
    let [program, other] = [0, 1].map(|_| &PROGRAMS[random.index(PROGRAMS.len())]);
    let [here, there] = [program, other].map(|program| designation(words[at], program));
    match random.one_in(3) {
        true => {
            words[at] = with_designation(words[at], program, there);
            words[at] = with_designation(words[at], other, here);
        }
        false => words[at] = with_designation(words[at], program, random.below(3)),
    }
}

/// Moves the close, the low or the high of a class to one of the three, a cent beside it, or to 0.
fn move_price(random: &mut Random, words: &mut [u32]) {
    let classes = places(words, CLASS);
    if classes.is_empty() {
        return;
    }
    let mut prices = price_places(random.pick(&classes)).to_vec();
    prices.retain(|place| *place < words.len());
    if prices.is_empty() {
        return;
    }
    let (moved, other) = (random.pick(&prices), random.pick(&prices));
    let price = match random.one_in(6) {
        true => 0,
        false => (close(words[other]) + random.below(3)).wrapping_sub(1),
    };
    words[moved] = words[moved] & 0xfff0_0000 | close(price);
}

#[cfg(test)]
mod tests {
    use super::*;
    use crate::words::{class_words, counter, counters, own_classes, strike, Prices};
    use crate::words::{COUNTER, EXPIRATION, HEAD, LOW_HIGH};
    use std::collections::BTreeSet;

    #[test]
    fn each_cap_is_passed_alone() {
        let mut random = Random::new(0);
        let mut passed = BTreeSet::new();
        for _ in 0..200 {
            let run = about_caps(&mut random);
            let own = counters(&run).map(own_classes);
            assert_eq!(own, [1, 2, 3].map(|place| own_classes(run[place])));
            let over: Vec<usize> = (0..PROGRAMS.len())
                .filter(|place| own[*place] > PROGRAMS[*place].cap)
                .collect();
            passed.insert(over);
        }
        assert!(passed.contains(&vec![]));
        assert!((0..PROGRAMS.len()).all(|place| passed.contains(&vec![place])));
    }

    #[test]
    fn short_runs_are_among_them() {
        let mut random = Random::new(0);
        let lengths: BTreeSet<usize> = (0..2_000)
            .map(|_| damaged(&mut random, 120).len())
            .collect();
        assert!((1..=120).all(|length| lengths.contains(&length)));
    }

    /// A book of one class with one strike, at these prices.
    fn small(close: u32, low: u32, high: u32) -> Vec<u32> {
        let mut classes = class_words(7, [0; 3], Prices { close, low, high }, 0).to_vec();
        classes.extend([EXPIRATION | 5, strike(55, 0, 0, 0)]);
        headed(4, &classes)
    }

    /// Copies of a run, each damaged once.
    fn copies(run: &[u32]) -> impl Iterator<Item = Vec<u32>> + '_ {
        let mut random = Random::new(0);
        (0..20_000).map(move |_| {
            let mut damaged = run.to_vec();
            damage(&mut random, &mut damaged);
            damaged
        })
    }

    #[test]
    fn prices_are_damaged() {
        let damaged: BTreeSet<Vec<u32>> = copies(&small(200, 150, 250)).collect();
        for (close, low, high) in [
            (200, 201, 250),
            (200, 150, 199),
            (0, 150, 250),
            (200, 0, 250),
        ] {
            assert!(
                damaged.contains(&small(close, low, high)),
                "{close} {low} {high}"
            );
        }
        // A low that is gone and one that comes twice, with the count.
        let mut short = small(200, 150, 250);
        short.remove(7);
        short[0] = head(4, 10);
        short.push(0);
        assert!(damaged.contains(&short));
        let mut long = small(200, 150, 250);
        long.insert(7, LOW_HIGH | 150);
        long[0] = head(4, 12);
        assert!(damaged.contains(&long));
        // Where the three are one, a low and a high a cent from it.
        let alone: BTreeSet<Vec<u32>> = copies(&small(200, 200, 200)).collect();
        assert!(alone.contains(&small(200, 199, 200)) && alone.contains(&small(200, 200, 201)));
    }

    #[test]
    fn designations_and_grounds_are_damaged() {
        let run = small(0, 0, 0);
        let (mut designations, mut grounds) = (BTreeSet::new(), BTreeSet::new());
        for damaged in copies(&run) {
            if damaged.len() == run.len() {
                designations.insert((damaged[4] ^ run[4]) >> 18);
                grounds.insert((damaged[10] ^ run[10]) >> 15);
            }
        }
        // Bits 18 to 20 of a class word, and 15 to 17 of a strike word, with no other changed above them.
        assert!((0..8).all(|bits| designations.contains(&bits)));
        assert!((0..8).all(|ground| grounds.contains(&ground)));
    }

    /// A book of one class, ours in each program, with a strike of each ground, at places 10 to 14.
    fn counted() -> Vec<u32> {
        let mut classes = class_words(7, [1, 1, 1], Prices::at(200), 0).to_vec();
        classes.push(EXPIRATION | 5);
        classes.extend(GROUNDS.map(|ground| strike(10 + ground, ground, 0, 0)));
        headed(4, &classes)
    }

    /// The book with one change.
    fn with(change: impl FnOnce(&mut Vec<u32>)) -> Vec<u32> {
        let mut run = counted();
        change(&mut run);
        run
    }

    #[test]
    fn counters_are_damaged() {
        let damaged: BTreeSet<Vec<u32>> = copies(&counted()).collect();
        assert_eq!(
            counted()[1..4],
            [counter(1, 2), counter(1, 1), counter(1, 1)]
        );
        for at in 1..FIRST_CLASS {
            for one in [1, 1 << 8] {
                assert!(damaged.contains(&with(|run| run[at] += one)), "{at} {one}");
                assert!(damaged.contains(&with(|run| run[at] -= one)), "{at} {one}");
            }
            for bit in 24..28 {
                assert!(damaged.contains(&with(|run| run[at] ^= 1 << bit)), "{at}");
            }
            let other_kind = with(|run| run[at] = run[at] - COUNTER + HEAD);
            assert!(damaged.contains(&other_kind), "{at}");
        }
        for one in [1, 1 << 8] {
            let moved = with(|run| {
                run[1] -= one;
                run[2] += one;
            });
            assert!(damaged.contains(&moved), "{one}");
        }
        assert!(damaged.contains(&with(|run| run.swap(1, 2))));
    }

    #[test]
    fn what_is_counted_is_damaged() {
        let damaged: BTreeSet<Vec<u32>> = copies(&counted()).collect();
        for at in 10..15 {
            for ground in GROUNDS {
                let mut run = with(|run| run[at] = with_ground(run[at], ground));
                assert!(damaged.contains(&run), "{at} {ground}");
                // With true counters too.
                recount(&mut run);
                assert!(damaged.contains(&run), "{at} {ground}");
            }
        }
        let exchanged = with(|run| {
            run[11] = with_ground(run[11], 4);
            run[14] = with_ground(run[14], 1);
        });
        assert!(damaged.contains(&exchanged));
        for program in &PROGRAMS {
            for other in [0, 2] {
                let mut run = with(|run| run[4] = with_designation(run[4], program, other));
                assert!(damaged.contains(&run), "{other}");
                recount(&mut run);
                assert!(damaged.contains(&run), "{other}");
            }
        }
    }
}
