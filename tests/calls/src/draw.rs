//! Calls drawn over what a run shows, so that most of them say something about it.

use crate::words::{any_class, class_of, now, Class, Prices, PROGRAMS};
use crate::{figures, Call, Random, LETTERS};

/// How often each letter is drawn, in the order of [`LETTERS`], and the highest class number that is
/// usually opened.
pub struct Mix {
    pub weights: [u32; LETTERS.len()],
    pub highest: u32,
}

/// One call of a mix.
pub fn call(random: &mut Random, run: &[u32], mix: &Mix) -> Call {
    let mut drawn = random.below(mix.weights.iter().sum());
    let mut place = 0;
    while drawn >= mix.weights[place] {
        drawn -= mix.weights[place];
        place += 1;
    }
    let call = call_of(random, run, mix, LETTERS[place]);
    // What keeps a listing away is mostly put right first.
    if let Call::L { c, .. } = call {
        match class_of(run, c) {
            None if random.one_in(2) => return Call::O { c },
            Some(class) if class.prices.close == 0 && !random.one_in(4) => {
                let p = figures::close(random);
                return Call::C { c, p };
            }
            _ => {}
        }
    }
    call
}

/// A call of a letter.
pub fn call_of(random: &mut Random, run: &[u32], mix: &Mix, letter: char) -> Call {
    let c = match letter {
        'O' if !random.one_in(4) => random.between(1, mix.highest),
        _ => class_number(random, run, mix),
    };
    let class = class_of(run, c);
    match letter {
        'M' => {
            let m = new_month(random, now(run));
            Call::M { m }
        }
        'O' => Call::O { c },
        'C' => {
            let p = figures::close(random);
            let p = beyond(random, p, &NO_PRICES);
            Call::C { c, p }
        }
        'H' => {
            let [low, high] =
                low_high(random, class.as_ref()).map(|price| beyond(random, price, &NO_PRICES));
            Call::H { c, low, high }
        }
        'V' => {
            let n = figures::volume(random);
            let n = beyond(random, n, &[10_000_000, 1 << 24 | 1_000]);
            Call::V { c, n }
        }
        'D' => {
            let (p, d) = (program(random), random.pick(&[0, 1, 1, 1, 2]));
            let d = beyond(random, d, &[3, 4]);
            Call::D { c, p, d }
        }
        'R' => Call::R { c },
        'A' => {
            let m = month(random, now(run), class.as_ref());
            Call::A { c, m }
        }
        'X' => {
            let (m, h) = standing(random, now(run), class.as_ref());
            Call::X { c, m, h }
        }
        'I' => {
            let (m, h) = standing(random, now(run), class.as_ref());
            let [a, b] = [0, 1].map(|_| {
                let mark = random.below(2);
                beyond(random, mark, &[2])
            });
            Call::I { c, m, h, a, b }
        }
        _ => {
            let (m, h) = series(random, now(run), class.as_ref());
            Call::of(letter, &[c, m, h])
        }
    }
}

/// A program, or now and then a number of none.
pub fn program(random: &mut Random) -> u32 {
    let last = PROGRAMS.len() as u32;
    let p = random.between(1, last);
    beyond(random, p, &[0, last + 1])
}

/// Numbers beyond the limits of a price.
const NO_PRICES: [u32; 3] = [0, 1_000_000, 1 << 20 | 200];

/// A low and a high for the close of a class, now and then with one of them on its other side.
fn low_high(random: &mut Random, class: Option<&Class>) -> [u32; 2] {
    let close = match class {
        Some(class) if class.prices.close > 0 => class.prices.close.min(999_999),
        _ => figures::close(random),
    };
    let Prices { low, high, .. } = figures::prices(random, close);
    match random.below(16) {
        0 => [high, high],
        1 => [low, low],
        2 => [close + 1, high],
        3 => [low, close - 1],
        _ => [low, high],
    }
}

/// The number, or now and then one that is beyond its limits.
fn beyond(random: &mut Random, number: u32, others: &[u32]) -> u32 {
    match random.below(100) {
        0 => random.pick(&[1_000_000_000, u32::MAX]),
        1..=2 => random.pick(others),
        _ => number,
    }
}

fn class_number(random: &mut Random, run: &[u32], mix: &Mix) -> u32 {
    match random.below(40) {
        0 => random.pick(&[0, 1, 16_383, 16_384, 1 << 14 | 7, u32::MAX]),
        1..=5 => random.between(1, mix.highest),
        _ => match any_class(random, run) {
            Some(class) => class.number,
            None => random.between(1, mix.highest),
        },
    }
}

fn new_month(random: &mut Random, now: u32) -> u32 {
    match random.below(24) {
        0..=1 => random.pick(&[0, 1_023, 1_024, u32::MAX]),
        2 => now + random.below(45),
        3..=4 => now.saturating_sub(1),
        5..=11 => now,
        12 => now + 8,
        _ => now + 1,
    }
}

/// The month and the strike of a series, mostly one that stands.
fn standing(random: &mut Random, now: u32, class: Option<&Class>) -> (u32, u32) {
    match class {
        Some(class) if !class.strikes.is_empty() && !random.one_in(4) => {
            random.pick(&class.strikes)
        }
        class => series(random, now, class),
    }
}

/// The month and the strike of a series.
fn series(random: &mut Random, now: u32, class: Option<&Class>) -> (u32, u32) {
    let m = month(random, now, class);
    (m, half_dollars(random, class, m))
}

fn month(random: &mut Random, now: u32, class: Option<&Class>) -> u32 {
    if let Some(class) = class {
        if !class.strikes.is_empty() && random.one_in(2) {
            return random.pick(&class.strikes).0;
        }
    }
    match random.below(30) {
        0 => random.pick(&[0, 1_023, 1_024, u32::MAX]),
        1 => random.below(1_030),
        2 => now.saturating_sub(1),
        _ => now + random.pick(&[0, 1, 1, 1, 2, 3, 7, 8, 8, 9, 9, 10, 20, 38, 39, 40]),
    }
}

/// A strike beside those that stand, on or beside a grid, or at an end of the range.
fn half_dollars(random: &mut Random, class: Option<&Class>, month: u32) -> u32 {
    if random.one_in(60) {
        return random.pick(&[0, 20_000, 1 << 15 | 10, u32::MAX]);
    }
    let price = class.map_or(200, |class| one_of(random, class.prices));
    let mut standing = class.map_or(Vec::new(), |class| class.strikes.clone());
    standing.retain(|(expires, _)| *expires == month);
    let h = match !standing.is_empty() && random.one_in(2) {
        true => {
            let (_, h) = random.pick(&standing);
            beside(random, h)
        }
        false => at_edges(random, price),
    };
    h.clamp(1, 19_999)
}

/// One of the prices, or one between the low and the high.
fn one_of(random: &mut Random, prices: Prices) -> u32 {
    let Prices { close, low, high } = prices;
    let between = random.between(low.min(high), low.max(high));
    random.pick(&[close, low, high, between])
}

/// A strike at most $1 from another.
fn around(random: &mut Random, h: u32) -> u32 {
    (h + random.below(5)).saturating_sub(2)
}

/// A strike beside one that stands: the two beside an odd multiple of $2.50, the nearest multiple of
/// $2.50 or $5, the odd multiple of $2.50 or the wings of an interval, and others.
fn beside(random: &mut Random, h: u32) -> u32 {
    match random.below(5) {
        0 if h % 10 == 5 => h + random.pick(&[1, 0, 2]) - 1,
        0 | 1 => (h + 2) / 5 * 5,
        2 => h / 10 * 10 + 5,
        3 => h / 10 * 10 + random.pick(&[0, 4, 6, 10]),
        _ => around(random, h),
    }
}

/// A strike on or beside a grid, or at an end of the range about a price.
fn at_edges(random: &mut Random, price: u32) -> u32 {
    match random.below(22) {
        0 => around(random, price / 100),
        1 => around(random, price / 50),
        2 => around(random, price * 3 / 100),
        3 => around(random, price / 25),
        4..=5 => 2 * random.between(1, 52),
        6..=7 => 2 * (price * random.between(50, 150) / 100 / 100),
        8..=9 => 5 * (price * random.between(40, 210) / 100 / 250),
        10 => 20 * (price * random.between(45, 155) / 100 / 1_000),
        11 => random.between(1, 12),
        12 => 10 * random.between(1, 60),
        13 => 5 * random.between(1, 14),
        14 => random.between(1, 120),
        // Odd multiples of $2.50: from $27.50 to $97.50, and up to some $12 from the price.
        15 => 10 * random.between(5, 19) + 5,
        16..=17 => (price / 50 + random.below(50)).saturating_sub(25) / 10 * 10 + 5,
        // The wings of an interval up to $15 from the price.
        18..=20 => (price / 500 + random.below(7)).saturating_sub(3) * 10 + random.pick(&[4, 6]),
        _ => random.between(1, 19_999),
    }
}

/// The second run that is lent to a call, of any words: none but to `A`, now and then as many as it
/// needs or one less.
pub fn second_run(random: &mut Random, call: &Call, needed: impl FnOnce() -> u32) -> Vec<u32> {
    if !matches!(call, Call::A { .. }) {
        return Vec::new();
    }
    let length = match random.one_in(4) {
        true => (needed() as usize).saturating_sub(random.index(2)),
        false => random.pick(&[0, 1, 5, 7, 13, 25, 30, 31, 64, 100, 512, 700]),
    };
    random.words(length)
}

#[cfg(test)]
mod tests {
    use super::*;
    use crate::books;
    use std::collections::BTreeSet;

    /// A class with no strike.
    fn with_prices(prices: Prices) -> Class {
        Class {
            number: 7,
            prices,
            strikes: Vec::new(),
        }
    }

    #[test]
    fn each_letter_is_drawn_where_it_has_weight() {
        let mut random = Random::new(0);
        let (run, _) = books::crowded(&mut random);
        for place in 0..LETTERS.len() {
            let mut weights = [0; LETTERS.len()];
            weights[place] = 1;
            let mix = Mix {
                weights,
                highest: 9,
            };
            let mut drawn = 0;
            for _ in 0..100 {
                let call = call(&mut random, &run, &mix);
                drawn += u32::from(call.letter() == LETTERS[place]);
            }
            assert!(drawn > 50, "{}", LETTERS[place]);
        }
    }

    #[test]
    fn each_program_is_drawn() {
        let mut random = Random::new(0);
        let (run, _) = books::crowded(&mut random);
        let mix = Mix {
            weights: [1; LETTERS.len()],
            highest: 9,
        };
        let mut drawn = BTreeSet::new();
        for _ in 0..1_000 {
            let call = call_of(&mut random, &run, &mix, 'D');
            drawn.insert(call.numbers()[1]);
        }
        assert!((0..=4).all(|p| drawn.contains(&p)));
    }

    #[test]
    fn lows_and_highs_are_drawn_on_both_sides_of_the_close() {
        let mut random = Random::new(0);
        let class = with_prices(Prices::at(2_400));
        let (mut above, mut below, mut alone, mut apart) = (0, 0, 0, 0);
        for _ in 0..10_000 {
            let [low, high] = low_high(&mut random, Some(&class));
            above += u32::from(low > 2_400);
            below += u32::from(high < 2_400);
            alone += u32::from([low, high] == [2_400; 2]);
            apart += u32::from(low < 2_400 && 2_400 < high);
        }
        for times in [above, below, alone, apart] {
            assert!(times > 500, "{above}, {below}, {alone}, {apart}");
        }
    }

    #[test]
    fn strikes_are_drawn_about_each_price() {
        let mut random = Random::new(0);
        let (close, low, high) = (30_300, 3_700, 90_500);
        let class = with_prices(Prices { close, low, high });
        let mut drawn = BTreeSet::new();
        for _ in 0..10_000 {
            drawn.insert(half_dollars(&mut random, Some(&class), 5));
        }
        // The ends of each range, and the strike at each price.
        let mut edges = [close, low, high]
            .into_iter()
            .flat_map(|price| [price / 100, price / 50, 3 * price / 100]);
        assert!(edges.all(|h| drawn.contains(&h)));
    }

    #[test]
    fn odd_multiples_of_two_fifty_are_drawn() {
        let mut random = Random::new(0);
        let mut drawn = BTreeSet::new();
        for _ in 0..10_000 {
            drawn.insert(at_edges(&mut random, 7_500));
        }
        assert!((55..200).step_by(10).all(|h| drawn.contains(&h)));
    }
}
