//! Closes, lows, highs and volumes, many of them at the edges of the rules.

use crate::words::Prices;
use crate::Random;

pub const CLOSES: [u32; 27] = [
    1, 49, 50, 100, 199, 200, 201, 499, 500, 501, 1_000, 1_300, 1_999, 2_000, 2_001, 2_400, 2_450,
    2_500, 4_500, 4_999, 5_000, 5_001, 20_000, 20_001, 30_000, 666_600, 999_999,
];

/// A close within its limits.
pub fn close(random: &mut Random) -> u32 {
    match random.below(14) {
        0 => random.between(1, 999_999),
        1 => random.between(1, 40_000),
        2..=3 => random.between(1, 6_000),
        4..=5 => about_two_fifty(random),
        _ => random.pick(&CLOSES),
    }
}

/// A close at or a cent beside a multiple of $2.50 from $10 to $115: the edges of the $2.50 program.
pub fn about_two_fifty(random: &mut Random) -> u32 {
    250 * random.between(4, 46) + random.below(3) - 1
}

/// A low and a high for a close, within their limits: each mostly near it, or equal to it, or far from it.
pub fn prices(random: &mut Random, close: u32) -> Prices {
    let low = other(random, close).min(close);
    let high = other(random, close).max(close);
    Prices { close, low, high }
}

/// A price within a tenth of a close, or about a multiple of $2.50 at most $5 from it; the close; or any,
/// many of them on the other side of $20.
fn other(random: &mut Random, close: u32) -> u32 {
    let tenth = close / 10 + 3;
    let price = match random.below(14) {
        0..=1 => close,
        2..=5 => (close + random.below(2 * tenth + 1)).saturating_sub(tenth),
        6..=8 => {
            let multiple = (close / 250 + random.below(5)).saturating_sub(2);
            (250 * multiple + random.below(3)).saturating_sub(1)
        }
        9 => random.between(1, 2_000),
        10 => random.between(2_001, 6_000),
        _ => self::close(random),
    };
    price.clamp(1, 999_999)
}

/// A volume within its limits.
pub fn volume(random: &mut Random) -> u32 {
    random.pick(&[0, 1, 999, 1_000, 1_001, 5_000, 9_999_999])
}

#[cfg(test)]
mod tests {
    use super::*;

    #[test]
    fn lows_and_highs_are_about_the_close() {
        let mut random = Random::new(0);
        let (mut alone, mut near, mut about_20, mut far) = (0, 0, 0, 0);
        for _ in 0..10_000 {
            let p = close(&mut random);
            let Prices { low, close, high } = prices(&mut random, p);
            assert!(close == p && 1 <= low && low <= close && close <= high && high <= 999_999);
            alone += u32::from(low == high);
            near += u32::from(low < high && 2 * high <= 3 * low);
            about_20 += u32::from(low <= 2_000 && 2_000 < high);
            // No price has both in its range.
            far += u32::from(low > 2_000 && high > 3 * low);
        }
        for times in [alone, near, about_20, far] {
            assert!(times > 500, "{alone}, {near}, {about_20}, {far}");
        }
    }
}
