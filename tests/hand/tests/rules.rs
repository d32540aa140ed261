//! The rules: all closes up to $51 and lows and highs at the edges against the plain implementation, `A`
//! against `J`, document 01's closes at the edges, the $2.50 program, and high and low.

use calls::books::{crowded, CROWDED};
use calls::words::{class_of, class_words, half_dollars, headed, places, ByProgram, Prices};
use calls::words::{EXPIRATION, GROUNDS, STRIKE};
use calls::{figures, words, Random, StrikeBook};
use hand::{known, Known};
use second::PlainBook;

const NEAR: u32 = 5;
const LONG: u32 = 13;

/// A book at `now` 4 with one class, 7, and no strike.
fn one_class(close: u32, designations: ByProgram, volume: u32) -> Vec<u32> {
    at_prices(Prices::at(close), designations, volume)
}

fn at_prices(prices: Prices, designations: ByProgram, volume: u32) -> Vec<u32> {
    let mut run = headed(4, &class_words(7, designations, prices, volume));
    run.resize(60, 0);
    assert!(hand::is_book(&run));
    run
}

/// The same with the strike words in one expiration.
fn one_expiration(prices: Prices, designations: ByProgram, m: u32, strikes: &[u32]) -> Vec<u32> {
    let mut classes = class_words(7, designations, prices, 0).to_vec();
    if !strikes.is_empty() {
        classes.push(EXPIRATION | m);
        classes.extend(strikes);
    }
    let run = headed(4, &classes);
    assert!(hand::is_book(&run));
    run
}

/// Designations and a volume: the programs alone and together.
const DESIGNATED: [(ByProgram, u32); 7] = [
    ([0, 0, 0], 0),
    ([0, 1, 0], 999),
    ([0, 2, 0], 1_000),
    ([1, 0, 0], 0),
    ([2, 1, 0], 1_000),
    ([0, 0, 1], 0),
    ([1, 0, 2], 0),
];

#[test]
fn every_close() {
    let mut tests = 0;
    // Where the $2.50 program still reaches: at half dollars, and a cent beside them.
    let beyond = (5_101..=11_100).filter(|close| (close + 1) % 50 < 3);
    let far = (51..1_000)
        .map(|n| n * 1_000 + n * n % 1_000)
        .chain([19_999, 20_000, 20_001, 999_999]);
    for close in (1..=5_100).chain(beyond).chain(far) {
        for (designations, volume) in DESIGNATED {
            let [dollar, half, _] = designations;
            if close > 501 && half != 0 && dollar == 0 {
                continue;
            }
            let mut run = one_class(close, designations, volume);
            let mut book = PlainBook::read(&run).unwrap();
            let highest = if close > 2_000 { 3 * close / 100 } else { 80 };
            let step = if close > 11_100 { highest / 150 } else { 1 };
            for m in [NEAR, 12, LONG] {
                for h in (1..highest + 12)
                    .step_by(step as usize)
                    .filter(|h| *h < 20_000)
                {
                    let wanted = book.judge_strike(7, m, h);
                    let got = Known(&mut run, &mut []).judge_strike(7, m, h);
                    assert_eq!(got, wanted, "{close} {designations:?} {volume} {m} {h}");
                    tests += 1;
                }
            }
        }
    }
    println!("{tests} judgements, no difference");
}

/// Prices at which a rule ends, and a cent beside some.
const EDGES: [u32; 18] = [
    1, 100, 200, 499, 500, 501, 1_249, 1_999, 2_000, 2_001, 2_450, 2_500, 4_000, 4_999, 5_000,
    5_500, 9_000, 11_000,
];

/// Closes and lows at the edges, and highs at the edges or far from them.
fn prices_at_edges() -> Vec<Prices> {
    let mut all = Vec::new();
    for low in EDGES {
        for close in EDGES.into_iter().filter(|close| *close >= low) {
            let highs = EDGES.into_iter().chain([30_000, 999_999]);
            let highs = highs.filter(|high| *high >= close);
            all.extend(highs.map(|high| Prices { close, low, high }));
        }
    }
    all
}

/// The strikes up to $170, and some up to the end of the range at a high.
fn strikes_up_to(high: u32) -> impl Iterator<Item = u32> {
    let last = (3 * high / 100 + 12).min(19_999);
    let far = (340..last).step_by(last as usize / 10);
    (1..last.min(340)).chain(far)
}

#[test]
fn every_low_and_high() {
    let mut tests = 0;
    for prices in prices_at_edges() {
        for (designations, volume) in DESIGNATED {
            let mut run = at_prices(prices, designations, volume);
            let mut book = PlainBook::read(&run).unwrap();
            for h in strikes_up_to(prices.high) {
                for m in [NEAR, LONG] {
                    let wanted = book.judge_strike(7, m, h);
                    let got = Known(&mut run, &mut []).judge_strike(7, m, h);
                    assert_eq!(got, wanted, "{prices:?} {designations:?} {m} {h}");
                    tests += 1;
                }
            }
        }
    }
    println!("{tests} judgements, no difference");
}

/// `A` writes what `J` accepts. Answers how many strikes that are.
fn same_permitted(run: &[u32], c: u32, m: u32) -> usize {
    let high = class_of(run, c).unwrap().prices.high;
    let last = (high / 50 * 2 + 100).min(19_999);
    let wanted: Vec<u32> = (1..=last)
        .filter(|h| known::judge_strike(run, &mut [], c, m, *h).number == 0)
        .collect();
    let filler = vec![0xdead_beef; 800];
    for length in [800, wanted.len(), wanted.len().saturating_sub(1)] {
        let mut second = filler[..length].to_vec();
        let answer = known::list_permitted(run, &mut second, &mut [], c, m);
        if wanted.len() > length {
            assert_eq!((answer.number, answer.value), (15, wanted.len() as u32));
            assert_eq!(second, filler[..length]);
        } else {
            assert_eq!(
                (answer.number, answer.value),
                (0, wanted.len() as u32),
                "{run:x?}"
            );
            assert_eq!(second[..wanted.len()], wanted[..], "{run:x?}");
            assert_eq!(second[wanted.len()..], filler[wanted.len()..length]);
        }
    }
    wanted.len()
}

/// Between standing strikes of any grounds.
#[test]
fn all_permitted() {
    let mut random = Random::new(0x5eed_0021);
    let mut strikes = 0;
    for _ in 0..30_000 {
        let (run, m) = crowded(&mut random);
        strikes += same_permitted(&run, CROWDED, m);
    }
    println!("{strikes} permitted strikes");
}

/// Strike words of any grounds, at most `most` half dollars from each other, up to $120.
fn any_strikes(random: &mut Random, most: u32) -> Vec<u32> {
    let mut strikes = Vec::new();
    let mut h = random.between(1, most);
    while h <= 240 {
        strikes.push(words::strike(h, random.pick(&GROUNDS), 0, random.below(2)));
        h += random.between(1, most);
    }
    strikes
}

/// The close alone, or with a low and a high.
fn any_prices(random: &mut Random, close: u32) -> Prices {
    match random.one_in(2) {
        true => Prices::at(close),
        false => figures::prices(random, close),
    }
}

/// In classes of the $2.50 program, at the closes at which its grid, its range or the $1 program ends.
#[test]
fn all_permitted_of_the_two_fifty_program() {
    let mut random = Random::new(0x5eed_0023);
    let mut strikes = 0;
    for close in [
        1_249, 1_250, 1_500, 1_750, 2_000, 2_001, 3_999, 4_000, 4_001, 4_249, 4_250, 4_999, 5_000,
        5_399, 5_400, 5_750, 6_000, 6_250, 6_251, 8_000, 10_750, 10_751, 10_999, 11_000, 11_001,
    ] {
        for (dollar, two_fifty) in [(0, 1), (0, 2), (1, 1), (2, 2)] {
            for m in [NEAR, 12, LONG, 43] {
                for most in [1, 2, 3, 6, 12, 30, 100, 1_000].repeat(8) {
                    let standing = any_strikes(&mut random, most);
                    let mut prices = any_prices(&mut random, close);
                    prices.high = prices.high.min(40_000);
                    let run = one_expiration(prices, [dollar, 0, two_fifty], m, &standing);
                    strikes += same_permitted(&run, 7, m);
                }
            }
        }
    }
    println!("{strikes} permitted strikes");
}

/// `A` at closes up to the highest.
#[test]
fn high_closes() {
    let mut random = Random::new(0x5eed_0022);
    for _ in 0..600 {
        let close = 6_000 + random.below(994_000);
        let prices = any_prices(&mut random, close);
        let m = random.pick(&[5, 20]);
        let mut h = prices.low / 100;
        let mut standing = Vec::new();
        for _ in 0..80 {
            h += 1 + random.below(close / 2_000 + 12);
            if h > 19_999 {
                break;
            }
            standing.push(STRIKE | h);
        }
        let designations = [random.below(3), 0, random.below(3)];
        let run = one_expiration(prices, designations, m, &standing);
        let wanted: Vec<u32> = (1..=19_999)
            .filter(|h| known::judge_strike(&run, &mut [], 7, m, *h).number == 0)
            .collect();
        let mut second = vec![1; 1_000];
        let answer = known::list_permitted(&run, &mut second, &mut [], 7, m);
        assert_eq!(
            (answer.number, answer.value),
            (0, wanted.len() as u32),
            "{prices:?}"
        );
        assert_eq!(second[..wanted.len()], wanted[..], "{prices:?}");
    }
}

fn permitted(run: &[u32], m: u32) -> Vec<u32> {
    let mut second = [0; 512];
    let answer = hand::list_permitted(run, &mut second, 7, m);
    assert_eq!(answer.number, 0);
    second[..answer.value as usize].to_vec()
}

fn dollars(list: impl IntoIterator<Item = u32>) -> Vec<u32> {
    list.into_iter().map(|dollar| 2 * dollar).collect()
}

#[test]
fn closes_at_the_edges() {
    assert_eq!(
        permitted(&one_class(200, [1, 0, 0], 0), NEAR),
        dollars(1..=7)
    ); // T1
    assert_eq!(
        permitted(&one_class(200, [0, 0, 0], 0), NEAR),
        [5, 10, 15, 20, 25]
    ); // T2
    assert_eq!(
        permitted(&one_class(2_400, [1, 0, 0], 0), NEAR),
        dollars(12..=36)
    ); // T3
    assert_eq!(
        permitted(&one_class(4_999, [1, 0, 0], 0), NEAR),
        dollars((25..=50).chain([55, 60, 65, 70]))
    ); // T4
    assert_eq!(
        permitted(&one_class(5_000, [1, 0, 0], 0), NEAR),
        dollars((25..=75).step_by(5))
    ); // T5
    assert_eq!(
        hand::judge_strike(&one_class(5_000, [1, 0, 0], 0), 7, NEAR, 52).number,
        11
    );
    let t6 = [15, 18, 20, 22, 25, 27, 30, 32, 35];
    assert_eq!(
        permitted(&one_class(2_450, [1, 0, 0], 0), LONG),
        dollars(t6)
    ); // T6
    let t7 = [15, 18, 20, 22, 23, 25, 27, 30, 32, 35];
    let mut run = one_class(2_500, [1, 0, 0], 0);
    assert_eq!(permitted(&run, LONG), dollars(t7)); // T7
    assert_eq!(hand::list_strike(&mut run, 7, LONG, 44).value, 3);
    assert_eq!(hand::judge_strike(&run, 7, LONG, 46).number, 13);
    assert_eq!(
        permitted(&one_class(200, [0, 1, 0], 1_000), NEAR),
        [1, 2, 3, 4, 5, 6, 7, 8, 9, 10, 15, 20, 25]
    ); // T8
    let mut run = one_class(1_300, [0, 0, 0], 0);
    assert_eq!(hand::list_strike(&mut run, 7, NEAR, 25).value, 0);
    assert_eq!(hand::designate(&mut run, 7, 1, 1).number, 0);
    let judged = [24, 26, 28].map(|h| hand::judge_strike(&run, 7, NEAR, h));
    assert_eq!(
        judged.map(|answer| (answer.number, answer.value)),
        [(13, 0), (13, 0), (0, 1)]
    ); // T9
    let run = one_class(2_450, [1, 0, 0], 0);
    let drawn = [4, 12, 13, 43, 44].map(|m| hand::judge_strike(&run, 7, m, 36));
    assert_eq!(
        drawn.map(|answer| (answer.number, answer.value)),
        [(5, 0), (0, 1), (0, 3), (0, 3), (5, 0)]
    ); // T10
}

/// #103's lists: the low, the close, the high, the $1 designation, the month and the strikes.
#[test]
fn lists_between_a_low_and_a_high() {
    let ladder = (5..=50).step_by(5).chain([60, 70]);
    let apart = (5..=25).step_by(5).chain((100..=300).step_by(10));
    for (low, close, high, dollar, m, wanted) in [
        // Up to $38, and from $10.50 to $31.50.
        (1_900, 1_950, 2_100, 0, NEAR, ladder.collect()),
        // Up to $12.50, the fifth above $2, and from $50 to $150.
        (200, 2_400, 10_000, 0, NEAR, apart.collect()),
        // $1 to $7, and $12 to $36.
        (200, 1_000, 2_400, 1, NEAR, dollars((1..=7).chain(12..=36))),
        // At $20 up to $40, at $20.01 from $10.01 to $30.01.
        (2_000, 2_000, 2_001, 1, NEAR, dollars(1..=40)),
        // T6's and T7's.
        (
            2_450,
            2_475,
            2_500,
            1,
            LONG,
            dollars([15, 18, 20, 22, 23, 25, 27, 30, 32, 35]),
        ),
        // Multiples of $5 from $15 to $30 and from $25 to $70. At $21 the wings are $18, $22 and $27; at
        // $48 $28, $33, $38, $43 and $47.
        (
            2_100,
            3_000,
            4_800,
            1,
            LONG,
            dollars([
                15, 18, 20, 22, 25, 27, 28, 30, 33, 35, 38, 40, 43, 45, 47, 50, 55, 60, 65, 70,
            ]),
        ),
    ] {
        let prices = Prices { close, low, high };
        let run = at_prices(prices, [dollar, 0, 0], 0);
        assert_eq!(permitted(&run, m), wanted, "{prices:?}");
    }
}

/// #103's strikes: the low, the close, the high, the designations, the month, the strike and what is
/// answered.
#[test]
fn strikes_between_a_low_and_a_high() {
    for (low, close, high, designations, m, h, answer) in [
        // Neither at the close nor between.
        (200, 2_400, 10_000, [0, 0, 0], NEAR, 50, OUT_OF_RANGE),
        (200, 2_400, 10_000, [0, 0, 0], NEAR, 25, (0, 0)),
        (200, 2_400, 10_000, [0, 0, 0], NEAR, 100, (0, 0)),
        // $37 has its place at $21 alone, where $35 and $40 are out of range; $38 at $45 alone.
        (2_100, 3_000, 4_500, [1, 0, 0], LONG, 74, OUT_OF_RANGE),
        (2_100, 3_000, 4_500, [1, 0, 0], LONG, 76, (0, 3)),
        (3_000, 3_000, 3_000, [1, 0, 0], LONG, 74, (0, 3)),
        (3_000, 3_000, 3_000, [1, 0, 0], LONG, 76, OFF_GRID),
        // $23 has its place from $25 up.
        (2_450, 2_475, 2_499, [1, 0, 0], LONG, 46, OFF_GRID),
        (2_450, 2_475, 2_500, [1, 0, 0], LONG, 46, (0, 3)),
        // The close is below $50, or not, whatever the low and the high are.
        (2_000, 4_999, 9_000, [1, 0, 0], NEAR, 52, (0, 1)),
        (2_000, 5_000, 9_000, [1, 0, 0], NEAR, 52, OFF_GRID),
        (2_000, 4_999, 9_000, [1, 0, 0], LONG, 44, (0, 3)),
        (2_000, 5_000, 9_000, [1, 0, 0], LONG, 44, OFF_GRID),
        // The same at $5. At $1 Half goes up to $3.50, at $20 to its end; above $20 it has none.
        (100, 500, 2_000, [0, 1, 0], NEAR, 11, (0, 2)),
        (100, 500, 2_001, [0, 1, 0], NEAR, 8, OUT_OF_RANGE),
        (100, 500, 2_001, [0, 1, 0], NEAR, 7, (0, 2)),
        (100, 501, 2_000, [0, 1, 0], NEAR, 7, OFF_GRID),
        // $62.50 is $10 from the high, and farther from the close.
        (4_850, 4_850, 5_250, [0, 0, 1], NEAR, 125, OFF_GRID),
        (4_850, 4_850, 5_250, [0, 0, 1], NEAR, 115, GRANTED),
        (1_500, 6_000, 6_000, [0, 0, 1], NEAR, 55, GRANTED),
        (1_300, 6_000, 6_000, [0, 0, 1], NEAR, 55, OUT_OF_RANGE),
    ] {
        let prices = Prices { close, low, high };
        let run = at_prices(prices, designations, 1_000);
        assert_eq!(
            judged(&run, m, h),
            answer,
            "{prices:?} {designations:?} {m} {h}"
        );
    }
}

/// `H` sets low and high, `C` sets both to the close; what is refused changes no word.
#[test]
fn low_and_high_are_set() {
    let mut run = one_class(1_950, [0, 0, 0], 0);
    assert_eq!(hand::open_class(&mut run, 8).number, 0);
    assert_eq!(hand::set_low_high(&mut run, 7, 1_900, 2_100).number, 0);
    let set = run.clone();
    for (c, low, high, number) in [
        (7, 0, 2_100, 2),
        (7, 1_900, 1_000_000, 2),
        (9, 0, 2_100, 2),
        (9, 1_900, 2_100, 4),
        (8, 1_900, 2_100, 8),
        (7, 1_951, 2_100, 16),
        (7, 1_900, 1_949, 16),
        (7, 2_100, 1_900, 16),
    ] {
        let answer = hand::set_low_high(&mut run, c, low, high);
        assert_eq!(answer.number, number, "{c} {low} {high}");
    }
    assert_eq!(run, set);
    let prices = |run: &[u32]| {
        let Prices { close, low, high } = class_of(run, 7).unwrap().prices;
        [low, close, high]
    };
    assert_eq!(prices(&run), [1_900, 1_950, 2_100]);
    assert_eq!(hand::set_low_high(&mut run, 7, 1, 999_999).number, 0);
    assert_eq!(prices(&run), [1, 1_950, 999_999]);
    assert_eq!(hand::set_close(&mut run, 7, 2_000).number, 0);
    assert_eq!(prices(&run), [2_000; 3]);
}

/// What is answered to a strike: its number, and its ground where it is accepted.
fn judged(run: &[u32], m: u32, h: u32) -> (u32, u32) {
    let answer = hand::judge_strike(run, 7, m, h);
    (answer.number, answer.value)
}

const GRANTED: (u32, u32) = (0, 4);
const OFF_GRID: (u32, u32) = (11, 0);
const OUT_OF_RANGE: (u32, u32) = (12, 0);
const TOO_CLOSE: (u32, u32) = (13, 0);

/// #101's strikes: the close, the $1 designation, the month, the strike and what is answered.
#[test]
fn the_two_fifty_program() {
    for (close, dollar, m, h, answer) in [
        (4_850, 0, NEAR, 105, GRANTED),
        (4_850, 0, NEAR, 115, GRANTED),
        (4_850, 0, NEAR, 125, OFF_GRID),
        (4_850, 0, NEAR, 85, GRANTED),
        (4_850, 0, NEAR, 95, GRANTED),
        (4_850, 0, NEAR, 100, (0, 0)),
        (4_850, 0, LONG, 105, OFF_GRID),
        (4_850, 0, LONG, 95, OFF_GRID),
        (4_850, 1, NEAR, 95, OFF_GRID),
        (4_850, 1, NEAR, 105, GRANTED),
        (5_400, 0, NEAR, 105, GRANTED),
        (2_000, 0, NEAR, 75, GRANTED),
        (2_000, 0, NEAR, 85, OUT_OF_RANGE),
        // At most $10 from the close, and exactly so.
        (4_249, 0, NEAR, 105, OFF_GRID),
        (4_250, 0, NEAR, 105, GRANTED),
        (6_250, 0, NEAR, 105, GRANTED),
        (6_251, 0, NEAR, 105, OFF_GRID),
        (8_749, 0, NEAR, 195, OFF_GRID),
        (8_750, 0, NEAR, 195, GRANTED),
        (10_750, 0, NEAR, 195, GRANTED),
        (10_751, 0, NEAR, 195, OFF_GRID),
        (9_750, 0, NEAR, 205, OFF_GRID),
        // The five lowest above the close are Standard's.
        (1_250, 0, NEAR, 55, OUT_OF_RANGE),
        (1_374, 0, NEAR, 55, OUT_OF_RANGE),
        (1_375, 0, NEAR, 55, GRANTED),
    ] {
        let run = one_class(close, [dollar, 0, 2], 0);
        assert_eq!(judged(&run, m, h), answer, "{close} {dollar} {m} {h}");
    }
    let run = one_class(4_850, [0, 0, 1], 0);
    let fives = (50..=120).step_by(5);
    assert_eq!(
        permitted(&run, NEAR),
        fives.chain([130, 140]).collect::<Vec<_>>()
    );
}

/// Ground 4 counts as Standard beside Dollar, whichever came first.
#[test]
fn spacing_of_the_two_fifty_program() {
    let mut run = one_class(2_700, [0, 0, 1], 0);
    assert_eq!(hand::list_strike(&mut run, 7, NEAR, 55).value, 4);
    assert_eq!(hand::designate(&mut run, 7, 1, 1).number, 0);
    assert_eq!(
        [54, 56, 58].map(|h| judged(&run, NEAR, h)),
        [TOO_CLOSE, TOO_CLOSE, (0, 1)]
    );
    for h in [54, 56] {
        let mut run = one_class(2_700, [1, 0, 1], 0);
        assert_eq!(hand::list_strike(&mut run, 7, NEAR, h).value, 1);
        assert_eq!(judged(&run, NEAR, 55), OFF_GRID);
        assert_eq!(hand::designate(&mut run, 7, 1, 0).number, 0);
        assert_eq!(judged(&run, NEAR, 55), TOO_CLOSE);
        assert_eq!(judged(&run, NEAR, 65), GRANTED);
    }
}

/// A new class of ours in the $2.50 program needs the cap only; the others need a close.
#[test]
fn designations_of_the_two_fifty_program() {
    let mut run = vec![0; 400];
    assert!(hand::fresh(&mut run));
    let mut designated = |c, p, d| hand::designate(&mut run, c, p, d).number;
    assert_eq!(designated(1, 3, 1), 4);
    for c in 1..=61 {
        assert_eq!(hand::open_class(&mut run, c).number, 0);
    }
    let mut designated = |c, p, d| hand::designate(&mut run, c, p, d).number;
    assert_eq!(designated(1, 4, 1), 2);
    assert_eq!(designated(1, 1, 1), 8);
    for c in 1..=60 {
        assert_eq!(designated(c, 3, 1), 0);
    }
    // A repeat, and 0 and 2, are accepted at the cap; the 61st class passes after a release.
    for (c, d, number) in [
        (61, 1, 10),
        (60, 1, 0),
        (61, 2, 0),
        (61, 1, 10),
        (61, 0, 0),
        (3, 2, 0),
        (61, 1, 0),
        (3, 1, 10),
    ] {
        assert_eq!(designated(c, 3, d), number, "{c} {d}");
    }
    assert!(hand::is_book(&run));
    assert_eq!(hand::judge_strike(&run, 61, NEAR, 55).number, 8);
}

/// Strikes on ground 4 stay, and count for the highest and the lowest where they are marked.
#[test]
fn review_beside_the_two_fifty_program() {
    for (marked, left) in [
        (&[][..], &[55, 105][..]),
        (&[55], &[55, 105]),
        (&[55, 105], &[55, 82, 105]),
    ] {
        let mut run = one_class(4_850, [0, 0, 1], 0);
        for h in [55, 105] {
            assert_eq!(hand::list_strike(&mut run, 7, NEAR, h).value, 4);
        }
        assert_eq!(hand::designate(&mut run, 7, 1, 2).number, 0);
        assert_eq!(hand::list_strike(&mut run, 7, NEAR, 82).value, 1);
        for h in marked {
            assert_eq!(hand::mark_strike(&mut run, 7, NEAR, *h, 0, 1).number, 0);
        }
        let removed = hand::review_class(&mut run, 7).value as usize;
        assert_eq!((strikes_of(&run), removed), (left.to_vec(), 3 - left.len()));
    }
}

/// The strikes that stand.
fn strikes_of(run: &[u32]) -> Vec<u32> {
    let places = places(run, STRIKE);
    places.iter().map(|at| half_dollars(run[*at])).collect()
}

#[test]
fn review() {
    for marked in [false, true] {
        let mut run = one_class(1_300, [1, 0, 0], 0);
        for h in [14, 16, 38, 40] {
            hand::set_close(&mut run, 7, h * 50);
            assert_eq!(hand::list_strike(&mut run, 7, 5, h).value, (h != 40) as u32);
        }
        hand::set_close(&mut run, 7, 1_300);
        if marked {
            hand::mark_strike(&mut run, 7, 5, 14, 1, 0);
        }
        assert_eq!(
            hand::review_class(&mut run, 7).value,
            if marked { 1 } else { 2 }
        );
        assert_eq!(
            strikes_of(&run),
            if marked {
                vec![14, 16, 40]
            } else {
                vec![16, 40]
            }
        );
    }
}
