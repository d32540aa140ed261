//! Two lists of calls on two runs, and whether they leave the same book: the answer, and every word of
//! both runs and of the pool.

use crate::pair::{same, same_words};
use crate::proved::told;
use calls::draw::{self, Mix};
use calls::words::{kind, places, FIRST_CLASS, LOW_HIGH, STRIKE};
use calls::{records, Answer, Call, Random, StrikeBook};
use second::{compare_lists, parse_line, PlainBook};
use strikebook::library;

const PAIRS: u64 = 4_000;

/// How often each outcome must come.
const LEAST: u64 = 100;

const MIX: Mix = Mix {
    weights: [4, 16, 20, 14, 10, 18, 80, 2, 10, 18, 6, 3],
    highest: 5,
};

fn fresh(length: usize) -> PlainBook {
    PlainBook::fresh(length).expect("a good length")
}

/// Whether a call would be accepted.
fn is_accepted(book: &PlainBook, call: &Call) -> bool {
    book.clone().make(call, &mut [0; 512]).number == 0
}

/// A call drawn over the book, accepted or not as is wanted; few draws fail.
fn drawn(
    random: &mut Random,
    book: &PlainBook,
    letter: Option<char>,
    accepted: bool,
) -> Option<Call> {
    let words = book.words();
    let mut calls = (0..20).map(|_| match letter {
        Some(letter) => draw::call_of(random, &words, &MIX, letter),
        None => draw::call(random, &words, &MIX),
    });
    calls.find(|call| is_accepted(book, call) == accepted)
}

/// A list of calls, most of them accepted.
fn list(random: &mut Random, length: usize) -> Vec<Call> {
    let mut book = fresh(length);
    let mut calls = Vec::new();
    for _ in 0..random.index(50) {
        let accepted = !random.one_in(8);
        let call = drawn(random, &book, None, accepted).unwrap_or(Call::Malformed);
        book.make(&call, &mut []);
        calls.push(call);
    }
    calls
}

/// The list with calls put in now and then, as `more` gives them for the book at that place.
fn with(
    random: &mut Random,
    length: usize,
    calls: &[Call],
    more: fn(&mut Random, &PlainBook) -> Vec<Call>,
) -> Vec<Call> {
    let mut book = fresh(length);
    let mut longer = Vec::new();
    for call in calls {
        if random.one_in(4) {
            longer.extend(more(random, &book));
        }
        book.make(call, &mut []);
        longer.push(*call);
    }
    longer
}

/// A call that is refused.
fn refused(random: &mut Random, book: &PlainBook) -> Vec<Call> {
    vec![drawn(random, book, None, false).unwrap_or(Call::Malformed)]
}

/// A strike added and delisted again, where one can be.
fn added_and_delisted(random: &mut Random, book: &PlainBook) -> Vec<Call> {
    match drawn(random, book, Some('L'), true) {
        Some(Call::L { c, m, h }) => vec![Call::L { c, m, h }, Call::X { c, m, h }],
        _ => Vec::new(),
    }
}

/// A low and a high set, and set back: by the close where they were equal.
fn set_and_set_back(random: &mut Random, book: &PlainBook) -> Vec<Call> {
    match drawn(random, book, Some('H'), true) {
        Some(Call::H { c, low, high }) => {
            let class = &book.classes[&c];
            let back = match class.low == class.high {
                true => Call::C { c, p: class.close },
                false => Call::of('H', &[c, class.low, class.high]),
            };
            vec![Call::H { c, low, high }, back]
        }
        _ => Vec::new(),
    }
}

/// The list with a low and a high set after it, where they can be.
fn then_low_high(random: &mut Random, length: usize, calls: &[Call]) -> Vec<Call> {
    let mut book = fresh(length);
    for call in calls {
        book.make(call, &mut []);
    }
    let mut longer = calls.to_vec();
    longer.extend(drawn(random, &book, Some('H'), true));
    longer
}

/// The list with some neighbours exchanged that are calls on different classes.
fn exchanged(random: &mut Random, mut calls: Vec<Call>) -> Vec<Call> {
    let class = |call: &Call| match call {
        Call::M { .. } | Call::Malformed => None,
        call => call.numbers().first().copied(),
    };
    for at in 1..calls.len() {
        let classes = class(&calls[at - 1]).zip(class(&calls[at]));
        if classes.is_some_and(|(one, other)| one != other) && random.one_in(2) {
            calls.swap(at - 1, at);
        }
    }
    calls
}

/// The list without one of its calls, or with one of its numbers changed.
fn changed(random: &mut Random, mut calls: Vec<Call>) -> Vec<Call> {
    if calls.is_empty() {
        return vec![Call::M { m: 1 }];
    }
    let at = random.index(calls.len());
    let call = calls.remove(at);
    let mut numbers = call.numbers();
    if !numbers.is_empty() && random.one_in(2) {
        let place = random.index(numbers.len());
        numbers[place] = numbers[place].wrapping_add(random.pick(&[1, 5, 10]));
        calls.insert(at, Call::of(call.letter(), &numbers));
    }
    calls
}

/// Another list than this one, which mostly leaves the same book or mostly not; or this one.
fn other(random: &mut Random, length: usize, calls: &[Call]) -> Vec<Call> {
    match random.below(10) {
        0 => calls.to_vec(),
        1 => with(random, length, calls, refused),
        2..=3 => with(random, length, calls, added_and_delisted),
        4 => exchanged(random, calls.to_vec()),
        5..=6 => changed(random, calls.to_vec()),
        7 => with(random, length, calls, set_and_set_back),
        8 => then_low_high(random, length, calls),
        _ => list(random, length),
    }
}

/// The lengths of the two runs: mostly one that a book can have.
fn lengths(random: &mut Random) -> [usize; 2] {
    match random.below(16) {
        0 => random.pick(&[[0, 0], [3, 3], [65_536, 65_536], [0, 64], [65_535, 65_536]]),
        1 => [random.index(60), random.index(60)],
        2 => [1 + random.index(20); 2],
        3 if random.one_in(20) => [65_535; 2],
        _ => [20 + random.index(300); 2],
    }
}

/// How many pairs came out equal, unequal and refused; equal by different lists that leave strikes;
/// unequal in lows and highs alone; and with words written to the pool.
#[derive(Default)]
struct Pairs {
    equal: u64,
    unequal: u64,
    refused: u64,
    by_other_lists: u64,
    by_low_high: u64,
    pools: u64,
}

/// The words without what they say of lows and highs.
fn without_low_high(run: &[u32]) -> Vec<u32> {
    let without = |word: &u32| match kind(*word) {
        LOW_HIGH => LOW_HIGH,
        _ => *word,
    };
    run.iter().map(without).collect()
}

/// The runs and the pool that two lists are lent.
struct Lent {
    left: Vec<u32>,
    right: Vec<u32>,
    pool: Vec<u32>,
}

/// Compares two lists on both sides: the answer and every word.
fn compared(lent: &mut Lent, calls: &[u32], others: &[u32]) -> Result<Answer, String> {
    let Lent { left, right, pool } = lent;
    let mut wanted = [&left, &right, &pool].map(|run| run.to_vec());
    let [wanted_left, wanted_right, wanted_pool] = &mut wanted;
    let expected = compare_lists(wanted_left, wanted_right, wanted_pool, calls, others);
    let answer = told(library::compare_lists(left, right, pool, calls, others));
    same("the answer", answer, expected)?;
    same_words("the left run", left, wanted_left)?;
    same_words("the right run", right, wanted_right)?;
    same_words("the pool", pool, wanted_pool)?;
    Ok(answer)
}

/// #103's lists: two that differ in one `H` leave different books, and with a `C` after it equal ones.
fn lists_that_differ_in_one_h() -> Result<(), String> {
    let mut random = Random::new(0);
    let list = "M 4 / O 7 / C 7 2400 / L 7 5 50";
    let examples = [
        ("H 7 2399 2400", 0),
        ("H 7 2400 2401", 0),
        ("H 7 200 10000", 0),
        ("H 7 200 10000 / C 7 2400", 1),
        ("H 7 200 10000 / H 7 2400 2400", 1),
        ("H 7 2401 10000 / H 7 200 2399 / H 8 2400 2400", 1),
    ];
    for (more, value) in examples {
        let [calls, others] = [list.to_string(), format!("{list} / {more}")].map(|list| {
            let calls: Vec<Call> = list
                .split(" / ")
                .map(|line| parse_line(line.as_bytes()))
                .collect();
            records::written(&mut random, &calls)
        });
        let [left, right, pool] = [64, 64, 0].map(|length| random.words(length));
        let mut lent = Lent { left, right, pool };
        let number = 0;
        compared(&mut lent, &calls, &others)
            .and_then(|answer| same("the answer", answer, Answer { number, value }))
            .map_err(|text| format!("`{more}` at the end of one list: {text}"))?;
    }
    Ok(())
}

fn one(seed: u64, pairs: &mut Pairs) -> Result<(), String> {
    let mut random = Random::new(seed);
    let [left, right] = lengths(&mut random);
    let length = left.clamp(FIRST_CLASS, 65_535);
    let calls = list(&mut random, length);
    let others = other(&mut random, length, &calls);
    let differ = calls != others;
    let calls = records::written(&mut random, &calls);
    let others = records::written(&mut random, &others);

    let room = random.pick(&[0, 5, 30, 512]);
    let [left, right, pool] = [left, right, room].map(|count| random.words(count));
    let before = pool.clone();
    let mut lent = Lent { left, right, pool };
    let answer = compared(&mut lent, &calls, &others)?;
    pairs.pools += u64::from(lent.pool != before);
    match (answer.number, answer.value) {
        (0, 1) => {
            pairs.equal += 1;
            let has_strikes = !places(&lent.left, STRIKE).is_empty();
            pairs.by_other_lists += u64::from(differ && has_strikes);
        }
        (0, _) => {
            pairs.unequal += 1;
            let [left, right] = [&lent.left, &lent.right].map(|run| without_low_high(run));
            pairs.by_low_high += u64::from(left == right);
        }
        _ => pairs.refused += 1,
    }
    Ok(())
}

pub fn compare() -> Result<(), String> {
    lists_that_differ_in_one_h()?;
    let mut pairs = Pairs::default();
    for seed in 0..PAIRS {
        one(seed, &mut pairs).map_err(|text| format!("two lists, seed {seed}, {text}"))?;
    }
    let Pairs {
        equal,
        unequal,
        refused,
        by_other_lists,
        by_low_high,
        pools,
    } = pairs;
    println!("two lists: {equal} pairs equal, {unequal} unequal, {refused} refused");
    println!("  {by_other_lists} equal by different lists that leave strikes, {pools} with a pool written");
    println!("  {by_low_high} unequal in lows and highs alone");
    let rarest = [equal, unequal, refused, by_other_lists, by_low_high, pools]
        .into_iter()
        .min();
    match rarest {
        Some(LEAST..) => Ok(()),
        _ => Err(format!(
            "two lists: one of these came fewer than {LEAST} times"
        )),
    }
}
