//! Lists of calls on books of 4 to 5,000 words, compared after every call. A known book is kept for a whole list.

use crate::known::Known;
use crate::pair::Pair;
use crate::prices::{self, ByPrice};
use calls::draw::{self, Mix};
use calls::{books, Random, StrikeBook, Tally};

/// A kind of list: how many there are, of how many calls.
struct Kind {
    name: &'static str,
    lists: u64,
    calls: usize,
    mix: Mix,
    start: fn(&mut Random) -> Result<Pair, String>,
}

/// A fresh book of any words.
fn fresh(random: &mut Random, least: u32, most: u32) -> Result<Pair, String> {
    let length = random.between(least, most) as usize;
    Pair::fresh(random.words(length))
}

const KINDS: [Kind; 9] = [
    Kind {
        name: "short books",
        lists: 2_000,
        calls: 120,
        mix: Mix {
            weights: [2, 8, 10, 8, 5, 9, 40, 10, 6, 9, 3, 2],
            highest: 4,
        },
        start: |random| fresh(random, 4, 60),
    },
    Kind {
        name: "crowded expirations",
        lists: 1_200,
        calls: 200,
        mix: Mix {
            weights: [1, 2, 5, 6, 2, 10, 60, 20, 5, 1, 1, 1],
            highest: 2,
        },
        start: |random| fresh(random, 60, 150),
    },
    Kind {
        name: "crowded expirations of any grounds",
        lists: 2_000,
        calls: 60,
        mix: Mix {
            weights: [0, 0, 1, 4, 0, 2, 20, 40, 3, 3, 1, 1],
            highest: books::CROWDED,
        },
        start: |random| Ok(Pair::of(books::crowded(random).0)),
    },
    Kind {
        name: "classes with a low and a high",
        lists: 4_000,
        calls: 60,
        mix: Mix {
            weights: [0, 0, 2, 12, 1, 2, 16, 40, 2, 1, 1, 3],
            highest: books::CROWDED,
        },
        start: |random| Ok(Pair::of(books::one_class(random))),
    },
    Kind {
        name: "middling books",
        lists: 500,
        calls: 300,
        mix: Mix {
            weights: [1, 5, 8, 7, 4, 8, 50, 8, 6, 12, 3, 1],
            highest: 12,
        },
        start: |random| fresh(random, 4, 600),
    },
    Kind {
        name: "full books",
        lists: 1_500,
        calls: 80,
        mix: Mix {
            weights: [2, 10, 6, 5, 3, 6, 40, 5, 14, 8, 4, 1],
            highest: 40,
        },
        start: |random| {
            let length = random.between(4, 400) as usize;
            Ok(Pair::of(books::full(random, length)))
        },
    },
    Kind {
        name: "books of any form",
        lists: 1_500,
        calls: 60,
        mix: Mix {
            weights: [3, 5, 10, 8, 5, 8, 30, 12, 8, 10, 6, 3],
            highest: 60,
        },
        start: |random| {
            let length = random.between(4, 1_500) as usize;
            Ok(Pair::of(books::any(random, length)))
        },
    },
    Kind {
        name: "long full books",
        lists: 150,
        calls: 100,
        mix: Mix {
            weights: [1, 6, 6, 5, 3, 6, 40, 8, 12, 10, 6, 1],
            highest: 1_700,
        },
        start: |random| {
            let length = random.between(1_000, 5_000) as usize;
            Ok(Pair::of(books::full(random, length)))
        },
    },
    Kind {
        name: "books near the caps",
        lists: 2_000,
        calls: 40,
        mix: Mix {
            weights: [1, 4, 14, 8, 8, 70, 2, 1, 1, 1, 1, 0],
            highest: 202,
        },
        start: |random| {
            let length = books::CAPPED_WORDS + random.index(100);
            Ok(Pair::of(books::near_caps(random, length)))
        },
    },
];

fn one(kind: &Kind, seed: u64, tally: &mut Tally, by_price: &mut ByPrice) -> Result<(), String> {
    let mut random = Random::new(seed);
    let mut pair = (kind.start)(&mut random)?;
    let mut copy = pair.words.clone();
    let mut known = Known::of(&mut copy)?;
    for place in 0..kind.calls {
        let call = draw::call(&mut random, &pair.words, &kind.mix);
        let needed = || pair.plain.clone().make(&call, &mut []).value;
        let second = draw::second_run(&mut random, &call, needed);
        let judged = prices::judged(&pair.plain, &call);
        let length = pair.words.len();
        let told = |text| {
            format!(
                "call {place}, `{}`, on {length} words, with a second run of {}: {text}",
                call.line(),
                second.len()
            )
        };
        let made = pair.make(&mut known, &call, &second, tally);
        let (answer, written) = made.map_err(told)?;
        if let Some(book) = judged {
            by_price.count(&book, &call, answer, &written);
        }
    }
    Ok(())
}

pub fn compare(tally: &mut Tally) -> Result<(), String> {
    let mut by_price = ByPrice::default();
    for (place, kind) in (1..).zip(&KINDS) {
        for list in 0..kind.lists {
            let seed = place * 1_000_000 + list;
            one(kind, seed, tally, &mut by_price)
                .map_err(|text| format!("{}, seed {seed}, {text}", kind.name))?;
        }
    }
    by_price.told()
}
