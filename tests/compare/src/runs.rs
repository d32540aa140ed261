//! Any words: damaged books, own classes about the caps, noise, runs of lengths that no book has, and #103's
//! and #104's runs that are no book.

use crate::counters::read_any;
use crate::pair::{fresh, make_on_any, same};
use calls::draw::{self, Mix};
use calls::words::{
    class_words, counter, head, headed, strike, with_designation, with_ground, Prices,
};
use calls::words::{COUNTER, EXPIRATION, FIRST_CLASS, LOW_HIGH, PROGRAMS};
use calls::{books, runs, Call, Random, Tally, LETTERS};
use second::PlainBook;
use strikebook::library;

const RUNS: u64 = 25_000;

const MIX: Mix = Mix {
    weights: [1; LETTERS.len()],
    highest: 20,
};

/// Whether the run is a book, its counters, and each of the twelve calls and a malformed line on it.
fn all_calls(random: &mut Random, words: &[u32], tally: &mut Tally) -> Result<bool, String> {
    let is_book = PlainBook::read(words).is_some();
    same("whether it is a book", library::is_book(words), is_book)?;
    read_any(words, tally)?;
    let mut calls = LETTERS
        .map(|letter| draw::call_of(random, words, &MIX, letter))
        .to_vec();
    calls.push(Call::Malformed);
    for call in calls {
        let room = random.pick(&[0, 3, 30]);
        let second = random.words(room);
        make_on_any(words, &call, &second, tally)
            .map_err(|text| format!("`{}`: {text}", call.line()))?;
    }
    Ok(is_book)
}

/// Runs of 0 to 9 words, and of about 65,535: noise, fresh heads with and without counters, and full books.
fn lengths(random: &mut Random, tally: &mut Tally) -> Result<(), String> {
    for length in (0..10).chain([65_534, 65_535, 65_536, 65_537, 70_000]) {
        let mut runs = vec![vec![0; length], random.words(length)];
        if length > 0 {
            for used in [1, FIRST_CLASS, length.min(65_535)] {
                for mut fresh in [Vec::new(), headed(0, &[])] {
                    fresh.resize(length, 0);
                    fresh[0] = head(0, used);
                    runs.push(fresh);
                }
            }
        }
        if (FIRST_CLASS..=65_535).contains(&length) {
            runs.push(books::full(random, length));
            runs.push(books::full(random, length));
        }
        for words in runs {
            let told = |text| format!("a run of {length}: {text}");
            fresh(words.clone()).map_err(told)?;
            all_calls(random, &words, tally).map_err(told)?;
        }
    }
    Ok(())
}

/// A run of class 7, its prices and a strike, changed, under a head that counts its words and counters that
/// are true.
fn with_prices(close: u32, low: u32, high: u32, change: fn(&mut Vec<u32>)) -> Vec<u32> {
    let mut class = class_words(7, [0; 3], Prices { close, low, high }, 0).to_vec();
    class.extend([EXPIRATION | 5, strike(50, 0, 0, 0)]);
    change(&mut class);
    headed(4, &class)
}

/// Closes, lows and highs of a class, and whether it stands in a book.
const PRICES: [(bool, [u32; 3]); 12] = [
    (true, [0, 0, 0]),
    (true, [200, 200, 200]),
    (true, [200, 150, 250]),
    (true, [200, 1, 999_999]),
    (false, [200, 201, 250]),
    (false, [200, 150, 199]),
    (false, [0, 150, 0]),
    (false, [0, 0, 250]),
    (false, [0, 150, 250]),
    (false, [200, 0, 250]),
    (false, [200, 0, 0]),
    (false, [200, 150, 1_000_000]),
];

/// Changes of the class word, close, volume, low, high, expiration and strike at places 0 to 6.
const CHANGES: [(&str, fn(&mut Vec<u32>)); 11] = [
    ("low and high missing", |class| drop(class.drain(3..5))),
    ("low missing", |class| drop(class.drain(3..4))),
    ("high missing", |class| drop(class.drain(4..5))),
    ("low twice", |class| class.insert(3, LOW_HIGH | 150)),
    ("high twice", |class| class.insert(5, LOW_HIGH | 250)),
    ("high first", |class| class.swap(3, 4)),
    ("low before volume", |class| class.swap(2, 3)),
    ("low before close", |class| class[1..4].rotate_right(1)),
    ("high after expiration", |class| class.swap(4, 5)),
    ("high after strike", |class| class[4..7].rotate_left(1)),
    ("a bit above the high", |class| class[4] |= 1 << 20),
];

/// #103's runs that are no book, and those that are one.
fn lows_and_highs(random: &mut Random, tally: &mut Tally) -> Result<(), String> {
    for (is_book, [close, low, high]) in PRICES {
        let run = with_prices(close, low, high, |_| ());
        all_calls(random, &run, tally)
            .and_then(|read| same("whether it is to be a book", read, is_book))
            .map_err(|text| format!("close {close}, low {low}, high {high}, {text}"))?;
    }
    for (name, change) in CHANGES {
        let run = with_prices(200, 150, 250, change);
        all_calls(random, &run, tally)
            .and_then(|read| same("whether it is to be a book", read, false))
            .map_err(|text| format!("{name}, {text}"))?;
    }
    Ok(())
}

/// A book of class 7, ours in programs 1 and 2, with a Half, a Dollar and a Wing strike at places 10, 11 and
/// 13, and of class 9, at place 14, ours in 1 and 3, with a Standard strike and two of ground 4 at places 20 to
/// 22. Its counters are all different.
fn counted() -> Vec<u32> {
    let mut classes = class_words(7, [1, 1, 0], Prices::at(200), 1_000).to_vec();
    classes.extend([EXPIRATION | 5, strike(9, 2, 0, 0), strike(14, 1, 0, 1)]);
    classes.extend([EXPIRATION | 13, strike(14, 3, 0, 0)]);
    classes.extend(class_words(9, [1, 2, 1], Prices::at(4_850), 0));
    classes.extend([EXPIRATION | 5, strike(100, 0, 1, 0)]);
    classes.extend([strike(105, 4, 0, 0), strike(115, 4, 1, 1)]);
    let mut run = headed(4, &classes);
    run.extend([0, 0]);
    run
}

fn on_ground(run: &mut [u32], place: usize, ground: u32) {
    run[place] = with_ground(run[place], ground);
}

fn designated(run: &mut [u32], place: usize, program: usize, designation: u32) {
    run[place] = with_designation(run[place], &PROGRAMS[program - 1], designation);
}

/// Changes of that book, and whether they leave one.
const COUNTED: [(bool, &str, fn(&mut Vec<u32>)); 30] = [
    (true, "no change", |_| ()),
    (false, "Dollar to Standard", |run| on_ground(run, 11, 0)),
    (false, "Dollar to Half", |run| on_ground(run, 11, 2)),
    (true, "Dollar to Wing", |run| on_ground(run, 11, 3)),
    (false, "Half to Dollar", |run| on_ground(run, 10, 1)),
    (false, "Wing to Standard", |run| on_ground(run, 13, 0)),
    (false, "Wing to ground 4", |run| on_ground(run, 13, 4)),
    (false, "Standard to Wing", |run| on_ground(run, 20, 3)),
    (false, "ground 4 to Standard", |run| on_ground(run, 21, 0)),
    (true, "Half and Dollar exchanged", |run| {
        on_ground(run, 10, 1);
        on_ground(run, 11, 2);
    }),
    (true, "Wing and ground 4 exchanged in two classes", |run| {
        on_ground(run, 13, 4);
        on_ground(run, 21, 3);
    }),
    (false, "strikes fall", |run| run.swap(10, 11)),
    (false, "ours released", |run| designated(run, 4, 1, 0)),
    (false, "ours to another's", |run| designated(run, 14, 3, 2)),
    (false, "another's to ours", |run| designated(run, 14, 2, 1)),
    (true, "another's released", |run| designated(run, 14, 2, 0)),
    (true, "ours released, and counted", |run| {
        designated(run, 4, 1, 0);
        run[1] = counter(1, 2);
    }),
    (true, "ours and another's exchanged", |run| {
        designated(run, 4, 2, 2);
        designated(run, 14, 2, 1);
    }),
    (false, "a Half strike less", |run| {
        run.remove(10);
        run[0] = head(4, 22);
    }),
    (true, "a Half strike less, and counted", |run| {
        run.remove(10);
        run[0] = head(4, 22);
        run[2] = counter(1, 0);
    }),
    (true, "a Standard strike more", |run| {
        run[0] = head(4, 24);
        run[23] = strike(120, 0, 0, 0);
    }),
    (false, "a strike of ground 4 more", |run| {
        run[0] = head(4, 24);
        run[23] = strike(120, 4, 0, 0);
    }),
    (false, "counters 1 and 2 exchanged", |run| run.swap(1, 2)),
    (false, "counters 1 and 3 exchanged", |run| run.swap(1, 3)),
    (false, "counters 2 and 3 exchanged", |run| run.swap(2, 3)),
    (false, "counters first", |run| run[..4].rotate_left(1)),
    (false, "a class first", |run| run[1..14].rotate_left(3)),
    (false, "a counter less", |run| {
        run.remove(3);
        run[0] = head(4, 22);
    }),
    (false, "a counter more", |run| {
        run.insert(4, COUNTER);
        run[0] = head(4, 24);
    }),
    (false, "no counter", |run| {
        run.drain(1..4);
        run[0] = head(4, 20);
    }),
];

/// Each counter of that book with one more and one less of each count, a bit above them, and another kind.
fn miscounted() -> Vec<Vec<u32>> {
    let mut runs = Vec::new();
    for program in 1..FIRST_CLASS {
        let mut add = |word: u32| {
            let mut run = counted();
            run[program] = word;
            runs.push(run);
        };
        let word = counted()[program];
        for one in [1, 1 << 8] {
            add(word + one);
            add(word - one);
        }
        (24..28).for_each(|bit| add(word | 1 << bit));
        (0..16)
            .filter(|kind| *kind != 8)
            .for_each(|kind| add((word - COUNTER) | kind << 28));
    }
    runs
}

/// Own classes in program 1 and what its counter says: about the cap, and more than 8 bits can tell.
const OWN: [(bool, u32, u32); 8] = [
    (true, 150, 150),
    (false, 150, 149),
    (false, 149, 150),
    (false, 151, 150),
    (false, 151, 151),
    (false, 256, 0),
    (false, 257, 1),
    (false, 406, 150),
];

/// A run with so many own classes in program 1, whose counter says another number.
fn with_own_classes(own: u32, said: u32) -> Vec<u32> {
    let classes: Vec<u32> = (1..=own)
        .flat_map(|c| class_words(c, [1, 0, 0], Prices::at(0), 0))
        .collect();
    let mut run = headed(0, &classes);
    run[1] = counter(said, 0);
    run
}

/// #104's runs that are no book, and those that are one.
fn counters(random: &mut Random, tally: &mut Tally) -> Result<(), String> {
    let mut to_be = |is_book: bool, name: &str, run: &[u32]| {
        all_calls(random, run, tally)
            .and_then(|read| same("whether it is to be a book", read, is_book))
            .map_err(|text| format!("{name}, {text}"))
    };
    for (is_book, name, change) in COUNTED {
        let mut run = counted();
        change(&mut run);
        to_be(is_book, name, &run)?;
    }
    for run in miscounted() {
        to_be(false, &format!("counters {:x?}", &run[1..4]), &run)?;
    }
    for (is_book, own, said) in OWN {
        let name = format!("{own} own classes, {said} counted");
        to_be(is_book, &name, &with_own_classes(own, said))?;
    }
    Ok(())
}

pub fn compare(tally: &mut Tally) -> Result<(), String> {
    lengths(&mut Random::new(0), tally).map_err(|text| format!("lengths, seed 0, {text}"))?;
    lows_and_highs(&mut Random::new(0), tally)
        .map_err(|text| format!("lows and highs, seed 0, {text}"))?;
    counters(&mut Random::new(0), tally).map_err(|text| format!("counters, seed 0, {text}"))?;
    let mut books = 0;
    for seed in 0..RUNS {
        let mut random = Random::new(seed);
        let words = match random.below(20) {
            0..=1 => {
                let length = random.index(40);
                random.words(length)
            }
            2 => runs::about_caps(&mut random),
            _ => runs::damaged(&mut random, 120),
        };
        let told = |text| format!("runs, seed {seed}, {} words, {text}", words.len());
        fresh(words.clone()).map_err(told)?;
        books += u64::from(all_calls(&mut random, &words, tally).map_err(told)?);
    }
    println!("  {books} of {RUNS} damaged runs were books still");
    Ok(())
}
