//! Every call against the plain implementation: its number, its value and every word of both runs.

use calls::books::{self, CROWDED};
use calls::draw::{self, Mix};
use calls::words::{class_of, number, places, CLASS, FIRST_CLASS, PROGRAMS, VOLUME};
use calls::{runs, Call, Random, StrikeBook, Tally, LETTERS};
use hand::{known, read_counter, read_known_counter, Counter, Known, Tested};
use second::{counter_on_words, make_on_words, PlainBook};
use std::collections::BTreeMap;

const WEIGHTS: [u32; LETTERS.len()] = [3, 7, 8, 8, 5, 10, 30, 12, 8, 8, 5, 4];

/// A mix with few classes or many.
fn any_mix(random: &mut Random) -> Mix {
    Mix {
        weights: WEIGHTS,
        highest: random.pick(&[1, 2, 4, 4, 10, 40, 200, 16_383]),
    }
}

fn fresh(length: usize) -> Vec<u32> {
    PlainBook::fresh(length).unwrap().words()
}

/// Makes a call on both sides and compares all that it left.
fn compare(run: &mut Vec<u32>, call: &Call, second: &[u32], tally: &mut Tally) {
    let mut wanted_run = run.clone();
    let mut wanted_second = second.to_vec();
    let wanted = make_on_words(&mut wanted_run, &mut wanted_second, call);
    let same = |side: &dyn Fn(&mut [u32], &mut [u32]) -> calls::Answer| {
        let mut got_run = run.clone();
        let mut got_second = second.to_vec();
        let got = side(&mut got_run, &mut got_second);
        let made = || format!("{call:?} on {run:x?}");
        assert_eq!(got, wanted, "{}", made());
        assert!(got_run == wanted_run, "{}\ngot {got_run:x?}", made());
        assert!(
            got_second == wanted_second,
            "{}\ngot {got_second:?}",
            made()
        );
    };
    same(&|run, second| Tested(run).make(call, second));
    if wanted.number != 1 {
        same(&|run, second| Known(run, &mut []).make(call, second));
    }
    tally.count(call, wanted);
    *run = wanted_run;
    compare_counter(run, tally.calls() as u32 % 5);
}

/// Reads the counter of a program, or of the number below or above theirs, on both sides.
fn compare_counter(run: &[u32], program: u32) {
    let wanted = match counter_on_words(run, program) {
        Ok(counter) => Counter {
            number: 0,
            own_classes: counter.own_classes,
            strikes: counter.strikes,
        },
        Err(number) => Counter {
            number,
            own_classes: 0,
            strikes: 0,
        },
    };
    assert_eq!(read_counter(run, program), wanted, "{program} of {run:x?}");
    if wanted.number != 1 {
        let known = read_known_counter(run, program);
        assert_eq!(known, wanted, "{program} of {run:x?}");
    }
}

/// Draws calls over a run, and compares them.
fn list(random: &mut Random, run: &mut Vec<u32>, mix: &Mix, count: usize, tally: &mut Tally) {
    for _ in 0..count {
        let call = draw::call(random, run, mix);
        let second = second_run(random, run, &call);
        compare(run, &call, &second, tally);
    }
}

fn second_run(random: &mut Random, run: &mut [u32], call: &Call) -> Vec<u32> {
    draw::second_run(random, call, || Tested(run).make(call, &mut []).value)
}

/// Lists of calls over fresh books and any books, of lengths 4 to 603.
#[test]
fn random_lists() {
    let mut random = Random::new(0x5eed_0001);
    let mut tally = Tally::default();
    for _ in 0..1_500 {
        let mix = any_mix(&mut random);
        let most = random.pick(&[40, 200, 600, 600]);
        let length = FIRST_CLASS + random.index(most);
        let mut run = match random.one_in(3) {
            true => fresh(length),
            false => books::any(&mut random, length),
        };
        assert!(PlainBook::read(&run).is_some());
        list(&mut random, &mut run, &mix, 50, &mut tally);
    }
    tally.print();
}

/// Long lists over one book each, with few classes, so that expirations fill.
#[test]
fn long_lists() {
    let mut random = Random::new(0x5eed_0002);
    let mut tally = Tally::default();
    for round in 0..16 {
        let mix = Mix {
            weights: WEIGHTS,
            highest: 1 + round % 4,
        };
        let mut run = fresh(random.pick(&[40, 150, 300, 600]));
        list(&mut random, &mut run, &mix, 1_000, &mut tally);
    }
    tally.print();
}

/// Many classes, for the caps and the search of classes.
#[test]
fn caps() {
    let mut random = Random::new(0x5eed_0003);
    let mut tally = Tally::default();
    for _ in 0..8 {
        let mix = Mix {
            weights: [0, 4, 1, 1, 1, 5, 1, 0, 0, 0, 0, 0],
            highest: random.pick(&[180, 16_383]),
        };
        let mut run = fresh(books::CAPPED_WORDS);
        list(&mut random, &mut run, &mix, 1_200, &mut tally);
        let length = books::CAPPED_WORDS + random.index(100);
        let mut run = books::near_caps(&mut random, length);
        assert!(PlainBook::read(&run).is_some());
        list(&mut random, &mut run, &mix, 200, &mut tally);
        // All at once: the class after the last that a cap allows draws 10, and passes after a release.
        let mut run = fresh(books::CAPPED_WORDS);
        for c in 1..=152 {
            let (p, n) = (400, 1_000);
            for call in [Call::O { c }, Call::C { c, p }, Call::V { c, n }] {
                compare(&mut run, &call, &[], &mut tally);
            }
        }
        for (p, program) in (1..).zip(&PROGRAMS) {
            let cap = program.cap;
            for c in 1..=cap + 1 {
                compare(&mut run, &Call::D { c, p, d: 1 }, &[], &mut tally);
            }
            let release = (3, random.pick(&[0, 2]));
            for (c, d) in [release, (cap + 1, 1), (cap + 2, 1), (3, 1)] {
                compare(&mut run, &Call::D { c, p, d }, &[], &mut tally);
            }
        }
    }
    tally.print();
    for (p, _) in (1..).zip(&PROGRAMS) {
        assert!(tally.times_of('D', 10, p) > 20, "program {p}");
    }
}

/// Runs that are no books, and runs that only were changed.
#[test]
fn damaged_runs() {
    let mut random = Random::new(0x5eed_0004);
    let mut tally = Tally::default();
    for _ in 0..10_000 {
        let mix = any_mix(&mut random);
        let most = random.pick(&[60, 400]);
        let mut run = match random.one_in(20) {
            true => runs::about_caps(&mut random),
            false => runs::damaged(&mut random, most),
        };
        list(&mut random, &mut run, &mix, 1, &mut tally);
        compare(&mut run, &Call::Malformed, &[], &mut tally);
    }
    tally.print();
}

/// Strikes about the low and the high judged and some listed, and all asked for, between standing strikes
/// of any grounds.
#[test]
fn crowded_expirations() {
    let mut random = Random::new(0x5eed_0006);
    let mut tally = Tally::default();
    for _ in 0..800 {
        let (mut run, m) = books::crowded(&mut random);
        assert!(PlainBook::read(&run).is_some());
        let c = CROWDED;
        let prices = class_of(&run, c).unwrap().prices;
        let [first, last] = [prices.low / 100, 3 * prices.high / 100];
        for _ in 0..60 {
            let h = 1 + first + random.below(last - first + 60);
            let h = match random.below(3) {
                0 => h / 5 * 5 + random.pick(&[0, 1, 4]),
                _ => h,
            };
            let (a, b) = (random.below(2), random.below(2));
            let call = match random.below(12) {
                0..=5 => Call::J { c, m, h },
                6..=9 => Call::L { c, m, h },
                10 => Call::X { c, m, h },
                _ => Call::I { c, m, h, a, b },
            };
            compare(&mut run, &call, &[], &mut tally);
        }
        for call in [Call::A { c, m }, Call::R { c }, Call::A { c, m }] {
            let second = second_run(&mut random, &mut run, &call);
            compare(&mut run, &call, &second, &mut tally);
        }
    }
    tally.print();
}

/// Books that are longer than 600 words, and their classes' search.
#[test]
fn long_books() {
    let mut random = Random::new(0x5eed_0005);
    let mut tally = Tally::default();
    for _ in 0..12 {
        let mix = any_mix(&mut random);
        let length = random.pick(&[1_000, 4_096, 10_000, 65_535]);
        let mut run = books::any(&mut random, length);
        assert!(PlainBook::read(&run).is_some());
        list(&mut random, &mut run, &mix, 60, &mut tally);
    }
    tally.print();
}

/// Every class of a book is found where it stands, and no other.
#[test]
fn every_class() {
    let mut random = Random::new(0x5eed_0007);
    let mut tests = 0;
    for _ in 0..1_500 {
        let most = random.pick(&[100, 300, 1_000, 4_096]);
        let length = FIRST_CLASS + random.index(most);
        let run = books::any(&mut random, length);
        let place = |at| (number(run[at]), at);
        let places: BTreeMap<u32, usize> = places(&run, CLASS).into_iter().map(place).collect();
        let beside = places.keys().flat_map(|c| [c - 1, *c, c + 1]);
        for c in beside
            .chain([1, 16_383])
            .filter(|c| (1..16_384).contains(c))
        {
            let mut changed = run.clone();
            let answer = known::set_volume(&mut changed, &mut [], c, 123);
            let wanted_number = if places.contains_key(&c) { 0 } else { 4 };
            assert_eq!(answer.number, wanted_number, "{c} in {run:x?}");
            let mut wanted = run.clone();
            if let Some(at) = places.get(&c) {
                wanted[at + 2] = VOLUME | 123;
            }
            assert!(changed == wanted, "{c} in {run:x?}");
            tests += 1;
        }
    }
    println!("{tests} searches");
}
