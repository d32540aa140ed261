//! The calls over a known book, with any places remembered, against those that test the run.

use calls::draw::{self, Mix};
use calls::words::{number, places, used, CLASS, FIRST_CLASS};
use calls::{books, sheets, Call, Random, StrikeBook, Tally, LETTERS};
use hand::{known, Known, Tested};
use second::lines;

const WEIGHTS: [u32; LETTERS.len()] = [3, 7, 8, 8, 5, 10, 30, 12, 8, 8, 5, 4];

fn any_mix(random: &mut Random) -> Mix {
    Mix {
        weights: WEIGHTS,
        highest: random.pick(&[4, 10, 40, 200, 16_383]),
    }
}

/// A fresh book or any book.
fn any_book(random: &mut Random) -> Vec<u32> {
    let most = random.pick(&[60, 300, 600, 3_000]);
    let length = FIRST_CLASS + random.index(most);
    let mut run = vec![0; length];
    match random.one_in(4) {
        true => assert!(hand::fresh(&mut run)),
        false => run = books::any(random, length),
    }
    assert!(hand::is_book(&run));
    run
}

/// Places that nothing was noted in, or any words: places of the run, and others.
fn any_places(random: &mut Random, run: &[u32]) -> Vec<u32> {
    let count = random.pick(&[0, 1, 2, 7, 64, 1_024]);
    match random.below(3) {
        0 => vec![0; count],
        1 => random.words(count),
        _ => (0..count)
            .map(|_| random.index(run.len() + 40) as u32)
            .collect(),
    }
}

/// Makes a call in both forms and compares all that they left, but for the places.
fn compare(run: &mut [u32], places: &mut [u32], call: &Call, second: &[u32], tally: &mut Tally) {
    let before = run.to_vec();
    let (mut wanted_run, mut wanted_second) = (before.clone(), second.to_vec());
    let wanted = Tested(&mut wanted_run).make(call, &mut wanted_second);
    let mut got_second = second.to_vec();
    let got = Known(run, places).make(call, &mut got_second);
    let made = || format!("{call:?} on {before:x?} with {places:x?}");
    assert_eq!(got, wanted, "{}", made());
    assert!(run == wanted_run, "{}\ngot {run:x?}", made());
    assert!(
        got_second == wanted_second,
        "{}\ngot {got_second:?}",
        made()
    );
    tally.count(call, wanted);
}

/// Lists of calls over one book each, with places that are kept from call to call.
#[test]
fn lists() {
    let mut random = Random::new(0x5eed_0041);
    let mut tally = Tally::default();
    for _ in 0..1_000 {
        let mix = any_mix(&mut random);
        let mut run = any_book(&mut random);
        let mut places = any_places(&mut random, &run);
        for _ in 0..60 {
            let call = draw::call(&mut random, &run, &mix);
            let second = draw::second_run(&mut random, &call, || {
                Tested(&mut run).make(&call, &mut []).value
            });
            compare(&mut run, &mut places, &call, &second, &mut tally);
        }
        assert!(hand::is_book(&run));
    }
    tally.print();
}

/// Every class, and those beside it, with its place remembered wrongly by any distance up to 40 words, and
/// with numbers that are no places. What is then remembered is where it stands.
#[test]
fn every_place() {
    let mut random = Random::new(0x5eed_0042);
    let mut tally = Tally::default();
    for length in [40, 97, 130, 400, 1_000, 4_096] {
        let mut run = books::any(&mut random, length);
        let standing = places(&run, CLASS);
        for at in standing.into_iter().take(20) {
            let c = number(run[at]);
            let about = at.saturating_sub(40)..at + 40;
            let ends = [0, 1, used(&run), run.len() - 1, run.len(), usize::MAX];
            for remembered in about.chain(ends) {
                for c in [c - 1, c, c + 1] {
                    let call = Call::V {
                        c,
                        n: remembered as u32 % 1_000,
                    };
                    compare(&mut run, &mut [remembered as u32], &call, &[], &mut tally);
                }
                let mut place = [remembered as u32];
                known::review_class(&mut run.clone(), &mut place, c);
                if used(&run) > 96 {
                    assert_eq!(place, [at as u32], "{c} in {run:x?}");
                }
            }
        }
    }
    tally.print();
}

/// Whole sheets, and two over one book with the places that the first left.
#[test]
fn two_sheets() {
    let mut random = Random::new(0x5eed_0043);
    let mut count = 0;
    for _ in 0..600 {
        let mix = any_mix(&mut random);
        let mut run = any_book(&mut random);
        let mut places = any_places(&mut random, &run);
        for _ in 0..2 {
            let sheet = sheets::any(&mut random, run.clone(), &mix, 40, |run, call| {
                Tested(run).make(call, &mut [0; 600]);
            });
            let room = random.pick(&[0, 13, 60, 512]);
            let mut wanted_second = random.words(room);
            let mut second = wanted_second.clone();
            let all = lines(&sheet).len();
            let slots = random.pick(&[0, 7, 2 * all, 2 * all + 3]);
            let (mut wanted_answers, mut answers) = (vec![77; slots], vec![77; slots]);
            let mut wanted = run.clone();
            let told =
                hand::run_sheet(&mut wanted, &mut wanted_second, &sheet, &mut wanted_answers);
            let got = known::run_sheet(&mut run, &mut second, &mut places, &sheet, &mut answers);
            let shown = || String::from_utf8_lossy(&sheet);
            assert_eq!((got, told), (all, all), "{}", shown());
            assert!(answers == wanted_answers, "{}", shown());
            assert!(run == wanted, "{}", shown());
            assert!(second == wanted_second, "{}", shown());
            count += all;
        }
    }
    println!("{count} lines, no difference");
}
