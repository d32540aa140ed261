mod forms;

use crate::library::CounterReply;
use crate::{
    compare_lists, is_book, library, read_counter, Book, CallRecord, Counter, Designation, Ground,
    Program, Refusal,
};

/// A fresh book at month 4 with class 7 open at a close.
fn at_close(run: &mut [u32], close: u32) -> Book<'_> {
    let mut book = Book::fresh(run).unwrap();
    book.set_month(4).unwrap();
    book.open_class(7).unwrap();
    book.set_close(7, close).unwrap();
    book
}

const SAMPLE: &[u8] = b"M 4\nO 7\nC 7 200\nD 7 1 1\nA 7 5\nL 7 5 14\nL 7 5 16\nL 7 5 14";

#[test]
fn sample_sheet() {
    let mut run = [9; 4_096];
    let mut second = [0; 512];
    let mut answers = [[99; 2]; 9];
    let mut book = Book::fresh(&mut run).unwrap();
    assert_eq!(book.run_sheet(&mut second, SAMPLE, &mut answers), 8);
    let wanted = [
        [0, 0],
        [0, 0],
        [0, 0],
        [0, 0],
        [0, 7],
        [0, 1],
        [12, 0],
        [6, 0],
        [99, 99],
    ];
    assert_eq!(answers, wanted);
    assert_eq!(second[..8], [2, 4, 6, 8, 10, 12, 14, 0]);
    assert_eq!(counters(&book), [(1, 1), (0, 0), (0, 0)]);
}

#[test]
fn a_sheet_with_few_places_for_answers() {
    let mut run = [0; 4_096];
    let mut answers = [[99; 2]; 2];
    let mut book = Book::fresh(&mut run).unwrap();
    assert_eq!(book.run_sheet(&mut [], SAMPLE, &mut answers), 8);
    assert_eq!(answers, [[0, 0], [0, 0]]);
    assert_eq!(book.list_strike(7, 5, 14), Err(Refusal::AlreadyStanding));
    assert_eq!(book.run_sheet(&mut [], b"", &mut []), 0);
}

#[test]
fn runs_that_are_no_books() {
    let mut words = [5, 6, 7, 8, 9];
    for length in 0..4 {
        let short = &mut words[..length];
        assert_eq!(Book::fresh(short).unwrap_err(), Refusal::NotABook);
    }
    let mut long = vec![0; 65_536];
    assert_eq!(Book::fresh(&mut long).unwrap_err(), Refusal::NotABook);
    assert_eq!(Book::open(&mut words).unwrap_err(), Refusal::NotABook);
    assert_eq!(words, [5, 6, 7, 8, 9]);
    Book::fresh(&mut words).unwrap();
    assert_eq!(words[..4], FRESH);
    assert_eq!(words[4], 0);
    assert!(is_book(&words));
    assert_eq!(Book::open(&mut words).unwrap().words().len(), 5);
    for length in 0..=4 {
        assert_eq!(is_book(&FRESH[..length]), length == 4, "{length}");
    }
}

#[test]
fn refusals_of_months_and_classes() {
    let mut run = [0; 64];
    let mut book = at_close(&mut run, 200);
    assert_eq!(book.set_month(1_024), Err(Refusal::BeyondLimits));
    assert_eq!(book.set_month(u32::MAX), Err(Refusal::BeyondLimits));
    assert_eq!(book.set_month(3), Err(Refusal::MonthOutside));
    assert_eq!(book.open_class(7), Err(Refusal::AlreadyOpen));
    assert_eq!(book.set_volume(8, 1_000), Err(Refusal::NotOpen));
    assert_eq!(book.judge_strike(7, 4, 5), Err(Refusal::MonthOutside));
    assert_eq!(book.judge_strike(7, 44, 5), Err(Refusal::MonthOutside));
    assert_eq!(book.delist_strike(7, 5, 5), Err(Refusal::NotStanding));
    book.open_class(8).unwrap();
    assert_eq!(book.review_class(8), Err(Refusal::NoClose));
}

#[test]
fn programs_and_their_caps() {
    let mut run = [0; 4_096];
    let mut book = at_close(&mut run, 5_000);
    let ours = |book: &mut Book, class, program| book.designate(class, program, Designation::Ours);
    assert_eq!(
        ours(&mut book, 7, Program::Dollar),
        Err(Refusal::NotQualified)
    );
    for class in 101..=121 {
        book.open_class(class).unwrap();
        book.set_close(class, 500).unwrap();
        book.set_volume(class, 1_000).unwrap();
        let wanted = match class {
            121 => Err(Refusal::CapReached),
            _ => Ok(()),
        };
        assert_eq!(ours(&mut book, class, Program::Half), wanted);
    }
    book.designate(101, Program::Half, Designation::Another)
        .unwrap();
    assert_eq!(ours(&mut book, 121, Program::Half), Ok(()));
    book.designate(121, Program::Half, Designation::None)
        .unwrap();
}

#[test]
fn the_two_fifty_program_needs_no_close() {
    let mut run = [0; 4_096];
    let mut book = Book::fresh(&mut run).unwrap();
    let two_fifty = |book: &mut Book, class, d| book.designate(class, Program::TwoFifty, d);
    for class in 1..=61 {
        book.open_class(class).unwrap();
        let wanted = match class {
            61 => Err(Refusal::CapReached),
            _ => Ok(()),
        };
        assert_eq!(two_fifty(&mut book, class, Designation::Ours), wanted);
    }
    two_fifty(&mut book, 61, Designation::Another).unwrap();
    two_fifty(&mut book, 1, Designation::None).unwrap();
    assert_eq!(two_fifty(&mut book, 61, Designation::Ours), Ok(()));
    assert_eq!(book.judge_strike(61, 5, 55), Err(Refusal::NoClose));
}

#[test]
fn grounds_spacing_and_review() {
    let mut run = [0; 64];
    let mut book = at_close(&mut run, 1_300);
    assert_eq!(book.list_strike(7, 5, 25), Ok(Ground::Standard));
    book.designate(7, Program::Dollar, Designation::Ours)
        .unwrap();
    assert_eq!(book.judge_strike(7, 5, 24), Err(Refusal::TooClose));
    assert_eq!(book.judge_strike(7, 13, 24), Ok(Ground::Wing));
    assert_eq!(book.judge_strike(7, 5, 23), Err(Refusal::OffGrid));
    assert_eq!(book.list_strike(7, 5, 14), Ok(Ground::Dollar));
    assert_eq!(book.list_strike(7, 5, 38), Ok(Ground::Dollar));
    book.mark_strike(7, 5, 14, false, true).unwrap();
    assert_eq!(book.delist_strike(7, 5, 14), Err(Refusal::OpenInterest));
    assert_eq!(book.review_class(7), Ok(1));
    assert_eq!(book.review_class(7), Ok(0));
    book.mark_strike(7, 5, 14, false, false).unwrap();
    book.delist_strike(7, 5, 14).unwrap();
    book.set_close(7, 500).unwrap();
    book.set_volume(7, 1_000).unwrap();
    book.designate(7, Program::Half, Designation::Ours).unwrap();
    assert_eq!(book.judge_strike(7, 5, 1), Ok(Ground::Half));
}

#[test]
fn strikes_of_the_two_fifty_program() {
    let mut run = [0; 64];
    let mut book = at_close(&mut run, 4_850);
    book.designate(7, Program::TwoFifty, Designation::Ours)
        .unwrap();
    assert_eq!(book.judge_strike(7, 5, 95), Ok(Ground::TwoFifty));
    assert_eq!(book.list_strike(7, 5, 105), Ok(Ground::TwoFifty));
    assert_eq!(book.judge_strike(7, 5, 115), Ok(Ground::TwoFifty));
    assert_eq!(book.judge_strike(7, 5, 125), Err(Refusal::OffGrid));
    assert_eq!(book.judge_strike(7, 13, 105), Err(Refusal::OffGrid));
    book.designate(7, Program::Dollar, Designation::Ours)
        .unwrap();
    assert_eq!(book.judge_strike(7, 5, 95), Err(Refusal::OffGrid));
    assert_eq!(book.judge_strike(7, 5, 115), Ok(Ground::TwoFifty));
}

/// The words of a fresh book: its head, and a counter of each program.
const FRESH: [u32; 4] = [1 << 28 | 4 << 10, 8 << 28, 8 << 28, 8 << 28];

/// The words of `at_close`, whose class has no strike.
fn words_of(close: u32, low: u32, high: u32) -> [u32; 9] {
    let (head, counter) = (1 << 28 | 9 << 10 | 4, 8 << 28);
    let (class, close, volume) = (2 << 28 | 7, 3 << 28 | close, 4 << 28);
    let (low, high) = (7 << 28 | low, 7 << 28 | high);
    [
        head, counter, counter, counter, class, close, volume, low, high,
    ]
}

#[test]
fn a_close_sets_low_and_high() {
    let mut run = [0; 9];
    let mut book = at_close(&mut run, 1_950);
    assert_eq!(book.words(), words_of(1_950, 1_950, 1_950));
    book.set_low_high(7, 1_900, 2_100).unwrap();
    assert_eq!(book.words(), words_of(1_950, 1_900, 2_100));
    book.set_low_high(7, 1_950, 1_950).unwrap();
    assert_eq!(book.words(), words_of(1_950, 1_950, 1_950));
    book.set_low_high(7, 1, 999_999).unwrap();
    assert_eq!(book.words(), words_of(1_950, 1, 999_999));
    book.set_close(7, 2_000).unwrap();
    assert_eq!(book.words(), words_of(2_000, 2_000, 2_000));
}

#[test]
fn lows_and_highs_that_are_refused() {
    let mut run = [0; 64];
    let mut book = at_close(&mut run, 1_950);
    book.set_low_high(7, 1_900, 2_100).unwrap();
    book.open_class(8).unwrap();
    let words = book.words().to_vec();
    for (class, low, high, refusal) in [
        (7, 0, 1_950, Refusal::BeyondLimits),
        (7, 1_950, 1_000_000, Refusal::BeyondLimits),
        (0, 1_950, 1_950, Refusal::BeyondLimits),
        (9, 0, 1_950, Refusal::BeyondLimits),
        (9, 1_950, 1_950, Refusal::NotOpen),
        (8, 1_950, 1_950, Refusal::NoClose),
        (7, 1_951, 2_100, Refusal::CloseOutside),
        (7, 1_900, 1_949, Refusal::CloseOutside),
        (7, 2_100, 1_900, Refusal::CloseOutside),
    ] {
        let answer = book.set_low_high(class, low, high);
        assert_eq!(answer, Err(refusal), "{class} {low} {high}");
    }
    assert_eq!(book.words(), words);
    assert_eq!(Refusal::CloseOutside.number(), 16);
}

#[test]
fn lows_and_highs_that_no_book_has() {
    for (close, low, high, is) in [
        (0, 0, 0, true),
        (1_950, 1_950, 1_950, true),
        (1_950, 1, 999_999, true),
        (1_950, 1_951, 1_951, false),
        (1_950, 1_949, 1_949, false),
        (1_950, 0, 1_950, false),
        (1_950, 1_950, 1_000_000, false),
        (1_950, 0, 0, false),
        (0, 1, 0, false),
        (0, 0, 1, false),
    ] {
        let words = words_of(close, low, high);
        assert_eq!(is_book(&words), is, "{close} {low} {high}");
    }
    let mut swapped = words_of(1_950, 1_950, 1_950);
    swapped.swap(6, 7);
    assert!(!is_book(&swapped));
}

#[test]
fn ranges_at_the_low_and_at_the_high() {
    let (mut run, mut second) = ([0; 64], [0; 64]);
    let mut book = at_close(&mut run, 2_100);
    let mut permitted = |book: &Book| book.list_permitted(7, 5, &mut second).unwrap().to_vec();
    // At $21, from $10.50 to $31.50.
    assert_eq!(permitted(&book), [25, 30, 35, 40, 45, 50, 60]);
    // At $19, up to $38; the fifth strike above $19 is $35.
    book.set_low_high(7, 1_900, 2_100).unwrap();
    let wanted = [5, 10, 15, 20, 25, 30, 35, 40, 45, 50, 60, 70];
    assert_eq!(permitted(&book), wanted);
    // At $2 up to $12.50, the fifth above it; at $100 from $50 to $150.
    book.set_close(7, 2_400).unwrap();
    book.set_low_high(7, 200, 10_000).unwrap();
    let wanted = [5, 10, 15, 20, 25].into_iter();
    let wanted: Vec<u32> = wanted.chain((100..=300).step_by(10)).collect();
    assert_eq!(permitted(&book), wanted);
    assert_eq!(book.judge_strike(7, 5, 50), Err(Refusal::OutOfRange));
}

#[test]
fn wings_at_the_low_and_at_the_high() {
    let (mut run, mut second) = ([0; 64], [0; 64]);
    let mut book = at_close(&mut run, 2_475);
    book.designate(7, Program::Dollar, Designation::Ours)
        .unwrap();
    assert_eq!(book.judge_strike(7, 13, 46), Err(Refusal::OffGrid));
    book.set_low_high(7, 2_450, 2_500).unwrap();
    assert_eq!(
        book.list_permitted(7, 13, &mut second).unwrap(),
        [30, 36, 40, 44, 46, 50, 54, 60, 64, 70]
    );
    assert_eq!(book.list_strike(7, 13, 44), Ok(Ground::Wing));
    assert_eq!(book.judge_strike(7, 13, 46), Err(Refusal::TooClose));
    // $37 has its place at $21 alone, where $35 is out of range; $38 has it at $45.
    book.set_close(7, 3_000).unwrap();
    assert_eq!(book.judge_strike(7, 13, 74), Ok(Ground::Wing));
    book.set_low_high(7, 2_100, 4_500).unwrap();
    assert_eq!(book.judge_strike(7, 13, 74), Err(Refusal::OutOfRange));
    assert_eq!(book.judge_strike(7, 13, 76), Ok(Ground::Wing));
}

#[test]
fn what_goes_by_the_close() {
    let mut run = [0; 64];
    let mut book = at_close(&mut run, 5_000);
    let designate = |book: &mut Book, program, d| book.designate(7, program, d);
    book.set_low_high(7, 2_000, 9_000).unwrap();
    let refused = designate(&mut book, Program::Dollar, Designation::Ours);
    assert_eq!(refused, Err(Refusal::NotQualified));
    designate(&mut book, Program::Dollar, Designation::Another).unwrap();
    assert_eq!(book.judge_strike(7, 5, 52), Err(Refusal::OffGrid));
    book.set_close(7, 4_999).unwrap();
    book.set_low_high(7, 2_000, 9_000).unwrap();
    assert_eq!(book.judge_strike(7, 5, 52), Ok(Ground::Dollar));
    // $62.50 is $10 from the high, and more from the close.
    designate(&mut book, Program::TwoFifty, Designation::Ours).unwrap();
    book.set_close(7, 4_850).unwrap();
    book.set_low_high(7, 4_850, 5_250).unwrap();
    assert_eq!(book.judge_strike(7, 5, 125), Err(Refusal::OffGrid));
    assert_eq!(book.judge_strike(7, 5, 115), Ok(Ground::TwoFifty));
    // $7 and $19 are $6 from the close; $8 is $5 from it.
    book.set_close(7, 1_300).unwrap();
    book.set_low_high(7, 700, 1_900).unwrap();
    for strike in [14, 16, 38] {
        assert_eq!(book.list_strike(7, 5, strike), Ok(Ground::Dollar));
    }
    assert_eq!(book.review_class(7), Ok(2));
    assert_eq!(book.judge_strike(7, 5, 16), Err(Refusal::AlreadyStanding));
}

/// The own classes and the strikes of each program.
fn counters(book: &Book) -> [(u32, u32); 3] {
    [Program::Dollar, Program::Half, Program::TwoFifty].map(|program| {
        let counter = book.counter(program);
        assert_eq!(read_counter(book.words(), program), Ok(counter));
        (counter.own_classes, counter.strikes)
    })
}

#[test]
fn counters_follow_designations() {
    let mut run = [0; 64];
    let mut book = at_close(&mut run, 500);
    book.open_class(8).unwrap();
    assert_eq!(counters(&book), [(0, 0); 3]);
    let refused = book.designate(7, Program::Half, Designation::Ours);
    assert_eq!(refused, Err(Refusal::NotQualified));
    assert_eq!(counters(&book), [(0, 0); 3]);
    book.set_volume(7, 1_000).unwrap();
    for (class, program, designation, own) in [
        (7, Program::Dollar, Designation::Ours, [1, 0, 0]),
        (7, Program::Dollar, Designation::Ours, [1, 0, 0]),
        (7, Program::Half, Designation::Ours, [1, 1, 0]),
        (7, Program::TwoFifty, Designation::Another, [1, 1, 0]),
        (8, Program::TwoFifty, Designation::Ours, [1, 1, 1]),
        (7, Program::TwoFifty, Designation::Ours, [1, 1, 2]),
        (7, Program::Dollar, Designation::Another, [0, 1, 2]),
        (7, Program::Half, Designation::None, [0, 0, 2]),
        (8, Program::TwoFifty, Designation::None, [0, 0, 1]),
        (7, Program::Dollar, Designation::None, [0, 0, 1]),
    ] {
        book.designate(class, program, designation).unwrap();
        assert_eq!(counters(&book), own.map(|own| (own, 0)));
    }
}

/// A book at month 4 with strikes on every ground. Class 7, close $13: in month 5 $0.50 on Half, $7
/// and $19 on Dollar and $12.50 on Standard, in month 13 $12 on Wing. Class 8, close $48.50: in
/// month 5 $52.50 on TwoFifty.
fn on_each_ground(run: &mut [u32]) -> Book<'_> {
    let mut book = at_close(run, 1_300);
    let ours = |book: &mut Book, class, program| book.designate(class, program, Designation::Ours);
    assert_eq!(book.list_strike(7, 5, 25), Ok(Ground::Standard));
    assert_eq!(counters(&book), [(0, 0), (0, 0), (0, 0)]);
    ours(&mut book, 7, Program::Dollar).unwrap();
    assert_eq!(book.list_strike(7, 5, 14), Ok(Ground::Dollar));
    assert_eq!(counters(&book), [(1, 1), (0, 0), (0, 0)]);
    assert_eq!(book.list_strike(7, 5, 38), Ok(Ground::Dollar));
    assert_eq!(book.list_strike(7, 13, 24), Ok(Ground::Wing));
    assert_eq!(counters(&book), [(1, 3), (0, 0), (0, 0)]);
    book.set_close(7, 500).unwrap();
    book.set_volume(7, 1_000).unwrap();
    ours(&mut book, 7, Program::Half).unwrap();
    assert_eq!(book.list_strike(7, 5, 1), Ok(Ground::Half));
    assert_eq!(counters(&book), [(1, 3), (1, 1), (0, 0)]);
    book.set_close(7, 1_300).unwrap();
    book.open_class(8).unwrap();
    book.set_close(8, 4_850).unwrap();
    ours(&mut book, 8, Program::TwoFifty).unwrap();
    assert_eq!(book.list_strike(8, 5, 105), Ok(Ground::TwoFifty));
    assert_eq!(counters(&book), [(1, 3), (1, 1), (1, 1)]);
    book
}

#[test]
fn counters_follow_strikes() {
    let mut run = [0; 64];
    let mut book = on_each_ground(&mut run);
    let present = counters(&book);
    assert_eq!(book.list_strike(7, 5, 14), Err(Refusal::AlreadyStanding));
    assert_eq!(book.judge_strike(7, 5, 16), Ok(Ground::Dollar));
    book.mark_strike(7, 5, 14, true, false).unwrap();
    assert_eq!(book.delist_strike(7, 5, 14), Err(Refusal::OpenInterest));
    book.mark_strike(7, 5, 14, false, false).unwrap();
    book.delist_strike(7, 5, 25).unwrap();
    assert_eq!(counters(&book), present);
    book.delist_strike(7, 5, 14).unwrap();
    assert_eq!(counters(&book), [(1, 2), (1, 1), (1, 1)]);
    book.delist_strike(7, 13, 24).unwrap();
    assert_eq!(counters(&book), [(1, 1), (1, 1), (1, 1)]);
    book.delist_strike(7, 5, 1).unwrap();
    assert_eq!(counters(&book), [(1, 1), (1, 0), (1, 1)]);
    book.delist_strike(8, 5, 105).unwrap();
    assert_eq!(counters(&book), [(1, 1), (1, 0), (1, 0)]);
}

#[test]
fn strikes_count_by_their_own_ground() {
    let mut run = [0; 64];
    let mut book = on_each_ground(&mut run);
    for (class, program) in [
        (7, Program::Dollar),
        (7, Program::Half),
        (8, Program::TwoFifty),
    ] {
        book.designate(class, program, Designation::None).unwrap();
    }
    assert_eq!(counters(&book), [(0, 3), (0, 1), (0, 1)]);
    // Standard in a class that is in all three.
    book.set_close(8, 500).unwrap();
    book.set_volume(8, 1_000).unwrap();
    for program in [Program::Dollar, Program::Half, Program::TwoFifty] {
        book.designate(8, program, Designation::Ours).unwrap();
    }
    assert_eq!(book.list_strike(8, 5, 10), Ok(Ground::Standard));
    assert_eq!(counters(&book), [(1, 3), (1, 1), (1, 1)]);
}

#[test]
fn counters_after_a_review_and_a_month() {
    let mut run = [0; 64];
    let mut book = on_each_ground(&mut run);
    assert_eq!(book.review_class(8), Ok(0));
    assert_eq!(counters(&book), [(1, 3), (1, 1), (1, 1)]);
    // $7 and $19 go.
    assert_eq!(book.review_class(7), Ok(2));
    assert_eq!(counters(&book), [(1, 1), (1, 1), (1, 1)]);
    book.set_month(5).unwrap();
    assert_eq!(counters(&book), [(1, 1), (1, 1), (1, 1)]);
    book.set_month(6).unwrap();
    assert_eq!(counters(&book), [(1, 1), (1, 0), (1, 0)]);
    book.set_month(14).unwrap();
    assert_eq!(counters(&book), [(1, 0), (1, 0), (1, 0)]);
}

/// A reply that refuses with a number.
fn refused(number: u32) -> CounterReply {
    CounterReply {
        number,
        own_classes: 0,
        strikes: 0,
    }
}

/// A reply with what the bits of a counter word hold.
fn held(word: u32) -> CounterReply {
    CounterReply {
        number: 0,
        own_classes: word & 255,
        strikes: word >> 8 & 65_535,
    }
}

#[test]
fn counters_that_are_refused() {
    for program in [0, 1, 2, 3, 4, u32::MAX] {
        let is_program = matches!(program, 1..=3);
        for length in 0..4 {
            let short = &FRESH[..length];
            assert_eq!(library::read_counter(short, program), refused(1));
            assert_eq!(library::read_known_counter(short, program), refused(1));
        }
        let wanted = if is_program { held(0) } else { refused(2) };
        assert_eq!(library::read_counter(&FRESH, program), wanted);
        assert_eq!(library::read_known_counter(&FRESH, program), wanted);
        // Words that are no book, by their kinds and by their length.
        for (words, word) in [(vec![u32::MAX; 4], u32::MAX), (vec![0; 65_536], 0)] {
            let wanted = if is_program { held(word) } else { refused(2) };
            assert_eq!(library::read_counter(&words, program), refused(1));
            assert_eq!(library::read_known_counter(&words, program), wanted);
        }
    }
    assert_eq!(read_counter(&[], Program::Half), Err(Refusal::NotABook));
    let counter = Counter {
        own_classes: 0,
        strikes: 0,
    };
    assert_eq!(read_counter(&FRESH, Program::Half), Ok(counter));
}

#[test]
fn damaged_counters() {
    let mut run = [0; 64];
    on_each_ground(&mut run);
    let counter = |own_classes: u32, strikes: u32| 8 << 28 | strikes << 8 | own_classes;
    assert_eq!(run[1..4], [counter(1, 3), counter(1, 1), counter(1, 1)]);
    for program in 1..=3 {
        for bit in 0..32 {
            let mut damaged = run;
            damaged[program] ^= 1 << bit;
            assert!(!is_book(&damaged), "{program} {bit}");
            for other in 1..=3 {
                let reply = library::read_counter(&damaged, other);
                assert_eq!(reply, refused(1), "{program} {bit}");
                let reply = library::read_known_counter(&damaged, other);
                assert_eq!(reply, held(damaged[other as usize]), "{program} {bit}");
            }
            let words = damaged;
            assert_eq!(library::set_month(&mut damaged, 5).number, 1);
            assert_eq!(damaged, words, "{program} {bit}");
        }
    }
    let mut swapped = run;
    swapped.swap(1, 2);
    assert!(!is_book(&swapped));
}

#[test]
fn counters_that_words_make_false() {
    let mut run = [0; 64];
    on_each_ground(&mut run);
    // Class 7 is ours in the $1 program, and another exchange's or nobody's by these bits.
    let class = run.iter().position(|&word| word >> 28 == 2).unwrap();
    for designation in [0, 2] {
        let mut other = run;
        other[class] = run[class] & !(3 << 14) | designation << 14;
        assert!(!is_book(&other), "{designation}");
        other[1] -= 1;
        assert!(is_book(&other), "{designation}");
    }
    // A strike on Dollar that moves to Wing stays with its program; to no other ground.
    let dollar = run.iter().position(|&word| word == 6 << 28 | 1 << 15 | 14);
    for (ground, is) in [(0, false), (2, false), (3, true), (4, false)] {
        let mut other = run;
        other[dollar.unwrap()] = 6 << 28 | ground << 15 | 14;
        assert_eq!(is_book(&other), is, "{ground}");
    }
}

#[test]
fn words_that_are_needed() {
    let mut run = [0; 10];
    let mut book = at_close(&mut run, 200);
    assert_eq!(book.open_class(8), Err(Refusal::OutOfWords { needed: 0 }));
    assert_eq!(
        book.list_strike(7, 5, 5),
        Err(Refusal::OutOfWords { needed: 0 })
    );
    let mut second = [77; 6];
    assert_eq!(
        book.list_permitted(7, 5, &mut second[..4]),
        Err(Refusal::OutOfWords { needed: 5 })
    );
    assert_eq!(
        book.list_permitted(7, 5, &mut []),
        Err(Refusal::OutOfWords { needed: 5 })
    );
    assert_eq!(second, [77; 6]);
    assert_eq!(
        book.list_permitted(7, 5, &mut second).unwrap(),
        [5, 10, 15, 20, 25]
    );
    assert_eq!(second[5], 77);
    let refusal = book.list_permitted(7, 5, &mut []).unwrap_err();
    assert_eq!(refusal.number(), 15);
    assert_eq!(refusal.to_string(), "the run has too few words");
}

/// The eight words of a call: its letter, its numbers, and the length of its second run.
fn call(letter: u8, numbers: &[u32], room: u32) -> CallRecord {
    let mut words = [0; 8];
    words[0] = u32::from(letter);
    words[1] = numbers.len() as u32;
    words[2..2 + numbers.len()].copy_from_slice(numbers);
    words[7] = room;
    words
}

/// The sample sheet's calls but its last, which is refused.
fn sample_calls() -> [CallRecord; 7] {
    [
        call(b'M', &[4], 0),
        call(b'O', &[7], 0),
        call(b'C', &[7, 200], 0),
        call(b'D', &[7, 1, 1], 0),
        call(b'A', &[7, 5], 512),
        call(b'L', &[7, 5, 14], 0),
        call(b'L', &[7, 5, 16], 0),
    ]
}

#[test]
fn lists_that_leave_one_book() {
    let (mut left, mut right, mut pool) = ([5; 64], [6; 64], [9; 10]);
    let others = [
        call(b'O', &[7], 0),
        call(b'C', &[7, 200], 0),
        call(b'M', &[4], 0),
        call(b'L', &[7, 5, 5], 0),
        call(b'D', &[7, 1, 1], 0),
        call(b'L', &[7, 5, 14], 0),
        call(b'I', &[7, 5, 5, 0, 1], 0),
        call(b'X', &[7, 5, 5], 0),
        call(b'I', &[7, 5, 5, 0, 0], 0),
        call(b'X', &[7, 5, 5], 0),
    ];
    let answer = compare_lists(&mut left, &mut right, &mut pool, &sample_calls(), &others);
    assert_eq!(answer, Ok(true));
    assert_eq!(left, right);
    assert_eq!(pool, [2, 4, 6, 8, 10, 12, 14, 9, 9, 9]);
    let mut run = [0; 64];
    let mut book = Book::fresh(&mut run).unwrap();
    book.run_sheet(&mut [], SAMPLE, &mut []);
    assert_eq!(left, book.words());
}

#[test]
fn lists_that_leave_two_books() {
    let (mut left, mut right) = ([0; 64], [0; 64]);
    let calls = sample_calls();
    let answer = compare_lists(&mut left, &mut right, &mut [], &calls, &calls[..5]);
    assert_eq!(answer, Ok(false));
    let mut second = [0; 64];
    let book = Book::open(&mut right).unwrap();
    assert_eq!(book.judge_strike(7, 5, 14), Ok(Ground::Dollar));
    let book = Book::open(&mut left).unwrap();
    assert_eq!(
        book.list_permitted(7, 5, &mut second).unwrap(),
        [2, 4, 6, 8, 10, 12]
    );
    let answer = compare_lists(&mut left, &mut right, &mut [], &[], &[]);
    assert_eq!(answer, Ok(true));
    assert_eq!(left[..4], FRESH);
    assert_eq!(left[4], 0);
}

#[test]
fn lists_that_leave_two_designations() {
    let (mut left, mut right) = ([0; 64], [0; 64]);
    let designated = |d| {
        [
            call(b'O', &[7], 0),
            call(b'D', &[7, 3, 2], 0),
            call(b'D', &[7, 3, d], 0),
        ]
    };
    let opened = [call(b'O', &[7], 0)];
    for (d, equal) in [(0, true), (1, false), (2, false)] {
        let answer = compare_lists(&mut left, &mut right, &mut [], &designated(d), &opened);
        assert_eq!(answer, Ok(equal), "{d}");
    }
}

#[test]
fn lists_that_leave_two_lows_or_highs() {
    let (mut left, mut right) = ([0; 64], [0; 64]);
    let mut same = |calls: &[CallRecord], others: &[CallRecord]| {
        compare_lists(&mut left, &mut right, &mut [], calls, others).unwrap()
    };
    let closed = [call(b'O', &[7], 0), call(b'C', &[7, 1_950], 0)];
    for (low, high, equal) in [
        (1_950, 1_950, true),
        (1_949, 1_950, false),
        (1_950, 1_951, false),
        // Refused.
        (1_951, 1_951, true),
    ] {
        let mut calls = closed.to_vec();
        calls.push(call(b'H', &[7, low, high], 0));
        assert_eq!(same(&calls, &closed), equal, "{low} {high}");
        calls.push(call(b'C', &[7, 1_950], 0));
        assert!(same(&calls, &closed), "{low} {high}");
    }
}

#[test]
fn words_of_a_list_that_are_no_call() {
    let (mut left, mut right) = ([0; 64], [0; 64]);
    let mut calls = [
        call(b'M', &[4], 0),
        call(b'o', &[7], 0),
        call(0, &[], 0),
        call(b'O', &[], 0),
        call(b'O', &[7, 8], 0),
    ]
    .concat();
    calls.extend([u32::from(b'O'), 1, 7, 0, 0, 0, 0]);
    let month = call(b'M', &[4], 0);
    let reply = library::compare_lists(&mut left, &mut right, &mut [], &calls, &month);
    assert_eq!((reply.number, reply.value), (0, 1));
    calls.push(0);
    let reply = library::compare_lists(&mut left, &mut right, &mut [], &calls, &month);
    assert_eq!((reply.number, reply.value), (0, 0));
}

#[test]
fn lengths_that_are_refused() {
    let calls = sample_calls();
    let mut pool = [9; 10];
    let (mut left, mut right) = ([5; 64], [6; 63]);
    let answer = compare_lists(&mut left, &mut right, &mut pool, &calls, &calls);
    assert_eq!(answer, Err(Refusal::NotABook));
    assert_eq!((left, right, pool), ([5; 64], [6; 63], [9; 10]));
    for length in 0..4 {
        let (left, right) = (&mut left[..length], &mut right[..length]);
        let answer = compare_lists(left, right, &mut pool, &calls, &calls);
        assert_eq!(answer, Err(Refusal::NotABook), "{length}");
    }
    assert_eq!((left, right), ([5; 64], [6; 63]));
    let (mut left, mut right) = (vec![5; 65_536], vec![6; 65_536]);
    let answer = compare_lists(&mut left, &mut right, &mut pool, &calls, &calls);
    assert_eq!(answer, Err(Refusal::NotABook));
    assert!(left.iter().all(|&word| word == 5) && right.iter().all(|&word| word == 6));
    assert_eq!(pool, [9; 10]);
}
