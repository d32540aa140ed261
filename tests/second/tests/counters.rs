//! #104, counters in the head: the worked examples, its edges, and the runs that
//! are no book.

mod books;
mod common;
mod reviewed;
use books::is_book;
use calls::words::{class_words, head, strike, Prices, COUNTER, EXPIRATION};
use calls::Call;
use common::*;
use reviewed::for_review;
use second::{counter_on_words, make_on_words, Counter, PlainBook};

/// Own classes and strikes of each program, program 1 first.
type Counts = [(u32, u32); 3];

/// "one kind 8 word per program ... own classes in bits 0–7, standing strikes on
/// that program's grounds in bits 8–23."
fn counter_words(counts: Counts) -> [u32; 3] {
    counts.map(|(own_classes, strikes)| COUNTER + own_classes + 256 * strikes)
}

/// Wants these counters: of the book, in its words, and by a look at the words.
fn expect_counts(book: &PlainBook, counts: Counts) {
    let words = book.words();
    assert_eq!(words[1..4], counter_words(counts), "{counts:?}");
    assert!(is_book(&words));
    for (program, (own_classes, strikes)) in (1..).zip(counts) {
        let counter = Counter {
            own_classes,
            strikes,
        };
        assert_eq!(book.counter(program), counter, "program {program}");
        assert_eq!(counter_on_words(&words, program), Ok(counter));
    }
}

/// Makes each line, and wants its answer and the counters after it.
fn follow(book: &mut PlainBook, wanted: &[(&str, &str, Counts)]) {
    for (line, answer, counts) in wanted {
        assert_eq!(&say(book, line), answer, "{line}");
        expect_counts(book, *counts);
    }
}

/// Class 7, ours in the $1 and in the $0.50 program, with a Dollar, a Half and a
/// Wing strike; class 9, ours in the $2.50 program, with a strike of ground 4 and
/// a Standard one.
fn all_grounds() -> PlainBook {
    let mut book = fresh();
    expect(
        &mut book,
        &[
            ("M 4", "0"),
            ("O 7", "0"),
            ("C 7 200", "0"),
            ("V 7 1000", "0"),
            ("D 7 1 1", "0"),
            ("D 7 2 1", "0"),
            ("L 7 5 14", "0 1"),
            ("L 7 5 9", "0 2"),
            ("L 7 13 14", "0 3"),
            ("O 9", "0"),
            ("C 9 4850", "0"),
            ("D 9 3 1", "0"),
            ("L 9 5 105", "0 4"),
            ("L 9 5 100", "0 0"),
        ],
    );
    book
}

const ALL_GROUNDS: Counts = [(1, 2), (1, 1), (1, 1)];

// ---- Every call keeps them true ----------------------------------------

/// A fresh book has the head with 4 words used, and nothing to count.
#[test]
fn a_fresh_book() {
    for length in [4, 5, 65_535] {
        let book = PlainBook::fresh(length).unwrap();
        assert_eq!(book.words()[0], head(0, 4));
        assert_eq!(book.words_taken(), 4);
        expect_counts(&book, [(0, 0); 3]);
    }
}

/// "Wings belong to the $1 program." A Standard strike belongs to none.
#[test]
fn each_ground_counts_for_its_program() {
    let mut book = fresh();
    accept(&mut book, &["M 4", "O 7", "C 7 200", "V 7 1000"]);
    follow(
        &mut book,
        &[
            ("D 7 1 1", "0", [(1, 0), (0, 0), (0, 0)]),
            ("D 7 2 1", "0", [(1, 0), (1, 0), (0, 0)]),
            ("D 7 3 1", "0", [(1, 0), (1, 0), (1, 0)]),
            ("L 7 5 14", "0 1", [(1, 1), (1, 0), (1, 0)]),
            ("L 7 5 9", "0 2", [(1, 1), (1, 1), (1, 0)]),
            ("L 7 13 14", "0 3", [(1, 2), (1, 1), (1, 0)]),
            ("L 7 13 10", "0 0", [(1, 2), (1, 1), (1, 0)]),
            ("C 7 4850", "0", [(1, 2), (1, 1), (1, 0)]),
            ("L 7 5 105", "0 4", [(1, 2), (1, 1), (1, 1)]),
            ("L 7 6 115", "0 4", [(1, 2), (1, 1), (1, 2)]),
        ],
    );
    expect_counts(&all_grounds(), ALL_GROUNDS);
}

/// `X` of each ground, one after the other.
#[test]
fn delisting() {
    follow(
        &mut all_grounds(),
        &[
            ("X 7 5 14", "0", [(1, 1), (1, 1), (1, 1)]),
            ("X 7 13 14", "0", [(1, 0), (1, 1), (1, 1)]),
            ("X 7 5 9", "0", [(1, 0), (1, 0), (1, 1)]),
            ("X 9 5 100", "0", [(1, 0), (1, 0), (1, 1)]),
            ("X 9 5 105", "0", [(1, 0), (1, 0), (1, 0)]),
        ],
    );
}

/// `R` removes Dollar strikes and wings.
#[test]
fn review() {
    let mut book = for_review();
    expect(&mut book, &[("L 7 13 16", "0 3"), ("L 7 13 44", "0 3")]);
    follow(
        &mut book,
        &[
            ("I 7 5 14 1 0", "0", [(0, 5), (0, 0), (0, 0)]),
            // $19 goes, and the wing at $22; $8 is $5 from the close.
            ("R 7", "0 2", [(0, 3), (0, 0), (0, 0)]),
            ("I 7 5 14 0 0", "0", [(0, 3), (0, 0), (0, 0)]),
            ("R 7", "0 1", [(0, 2), (0, 0), (0, 0)]),
            ("R 7", "0 0", [(0, 2), (0, 0), (0, 0)]),
            ("C 7 4000", "0", [(0, 2), (0, 0), (0, 0)]),
            ("R 7", "0 2", [(0, 0), (0, 0), (0, 0)]),
        ],
    );
    // A Half strike and one of ground 4 stay.
    follow(
        &mut all_grounds(),
        &[
            ("C 7 4000", "0", ALL_GROUNDS),
            ("R 7", "0 2", [(1, 0), (1, 1), (1, 1)]),
            ("C 9 9000", "0", [(1, 0), (1, 1), (1, 1)]),
            ("R 9", "0 0", [(1, 0), (1, 1), (1, 1)]),
        ],
    );
}

/// A month that takes strikes of all three programs with it.
#[test]
fn expiry() {
    follow(
        &mut all_grounds(),
        &[
            ("M 4", "0", ALL_GROUNDS),
            ("M 5", "0", ALL_GROUNDS),
            ("M 6", "0", [(1, 1), (1, 0), (1, 0)]),
            ("M 13", "0", [(1, 1), (1, 0), (1, 0)]),
            ("M 14", "0", [(1, 0), (1, 0), (1, 0)]),
        ],
    );
    follow(
        &mut all_grounds(),
        &[("M 1023", "0", [(1, 0), (1, 0), (1, 0)])],
    );
}

/// Designation 2 is not counted, and a strike counts for its ground's program
/// after its class's release.
#[test]
fn designation() {
    follow(
        &mut all_grounds(),
        &[
            // A repeat changes nothing.
            ("D 7 1 1", "0", ALL_GROUNDS),
            ("D 7 1 0", "0", [(0, 2), (1, 1), (1, 1)]),
            ("D 7 1 0", "0", [(0, 2), (1, 1), (1, 1)]),
            ("D 7 1 2", "0", [(0, 2), (1, 1), (1, 1)]),
            ("D 7 1 1", "0", ALL_GROUNDS),
            ("D 7 1 2", "0", [(0, 2), (1, 1), (1, 1)]),
            ("D 7 2 2", "0", [(0, 2), (0, 1), (1, 1)]),
            ("D 9 3 0", "0", [(0, 2), (0, 1), (0, 1)]),
            ("D 9 3 2", "0", [(0, 2), (0, 1), (0, 1)]),
            ("D 9 1 2", "0", [(0, 2), (0, 1), (0, 1)]),
            // What stands goes as before.
            ("X 7 5 9", "0", [(0, 2), (0, 0), (0, 1)]),
            ("X 7 5 14", "0", [(0, 1), (0, 0), (0, 1)]),
            ("X 9 5 105", "0", [(0, 1), (0, 0), (0, 0)]),
            ("M 14", "0", [(0, 0), (0, 0), (0, 0)]),
        ],
    );
}

/// The other calls, and those that are refused.
#[test]
fn what_changes_no_counter() {
    let mut book = all_grounds();
    let lines = [
        ("O 8", "0"),
        ("C 7 300", "0"),
        ("H 7 200 400", "0"),
        ("V 7 2000", "0"),
        ("J 7 6 14", "0 1"),
        ("I 7 5 14 1 1", "0"),
        ("I 7 5 9 0 1", "0"),
        ("X 7 5 14", "14"),
        ("X 7 5 15", "7"),
        ("L 7 5 14", "6"),
        ("L 7 5 999", "11"),
        ("L 7 4 14", "5"),
        ("D 8 1 1", "8"),
        ("D 9 2 1", "9"),
        ("D 7 4 1", "2"),
        ("D 7 1 3", "2"),
        ("D 10 1 1", "4"),
        ("M 3", "5"),
        ("R 8", "8"),
        ("O 7", "3"),
    ];
    for (line, answer) in lines {
        follow(&mut book, &[(line, answer, ALL_GROUNDS)]);
    }
    let long = [5, 7, 10, 12, 15, 17, 20, 22, 25];
    assert_eq!(permitted(&mut book, 40), dollars(&long));
    expect_counts(&book, ALL_GROUNDS);
}

/// Each cap exactly, and the next class: qualifying for each, ours in none yet.
#[test]
fn the_caps_exactly() {
    for (program, cap) in [(1, 150), (2, 20), (3, 60)] {
        let counts = |own| {
            let mut counts = [(0, 0); 3];
            counts[program - 1] = (own, 0);
            counts
        };
        let mut book = fresh();
        for c in 1..=cap + 1 {
            let lines = [
                format!("O {c}"),
                format!("C {c} 500"),
                format!("V {c} 1000"),
            ];
            accept(&mut book, &lines.each_ref().map(String::as_str));
        }
        for c in 1..=cap {
            follow(
                &mut book,
                &[(&format!("D {c} {program} 1"), "0", counts(c))],
            );
        }
        let next = format!("D {} {program} 1", cap + 1);
        follow(
            &mut book,
            &[
                (&next, "10", counts(cap)),
                (&format!("D 3 {program} 2"), "0", counts(cap - 1)),
                (&next, "0", counts(cap)),
                (&format!("D 3 {program} 1"), "10", counts(cap)),
            ],
        );
    }
}

/// "The words needed grow by three"
#[test]
fn words_needed() {
    // A class takes five, an expiration with a strike two.
    for (length, opened, listed) in [
        (4, "15", "4"),
        (8, "15", "4"),
        (9, "0", "15"),
        (10, "0", "15"),
        (11, "0", "0 0"),
    ] {
        let mut book = PlainBook::fresh(length).unwrap();
        assert_eq!(say(&mut book, "O 7"), opened, "{length}");
        say(&mut book, "C 7 200");
        assert_eq!(say(&mut book, "L 7 5 5"), listed, "{length}");
    }
    // What 15 refuses is not counted.
    let mut book = PlainBook::fresh(11).unwrap();
    accept(&mut book, &["O 7", "C 7 200", "D 7 1 1"]);
    follow(
        &mut book,
        &[
            ("L 7 5 14", "0 1", [(1, 1), (0, 0), (0, 0)]),
            ("L 7 5 12", "15", [(1, 1), (0, 0), (0, 0)]),
            ("L 7 6 14", "15", [(1, 1), (0, 0), (0, 0)]),
            ("O 8", "15", [(1, 1), (0, 0), (0, 0)]),
        ],
    );
}

// ---- A look at a counter -----------------------------------------------

/// 1 comes before 2.
#[test]
fn numbers_of_a_look() {
    let words = all_grounds().words();
    let mut damaged = words.clone();
    damaged[3] += 1;
    for program in [0, 4, 5, 256, u32::MAX] {
        assert_eq!(counter_on_words(&words, program), Err(2), "{program}");
        assert_eq!(counter_on_words(&damaged, program), Err(1), "{program}");
    }
    for program in 1..=3 {
        assert!(counter_on_words(&words, program).is_ok());
        assert_eq!(counter_on_words(&damaged, program), Err(1));
        for length in 0..4 {
            assert_eq!(counter_on_words(&words[..length], program), Err(1));
        }
    }
}

// ---- Runs that are no book ---------------------------------------------

/// The book of all grounds, with some words changed.
fn changed(change: impl Fn(&mut Vec<u32>)) -> Vec<u32> {
    let mut words = all_grounds().words();
    words.truncate(30);
    change(&mut words);
    words
}

/// No book: every call refuses 1 and changes nothing, and so does a look.
fn expect_no_book(name: &str, words: &[u32]) {
    assert!(!is_book(words), "{name}");
    let mut left = words.to_vec();
    let (c, m, h) = (7, 6, 14);
    for call in [
        Call::Malformed,
        Call::M { m },
        Call::O { c: 8 },
        Call::D { c, p: 1, d: 0 },
        Call::L { c, m, h },
        Call::R { c },
    ] {
        let answer = make_on_words(&mut left, &mut [], &call);
        assert_eq!((answer.number, answer.value), (1, 0), "{name}");
    }
    assert_eq!(left, words, "{name}");
    for program in 1..=3 {
        assert_eq!(counter_on_words(words, program), Err(1), "{name}");
    }
}

/// Where its words stand: the Half and the Dollar strike of class 7, its Wing, the
/// Standard strike of class 9 and its strike of ground 4.
const SEVEN: usize = 4;
const HALF: usize = 10;
const DOLLAR: usize = 11;
const WING: usize = 13;
const NINE: usize = 14;
const STANDARD: usize = 20;
const TWO_FIFTY: usize = 21;

#[test]
fn the_book_itself() {
    let words = changed(|_| ());
    assert!(is_book(&words));
    assert_eq!(words[0], head(4, 22));
    assert_eq!(words[1..4], counter_words(ALL_GROUNDS));
    assert_eq!(words[SEVEN..SEVEN + 5], class_seven([1, 1, 0]));
    assert_eq!(
        [words[HALF], words[DOLLAR]],
        [strike(9, 2, 0, 0), strike(14, 1, 0, 0)]
    );
    assert_eq!(words[WING], strike(14, 3, 0, 0));
    assert_eq!(
        [words[STANDARD], words[TWO_FIFTY]],
        [strike(100, 0, 0, 0), strike(105, 4, 0, 0)]
    );
}

fn class_seven(designations: [u32; 3]) -> [u32; 5] {
    class_words(7, designations, Prices::at(200), 1_000)
}

/// "a run whose counters disagree with its classes or strikes is no book": one
/// more and one less, in each program and each field.
#[test]
fn off_by_one() {
    for at in 1..=3 {
        for one in [1, 256] {
            expect_no_book("one more", &changed(|words| words[at] += one));
            expect_no_book("one less", &changed(|words| words[at] -= one));
        }
        expect_no_book("no count at all", &changed(|words| words[at] = COUNTER));
    }
    // From one program to another, and from one field to the other.
    for (from, to) in [(1, 2), (2, 1), (1, 3), (3, 1), (2, 3), (3, 2)] {
        for one in [1, 256] {
            let moved = changed(|words| {
                words[from] -= one;
                words[to] += one;
            });
            expect_no_book("moved", &moved);
        }
    }
    for at in 1..=3 {
        let moved = changed(|words| words[at] = words[at] - 256 + 1);
        expect_no_book("a strike as a class", &moved);
    }
    // A fresh book with something counted.
    for at in 1..=3 {
        for one in [1, 256, 128, 1 << 23] {
            let mut words = PlainBook::fresh(4).unwrap().words();
            words[at] += one;
            expect_no_book("nothing to count", &words);
        }
    }
}

/// The form of a counter, and its place.
#[test]
fn counters_of_another_form() {
    for at in 1..=3 {
        for bit in 24..28 {
            expect_no_book("stray bit", &changed(|words| words[at] += 1 << bit));
        }
        for kind in (0..16).filter(|kind| *kind != 8) {
            let other = changed(|words| words[at] = words[at] - COUNTER + (kind << 28));
            expect_no_book("another kind", &other);
        }
        let taken = changed(|words| {
            words.remove(at);
            words.push(0);
            words[0] = head(4, 21);
        });
        expect_no_book("taken out", &taken);
        let twice = changed(|words| {
            words.insert(at, words[at]);
            words[0] = head(4, 23);
        });
        expect_no_book("twice", &twice);
    }
    expect_no_book("the second first", &changed(|words| words.swap(1, 2)));
    expect_no_book("the third first", &changed(|words| words.swap(1, 3)));
    // Programs 2 and 3 count the same here.
    assert!(is_book(&changed(|words| words.swap(2, 3))));
    let before = changed(|words| words[..4].rotate_left(1));
    expect_no_book("before the head", &before);
    let after = changed(|words| words[1..9].rotate_left(3));
    expect_no_book("after the first class", &after);
    let none = changed(|words| {
        words.drain(1..4);
        words[0] = head(4, 19);
    });
    expect_no_book("as before #104", &none);
}

/// A ground changed in a strike word without its counter; with it, a book.
#[test]
fn a_ground_changed() {
    // By program, and none first.
    let program_of = [0, 1, 2, 1, 3];
    let strikes = [
        (STANDARD, 0),
        (DOLLAR, 1),
        (HALF, 2),
        (WING, 3),
        (TWO_FIFTY, 4),
    ];
    for (at, ground) in strikes {
        for other in 0..5 {
            let moved = changed(|words| words[at] = words[at] - 32_768 * ground + 32_768 * other);
            let [program, other_program] = [ground, other].map(|it| program_of[it as usize]);
            if program == other_program {
                // Dollar and Wing count alike.
                assert!(is_book(&moved), "{ground} to {other}");
                continue;
            }
            expect_no_book("another ground", &moved);
            let mut counted = moved.clone();
            if program > 0 {
                counted[program] -= 256;
            }
            if other_program > 0 {
                counted[other_program] += 256;
            }
            assert!(is_book(&counted), "{ground} to {other}");
        }
    }
}

/// Two strikes of different programs exchanged: the counters are as true as before.
#[test]
fn two_strikes_exchanged() {
    let exchanged = changed(|words| words.swap(WING, TWO_FIFTY));
    // $52.50 in month 13 of class 7, and $7 below the Standard $50 of class 9: strikes fall.
    expect_no_book("strikes fall", &exchanged);
    let exchanged = changed(|words| {
        words[WING] = strike(14, 4, 0, 0);
        words[TWO_FIFTY] = strike(105, 3, 0, 0);
    });
    assert!(is_book(&exchanged));
    let book = PlainBook::read(&exchanged).unwrap();
    expect_counts(&book, ALL_GROUNDS);
    assert_eq!(book.classes[&7].strikes[&(13, 14)].ground, 4);
    assert_eq!(book.classes[&9].strikes[&(5, 105)].ground, 3);
    // Within one expiration too, and with a Standard one.
    for (one, other) in [(HALF, DOLLAR), (STANDARD, TWO_FIFTY), (STANDARD, WING)] {
        let exchanged = changed(|words| {
            let [ground, other_ground] = [one, other].map(|at| words[at] & 7 << 15);
            words[one] = words[one] - ground + other_ground;
            words[other] = words[other] - other_ground + ground;
        });
        assert_ne!(exchanged, changed(|_| ()));
        assert!(is_book(&exchanged));
    }
}

/// A designation changed without its counter; with it, a book.
#[test]
fn a_designation_changed() {
    for (at, own, number, prices) in [
        (SEVEN, [1, 1, 0], 7, Prices::at(200)),
        (NINE, [0, 0, 1], 9, Prices::at(4_850)),
    ] {
        for program in 0..3 {
            for other in 0..3 {
                let mut designations = own;
                designations[program] = other;
                let word = class_words(number, designations, prices, 0)[0];
                let moved = changed(|words| words[at] = word);
                let [was, is] = [own[program], other].map(|d| u32::from(d == 1));
                if was == is {
                    // Neither 0 nor 2 is counted.
                    assert!(is_book(&moved), "{number} {designations:?}");
                    continue;
                }
                expect_no_book("another designation", &moved);
                let mut counted = moved.clone();
                counted[1 + program] = counted[1 + program] - was + is;
                assert!(is_book(&counted), "{number} {designations:?}");
            }
        }
    }
    // From one program to the other.
    let moved = changed(|words| words[SEVEN..SEVEN + 5].copy_from_slice(&class_seven([0, 1, 1])));
    expect_no_book("designations exchanged", &moved);
}

/// A class, or a strike, more or less than is counted.
#[test]
fn classes_and_strikes_come_and_go() {
    let without = |taken: std::ops::Range<usize>| {
        changed(|words| {
            let count = taken.len();
            words.drain(taken.clone());
            words[0] = head(4, 22 - count);
            words.extend(vec![0; count]);
        })
    };
    expect_no_book("no Dollar strike", &without(DOLLAR..DOLLAR + 1));
    expect_no_book("no Half strike", &without(HALF..HALF + 1));
    expect_no_book("no Wing", &without(WING - 1..WING + 1));
    expect_no_book("no strike of ground 4", &without(TWO_FIFTY..TWO_FIFTY + 1));
    expect_no_book("no class 9", &without(NINE..TWO_FIFTY + 1));
    // A Standard one is not counted.
    assert!(is_book(&without(STANDARD..STANDARD + 1)));
    let mut less = without(NINE..TWO_FIFTY + 1);
    less[3] = COUNTER;
    assert!(is_book(&less));
    for ground in 0..5 {
        let more = changed(|words| {
            words[TWO_FIFTY + 1] = strike(200, ground, 1, 1);
            words[0] = head(4, 23);
        });
        match ground {
            0 => assert!(is_book(&more)),
            _ => expect_no_book("a strike more", &more),
        }
    }
}

// ---- The width of the fields -------------------------------------------

/// A run of this many classes of our own in program 1, whose counter says another
/// number.
fn own_classes(classes: u32, said: u32) -> Vec<u32> {
    let mut words = vec![head(0, 4 + 5 * classes as usize)];
    words.extend(counter_words([(said, 0), (0, 0), (0, 0)]));
    for c in 1..=classes {
        words.extend(class_words(c, [1, 0, 0], Prices::at(0), 0));
    }
    words
}

/// The cap holds, whatever a counter says.
#[test]
fn more_own_classes_than_the_field_holds() {
    assert!(is_book(&own_classes(150, 150)));
    for (classes, said) in [(150, 149), (149, 150), (151, 151), (151, 150), (255, 255)] {
        expect_no_book("about the cap", &own_classes(classes, said));
    }
    // 256 would be 0 in 8 bits.
    for (classes, said) in [(256, 0), (256, 150), (256, 255), (257, 1), (400, 144)] {
        expect_no_book("beyond 8 bits", &own_classes(classes, said));
    }
}

/// As many strikes as a run has room for, all on one ground.
#[test]
fn the_most_strikes() {
    for (ground, program) in [(1, 1), (3, 1), (2, 2), (4, 3)] {
        let counts = |strikes| {
            let mut counts = [(0, 0); 3];
            counts[program - 1] = (0, strikes);
            counts
        };
        let strikes = 65_535 - 4 - 5 - 4;
        let mut words = vec![head(0, 65_535)];
        words.extend(counter_words(counts(strikes)));
        words.extend(class_words(7, [0; 3], Prices::at(0), 0));
        for place in 0..strikes {
            let (month, h) = (place / 19_999, 1 + place % 19_999);
            if h == 1 {
                words.push(EXPIRATION + month);
            }
            words.push(strike(h, ground, 0, 0));
        }
        assert_eq!(words.len(), 65_535);
        let mut book = PlainBook::read(&words).unwrap();
        expect_counts(&book, counts(strikes));
        accept(&mut book, &["M 1"]);
        expect_counts(&book, counts(strikes - 19_999));
    }
}
