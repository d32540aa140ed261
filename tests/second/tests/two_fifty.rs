//! #101, the $2.50 program: the worked examples, and its edges.

mod common;
use calls::words::{class_words, headed, strike, Prices, CLASS, EXPIRATION, FIRST_CLASS};
use common::*;
use second::PlainBook;

/// Class 7 at a close, in the $2.50 program.
fn two_fifty_class(close: u32) -> PlainBook {
    let mut book = at_close(close);
    accept(&mut book, &["D 7 3 1"]);
    book
}

/// Class 7 at a close, in the $1 program and in the $2.50 program.
fn dollar_and_two_fifty_class(close: u32) -> PlainBook {
    let mut book = dollar_class(close);
    accept(&mut book, &["D 7 3 2"]);
    book
}

// ---- The worked examples -----------------------------------------------

/// "At a close of 4850 the user expects $52.50 and $57.50"
#[test]
fn close_4850() {
    for designation in 1..=2 {
        let mut book = at_close(4_850);
        expect(
            &mut book,
            &[
                ("J 7 5 105", "11"),
                (&format!("D 7 3 {designation}"), "0"),
                ("J 7 5 105", "0 4"),
                ("J 7 5 115", "0 4"),
                ("J 7 5 125", "11"),
                ("J 7 5 85", "0 4"),
                ("J 7 5 95", "0 4"),
                // The multiples of $5 are Standard's.
                ("J 7 5 90", "0 0"),
                ("J 7 5 110", "0 0"),
            ],
        );
        let mut wanted: Vec<u32> = (50..=120).step_by(5).collect();
        wanted.extend([130, 140]);
        assert_eq!(permitted(&mut book, 5), wanted);
        expect(&mut book, &[("L 7 5 105", "0 4"), ("D 7 3 0", "0")]);
        expect(&mut book, &[("J 7 5 115", "11"), ("J 7 5 105", "6")]);
    }
}

#[test]
fn close_4850_in_a_dollar_class() {
    let mut book = dollar_and_two_fifty_class(4_850);
    expect(
        &mut book,
        &[
            ("J 7 5 95", "11"),
            ("J 7 5 105", "0 4"),
            ("J 7 5 115", "0 4"),
            ("J 7 5 125", "11"),
            ("J 7 5 94", "0 1"),
        ],
    );
    let mut wanted: Vec<u32> = (25..=50).collect();
    wanted.extend([55, 60, 65, 70]);
    let mut wanted = dollars(&wanted);
    wanted.extend([105, 115]);
    wanted.sort();
    assert_eq!(permitted(&mut book, 5), wanted);
}

/// "If an underlying security closes at $54, the Exchange may list the $52.50
/// strike price, the $57.50 strike price and the $62.50 strike price"
#[test]
fn close_5400() {
    let mut book = two_fifty_class(5_400);
    expect(
        &mut book,
        &[
            ("J 7 5 105", "0 4"),
            ("J 7 5 115", "0 4"),
            ("J 7 5 125", "0 4"),
            ("J 7 5 135", "11"),
        ],
    );
}

#[test]
fn close_2000() {
    let mut book = two_fifty_class(2_000);
    expect(&mut book, &[("J 7 5 75", "0 4"), ("J 7 5 85", "12")]);
    // Above $50 the grid refuses first.
    expect(&mut book, &[("J 7 5 105", "11")]);
}

#[test]
fn a_long_expiration_has_none() {
    let mut book = two_fifty_class(4_850);
    expect(&mut book, &[("J 7 12 105", "0 4"), ("J 7 12 85", "0 4")]);
    expect(&mut book, &[("J 7 13 105", "11"), ("J 7 13 85", "11")]);
    let mut without = at_close(4_850);
    assert_eq!(permitted(&mut book, 13), permitted(&mut without, 13));
}

/// "For spacing it counts as Standard."
#[test]
fn dollar_beside_a_standing_27_50() {
    let mut book = two_fifty_class(3_000);
    expect(
        &mut book,
        &[
            ("L 7 5 55", "0 4"),
            ("D 7 1 1", "0"),
            ("J 7 5 54", "13"),
            ("L 7 5 54", "13"),
            ("J 7 5 56", "13"),
            ("J 7 5 52", "0 1"),
            ("J 7 5 58", "0 1"),
            // In another expiration nothing stands.
            ("J 7 6 54", "0 1"),
        ],
    );
}

#[test]
fn ground_4_beside_a_standing_dollar() {
    let mut book = two_fifty_class(3_000);
    expect(
        &mut book,
        &[
            ("D 7 1 1", "0"),
            ("L 7 5 54", "0 1"),
            // In the $1 class $27.50 is on no grid.
            ("J 7 5 55", "11"),
            ("D 7 1 0", "0"),
            ("J 7 5 55", "13"),
            ("L 7 5 55", "13"),
            ("J 7 6 55", "0 4"),
            ("J 7 5 65", "0 4"),
            ("X 7 5 54", "0"),
            ("L 7 5 55", "0 4"),
        ],
    );
}

#[test]
fn the_61st_class_and_a_release() {
    let mut book = fresh();
    // "a new 1 needs the cap only, not a close."
    for c in 1..=60 {
        expect(
            &mut book,
            &[(&format!("O {c}"), "0"), (&format!("D {c} 3 1"), "0")],
        );
    }
    expect(
        &mut book,
        &[
            ("O 61", "0"),
            ("D 61 3 1", "10"),
            // Another exchange's designation needs nothing.
            ("D 61 3 2", "0"),
            ("D 61 3 1", "10"),
            ("D 61 3 0", "0"),
            // A repeat is accepted, untested, at the cap.
            ("D 3 3 1", "0"),
            // The other programs' counts are their own.
            ("D 61 1 1", "8"),
            ("C 61 500", "0"),
            ("V 61 1000", "0"),
            ("D 61 1 1", "0"),
            ("D 61 2 1", "0"),
            ("D 61 3 1", "10"),
            // The release frees one place, and one only.
            ("D 3 3 0", "0"),
            ("D 61 3 1", "0"),
            ("D 3 3 1", "10"),
            ("D 4 3 2", "0"),
            ("D 3 3 1", "0"),
            ("D 4 3 1", "10"),
        ],
    );
    assert_eq!([1, 2, 3].map(|program| book.own_count(program)), [1, 1, 60]);
    assert_eq!(PlainBook::read(&book.words()), Some(book));
}

#[test]
fn numbers_of_the_program() {
    let mut book = fresh();
    expect(
        &mut book,
        &[
            ("D 7 4 1", "2"),
            ("D 7 3 3", "2"),
            ("D 7 3 0", "4"),
            ("D 7 3 1", "4"),
            ("O 7", "0"),
            ("D 7 4 1", "2"),
            ("D 7 3 0", "0"),
            // Neither 8 nor 9, at no close and at any.
            ("D 7 3 1", "0"),
            ("L 7 5 105", "8"),
            ("J 7 5 105", "8"),
            ("A 7 5", "8"),
            ("R 7", "8"),
            ("D 7 3 2", "0"),
            ("D 7 3 1", "0"),
            ("D 7 3 0", "0"),
            ("C 7 999999", "0"),
            ("D 7 3 1", "0"),
        ],
    );
}

/// "`O` adds a class with close, volume and designations 0"
#[test]
fn a_class_opens_with_no_designation() {
    let mut book = fresh();
    accept(&mut book, &["O 7"]);
    for program in 1..=3 {
        assert_eq!(book.classes[&7].designation(program), 0);
    }
    let before = book.words();
    assert_eq!(before[FIRST_CLASS], CLASS + 7);
    accept(&mut book, &["D 7 3 2"]);
    assert_eq!(book.words()[FIRST_CLASS], CLASS + 7 + (2 << 18));
    accept(&mut book, &["D 7 3 0"]);
    assert_eq!(book.words(), before);
}

// ---- Its grid and its range further ------------------------------------

#[test]
fn above_25_and_below_50() {
    let mut book = two_fifty_class(3_500);
    expect(
        &mut book,
        &[
            ("J 7 5 45", "0 0"),
            ("J 7 5 50", "0 0"),
            ("J 7 5 54", "11"),
            ("J 7 5 55", "0 4"),
            ("J 7 5 56", "11"),
            ("J 7 5 60", "0 0"),
            ("J 7 5 100", "0 0"),
            // $52.50 is $17.50 off, and below $50 no such thing is asked.
            ("J 7 5 105", "11"),
            ("C 7 6500", "0"),
            ("J 7 5 95", "0 4"),
            ("J 7 5 65", "0 4"),
            ("J 7 5 55", "12"),
        ],
    );
    // A $1 class loses $22.50, and ground 4 doesn't give it back.
    let mut book = dollar_and_two_fifty_class(3_500);
    expect(&mut book, &[("J 7 5 45", "11"), ("J 7 5 55", "11")]);
    // Nor at a close of 5,000, where it has no Dollar strike either.
    expect(
        &mut book,
        &[
            ("C 7 5000", "0"),
            ("J 7 5 95", "11"),
            ("J 7 5 94", "11"),
            ("J 7 5 90", "0 0"),
            ("J 7 5 105", "0 4"),
        ],
    );
}

#[test]
fn exactly_10_from_the_close() {
    let mut book = two_fifty_class(6_250);
    expect(&mut book, &[("J 7 5 105", "0 4"), ("J 7 5 145", "0 4")]);
    accept(&mut book, &["C 7 6249"]);
    expect(&mut book, &[("J 7 5 105", "0 4"), ("J 7 5 145", "11")]);
    accept(&mut book, &["C 7 6251"]);
    expect(&mut book, &[("J 7 5 105", "11"), ("J 7 5 145", "0 4")]);
}

#[test]
fn to_100() {
    let mut book = two_fifty_class(10_750);
    expect(&mut book, &[("J 7 5 195", "0 4"), ("J 7 5 205", "11")]);
    expect(&mut book, &[("J 7 5 200", "0 0"), ("J 7 5 215", "11")]);
    accept(&mut book, &["C 7 10751"]);
    expect(&mut book, &[("J 7 5 195", "11")]);
}

/// "The range rule holds as for Standard."
#[test]
fn the_range_is_standard() {
    // Within 100% at $27.50 and not a cent below; the five end at $25.
    let mut book = two_fifty_class(1_375);
    expect(&mut book, &[("J 7 5 55", "0 4"), ("J 7 5 65", "12")]);
    accept(&mut book, &["C 7 1374"]);
    expect(&mut book, &[("J 7 5 55", "12"), ("J 7 5 50", "0 0")]);
    // Five of Standard above $2, none of them pushed out.
    accept(&mut book, &["C 7 200"]);
    assert_eq!(permitted(&mut book, 5), [5, 10, 15, 20, 25]);
    // 50% above and below.
    accept(&mut book, &["C 7 5500"]);
    expect(&mut book, &[("J 7 5 55", "0 4")]);
    accept(&mut book, &["C 7 5501"]);
    expect(&mut book, &[("J 7 5 55", "12")]);
    accept(&mut book, &["C 7 2167"]);
    expect(&mut book, &[("J 7 5 65", "0 4")]);
    accept(&mut book, &["C 7 2166"]);
    expect(&mut book, &[("J 7 5 65", "12")]);
}

// ---- Ground 4 on a read book, and the review ---------------------------

/// A ground 4 strike may stand under any strike and designation: for spacing
/// it counts as Standard there too.
#[test]
fn ground_4_where_no_call_makes_it() {
    let with_ground_4 = |month: u32, h: u32| {
        let mut classes = class_words(7, [2, 0, 0], Prices::at(1_300), 0).to_vec();
        classes.extend([EXPIRATION + month, strike(h, 4, 0, 0)]);
        PlainBook::read(&headed(4, &classes)).unwrap()
    };
    expect(
        &mut with_ground_4(5, 25),
        &[
            ("J 7 5 24", "13"),
            ("J 7 5 25", "6"),
            ("J 7 5 26", "13"),
            ("J 7 5 28", "0 1"),
        ],
    );
    // $13.50 is no multiple of $2.50.
    expect(
        &mut with_ground_4(5, 27),
        &[("J 7 5 26", "0 1"), ("J 7 5 28", "0 1")],
    );
    // "In a long expiration ... on any ground."
    expect(&mut with_ground_4(13, 32), &[("J 7 13 30", "13")]);
    expect(&mut with_ground_4(13, 33), &[("J 7 13 30", "0 0")]);
}

/// Ground 4 at $27.50 and $37.50, Dollar at $24, $36 and $41, at a close of
/// 3000.
fn for_review() -> PlainBook {
    let mut book = two_fifty_class(3_000);
    expect(
        &mut book,
        &[
            ("L 7 5 55", "0 4"),
            ("L 7 5 75", "0 4"),
            ("D 7 1 1", "0"),
            ("L 7 5 48", "0 1"),
            ("L 7 5 72", "0 1"),
            ("L 7 5 82", "0 1"),
        ],
    );
    book
}

fn standing(book: &PlainBook) -> Vec<u32> {
    book.classes[&7].strikes.keys().map(|(_, h)| *h).collect()
}

#[test]
fn review_leaves_ground_4() {
    let mut book = for_review();
    // $37.50 is $7.50 off and stays.
    expect(&mut book, &[("R 7", "0 3")]);
    assert_eq!(standing(&book), [55, 75]);
    expect(&mut book, &[("X 7 5 75", "0"), ("R 7", "0 0")]);
    assert_eq!(standing(&book), [55]);
}

#[test]
fn a_marked_strike_of_ground_4_counts() {
    let mut book = for_review();
    expect(
        &mut book,
        &[
            ("I 7 5 55 1 0", "0"),
            ("I 7 5 75 0 1", "0"),
            ("X 7 5 75", "14"),
            ("R 7", "0 2"),
        ],
    );
    assert_eq!(standing(&book), [55, 72, 75]);
    // Only $37.50 marked: $36 is below the lowest.
    expect(&mut book, &[("I 7 5 55 0 0", "0"), ("R 7", "0 1")]);
    assert_eq!(standing(&book), [55, 75]);
}
