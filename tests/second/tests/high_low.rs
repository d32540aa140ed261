//! #103, high and low: the worked examples, its edges, and the runs that are no
//! book.

mod books;
mod common;
use books::is_book;
use calls::words::{head, strike, CLASS, CLOSE, COUNTER, EXPIRATION, LOW_HIGH, VOLUME};
use calls::Call;
use common::*;
use second::{make_on_words, sheet_program, PlainBook};

/// Class 7 at a close, with a low and a high.
fn at_prices(low: u32, close: u32, high: u32) -> PlainBook {
    let mut book = at_close(close);
    accept(&mut book, &[&format!("H 7 {low} {high}")]);
    book
}

/// The same, a $1 class by another exchange's designation.
fn dollar_class_at(low: u32, close: u32, high: u32) -> PlainBook {
    let mut book = dollar_class(close);
    accept(&mut book, &[&format!("H 7 {low} {high}")]);
    book
}

/// Wants an answer of `J 7 m` for each of the strikes.
fn expect_all(book: &mut PlainBook, m: u32, strikes: &[u32], answer: &str) {
    for h in strikes {
        expect(book, &[(&format!("J 7 {m} {h}"), answer)]);
    }
}

// ---- The worked examples -----------------------------------------------

/// At the low of $19: K up to $38, and the five above it, $20, 22.50, 25, 30 and
/// 35. At the high of $21: $10.50 to $31.50, $12.50 to $30 of the ladder.
#[test]
fn low_1900_close_1950_high_2100() {
    let mut book = at_prices(1_900, 1_950, 2_100);
    let wanted = [5, 10, 15, 20, 25, 30, 35, 40, 45, 50, 60, 70];
    for m in [5, 12, 13, 43] {
        assert_eq!(permitted(&mut book, m), wanted);
        expect_all(&mut book, m, &wanted, "0 0");
        // $40 is above $38 and above $31.50.
        expect_all(&mut book, m, &[80, 90, 100], "12");
        // $37.50 and $38 are off the ladder, and $1 and $21.
        expect_all(&mut book, m, &[75, 76, 2, 42], "11");
    }
}

/// What one of the two prices alone permits is permitted: at $15, K up to $30;
/// at $24, $12 to $36.
#[test]
fn either_price_is_enough() {
    let mut book = at_prices(1_500, 1_500, 2_400);
    let by_the_low = [5, 10, 15, 20];
    let by_the_high = [70];
    let by_both = [25, 30, 35, 40, 45, 50, 60];
    for strikes in [&by_the_low[..], &by_the_high, &by_both] {
        expect_all(&mut book, 5, strikes, "0 0");
    }
    let wanted = [5, 10, 15, 20, 25, 30, 35, 40, 45, 50, 60, 70];
    assert_eq!(permitted(&mut book, 5), wanted);
    accept(&mut book, &["H 7 1500 1500"]);
    expect_all(&mut book, 5, &by_the_high, "12");
    expect_all(&mut book, 5, &by_the_low, "0 0");
    accept(&mut book, &["C 7 2400", "H 7 2400 2400"]);
    expect_all(&mut book, 5, &by_the_low, "12");
    expect_all(&mut book, 5, &by_the_high, "0 0");
}

/// Not at the close, and not at prices between: at $2 the five are $2.50 to
/// $12.50, at $100 the range is $50 to $150.
#[test]
fn low_200_close_2400_high_10000() {
    let mut book = at_prices(200, 2_400, 10_000);
    expect(&mut book, &[("J 7 5 50", "12"), ("L 7 5 50", "12")]);
    expect_all(
        &mut book,
        5,
        &[30, 35, 40, 45, 60, 70, 80, 90, 310, 320],
        "12",
    );
    let mut wanted = vec![5, 10, 15, 20, 25];
    wanted.extend((100..=300).step_by(10));
    assert_eq!(permitted(&mut book, 5), wanted);
    // At the close alone $12 to $36.
    accept(&mut book, &["C 7 2400"]);
    assert_eq!(permitted(&mut book, 5), [25, 30, 35, 40, 45, 50, 60, 70]);
}

/// T6's and T7's strikes together: $23 by the high.
#[test]
fn dollar_long_low_2450_close_2475_high_2500() {
    let mut book = dollar_class_at(2_450, 2_475, 2_500);
    let wanted = [15, 18, 20, 22, 23, 25, 27, 30, 32, 35];
    assert_eq!(permitted(&mut book, 13), dollars(&wanted));
    expect_all(&mut book, 13, &dollars(&[18, 22, 23, 27, 32]), "0 3");
    // $10 and $40 are out of range at both.
    expect_all(&mut book, 13, &dollars(&[13, 37]), "12");
    // $28 has its position at neither.
    expect_all(&mut book, 13, &dollars(&[28, 21]), "11");
    // The spacing, whichever comes first.
    expect(
        &mut book,
        &[
            ("L 7 13 44", "0 3"),
            ("J 7 13 46", "13"),
            ("L 7 14 46", "0 3"),
            ("J 7 14 44", "13"),
            ("A 7 13", "0 8 30 36 40 50 54 60 64 70"),
            // Without the high $23 has no position.
            ("H 7 2450 2499", "0"),
            ("J 7 15 46", "11"),
            ("J 7 15 44", "0 3"),
        ],
    );
}

/// At the low of $2: $5 to $25 in range, wings of L at or above it, $7 to $22. At
/// the high of $40: $20 to $60 in range, $23 to $38 for L + $5 at or below it, and
/// $37, $42 and $47.
#[test]
fn dollar_long_low_200_close_2450_high_4000() {
    let mut book = dollar_class_at(200, 2_450, 4_000);
    let by_the_low = [7, 12, 17, 22];
    let by_the_high = [23, 28, 33, 37, 38, 42, 47];
    for wings in [&by_the_low[..], &by_the_high] {
        expect_all(&mut book, 13, &dollars(wings), "0 3");
    }
    let mut wanted: Vec<u32> = (5..=60).step_by(5).collect();
    wanted.extend(by_the_low);
    wanted.extend(by_the_high);
    wanted.sort();
    assert_eq!(permitted(&mut book, 13), dollars(&wanted));
    // L + $2 has its position at the low alone, and L and L + $5 are in range at
    // the high alone.
    expect_all(&mut book, 13, &dollars(&[27, 32]), "12");
    // L + $3 has its position at the high alone, and L and L + $5 are in range at
    // the low alone.
    expect_all(&mut book, 13, &dollars(&[8, 13, 18]), "12");
    expect(&mut book, &[("L 7 13 54", "12"), ("L 7 13 16", "12")]);
    // At the close alone, $24.50, T6.
    accept(&mut book, &["C 7 2450"]);
    let t6 = [15, 18, 20, 22, 25, 27, 30, 32, 35];
    assert_eq!(permitted(&mut book, 13), dollars(&t6));
}

#[test]
fn numbers_of_h() {
    let mut book = fresh();
    expect(
        &mut book,
        &[
            ("H 7 0 200", "2"),
            ("H 7 200 200", "4"),
            ("O 7", "0"),
            // Before any close, in whatever order low and high are.
            ("H 7 200 200", "8"),
            ("H 7 300 100", "8"),
            ("H 7 0 100", "2"),
            ("C 7 200", "0"),
            ("H 7 0 200", "2"),
            ("H 7 0 199", "2"),
            ("H 7 200 1000000", "2"),
            ("H 7 201 1000000", "2"),
            ("H 7 201 201", "16"),
            ("H 7 201 999999", "16"),
            ("H 7 199 199", "16"),
            ("H 7 1 199", "16"),
            ("H 7 201 199", "16"),
            ("H 8 201 199", "4"),
            ("H 7 200 200", "0"),
            ("H 7 199 201", "0"),
            ("H 7 1 999999", "0"),
            ("H 7 200 200", "0"),
        ],
    );
}

/// It changes low and high of its class, and nothing else.
#[test]
fn h_changes_two_words() {
    let mut book = at_close(200);
    accept(&mut book, &["O 6", "C 6 300", "O 8", "C 8 400", "L 7 5 5"]);
    let mut words = book.words();
    let seven = 9;
    assert_eq!(words[seven..seven + 5], class_seven(200, 200, 200));
    accept(&mut book, &["H 7 150 250"]);
    words[seven..seven + 5].copy_from_slice(&class_seven(200, 150, 250));
    assert_eq!(book.words(), words);
    // A refused one changes nothing.
    for line in ["H 7 201 250", "H 7 150 199", "H 7 0 250", "H 9 150 250"] {
        say(&mut book, line);
        assert_eq!(book.words(), words, "{line}");
    }
    // "`C` sets both to the close"
    accept(&mut book, &["C 7 160"]);
    words[seven..seven + 5].copy_from_slice(&class_seven(160, 160, 160));
    assert_eq!(book.words(), words);
}

#[test]
fn c_after_h_resets() {
    let mut book = at_prices(200, 2_400, 10_000);
    expect(
        &mut book,
        &[
            ("J 7 5 5", "0 0"),
            ("J 7 5 200", "0 0"),
            // Refused, it resets nothing.
            ("C 7 0", "2"),
            ("J 7 5 5", "0 0"),
            ("C 7 2400", "0"),
            ("J 7 5 5", "12"),
            ("J 7 5 200", "12"),
            ("J 7 5 50", "0 0"),
        ],
    );
    let class = &book.classes[&7];
    assert_eq!((class.low, class.close, class.high), (2_400, 2_400, 2_400));
}

/// The book that these lines leave.
fn left_by(lines: &[&str]) -> PlainBook {
    let mut book = fresh();
    accept(&mut book, lines);
    book
}

/// "low and high being facts."
#[test]
fn two_lists_that_differ_in_one_h() {
    let lines = ["M 4", "O 7", "C 7 2400", "L 7 5 50"];
    let with = |more: &[&str]| left_by(&[&lines[..], more].concat());
    assert_ne!(with(&[]), with(&["H 7 2399 2400"]));
    assert_ne!(with(&[]), with(&["H 7 2400 2401"]));
    assert_ne!(with(&["H 7 2300 2500"]), with(&["H 7 2300 2501"]));
    assert_eq!(with(&["H 7 2300 2500", "C 7 2400"]), with(&[]));
    assert_eq!(with(&["H 7 2300 2500", "C 7 2500"]), with(&["C 7 2500"]));
}

// ---- Runs that are no book ---------------------------------------------

/// The words of class 7 before its expirations.
fn class_seven(close: u32, low: u32, high: u32) -> [u32; 5] {
    [
        CLASS + 7,
        CLOSE + close,
        VOLUME,
        LOW_HIGH + low,
        LOW_HIGH + high,
    ]
}

/// A book of class 7 with one strike, and of class 9. Neither is designated, and the strike is Standard.
fn small(close: u32, low: u32, high: u32) -> Vec<u32> {
    let mut words = vec![0, COUNTER, COUNTER, COUNTER];
    words.extend(class_seven(close, low, high));
    words.extend([EXPIRATION + 5, strike(50, 0, 0, 0)]);
    words.extend([CLASS + 9, CLOSE, VOLUME, LOW_HIGH, LOW_HIGH]);
    counted(words)
}

/// The words under a head that counts them, and two words more.
fn counted(mut words: Vec<u32>) -> Vec<u32> {
    words[0] = head(4, words.len());
    words.extend([0, 0]);
    words
}

/// "In every book all three are 0, or 1 ≤ low ≤ close ≤ high."
#[test]
fn prices_of_a_book() {
    let books = [
        (0, 0, 0),
        (200, 200, 200),
        (200, 199, 201),
        (200, 1, 999_999),
        (1, 1, 1),
        (1, 1, 999_999),
        (999_999, 1, 999_999),
        (999_999, 999_999, 999_999),
    ];
    for (close, low, high) in books {
        assert!(is_book(&small(close, low, high)), "{close} {low} {high}");
    }
    let no_books = [
        // A low above the close, and a high below it.
        (200, 201, 201),
        (200, 201, 200),
        (200, 999_999, 999_999),
        (200, 199, 199),
        (200, 200, 199),
        (200, 201, 199),
        // A close of 0 with a low or a high.
        (0, 1, 0),
        (0, 0, 1),
        (0, 1, 1),
        (0, 200, 200),
        // A close without them.
        (200, 0, 200),
        (200, 200, 0),
        (200, 0, 0),
        (1, 0, 1),
        // Beyond their limits.
        (200, 200, 1_000_000),
        (999_999, 200, 1_000_000),
        (1_000_000, 1_000_000, 1_000_000),
    ];
    for (close, low, high) in no_books {
        assert!(!is_book(&small(close, low, high)), "{close} {low} {high}");
    }
}

/// "stored in two kind 7 words ... after the volume word, low first"
#[test]
fn places_of_kind_7() {
    let book = small(200, 150, 250);
    assert!(is_book(&book));
    let used = &book[..book.len() - 2];
    let taken = |place: usize| {
        let mut words = used.to_vec();
        words.remove(place);
        counted(words)
    };
    let put = |place: usize, word: u32| {
        let mut words = used.to_vec();
        words.insert(place, word);
        counted(words)
    };
    let moved = |from: usize, to: usize| {
        let mut words = used.to_vec();
        let word = words.remove(from);
        words.insert(to, word);
        counted(words)
    };
    let no_books = [
        ("no low", taken(7)),
        ("no high", taken(8)),
        ("neither low nor high", {
            let mut words = used.to_vec();
            words.drain(7..9);
            counted(words)
        }),
        ("no high in the last class", taken(15)),
        ("the low twice", put(7, LOW_HIGH + 150)),
        ("the high twice", put(9, LOW_HIGH + 250)),
        ("low and high twice", {
            let mut words = used.to_vec();
            words.splice(9..9, [LOW_HIGH + 150, LOW_HIGH + 250]);
            counted(words)
        }),
        ("a third in the last class", put(16, LOW_HIGH)),
        ("one after the head", put(1, LOW_HIGH)),
        ("one after the counters", put(4, LOW_HIGH)),
        ("one after the expiration", put(10, LOW_HIGH + 150)),
        ("one after the strike", put(11, LOW_HIGH + 150)),
        ("high first", moved(8, 7)),
        ("the low before the volume", moved(7, 6)),
        ("the low before the close", moved(7, 5)),
        ("both before the volume", moved(6, 8)),
        ("the high after the expiration", moved(8, 9)),
        ("the high after the strike", moved(8, 10)),
        ("the low before its class", moved(7, 4)),
        ("the low before the counters", moved(7, 1)),
    ];
    for (name, words) in no_books {
        assert!(!is_book(&words), "{name}");
        let mut changed = words.clone();
        let (c, low, high) = (7, 150, 250);
        for call in [Call::H { c, low, high }, Call::C { c, p: 200 }] {
            let answer = make_on_words(&mut changed, &mut [], &call);
            assert_eq!((answer.number, answer.value), (1, 0), "{name}");
        }
        assert_eq!(changed, words, "{name}");
    }
}

/// Bits 0–19 of a kind 7 word, and every other bit zero.
#[test]
fn bits_of_kind_7() {
    for place in [7, 8, 14, 15] {
        for bit in 20..28 {
            let mut words = small(200, 150, 250);
            words[place] += 1 << bit;
            assert!(!is_book(&words), "word {place}, bit {bit}");
        }
    }
}

// ---- What keeps the close ----------------------------------------------

/// "The program's price conditions ... keep the close": `D`'s.
#[test]
fn designations_need_the_close() {
    let mut book = at_prices(1, 5_000, 5_000);
    expect(
        &mut book,
        &[
            ("D 7 1 1", "9"),
            ("C 7 4999", "0"),
            ("H 7 4999 999999", "0"),
            ("D 7 1 1", "0"),
            ("V 7 1000", "0"),
            ("C 7 501", "0"),
            ("H 7 1 501", "0"),
            ("D 7 2 1", "9"),
            ("C 7 500", "0"),
            ("H 7 500 999999", "0"),
            ("D 7 2 1", "0"),
        ],
    );
}

/// Dollar's "P below 5,000".
#[test]
fn dollar_asks_the_close() {
    // $24.50 to $73.50 and $45 to $135: Dollar to $50, Standard above.
    let mut book = dollar_class_at(4_900, 4_999, 9_000);
    let mut wanted: Vec<u32> = (25..=50).collect();
    wanted.extend((55..=135).step_by(5));
    assert_eq!(permitted(&mut book, 5), dollars(&wanted));
    expect_all(&mut book, 5, &dollars(&[26, 44, 46, 49]), "0 1");
    // Below $50 at the low is not enough.
    let mut book = dollar_class_at(4_900, 5_000, 9_000);
    expect_all(&mut book, 5, &dollars(&[26, 44, 46, 49]), "11");
    let standard: Vec<u32> = (25..=135).step_by(5).collect();
    assert_eq!(permitted(&mut book, 5), dollars(&standard));
}

/// The five are counted above each price, and each chooses its rule.
#[test]
fn five_whole_dollars_above_each() {
    // At $2 up to $7, at $4 up to $9; at the close it would be $8.
    let mut book = dollar_class_at(200, 300, 400);
    let wanted: Vec<u32> = (1..=9).collect();
    assert_eq!(permitted(&mut book, 5), dollars(&wanted));
    expect(&mut book, &[("J 7 5 20", "12")]);
    // At $1 up to $6; at $20.01 from $10.005 to $30.015.
    let mut book = dollar_class_at(100, 300, 2_001);
    let mut wanted: Vec<u32> = (1..=6).collect();
    wanted.extend(11..=30);
    assert_eq!(permitted(&mut book, 5), dollars(&wanted));
    expect_all(&mut book, 5, &dollars(&[7, 8, 10, 31]), "12");
    // At $20 all up to $40.
    accept(&mut book, &["H 7 100 2000"]);
    let wanted: Vec<u32> = (1..=40).collect();
    assert_eq!(permitted(&mut book, 5), dollars(&wanted));
}

/// Wing's "P below 5,000".
#[test]
fn wings_ask_the_close() {
    // At $44 from $22 to $66: L + $3 for $25 to $35, L + $2 for $40 and $45. At $51
    // from $25.50 to $76.50: L + $3 for $30 to $45, and $50 is no L.
    let wings = [28, 33, 38, 42, 43, 47, 48];
    let mut book = dollar_class_at(4_400, 4_999, 5_100);
    expect_all(&mut book, 13, &dollars(&wings), "0 3");
    expect_all(&mut book, 13, &dollars(&[8, 13, 18, 23]), "12");
    expect_all(&mut book, 13, &dollars(&[27, 32, 37, 52, 53]), "11");
    // Below $50 at the low is not enough.
    let mut book = dollar_class_at(4_400, 5_000, 5_100);
    expect_all(&mut book, 13, &dollars(&wings), "11");
}

/// Half's "P at most 500".
#[test]
fn half_asks_the_close() {
    let half_class_at = |low: u32, close: u32, high: u32| {
        let mut book = at_prices(low, close, high);
        accept(&mut book, &["V 7 1000", "D 7 2 2"]);
        book
    };
    // At $1: K up to $2, and Half's $1.50 to $3.50; Standard's $2.50 to $12.50. At
    // $30: $15 to $45, no Half.
    let mut book = half_class_at(100, 500, 3_000);
    expect_all(&mut book, 5, &[1, 2, 3, 4, 6, 7], "0 2");
    expect_all(&mut book, 5, &[8, 9, 11], "12");
    let wanted = [
        1, 2, 3, 4, 5, 6, 7, 10, 15, 20, 25, 30, 35, 40, 45, 50, 60, 70, 80, 90,
    ];
    assert_eq!(permitted(&mut book, 5), wanted);
    let mut book = half_class_at(100, 501, 3_000);
    expect_all(&mut book, 5, &[1, 2, 3, 4, 6, 7, 8], "11");
}

/// Ground 4's $10.
#[test]
fn two_fifty_asks_the_close() {
    let mut book = at_prices(4_000, 4_850, 6_000);
    accept(&mut book, &["D 7 3 1"]);
    // $20 to $60 and $30 to $90; $62.50 is $14 from the close.
    expect_all(&mut book, 5, &[55, 65, 75, 85, 95, 105, 115], "0 4");
    expect_all(&mut book, 5, &[125, 135], "11");
    // $57.50 is above the low's $57, $27.50 below the high's $28.
    accept(&mut book, &["H 7 3800 4850"]);
    expect_all(&mut book, 5, &[115], "0 4");
    accept(&mut book, &["H 7 4850 5600"]);
    expect_all(&mut book, 5, &[55], "0 4");
    // At the close of $56 it is below too.
    accept(&mut book, &["C 7 5600"]);
    expect_all(&mut book, 5, &[55], "12");
}

/// "the review keep[s] the close."
#[test]
fn review_asks_the_close() {
    let mut book = dollar_class(1_300);
    accept(&mut book, &["L 7 5 14", "L 7 5 16", "L 7 5 38", "L 7 5 40"]);
    // $7 and $19 are $6 from the close, and at the low and at the high.
    expect(&mut book, &[("H 7 700 1900", "0"), ("R 7", "0 2")]);
    let standing: Vec<u32> = book.classes[&7].strikes.keys().map(|(_, h)| *h).collect();
    assert_eq!(standing, [16, 40]);
}

// ---- Both prices by calls alone ----------------------------------------

/// Below $50, in no program and in a $1 class, a close alone permits what it does
/// as a low or as a high: a low and a high permit what either permits alone.
#[test]
fn permitted_at_either() {
    let prices = [
        1, 50, 250, 499, 1_000, 1_299, 1_999, 2_000, 2_001, 2_450, 2_500, 3_333, 4_000, 4_999,
    ];
    let mut apart = 0;
    for book_at in [at_close, dollar_class] {
        for m in [5, 13] {
            let alone = prices.map(|p| permitted(&mut book_at(p), m));
            for low in 0..prices.len() {
                for high in low..prices.len() {
                    let mut book = book_at(prices[(low + high) / 2]);
                    let line = format!("H 7 {} {}", prices[low], prices[high]);
                    accept(&mut book, &[&line]);
                    let mut wanted = [&alone[low][..], &alone[high]].concat();
                    wanted.sort();
                    wanted.dedup();
                    assert_eq!(permitted(&mut book, m), wanted, "{line}, {m}");
                    let both = alone[low].iter().chain(&alone[high]).count();
                    apart += u32::from(low < high && wanted.len() == both);
                }
            }
        }
    }
    // Ranges that lie apart were among them.
    assert!(apart > 0);
}

// ---- As a sheet --------------------------------------------------------

#[test]
fn a_sheet_with_h() {
    let sheet =
        b"M 4\nO 7\nH 7 200 200\nC 7 2400\nH 7 200 10000\nJ 7 5 50\nJ 7 5 100\nH 7 2401 2500\n\
        H 7 2300 2399\nH 7 0 2500\nH 8 2300 2500\nH 7 2300\n";
    let wanted = "0\n0\n8\n0\n0\n12\n0 0\n16\n16\n2\n4\n2\n";
    assert_eq!(sheet_program(sheet), wanted);
}
