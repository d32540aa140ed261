//! "Closes at the edges", the likely mistakes, and the order of the numbers.

mod common;
mod reviewed;
use calls::StrikeBook;
use common::*;
use reviewed::for_review;
use second::{sheet_program, PlainBook};

#[test]
fn sample_sheet() {
    let sheet = b"M 4\nO 7\nC 7 200\nD 7 1 1\nA 7 5\nL 7 5 14\nL 7 5 16\nL 7 5 14";
    let wanted = "0\n0\n0\n0\n0 7 2 4 6 8 10 12 14\n0 1\n12\n6\n";
    assert_eq!(sheet_program(sheet), wanted);
    let mut ended = sheet.to_vec();
    ended.push(b'\n');
    assert_eq!(sheet_program(&ended), wanted);
}

// ---- T1 to T10 ---------------------------------------------------------

#[test]
fn t1_dollar_near_200() {
    let mut book = dollar_class(200);
    assert_eq!(permitted(&mut book, 5), dollars(&[1, 2, 3, 4, 5, 6, 7]));
}

#[test]
fn t2_no_program_200() {
    let mut book = at_close(200);
    assert_eq!(permitted(&mut book, 5), [5, 10, 15, 20, 25]);
    assert_eq!(permitted(&mut book, 43), [5, 10, 15, 20, 25]);
}

#[test]
fn t3_dollar_near_2400() {
    let mut book = dollar_class(2_400);
    let wanted: Vec<u32> = (12..=36).collect();
    assert_eq!(wanted.len(), 25);
    assert_eq!(permitted(&mut book, 5), dollars(&wanted));
}

#[test]
fn t4_dollar_near_4999() {
    let mut book = dollar_class(4_999);
    let mut wanted: Vec<u32> = (25..=50).collect();
    wanted.extend([55, 60, 65, 70]);
    assert_eq!(wanted.len(), 30);
    assert_eq!(permitted(&mut book, 5), dollars(&wanted));
}

#[test]
fn t5_dollar_near_5000() {
    let mut book = dollar_class(5_000);
    let wanted = [25, 30, 35, 40, 45, 50, 55, 60, 65, 70, 75];
    assert_eq!(permitted(&mut book, 5), dollars(&wanted));
    expect(&mut book, &[("J 7 5 52", "11"), ("L 7 5 52", "11")]);
}

#[test]
fn t6_dollar_long_2450() {
    let mut book = dollar_class(2_450);
    let wanted = [15, 18, 20, 22, 25, 27, 30, 32, 35];
    assert_eq!(permitted(&mut book, 13), dollars(&wanted));
}

#[test]
fn t7_dollar_long_2500() {
    let mut book = dollar_class(2_500);
    let wanted = [15, 18, 20, 22, 23, 25, 27, 30, 32, 35];
    assert_eq!(permitted(&mut book, 13), dollars(&wanted));
    expect(&mut book, &[("L 7 13 44", "0 3"), ("J 7 13 46", "13")]);
}

#[test]
fn t8_half_class_200() {
    let mut book = at_close(200);
    accept(&mut book, &["V 7 1000", "D 7 2 1"]);
    let wanted = [1, 2, 3, 4, 5, 6, 7, 8, 9, 10, 15, 20, 25];
    assert_eq!(permitted(&mut book, 5), wanted);
    expect(
        &mut book,
        &[("J 7 5 5", "0 0"), ("J 7 5 9", "0 2"), ("J 7 5 11", "12")],
    );
}

#[test]
fn t9_standard_1250_standing() {
    let mut book = at_close(1_300);
    expect(
        &mut book,
        &[
            ("L 7 5 25", "0 0"),
            ("D 7 1 1", "0"),
            ("J 7 5 24", "13"),
            ("L 7 5 26", "13"),
            ("J 7 5 28", "0 1"),
            ("L 7 5 28", "0 1"),
            ("J 7 6 24", "0 1"),
        ],
    );
}

#[test]
fn t10_months() {
    let mut book = dollar_class(2_500);
    expect(
        &mut book,
        &[
            ("J 7 4 50", "5"),
            ("L 7 4 50", "5"),
            ("A 7 4", "5"),
            ("J 7 44 50", "5"),
            ("L 7 44 50", "5"),
            ("A 7 44", "5"),
            // $22: Dollar when near, Wing when long.
            ("J 7 12 44", "0 1"),
            ("J 7 13 44", "0 3"),
            ("J 7 43 44", "0 3"),
            ("J 7 5 44", "0 1"),
            // $21 is on no grid when long.
            ("J 7 12 42", "0 1"),
            ("J 7 13 42", "11"),
        ],
    );
}

// ---- The rest of the edges ---------------------------------------------

#[test]
fn qualification() {
    let mut book = at_close(5_000);
    expect(
        &mut book,
        &[
            ("D 7 1 1", "9"),
            ("C 7 4999", "0"),
            ("D 7 1 1", "0"),
            ("C 7 500", "0"),
            ("D 7 2 1", "9"),
            ("V 7 999", "0"),
            ("D 7 2 1", "9"),
            ("V 7 1000", "0"),
            ("C 7 501", "0"),
            ("D 7 2 1", "9"),
            ("C 7 500", "0"),
            ("D 7 2 1", "0"),
        ],
    );
}

#[test]
fn the_151st_class_and_a_release() {
    let mut book = fresh();
    for c in 1..=151 {
        accept(
            &mut book,
            &[
                &format!("O {c}"),
                &format!("C {c} 100"),
                &format!("V {c} 1000"),
            ],
        );
    }
    for c in 1..=150 {
        accept(&mut book, &[&format!("D {c} 1 1")]);
    }
    expect(
        &mut book,
        &[
            ("D 151 1 1", "10"),
            // 9 comes before 10, another exchange's designation needs nothing.
            ("C 151 5000", "0"),
            ("D 151 1 1", "9"),
            ("C 151 100", "0"),
            ("D 151 1 2", "0"),
            ("D 151 1 1", "10"),
            // The other program's count is its own.
            ("D 151 2 1", "0"),
            // A repeat is accepted, untested, at the cap.
            ("D 3 1 1", "0"),
            // The release frees one place, and one only.
            ("D 3 1 0", "0"),
            ("D 151 1 1", "0"),
            ("D 3 1 1", "10"),
            ("D 4 1 2", "0"),
            ("D 3 1 1", "0"),
            ("D 4 1 1", "10"),
        ],
    );
    assert_eq!(PlainBook::read(&book.words()), Some(book));
}

#[test]
fn the_21st_half_class_and_a_release() {
    let mut book = fresh();
    for c in 1..=21 {
        accept(
            &mut book,
            &[
                &format!("O {c}"),
                &format!("C {c} 500"),
                &format!("V {c} 1000"),
            ],
        );
    }
    for c in 1..=20 {
        accept(&mut book, &[&format!("D {c} 2 1")]);
    }
    expect(
        &mut book,
        &[
            ("D 21 2 1", "10"),
            ("D 21 1 1", "0"),
            ("V 21 999", "0"),
            ("D 21 2 1", "9"),
            ("V 21 1000", "0"),
            ("D 20 2 2", "0"),
            ("D 21 2 1", "0"),
            ("D 20 2 1", "10"),
        ],
    );
}

fn standing(book: &PlainBook) -> Vec<(u32, u32)> {
    book.classes[&7].strikes.keys().copied().collect()
}

#[test]
fn review_with_none_marked() {
    let mut book = for_review();
    expect(&mut book, &[("R 7", "0 2"), ("R 7", "0 0")]);
    assert_eq!(standing(&book), [(5, 16), (5, 40)]);
}

#[test]
fn review_with_7_marked() {
    for marks in ["1 0", "0 1", "1 1"] {
        let mut book = for_review();
        expect(
            &mut book,
            &[(&format!("I 7 5 14 {marks}"), "0"), ("R 7", "0 1")],
        );
        assert_eq!(standing(&book), [(5, 14), (5, 16), (5, 40)]);
    }
}

#[test]
fn review_keeps_an_unmarked_strike_between_two_marked() {
    let mut book = for_review();
    expect(
        &mut book,
        &[("I 7 5 16 1 0", "0"), ("I 7 5 40 0 1", "0"), ("R 7", "0 1")],
    );
    assert_eq!(standing(&book), [(5, 16), (5, 38), (5, 40)]);
    // Unmarked again, $19 goes.
    expect(&mut book, &[("I 7 5 40 0 0", "0"), ("R 7", "0 1")]);
    assert_eq!(standing(&book), [(5, 16), (5, 40)]);
}

#[test]
fn review_looks_at_each_expiration_alone() {
    let mut book = for_review();
    // The marks of month 5 shelter nothing in month 6.
    expect(
        &mut book,
        &[
            ("L 7 6 38", "0 1"),
            ("I 7 5 14 1 0", "0"),
            ("I 7 5 40 1 0", "0"),
            ("R 7", "0 1"),
        ],
    );
    assert_eq!(standing(&book), [(5, 14), (5, 16), (5, 38), (5, 40)]);
}

#[test]
fn review_removes_wings_and_no_standard_or_half() {
    let mut book = dollar_class(2_500);
    expect(
        &mut book,
        &[
            ("L 7 13 36", "0 3"),
            ("L 7 13 64", "0 3"),
            ("L 7 13 70", "0 0"),
            ("L 7 13 44", "0 3"),
        ],
    );
    // $18 and $32 are $7 off, $22 is $3 off.
    expect(&mut book, &[("R 7", "0 2")]);
    assert_eq!(standing(&book), [(13, 44), (13, 70)]);

    let mut book = at_close(200);
    expect(
        &mut book,
        &[
            ("V 7 1000", "0"),
            ("D 7 2 1", "0"),
            ("L 7 5 1", "0 2"),
            ("C 7 9000", "0"),
            ("R 7", "0 0"),
        ],
    );
}

#[test]
fn review_at_exactly_500_away() {
    let mut book = for_review();
    // $8 is 500 off: it stays. At 1301 it is 501 off.
    accept(&mut book, &["C 7 1301"]);
    expect(&mut book, &[("R 7", "0 3")]);
    assert_eq!(standing(&book), [(5, 40)]);
}

// ---- Mistakes likely here ----------------------------------------------

#[test]
fn five_are_counted_from_p() {
    // No program, P 200: within 100% stands $2.50 alone; $15 would be the
    // fifth after it.
    let mut book = at_close(200);
    expect(&mut book, &[("J 7 5 25", "0 0"), ("J 7 5 30", "12")]);
    let mut book = dollar_class(200);
    expect(
        &mut book,
        &[("J 7 5 14", "0 1"), ("J 7 5 16", "12"), ("J 7 5 18", "12")],
    );
}

#[test]
fn wing_13_is_out_of_range_in_t6() {
    let mut book = dollar_class(2_450);
    expect(
        &mut book,
        &[
            ("J 7 13 26", "12"),
            ("J 7 13 74", "12"),
            ("J 7 13 36", "0 3"),
        ],
    );
}

#[test]
fn no_expiration_word_without_strikes() {
    let mut book = at_close(200);
    let before = book.words();
    expect(&mut book, &[("L 7 5 5", "0 0")]);
    assert_ne!(book.words(), before);
    expect(&mut book, &[("X 7 5 5", "0")]);
    assert_eq!(book.words(), before);
    // By the review and by expiry too.
    let mut book = dollar_class(1_300);
    let before = book.words();
    expect(&mut book, &[("L 7 5 14", "0 1"), ("R 7", "0 1")]);
    assert_eq!(book.words(), before);
    expect(&mut book, &[("L 7 5 14", "0 1"), ("M 5", "0")]);
    assert_ne!(book.words()[1..], before[1..]);
    expect(&mut book, &[("M 6", "0")]);
    assert_eq!(book.words()[1..], before[1..]);
}

#[test]
fn a_release_lowers_the_count() {
    let mut book = fresh();
    for c in 1..=2 {
        accept(&mut book, &[&format!("O {c}"), &format!("C {c} 100")]);
    }
    for _ in 0..200 {
        expect(
            &mut book,
            &[
                ("D 1 1 1", "0"),
                ("D 1 1 0", "0"),
                ("D 2 1 1", "0"),
                ("D 2 1 2", "0"),
            ],
        );
    }
    assert_eq!(book.own_count(1), 0);
}

// ---- Grids, range and spacing further ----------------------------------

#[test]
fn ladder_joints() {
    let mut book = at_close(3_000);
    assert_eq!(
        permitted(&mut book, 5),
        [30, 35, 40, 45, 50, 60, 70, 80, 90]
    );
    let mut book = at_close(20_000);
    let mut wanted: Vec<u32> = (100..=200).step_by(5).collect();
    wanted.extend((210..=300).step_by(10));
    assert_eq!(permitted(&mut book, 5), dollars(&wanted));
    expect(
        &mut book,
        &[
            ("J 7 5 410", "11"),
            ("J 7 5 390", "0 0"),
            ("J 7 5 385", "11"),
        ],
    );
    // A $1 class loses $22.50, and nothing above.
    let mut book = at_close(4_500);
    expect(
        &mut book,
        &[
            ("J 7 5 45", "0 0"),
            ("D 7 1 1", "0"),
            ("J 7 5 45", "11"),
            ("J 7 13 45", "11"),
        ],
    );
    expect(
        &mut book,
        &[
            ("J 7 5 90", "0 0"),
            ("J 7 5 110", "0 0"),
            ("J 7 5 105", "11"),
        ],
    );
}

#[test]
fn range_joint_at_2000() {
    let mut book = at_close(2_000);
    let wanted = [5, 10, 15, 20, 25, 30, 35, 40, 45, 50, 60, 70, 80];
    assert_eq!(permitted(&mut book, 5), wanted);
    let mut book = at_close(2_001);
    assert_eq!(permitted(&mut book, 5), [25, 30, 35, 40, 45, 50, 60]);
    expect(&mut book, &[("J 7 5 20", "12"), ("J 7 5 70", "12")]);
}

#[test]
fn a_strike_at_p_is_not_above_it() {
    // P 250: five above are $5, 7.50, 10, 12.50 and 15.
    let mut book = at_close(250);
    assert_eq!(permitted(&mut book, 5), [5, 10, 15, 20, 25, 30]);
    // P 1 cent: nothing within 100%, five above.
    let mut book = at_close(1);
    assert_eq!(permitted(&mut book, 5), [5, 10, 15, 20, 25]);
}

#[test]
fn long_dollar_class_at_a_low_close() {
    // Standard grid by $5: five above $2 are $5 to $25; wings to $22.
    let mut book = dollar_class(200);
    assert_eq!(
        permitted(&mut book, 13),
        dollars(&[5, 7, 10, 12, 15, 17, 20, 22, 25])
    );
    // P at $5: L of $5 is at P (L + $2), $0 is no L.
    let mut book = dollar_class(500);
    assert_eq!(
        permitted(&mut book, 13),
        dollars(&[5, 7, 10, 12, 15, 17, 20, 22, 25, 27, 30])
    );
    expect(&mut book, &[("J 7 13 4", "11"), ("J 7 13 6", "11")]);
    // P at $10.01: $8 below, $12 just below P's own interval.
    let mut book = dollar_class(1_001);
    assert_eq!(
        permitted(&mut book, 13),
        dollars(&[5, 8, 10, 12, 15, 17, 20, 22, 25, 27, 30, 32, 35])
    );
}

#[test]
fn highest_wing_is_below_50() {
    let mut book = dollar_class(4_999);
    // $47 by the largest multiple below P; $48 needs $50 at or below P.
    expect(
        &mut book,
        &[
            ("J 7 13 94", "0 3"),
            ("J 7 13 96", "11"),
            ("J 7 13 104", "11"),
        ],
    );
    let mut book = dollar_class(5_000);
    expect(&mut book, &[("J 7 13 94", "11")]);
}

#[test]
fn spacing_whichever_came_first() {
    // Dollar $12 stands, the class is released, Standard $12.50 comes.
    let mut book = dollar_class(1_300);
    expect(
        &mut book,
        &[
            ("L 7 5 24", "0 1"),
            ("D 7 1 0", "0"),
            ("J 7 5 25", "13"),
            ("J 7 6 25", "0 0"),
            ("J 7 5 20", "0 0"),
            ("J 7 5 35", "0 0"),
        ],
    );
}

#[test]
fn a_later_ground_can_pass_the_spacing() {
    let mut book = at_close(200);
    expect(
        &mut book,
        &[
            ("V 7 1000", "0"),
            ("D 7 1 1", "0"),
            ("D 7 2 1", "0"),
            ("J 7 5 5", "0 2"),
            ("J 7 5 11", "12"),
            ("L 7 5 4", "0 1"),
            ("D 7 1 0", "0"),
            // Standard $2.50 is too near to Dollar $2; Half has no such rule.
            ("J 7 5 5", "0 2"),
            ("L 7 5 5", "0 2"),
            ("D 7 1 1", "0"),
            // Half $2.50 keeps no Dollar away.
            ("J 7 5 6", "0 1"),
        ],
    );
}

#[test]
fn a_half_can_stand_where_a_dollar_cannot() {
    let mut book = at_close(200);
    expect(
        &mut book,
        &[
            ("V 7 1000", "0"),
            ("L 7 5 5", "0 0"),
            ("D 7 1 1", "0"),
            ("J 7 5 4", "13"),
            ("D 7 2 1", "0"),
            ("J 7 5 4", "0 2"),
            ("J 7 5 8", "0 1"),
        ],
    );
}

#[test]
fn long_spacing_on_any_ground() {
    let mut book = at_close(2_400);
    // Standard $22.50 stands long; the class then joins the program.
    expect(
        &mut book,
        &[
            ("L 7 13 45", "0 0"),
            ("D 7 1 1", "0"),
            ("J 7 13 44", "13"),
            ("J 7 13 40", "0 0"),
            // In another expiration nothing stands.
            ("J 7 14 44", "0 3"),
        ],
    );
    // Two wings $1 apart, the higher first.
    let mut book = dollar_class(2_500);
    expect(
        &mut book,
        &[
            ("L 7 13 46", "0 3"),
            ("L 7 13 44", "13"),
            ("L 7 13 50", "0 0"),
        ],
    );
    // The same two are free once the expiration is near.
    expect(&mut book, &[("M 5", "0"), ("L 7 13 44", "0 1")]);
}

#[test]
fn half_grid_edges() {
    let mut book = at_close(500);
    accept(&mut book, &["V 7 1000", "D 7 2 1"]);
    let wanted = [1, 2, 3, 4, 5, 6, 7, 8, 9, 10, 11, 15, 20, 25, 30, 35];
    assert_eq!(permitted(&mut book, 5), wanted);
    // Long: no Half.
    assert_eq!(permitted(&mut book, 13), [5, 10, 15, 20, 25, 30, 35]);
    expect(&mut book, &[("C 7 501", "0"), ("J 7 5 1", "11")]);
    expect(
        &mut book,
        &[("C 7 500", "0"), ("V 7 999", "0"), ("J 7 5 1", "11")],
    );
    expect(
        &mut book,
        &[
            ("V 7 1000", "0"),
            ("C 7 100", "0"),
            ("J 7 5 7", "0 2"),
            ("J 7 5 8", "12"),
        ],
    );
}

// ---- Who draws which number --------------------------------------------

#[test]
fn two_before_all_else() {
    let mut book = fresh();
    for line in [
        "M 1024",
        "O 0",
        "O 16384",
        "C 7 0",
        "C 7 1000000",
        "C 0 5",
        "H 0 5 5",
        "H 16384 5 5",
        "H 7 0 5",
        "H 7 5 0",
        "H 7 1000000 5",
        "H 7 5 1000000",
        "V 7 10000000",
        "D 7 0 1",
        "D 7 4 1",
        "D 7 1 3",
        "L 7 1024 5",
        "L 7 5 0",
        "L 7 5 20000",
        "J 0 5 5",
        "J 7 5 20000",
        "X 7 5 0",
        "I 7 5 5 2 0",
        "I 7 5 5 0 2",
        "I 7 5 0 0 0",
        "R 0",
        "R 16384",
        "A 7 1024",
        "A 16384 5",
        "M 18446744073709551616",
        "O 99999999999999999999999999999999999999",
        // 2^32 + 4 and 2^64 + 4 are not 4.
        "M 4294967300",
        "M 18446744073709551620",
    ] {
        assert_eq!(say(&mut book, line), "2", "{line}");
    }
    assert_eq!(book, fresh());
    expect(
        &mut book,
        &[
            ("O 16383", "0"),
            ("C 16383 999999", "0"),
            ("V 16383 9999999", "0"),
            ("M 1023", "0"),
        ],
    );
}

#[test]
fn classes_open_or_not() {
    let mut book = fresh();
    for line in [
        "C 7 5",
        "H 7 5 5",
        "V 7 5",
        "D 7 1 0",
        "L 7 0 5",
        "J 7 900 5",
        "X 7 5 5",
        "I 7 5 5 0 0",
        "R 7",
        "A 7 0",
    ] {
        assert_eq!(say(&mut book, line), "4", "{line}");
    }
    expect(&mut book, &[("O 7", "0"), ("O 7", "3")]);
}

#[test]
fn five_six_seven_eight() {
    let mut book = fresh();
    accept(&mut book, &["M 4", "O 7"]);
    expect(
        &mut book,
        &[
            ("M 3", "5"),
            ("M 4", "0"),
            // 5 before 8; 8 on a good month.
            ("L 7 4 5", "5"),
            ("J 7 44 5", "5"),
            ("A 7 4", "5"),
            ("L 7 5 5", "8"),
            ("J 7 43 3", "8"),
            ("A 7 5", "8"),
            ("R 7", "8"),
            ("D 7 1 1", "8"),
            ("D 7 2 1", "8"),
            ("D 7 1 0", "0"),
            ("D 7 1 2", "0"),
            ("D 7 2 2", "0"),
            ("D 7 1 1", "8"),
            // X and I draw no 5.
            ("X 7 4 5", "7"),
            ("X 7 3 5", "7"),
            ("I 7 900 5 1 1", "7"),
            ("C 7 200", "0"),
            ("D 7 2 0", "0"),
            ("D 7 1 0", "0"),
            ("L 7 5 5", "0 0"),
            ("L 7 5 5", "6"),
            ("J 7 5 5", "6"),
            // The strike stands in the current month: 5 before 6.
            ("M 5", "0"),
            ("L 7 5 5", "5"),
            ("I 7 5 5 0 1", "0"),
            ("X 7 5 5", "14"),
            ("I 7 5 5 0 0", "0"),
            ("X 7 5 5", "0"),
            ("X 7 5 5", "7"),
        ],
    );
}

#[test]
fn six_before_eight_on_a_read_book() {
    // A class with a strike and no close is a book, though no call makes it.
    let mut book = at_close(200);
    accept(&mut book, &["L 7 5 5"]);
    let mut words = book.words();
    for (place, kind) in [(5, 3), (7, 7), (8, 7)] {
        words[place] = kind << 28;
    }
    let mut book = PlainBook::read(&words).unwrap();
    expect(
        &mut book,
        &[
            ("L 7 5 5", "6"),
            ("J 7 5 5", "6"),
            ("J 7 5 10", "8"),
            ("R 7", "8"),
            ("A 7 5", "8"),
        ],
    );
}

#[test]
fn fifteen_on_o_and_l() {
    for length in [4, 8] {
        let mut book = PlainBook::fresh(length).unwrap();
        expect(&mut book, &[("O 1", "15")]);
    }
    let mut book = PlainBook::fresh(9).unwrap();
    expect(
        &mut book,
        &[
            ("O 1", "0"),
            ("O 2", "15"),
            ("O 1", "3"),
            ("C 1 200", "0"),
            ("L 1 1 5", "15"),
        ],
    );
    let mut book = PlainBook::fresh(10).unwrap();
    expect(
        &mut book,
        &[
            ("O 1", "0"),
            ("C 1 200", "0"),
            ("L 1 1 5", "15"),
            ("J 1 1 5", "0 0"),
        ],
    );
    let mut book = PlainBook::fresh(12).unwrap();
    expect(
        &mut book,
        &[
            ("O 1", "0"),
            ("C 1 200", "0"),
            ("L 1 1 5", "0 0"),
            // Another expiration takes two words, the same one takes one.
            ("L 1 2 10", "15"),
            ("L 1 1 10", "0 0"),
            ("L 1 1 15", "15"),
            ("L 1 1 16", "11"),
            ("L 1 1 30", "12"),
            ("J 1 1 15", "0 0"),
            ("X 1 1 5", "0"),
            ("L 1 1 15", "0 0"),
        ],
    );
}

#[test]
fn fifteen_on_a() {
    let mut book = at_close(666_666);
    // $3,340 to $9,990 by $10: 666 strikes.
    expect(&mut book, &[("A 7 5", "15 666")]);
    let mut run = vec![77; 665];
    let answer = book.list_permitted(&mut run, 7, 5);
    assert_eq!((answer.number, answer.value), (15, 666));
    assert!(run.iter().all(|word| *word == 77));
    let mut run = vec![77; 668];
    let answer = book.list_permitted(&mut run, 7, 5);
    assert_eq!((answer.number, answer.value), (0, 666));
    let strikes: Vec<u32> = (6_680..=19_980).step_by(20).collect();
    assert_eq!(run[..666], strikes);
    assert_eq!(run[666..], [77, 77]);
}

#[test]
fn a_with_no_strike() {
    // T2's five, each listed: none is left.
    let mut book = at_close(200);
    for h in [5, 10, 15, 20, 25] {
        accept(&mut book, &[&format!("L 7 5 {h}")]);
    }
    expect(&mut book, &[("A 7 5", "0 0")]);
    let answer = book.list_permitted(&mut [], 7, 5);
    assert_eq!((answer.number, answer.value), (0, 0));
}

#[test]
fn months_beyond_1023_do_not_come() {
    let mut book = fresh();
    accept(&mut book, &["M 1000", "O 7", "C 7 200"]);
    expect(
        &mut book,
        &[
            ("J 7 1023 5", "0 0"),
            ("J 7 1024 5", "2"),
            ("M 1023", "0"),
            ("J 7 1023 5", "5"),
        ],
    );
}
