//! Document 01's examples and those of the change requests, with the answers that the papers give,
//! asserted of both sides.

use crate::known::Known;
use crate::pair::{same, same_words, Pair};
use calls::Tally;
use second::{parse_line, printed};
use strikebook::library::{self, CounterReply};

/// What `A` prints for these strikes.
fn permitted(strikes: &[u32]) -> String {
    let mut text = format!("0 {}", strikes.len());
    for h in strikes {
        text.push_str(&format!(" {h}"));
    }
    text
}

fn by(step: usize, from: u32, to: u32) -> Vec<u32> {
    (from..=to).step_by(step).collect()
}

/// Makes the calls on a fresh book of the length, and wants the answers. Answers the book.
fn list(length: usize, calls: &str, answers: &str, tally: &mut Tally) -> Result<Pair, String> {
    let mut pair = Pair::fresh(vec![7; length])?;
    make(&mut pair, calls, answers, tally)?;
    Ok(pair)
}

/// Makes the calls on a book with a second run of 512, and wants the answers, both written as document 01
/// writes its sample.
fn make(pair: &mut Pair, calls: &str, answers: &str, tally: &mut Tally) -> Result<(), String> {
    let calls: Vec<&str> = calls.split(" / ").collect();
    let answers: Vec<&str> = answers.split(" / ").collect();
    assert_eq!(calls.len(), answers.len(), "an answer for each call");
    let mut copy = pair.words.clone();
    let mut known = Known::of(&mut copy)?;
    for (line, wanted) in calls.iter().zip(answers) {
        let call = parse_line(line.as_bytes());
        let told = |text| format!("`{line}`: {text}");
        let made = pair.make(&mut known, &call, &[7; 512], tally);
        let (answer, second) = made.map_err(told)?;
        // The two sides agree; the strikes are those that the library wrote.
        let text = printed(&call, answer, &second);
        if text != wanted {
            let said = format!("both sides answer {text}, the papers {wanted}");
            return Err(told(said));
        }
    }
    Ok(())
}

const SAMPLE: &str = "M 4 / O 7 / C 7 200 / D 7 1 1 / A 7 5 / L 7 5 14 / L 7 5 16 / L 7 5 14";

/// The sample as one sheet, its last line with and without a line end.
fn sample_sheet() -> Result<(), String> {
    let sheet = SAMPLE.replace(" / ", "\n");
    for sheet in [sheet.clone(), sheet + "\n"] {
        let mut run = vec![7; 4_096];
        let (mut second, mut answers) = ([7; 512], [7; 16]);
        library::fresh(&mut run);
        let lines = library::run_sheet(&mut run, &mut second, sheet.as_bytes(), &mut answers);
        same("the lines of the sample", lines, 8)?;
        let wanted = [0, 0, 0, 0, 0, 0, 0, 0, 0, 7, 0, 1, 12, 0, 6, 0];
        same_words("the answers to the sample", &answers, &wanted)?;
        let strikes = [2, 4, 6, 8, 10, 12, 14, 7];
        same_words("the strikes of the sample", &second[..8], &strikes)?;
    }
    Ok(())
}

/// Opens and qualifies `count` + 1 classes for a program, and gives it to all: the last draws 10, also
/// once it is another exchange's, and passes after a release, which frees one place only.
fn cap(program: u32, count: u32) -> (String, String) {
    let other = program % 3 + 1;
    let last = count + 1;
    let (mut calls, mut answers) = (Vec::new(), Vec::new());
    for c in 1..=last {
        calls.push(format!(
            "O {c} / C {c} 500 / V {c} 1000 / D {c} {program} 1"
        ));
        answers.push(format!("0 / 0 / 0 / {}", if c <= count { 0 } else { 10 }));
    }
    calls.push(format!(
        "D {last} {program} 2 / D {last} {program} 1 / D {last} {other} 1 / D 3 {program} 1 / \
         D 3 {program} 0 / D {last} {program} 1 / D 3 {program} 1 / D 4 {program} 2 / D 3 {program} 1 / \
         D 4 {program} 1"
    ));
    answers.push("0 / 10 / 0 / 0 / 0 / 0 / 10 / 0 / 0 / 10".to_string());
    (calls.join(" / "), answers.join(" / "))
}

/// Own classes and strikes of each program, program 1 first.
type Counts = [[u32; 2]; 3];

/// Wants these counters of a book. That both sides have the same is compared after every call.
fn wants(pair: &Pair, counts: Counts) -> Result<(), String> {
    for (program, [own_classes, strikes]) in (1..).zip(counts) {
        let number = 0;
        let wanted = CounterReply {
            number,
            own_classes,
            strikes,
        };
        let what = format!("the counter of program {program}");
        same(&what, library::read_counter(&pair.words, program), wanted)?;
    }
    Ok(())
}

/// #104: calls on one book, their answers, and the counters after them. Class 7 is of the $1 and the $0.50
/// program, and lists a Dollar, a Half and a Wing strike; 9 is of the $2.50 program.
#[rustfmt::skip]
const COUNTED: [(&str, &str, Counts); 25] = [
    ("M 4 / O 7 / C 7 200 / V 7 1000", "0 / 0 / 0 / 0", [[0, 0], [0, 0], [0, 0]]),
    ("D 7 1 1", "0", [[1, 0], [0, 0], [0, 0]]),
    ("D 7 2 1 / D 7 2 1", "0 / 0", [[1, 0], [1, 0], [0, 0]]),
    ("L 7 5 14", "0 1", [[1, 1], [1, 0], [0, 0]]),
    ("L 7 5 9", "0 2", [[1, 1], [1, 1], [0, 0]]),
    ("L 7 13 14", "0 3", [[1, 2], [1, 1], [0, 0]]),
    ("L 7 13 10", "0 0", [[1, 2], [1, 1], [0, 0]]),
    ("O 9 / C 9 4850 / D 9 3 1", "0 / 0 / 0", [[1, 2], [1, 1], [1, 0]]),
    ("L 9 5 105 / L 9 6 115", "0 4 / 0 4", [[1, 2], [1, 1], [1, 2]]),
    ("D 9 1 1", "0", [[2, 2], [1, 1], [1, 2]]),
    // What is refused, and the other calls.
    ("L 7 5 14 / L 7 5 16 / J 7 6 14 / X 7 5 15 / D 9 2 1", "6 / 12 / 0 1 / 7 / 9", [[2, 2], [1, 1], [1, 2]]),
    ("I 7 5 14 1 0 / X 7 5 14 / H 7 150 250 / V 7 2000", "0 / 14 / 0 / 0", [[2, 2], [1, 1], [1, 2]]),
    // Designation 2 is not counted; strikes count after the release.
    ("D 7 1 2", "0", [[1, 2], [1, 1], [1, 2]]),
    ("D 7 2 2 / D 9 3 0 / D 9 1 0", "0 / 0 / 0", [[0, 2], [0, 1], [0, 2]]),
    ("D 9 3 2 / D 7 1 1 / D 9 3 1", "0 / 0 / 0", [[1, 2], [0, 1], [1, 2]]),
    // The review: $7 is $33 from the close, in both months, and marked in one.
    ("C 7 4000 / R 7", "0 / 0 1", [[1, 1], [0, 1], [1, 2]]),
    ("I 7 5 14 0 0 / R 7", "0 / 0 1", [[1, 0], [0, 1], [1, 2]]),
    ("R 9", "0 0", [[1, 0], [0, 1], [1, 2]]),
    ("C 7 200 / L 7 5 14 / L 7 13 14", "0 / 0 1 / 0 3", [[1, 2], [0, 1], [1, 2]]),
    // The month: month 5 has strikes of all three programs.
    ("M 5", "0", [[1, 2], [0, 1], [1, 2]]),
    ("M 6", "0", [[1, 1], [0, 0], [1, 1]]),
    ("M 5 / M 6", "5 / 0", [[1, 1], [0, 0], [1, 1]]),
    ("X 9 6 115", "0", [[1, 1], [0, 0], [1, 0]]),
    ("X 7 13 10", "0", [[1, 1], [0, 0], [1, 0]]),
    ("X 7 13 14 / D 7 1 0 / D 9 3 0", "0 / 0 / 0", [[0, 0], [0, 0], [0, 0]]),
];

fn counted(tally: &mut Tally) -> Result<(), String> {
    let mut pair = Pair::fresh(vec![7; 64])?;
    for (calls, answers, counts) in COUNTED {
        make(&mut pair, calls, answers, tally)
            .and_then(|()| wants(&pair, counts))
            .map_err(|text| format!("#104, `{calls}`: {text}"))?;
    }
    Ok(())
}

/// Each cap, reached and left and reached again: as many own classes are counted, and one in the other
/// program.
fn caps(tally: &mut Tally) -> Result<(), String> {
    for (program, count) in [(1, 150), (2, 20), (3, 60)] {
        let (calls, answers) = cap(program, count);
        let mut counts = [[0; 2]; 3];
        counts[program as usize - 1] = [count, 0];
        counts[program as usize % 3] = [1, 0];
        list(4_096, &calls, &answers, tally)
            .and_then(|pair| wants(&pair, counts))
            .map_err(|text| format!("class {} of program {program}: {text}", count + 1))?;
    }
    Ok(())
}

pub fn compare(tally: &mut Tally) -> Result<(), String> {
    let both = |mut strikes: Vec<u32>, more: &[u32]| {
        strikes.extend(more);
        permitted(&strikes)
    };
    let t4 = both(by(2, 50, 100), &[110, 120, 130, 140]);
    let t8 = both(by(1, 1, 10), &[15, 20, 25]);
    let t6 = permitted(&[30, 36, 40, 44, 50, 54, 60, 64, 70]);
    let t7 = permitted(&[30, 36, 40, 44, 46, 50, 54, 60, 64, 70]);
    let to_38 = both(by(5, 5, 50), &[60, 70]);
    let wings = permitted(&[
        10, 14, 20, 24, 30, 34, 40, 44, 46, 50, 56, 60, 66, 70, 74, 76, 80, 84, 90, 94, 100, 110,
        120,
    ]);
    let reviewed = "M 4 / O 7 / C 7 1300 / D 7 1 1 / L 7 5 14 / L 7 5 16 / L 7 5 38 / L 7 5 40";
    let stood = "0 / 0 / 0 / 0 / 0 1 / 0 1 / 0 1 / 0 0";
    let examples: Vec<(&str, usize, String, String)> = vec![
        (
            "the sample",
            4_096,
            SAMPLE.to_string(),
            "0 / 0 / 0 / 0 / 0 7 2 4 6 8 10 12 14 / 0 1 / 12 / 6".to_string(),
        ),
        (
            "T1",
            4_096,
            "M 4 / O 7 / C 7 200 / D 7 1 1 / A 7 5".to_string(),
            format!("0 / 0 / 0 / 0 / {}", permitted(&by(2, 2, 14))),
        ),
        (
            "T2, and the five are counted from P",
            4_096,
            "M 4 / O 7 / C 7 200 / A 7 5 / A 7 43 / J 7 5 30".to_string(),
            "0 / 0 / 0 / 0 5 5 10 15 20 25 / 0 5 5 10 15 20 25 / 12".to_string(),
        ),
        (
            "T3",
            4_096,
            "M 4 / O 7 / C 7 2400 / D 7 1 1 / A 7 5".to_string(),
            format!("0 / 0 / 0 / 0 / {}", permitted(&by(2, 24, 72))),
        ),
        (
            "T4",
            4_096,
            "M 4 / O 7 / C 7 4999 / D 7 1 1 / A 7 5".to_string(),
            format!("0 / 0 / 0 / 0 / {t4}"),
        ),
        (
            "T5",
            4_096,
            "M 4 / O 7 / C 7 4999 / D 7 1 1 / C 7 5000 / A 7 5 / J 7 5 52 / L 7 5 52".to_string(),
            format!("0 / 0 / 0 / 0 / 0 / {} / 11 / 11", permitted(&by(10, 50, 150))),
        ),
        (
            "T6, and $13 is out of range",
            4_096,
            "M 4 / O 7 / C 7 2450 / D 7 1 1 / A 7 13 / L 7 13 26".to_string(),
            format!("0 / 0 / 0 / 0 / {t6} / 12"),
        ),
        (
            "T7",
            4_096,
            "M 4 / O 7 / C 7 2500 / D 7 1 1 / A 7 13 / L 7 13 44 / L 7 13 46 / J 7 13 46".to_string(),
            format!("0 / 0 / 0 / 0 / {t7} / 0 3 / 13 / 13"),
        ),
        (
            "T8",
            4_096,
            "M 4 / O 7 / C 7 200 / V 7 1000 / D 7 2 1 / A 7 5".to_string(),
            format!("0 / 0 / 0 / 0 / 0 / {t8}"),
        ),
        (
            "T9",
            4_096,
            "M 4 / O 7 / C 7 1300 / L 7 5 25 / D 7 1 1 / L 7 5 24 / L 7 5 26 / L 7 5 28".to_string(),
            "0 / 0 / 0 / 0 0 / 0 / 13 / 13 / 0 1".to_string(),
        ),
        (
            "T10: $22 is Dollar when near and Wing when long",
            4_096,
            "M 4 / O 7 / C 7 2500 / D 7 1 1 / L 7 4 44 / J 7 4 44 / A 7 4 / L 7 44 44 / J 7 44 44 / A 7 44 / \
             L 7 12 44 / L 7 13 44 / L 7 43 44"
                .to_string(),
            "0 / 0 / 0 / 0 / 5 / 5 / 5 / 5 / 5 / 5 / 0 1 / 0 3 / 0 3".to_string(),
        ),
        (
            "closes and volumes that qualify",
            4_096,
            "O 7 / C 7 5000 / D 7 1 1 / C 7 4999 / D 7 1 1 / V 7 1000 / C 7 501 / D 7 2 1 / C 7 500 / V 7 999 / \
             D 7 2 1 / V 7 1000 / D 7 2 1"
                .to_string(),
            "0 / 0 / 9 / 0 / 0 / 0 / 0 / 9 / 0 / 0 / 9 / 0 / 0".to_string(),
        ),
        (
            "the review with none marked",
            4_096,
            format!("{reviewed} / R 7 / J 7 5 14 / L 7 5 16 / J 7 5 38 / L 7 5 40"),
            format!("{stood} / 0 2 / 0 1 / 6 / 0 1 / 6"),
        ),
        (
            "the review with $7 marked",
            4_096,
            format!("{reviewed} / I 7 5 14 1 0 / R 7 / L 7 5 14 / L 7 5 16 / J 7 5 38 / L 7 5 40"),
            format!("{stood} / 0 / 0 1 / 6 / 6 / 0 1 / 6"),
        ),
        (
            "no expiration word without strikes, and no 15 while words remain",
            11,
            "O 7 / C 7 1300 / D 7 1 1 / L 7 5 14 / L 7 6 14 / X 7 5 14 / L 7 6 14 / R 7 / L 7 5 14 / M 6 / L 7 7 14"
                .to_string(),
            "0 / 0 / 0 / 0 1 / 15 / 0 / 0 1 / 0 1 / 0 1 / 0 / 0 1".to_string(),
        ),
        (
            "#101 at 4850: $52.50 and $57.50, not $62.50; $42.50 and $47.50 too; none long",
            4_096,
            "M 4 / O 7 / C 7 4850 / D 7 3 1 / J 7 5 105 / J 7 5 115 / J 7 5 125 / L 7 5 85 / L 7 12 95 / \
             J 7 13 105 / L 7 13 95 / A 7 6"
                .to_string(),
            format!(
                "0 / 0 / 0 / 0 / 0 4 / 0 4 / 11 / 0 4 / 0 4 / 11 / 11 / {}",
                both(by(5, 50, 120), &[130, 140])
            ),
        ),
        (
            "#101 in a $1 class: no $47.50, and $52.50",
            4_096,
            "M 4 / O 7 / C 7 4850 / D 7 3 2 / D 7 1 1 / L 7 5 95 / L 7 5 105 / J 7 5 94".to_string(),
            "0 / 0 / 0 / 0 / 0 / 11 / 0 4 / 0 1".to_string(),
        ),
        (
            "#101 at 5400, and exactly $10 from the close",
            4_096,
            "M 4 / O 7 / D 7 3 1 / C 7 5400 / L 7 5 105 / C 7 4249 / J 7 6 105 / C 7 4250 / J 7 6 105 / \
             C 7 10750 / J 7 6 195 / C 7 10751 / J 7 6 195"
                .to_string(),
            "0 / 0 / 0 / 0 / 0 4 / 0 / 11 / 0 / 0 4 / 0 / 0 4 / 0 / 11".to_string(),
        ),
        (
            "#101 in Standard's range",
            4_096,
            "M 4 / O 7 / C 7 2000 / D 7 3 1 / J 7 5 75 / J 7 5 85 / C 7 1250 / J 7 5 55".to_string(),
            "0 / 0 / 0 / 0 / 0 4 / 12 / 0 / 12".to_string(),
        ),
        (
            "#101 beside Dollar: $27.50 keeps $27 away, and $27 keeps $27.50 away",
            4_096,
            "M 4 / O 7 / C 7 2700 / D 7 3 1 / L 7 5 55 / D 7 1 1 / L 7 5 54 / L 7 5 56 / L 7 6 54 / D 7 1 0 / \
             L 7 6 55"
                .to_string(),
            "0 / 0 / 0 / 0 / 0 4 / 0 / 13 / 13 / 0 1 / 0 / 13".to_string(),
        ),
        (
            "#101 needs the cap only, not a close",
            4_096,
            "O 7 / D 7 4 1 / D 7 3 3 / D 7 3 1 / D 7 3 1 / D 7 3 2 / D 7 1 1 / L 7 5 55 / J 7 5 55 / A 7 5 / R 7 / \
             D 8 3 1"
                .to_string(),
            "0 / 2 / 2 / 0 / 0 / 0 / 8 / 8 / 8 / 8 / 8 / 4".to_string(),
        ),
        (
            "#101 and the review: a marked $52.50 counts for the highest, and $27.50 stays",
            4_096,
            "M 4 / O 7 / C 7 4850 / D 7 3 1 / L 7 5 55 / L 7 5 105 / D 7 1 1 / L 7 5 82 / I 7 5 55 1 0 / \
             I 7 5 105 0 1 / R 7 / I 7 5 105 0 0 / R 7 / I 7 5 55 0 0 / R 7 / J 7 5 55"
                .to_string(),
            "0 / 0 / 0 / 0 / 0 4 / 0 4 / 0 / 0 1 / 0 / 0 / 0 0 / 0 / 0 1 / 0 / 0 0 / 6".to_string(),
        ),
        (
            "#102 over three expirations: none marked, $7 marked, and one that loses its only strike",
            4_096,
            format!(
                "{reviewed} / L 7 6 14 / L 7 6 38 / I 7 6 14 1 0 / L 7 8 38 / R 7 / J 7 5 14 / L 7 5 16 / J 7 5 38 / \
                 L 7 5 40 / L 7 6 14 / J 7 6 38 / J 7 8 38 / R 7"
            ),
            format!("{stood} / 0 1 / 0 1 / 0 / 0 1 / 0 4 / 0 1 / 6 / 0 1 / 6 / 6 / 0 1 / 0 1 / 0 0"),
        ),
        (
            "#103 at 1900, 1950 and 2100: up to $38 by the low",
            4_096,
            "M 4 / O 7 / C 7 1950 / H 7 1900 2100 / A 7 5 / A 7 13 / J 7 5 80 / J 7 5 75".to_string(),
            format!("0 / 0 / 0 / 0 / {to_38} / {to_38} / 12 / 11"),
        ),
        (
            "#103 at 200, 2400 and 10000: $25 is between, and `C` resets",
            4_096,
            "M 4 / O 7 / C 7 2400 / H 7 200 10000 / J 7 5 50 / L 7 5 50 / A 7 5 / L 7 5 5 / L 7 5 200 / C 7 2400 / \
             J 7 5 50 / J 7 6 5 / J 7 6 200"
                .to_string(),
            format!(
                "0 / 0 / 0 / 0 / 12 / 12 / {} / 0 0 / 0 0 / 0 / 0 0 / 12 / 12",
                both(by(5, 5, 25), &by(10, 100, 300))
            ),
        ),
        (
            "#103 at 2450, 2475 and 2500 in T6's and T7's class, $22 and $23 by the spacing",
            4_096,
            "M 4 / O 7 / C 7 2475 / D 7 1 1 / H 7 2450 2500 / A 7 13 / L 7 13 44 / L 7 13 46 / L 7 14 46 / L 7 14 44 / \
             H 7 2450 2499 / J 7 15 46 / J 7 15 44"
                .to_string(),
            format!("0 / 0 / 0 / 0 / 0 / {t7} / 0 3 / 13 / 0 3 / 13 / 0 / 11 / 0 3"),
        ),
        (
            "#103 at 200, 2450 and 4000: $27 has its position at the low and its range at the high, $13 the other way",
            4_096,
            "M 4 / O 7 / C 7 2450 / D 7 1 1 / H 7 200 4000 / A 7 13 / J 7 13 54 / L 7 13 64 / J 7 13 16 / L 7 13 26 / \
             J 7 13 36 / L 7 13 44 / L 7 13 76"
                .to_string(),
            format!("0 / 0 / 0 / 0 / 0 / {wings} / 12 / 12 / 12 / 12 / 12 / 0 3 / 0 3"),
        ),
        (
            "#103's refusals",
            4_096,
            "H 7 200 200 / O 7 / H 7 200 200 / H 7 300 100 / H 7 0 200 / C 7 200 / H 7 0 200 / H 7 200 0 / \
             H 7 201 250 / H 7 150 199 / H 7 201 199 / H 7 150 1000000 / H 7 1 999999 / H 7 200 200 / H 7 150 / \
             H 7 150 250 1 / H 0 200 200"
                .to_string(),
            "4 / 0 / 8 / 8 / 2 / 0 / 2 / 2 / 16 / 16 / 16 / 2 / 0 / 0 / 2 / 2 / 2".to_string(),
        ),
        (
            "#103 and `D`, which asks the close",
            4_096,
            "O 7 / C 7 5000 / H 7 1 5000 / D 7 1 1 / C 7 4999 / H 7 4999 999999 / D 7 1 1 / V 7 1000 / C 7 501 / \
             H 7 1 501 / D 7 2 1 / C 7 500 / H 7 500 999999 / D 7 2 1"
                .to_string(),
            "0 / 0 / 0 / 9 / 0 / 0 / 0 / 0 / 0 / 0 / 9 / 0 / 0 / 0".to_string(),
        ),
        (
            "#103 and Dollar and Wing, which ask a close below 5,000",
            4_096,
            "M 4 / O 7 / C 7 4999 / D 7 1 1 / H 7 4900 9000 / A 7 5 / H 7 4400 5100 / J 7 13 94 / J 7 13 96 / \
             J 7 13 104 / C 7 5000 / H 7 4900 9000 / J 7 5 52 / A 7 6 / H 7 4400 5100 / J 7 13 94 / J 7 13 96"
                .to_string(),
            format!(
                "0 / 0 / 0 / 0 / 0 / {} / 0 / 0 3 / 0 3 / 11 / 0 / 0 / 11 / {} / 0 / 11 / 11",
                both(by(2, 50, 100), &by(10, 110, 270)),
                permitted(&by(10, 50, 270))
            ),
        ),
        (
            "#103 and Half, which asks a close of at most 500, and ground 4, which asks $10 from it",
            4_096,
            "M 4 / O 7 / C 7 500 / V 7 1000 / D 7 2 1 / H 7 100 3000 / A 7 5 / C 7 501 / H 7 100 3000 / J 7 5 1 / \
             D 7 3 1 / C 7 4850 / H 7 4000 6000 / J 7 5 115 / J 7 5 125"
                .to_string(),
            format!(
                "0 / 0 / 0 / 0 / 0 / 0 / {} / 0 / 0 / 11 / 0 / 0 / 0 / 0 4 / 11",
                both(by(1, 1, 7), &[10, 15, 20, 25, 30, 35, 40, 45, 50, 60, 70, 80, 90])
            ),
        ),
        (
            "#103 and the review, which asks the close",
            4_096,
            format!("{reviewed} / H 7 700 1900 / R 7 / J 7 5 14 / L 7 5 16 / J 7 5 38 / L 7 5 40"),
            format!("{stood} / 0 / 0 2 / 0 1 / 6 / 0 1 / 6"),
        ),
        (
            "#103: a class takes five words",
            14,
            "O 7 / O 8 / O 9".to_string(),
            "0 / 0 / 15".to_string(),
        ),
        (
            "#104: a fresh book takes four words",
            4,
            "M 4 / O 7".to_string(),
            "0 / 15".to_string(),
        ),
        (
            "#104: a class with a strike takes eleven words",
            10,
            "O 7 / C 7 200 / L 7 5 5 / J 7 5 5 / O 8".to_string(),
            "0 / 0 / 15 / 0 0 / 15".to_string(),
        ),
        (
            "malformed lines",
            4_096,
            "M 4 /  / M 04 / M  4 / m 4 / M 4  / M 4 5 / M / M 3".to_string(),
            "0 / 2 / 2 / 2 / 2 / 2 / 2 / 2 / 5".to_string(),
        ),
    ];
    for (name, length, calls, answers) in examples {
        list(length, &calls, &answers, tally).map_err(|text| format!("{name}: {text}"))?;
    }
    caps(tally)?;
    counted(tally)?;
    sample_sheet()
}
