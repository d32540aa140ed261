//! Two lists of calls, each from a fresh book.

use calls::words::COUNTER;
use calls::Answer;
use second::{compare_lists, lines, parse_line};

/// The records of the lines of a sheet, each with a second run of 512.
fn records(sheet: &str) -> Vec<u32> {
    let mut words = Vec::new();
    for line in lines(sheet.as_bytes()) {
        let call = parse_line(line);
        let mut record = [0; 8];
        let numbers = call.numbers();
        record[0] = call.letter().into();
        record[1] = numbers.len() as u32;
        record[2..2 + numbers.len()].copy_from_slice(&numbers);
        record[7] = 512;
        words.extend(record);
    }
    words
}

const CALLS: &str = "M 4\nO 7\nC 7 200\nD 7 1 1\nA 7 5\nL 7 5 14";

/// The number and the value for two lists on runs of 64 words.
fn compared(calls: &[u32], others: &[u32]) -> (u32, u32) {
    let (mut left, mut right) = ([5; 64], [6; 64]);
    let answer = compare_lists(&mut left, &mut right, &mut [], calls, others);
    assert_eq!(left == right, answer.value == 1);
    (answer.number, answer.value)
}

#[test]
fn equal_and_unequal() {
    let calls = records(CALLS);
    let same = records("O 7\nC 7 200\nM 4\nL 7 5 15\nX 7 5 15\nD 7 1 1\nL 7 5 14\nL 7 5 16\nM 3");
    assert_eq!(compared(&calls, &same), (0, 1));
    assert_eq!(compared(&calls, &calls[..40]), (0, 0));
    assert_eq!(compared(&[], &[]), (0, 1));
}

/// #101: "equality of books now reads the third designation too."
#[test]
fn the_third_designation_is_a_fact() {
    let calls = records(CALLS);
    let ours = records(&format!("{CALLS}\nD 7 3 1"));
    let others = records(&format!("{CALLS}\nD 7 3 2"));
    let released = records(&format!("{CALLS}\nD 7 3 1\nD 7 3 0"));
    assert_eq!(compared(&calls, &ours), (0, 0));
    assert_eq!(compared(&ours, &others), (0, 0));
    assert_eq!(compared(&ours, &ours), (0, 1));
    assert_eq!(compared(&calls, &released), (0, 1));
}

/// #103: "`H` joins the calls whose lists decide equal books, low and high
/// being facts."
#[test]
fn low_and_high_are_facts() {
    let with = |more: &str| records(&format!("{CALLS}{more}"));
    let calls = with("");
    for h in ["H 7 199 200", "H 7 200 201", "H 7 1 999999"] {
        assert_eq!(compared(&calls, &with(&format!("\n{h}"))), (0, 0));
        // "`C` sets both to the close"
        assert_eq!(compared(&calls, &with(&format!("\n{h}\nC 7 200"))), (0, 1));
        assert_eq!(
            compared(&calls, &with(&format!("\n{h}\nH 7 200 200"))),
            (0, 1)
        );
    }
    let [low, high] = ["\nH 7 100 300", "\nH 7 100 301"].map(with);
    assert_eq!(compared(&low, &high), (0, 0));
    let twice = with("\nH 7 150 301\nH 7 100 300");
    assert_eq!(compared(&low, &twice), (0, 1));
    // Refused: it changes nothing.
    let refused = with("\nH 7 201 300\nH 7 100 199\nH 7 0 300\nH 8 100 300");
    assert_eq!(compared(&calls, &refused), (0, 1));
}

#[test]
fn words_of_a_list() {
    let calls = records(CALLS);
    // Words left over are no call, unknown letters and other counts are malformed.
    let mut others = calls.clone();
    others.extend([u32::MAX, 1, 9, 0, 0, 0, 0, 0]);
    others.extend([u32::from(b'O'), 2, 9, 0, 0, 0, 0, 0]);
    others.extend([u32::from(b'O'), 1, 9, 0, 0, 0, 0]);
    assert_eq!(compared(&calls, &others), (0, 1));
    others.push(0);
    assert_eq!(compared(&calls, &others), (0, 0));
    // A count above five means all five.
    let marked = records(&format!("{CALLS}\nI 7 5 14 1 0"));
    let mut others = marked.clone();
    others[49] = u32::MAX;
    assert_eq!(compared(&marked, &others), (0, 1));
    assert_eq!(compared(&calls, &others), (0, 0));
}

#[test]
fn the_pool() {
    let calls = records(CALLS);
    let (mut left, mut right) = ([0; 64], [0; 64]);
    for (length, written) in [(6, 0), (7, 7), (9, 7)] {
        let mut pool = vec![99; length];
        compare_lists(&mut left, &mut right, &mut pool, &calls, &[]);
        let strikes = [2, 4, 6, 8, 10, 12, 14];
        assert_eq!(pool[..written], strikes[..written]);
        assert!(pool[written..].iter().all(|word| *word == 99));
    }
}

#[test]
fn lengths() {
    let calls = records(CALLS);
    // #104: "a length below 4 is bad."
    let bad = [[0, 0], [1, 1], [2, 2], [3, 3], [65_536, 65_536], [64, 63]];
    for [left, right] in bad {
        let (mut left, mut right, mut pool) = (vec![5; left], vec![6; right], [7; 10]);
        let answer = compare_lists(&mut left, &mut right, &mut pool, &calls, &calls);
        assert_eq!(
            answer,
            Answer {
                number: 1,
                value: 0
            }
        );
        assert!(left.iter().all(|word| *word == 5) && right.iter().all(|word| *word == 6));
        assert_eq!(pool, [7; 10]);
    }
    // A fresh book just fits.
    let (mut left, mut right) = ([5; 4], [6; 4]);
    let answer = compare_lists(&mut left, &mut right, &mut [], &calls, &calls);
    assert_eq!((answer.number, answer.value), (0, 1));
    assert_eq!(left[1..], [COUNTER; 3]);
    assert_eq!(left, right);
}
