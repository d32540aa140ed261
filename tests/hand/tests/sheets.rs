//! Whole sheets against the plain implementation: `run_sheet`, and what the sheet program prints.

use calls::draw::Mix;
use calls::program::{piped, same};
use calls::words::FIRST_CLASS;
use calls::{books, pieces, runs, sheets, Random, StrikeBook};
use hand::Tested;
use second::{lines, make_on_words, parse_line, sheet_program, PlainBook};
use std::path::Path;

/// A sheet of calls that suit the run as they change it, or noise; at times damaged.
fn any_sheet(random: &mut Random, run: &[u32], count: usize) -> Vec<u8> {
    let mix = Mix {
        weights: [3, 7, 8, 8, 5, 10, 30, 12, 8, 8, 5, 4],
        highest: random.pick(&[1, 2, 4, 4, 10, 40, 200, 16_383]),
    };
    sheets::any(random, run.to_vec(), &mix, count, |run, call| {
        Tested(run).make(call, &mut [0; 600]);
    })
}

/// `run_sheet` against the plain implementation; answers the lines.
fn compare(random: &mut Random, run: &[u32], sheet: &[u8]) -> usize {
    let room = random.pick(&[0, 5, 13, 30, 60, 512, 700]);
    let second = random.words(room);
    let all = lines(sheet);
    let places = match random.below(4) {
        0 => random.index(2 * all.len() + 3),
        _ => 2 * all.len() + 3,
    };
    let mut wanted_run = run.to_vec();
    let mut wanted_second = second.clone();
    let mut wanted_answers = Vec::new();
    for line in &all {
        let answer = make_on_words(&mut wanted_run, &mut wanted_second, &parse_line(line));
        wanted_answers.extend([answer.number, answer.value]);
    }
    wanted_answers.resize(wanted_answers.len().max(places), 0xdead_beef);
    wanted_answers.truncate(places);

    let mut got_run = run.to_vec();
    let mut got_second = second.clone();
    let mut answers = vec![0xdead_beef; places];
    let count = hand::run_sheet(&mut got_run, &mut got_second, sheet, &mut answers);
    let shown = || String::from_utf8_lossy(sheet);
    assert_eq!(count, all.len(), "{}", shown());
    assert!(
        answers == wanted_answers,
        "{}\ngot {answers:?}\nwanted {wanted_answers:?}",
        shown()
    );
    assert!(got_run == wanted_run, "{}", shown());
    assert!(got_second == wanted_second, "{}", shown());
    count
}

#[test]
fn random_sheets() {
    let mut random = Random::new(0x5eed_0031);
    let mut count = 0;
    for _ in 0..2_000 {
        let length = FIRST_CLASS + random.index(600);
        let mut run = match random.one_in(2) {
            true => PlainBook::fresh(length).unwrap().words(),
            false => books::any(&mut random, length),
        };
        let size = random.pick(&[0, 1, 5, 60, 60]);
        let sheet = any_sheet(&mut random, &run, size);
        count += compare(&mut random, &run, &sheet);
        if random.one_in(6) {
            runs::damage(&mut random, &mut run);
            count += compare(&mut random, &run, &sheet);
        }
    }
    println!("{count} lines, no difference");
}

/// Short lines of every kind of byte that matters, all ends and all lengths.
#[test]
fn noise() {
    let mut random = Random::new(0x5eed_0032);
    let run = {
        let mut run = PlainBook::fresh(40).unwrap().words();
        let sheet = b"M 4\nO 7\nO 12\nC 7 200\nD 7 1 1\nL 7 5 4\n";
        assert_eq!(hand::run_sheet(&mut run, &mut [], sheet, &mut []), 6);
        run
    };
    let bytes = b"MOCHVDLJXIRA   0123457\n\n\r/:\x10\x80\xb0";
    let mut count = 0;
    for _ in 0..150_000 {
        let length = random.below(25);
        let sheet: Vec<u8> = (0..length).map(|_| random.pick(bytes)).collect();
        count += compare(&mut random, &run, &sheet);
    }
    for line in [
        "J 7 5 4",
        "J 12 5 4",
        "I 7 5 4 1 0",
        "V 7 9999999",
        "V 7 10000000",
        "V 7 99999999",
        "C 7 999999",
        "H 7 150 250",
        "A 7 5",
    ] {
        for at in 0..=line.len() {
            for byte in 0..=255 {
                let mut sheet = line.as_bytes().to_vec();
                sheet.insert(at, byte);
                count += compare(&mut random, &run, &sheet);
                if at < line.len() {
                    sheet.remove(at);
                    sheet[at] = byte;
                    count += compare(&mut random, &run, &sheet);
                    sheet.extend(b"\nJ 7 5 6");
                    count += compare(&mut random, &run, &sheet);
                }
            }
        }
    }
    println!("{count} lines, no difference");
}

/// What the sheet program prints, its input in these parts.
fn program(parts: &[&[u8]]) -> Vec<u8> {
    piped(Path::new(env!("CARGO_BIN_EXE_hand")), parts).unwrap()
}

/// What is wanted of the sheet program, however its input comes.
fn same_print(sheet: &[u8], ways: &[&[&[u8]]]) -> String {
    let wanted = sheet_program(sheet);
    for parts in ways {
        same(sheet, &program(parts), wanted.as_bytes()).unwrap();
    }
    wanted
}

#[test]
fn the_example() {
    let sheet = b"M 4\nO 7\nC 7 200\nD 7 1 1\nA 7 5\nL 7 5 14\nL 7 5 16\nL 7 5 14\n";
    let text = "0\n0\n0\n0\n0 7 2 4 6 8 10 12 14\n0 1\n12\n6\n";
    assert_eq!(program(&[sheet]), text.as_bytes());
    assert_eq!(program(&[&sheet[..sheet.len() - 1]]), text.as_bytes());
    assert_eq!(program(&[]), b"");
    assert_eq!(program(&[b"\n"]), b"2\n");
}

fn fresh_words() -> Vec<u32> {
    PlainBook::fresh(4_096).unwrap().words()
}

#[test]
fn random_programs() {
    let mut random = Random::new(0x5eed_0033);
    let mut count = 0;
    for round in 0..60 {
        let size = match round % 10 {
            0 => 9_000,
            _ => random.index(400),
        };
        let sheet = any_sheet(&mut random, &fresh_words(), size);
        count += same_print(&sheet, &[&[&sheet]]).lines().count();
    }
    println!("{count} lines, no difference");
}

/// Lines that cross the pieces in which the program reads, and lines longer than those; many strikes,
/// and too many.
#[test]
fn large_pieces() {
    let mut random = Random::new(0x5eed_0034);
    let sheet = pieces::sheet(&mut random, fresh_words(), |run, call| {
        Tested(run).make(call, &mut []);
    });
    let printed = same_print(&sheet, &[&[&sheet], &pieces::odd_parts(&sheet)]);
    pieces::tries_pieces(&sheet, printed.as_bytes()).unwrap();
    for sheet in pieces::others() {
        same_print(&sheet, &[&[&sheet]]);
    }
}
