//! Whole sheets of lines and of noise, over books and over runs that are none; over books in both forms.

use crate::known::{Known, SheetLeft};
use crate::pair::{same, same_words};
use crate::proved::Proved;
use calls::draw::Mix;
use calls::{books, runs, sheets, Answer, Random, StrikeBook, Tally};
use second::{lines, parse_line, PlainBook};
use strikebook::library;

const SHEETS: u64 = 9_000;

const MIX: Mix = Mix {
    weights: [2, 8, 10, 8, 5, 9, 40, 10, 6, 9, 3, 1],
    highest: 5,
};

/// A fresh book, any book, or a run that is mostly none.
fn start(random: &mut Random) -> Vec<u32> {
    let length = random.between(4, 300) as usize;
    match random.below(8) {
        0 => runs::damaged(random, 120),
        1..=2 => books::any(random, length),
        _ => PlainBook::fresh(length).expect("a good length").words(),
    }
}

/// Reads the sheet on both sides, on the library's in both forms, and compares every answer and every word.
fn read(
    start: &[u32],
    second: &[u32],
    sheet: &[u8],
    answers: &[u32],
    tally: &mut Tally,
) -> Result<(), String> {
    let mut run = start.to_vec();
    let mut run_second = second.to_vec();
    let mut run_answers = answers.to_vec();
    let count = library::run_sheet(&mut run, &mut run_second, sheet, &mut run_answers);

    let mut book = PlainBook::read(start);
    let mut expected_second = second.to_vec();
    let mut expected_answers = Vec::new();
    for line in lines(sheet) {
        let call = parse_line(line);
        let answer = match &mut book {
            None => Answer {
                number: 1,
                value: 0,
            },
            Some(book) => book.make(&call, &mut expected_second),
        };
        tally.count(&call, answer);
        expected_answers.extend([answer.number, answer.value]);
    }
    let lines = expected_answers.len() / 2;
    same("the count of lines", count, lines)?;
    // Answers are written as far as there are places, and places past them stay.
    expected_answers.truncate(answers.len());
    expected_answers.extend(&answers[expected_answers.len()..]);
    same_words("the answers", &run_answers, &expected_answers)?;
    let is_book = book.is_some();
    let expected = book.map_or(start.to_vec(), |book| book.words());
    same_words("the run", &run, &expected)?;
    same_words("the second run", &run_second, &expected_second)?;
    if !is_book {
        return Ok(());
    }
    // A `Book` has whole answers alone.
    let even = answers.len() & !1;
    let left = SheetLeft {
        lines,
        answers: &expected_answers[..even],
        words: &expected,
        second: &expected_second,
    };
    Known::of(&mut start.to_vec())?.read_as(sheet, second, &answers[..even], &left, tally)
}

/// The first line after which there is a difference, with it.
fn located(
    start: &[u32],
    second: &[u32],
    sheet: &[u8],
    answers: &[u32],
    tally: &mut Tally,
) -> Option<String> {
    let mut end = 0;
    for (place, line) in lines(sheet).iter().enumerate() {
        end = sheet.len().min(end + line.len() + 1);
        if let Err(text) = read(start, second, &sheet[..end], answers, tally) {
            let line = line.escape_ascii();
            return Some(format!("line {place}, `{line}`: {text}"));
        }
    }
    None
}

fn one(seed: u64, tally: &mut Tally) -> Result<(), String> {
    let mut random = Random::new(seed);
    let start = start(&mut random);
    let count = random.index(70);
    let sheet = sheets::any(&mut random, start.clone(), &MIX, count, |run, call| {
        Proved(run).make(call, &mut []);
    });
    let room = random.pick(&[0, 5, 25, 31, 100, 700]);
    let second = random.words(room);
    let places = 2 * lines(&sheet).len();
    let places = match random.below(4) {
        0 => random.index(places + 1),
        1 => places + random.index(4),
        _ => places,
    };
    let answers = random.words(places);
    read(&start, &second, &sheet, &answers, tally)
        .map_err(|text| located(&start, &second, &sheet, &answers, tally).unwrap_or(text))
}

pub fn compare(tally: &mut Tally) -> Result<(), String> {
    for seed in 0..SHEETS {
        one(seed, tally).map_err(|text| format!("sheets, seed {seed}, {text}"))?;
    }
    Ok(())
}
