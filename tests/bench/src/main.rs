//! Prints how long the proved functions take beside two versions in Rust, as ratios measured in one
//! run: (b) is `tests/hand`, made for speed, and (a) is `tests/second`, written plainly. `bench
//! sheet` times the sheet programs instead, `bench known` the calls over a known book, `bench builds FIRST
//! SECOND` two builds of the library. The tables go to standard output, the nanoseconds to standard error.

mod books;
mod builds;
mod clock;
mod known;
mod known_library;
mod programs;
#[path = "../../compare/src/proved.rs"]
mod proved;
mod side;

use books::Book;
use calls::words::{places, used, CLASS};
use calls::{Answer, Call};
use clock::{compare, nanoseconds, Batch, Compared};
use side::{work, Lent, Side, Work};

const LENGTHS: [usize; 3] = [64, 4_096, 65_535];

/// The lines of a sheet.
const LINES: u32 = 2_000;

/// Rounds beside (b).
const ROUNDS: usize = 301;

/// Rounds beside (a), which is slow; a sheet has fewer.
const PLAIN_ROUNDS: usize = 5;

const READ_COUNTER: &str = "`read_counter`";
const READ_KNOWN_COUNTER: &str = "`read_known_counter`";

struct Row {
    name: &'static str,
    /// Beside (b) and beside (a), by length.
    cells: Vec<[Compared; 2]>,
}

fn lent() -> Lent {
    Lent {
        second: vec![0; 512],
        answers: vec![0; 2 * LINES as usize],
    }
}

/// Makes a book of a length from a seed.
type Kind = fn(usize, u64) -> Book;

/// Different books of one kind, enough of them for the clock and few enough for the cache.
fn books_of(kind: Kind, length: usize) -> Vec<Book> {
    let count = (65_536 / length).clamp(4, 256) as u64;
    (0..count).map(|seed| kind(length, seed)).collect()
}

/// What is timed: the name of the row, and the work on each book. A sheet, of lines that are wanted, is read
/// over the first book only.
fn rows_of(
    books: &[Book],
    is_wanted: impl Fn(&Call, Answer) -> bool,
) -> Vec<(&'static str, Vec<Work>)> {
    let each = |work: fn(&Book) -> Work| books.iter().map(work).collect();
    let mut rows: Vec<(&str, Vec<Work>)> = vec![
        ("`is_book`", each(|_| Work::IsBook)),
        (READ_COUNTER, each(|book| Work::ReadCounter(book.program))),
        (
            READ_KNOWN_COUNTER,
            each(|book| Work::ReadKnownCounter(book.program)),
        ),
    ];
    for (place, (name, _)) in books[0].calls().iter().enumerate() {
        let call = |book: &Book| Work::Call(book.calls().swap_remove(place).1);
        rows.push((name, books.iter().map(call).collect()));
    }
    let sheet = books[0].sheet(LINES, is_wanted);
    rows.push(("`run_sheet`", vec![Work::Sheet(sheet)]));
    rows
}

/// Checks that all sides answer the same and leave the same words in all runs, and that a call is
/// accepted, or refused where its row says so.
fn check(name: &str, book: &Book, what: &Work, lent: &Lent) {
    let did = |side| {
        let (mut run, mut lent) = (book.run.clone(), lent.clone());
        let answer = work(side, what, &mut run, &mut lent);
        (answer, run, lent)
    };
    let proved = did(Side::Proved);
    assert!(proved == did(Side::Hand), "{name}: (b) differs");
    assert!(proved == did(Side::Plain), "{name}: (a) differs");
    let number = proved.0.number;
    match what {
        Work::IsBook => assert_eq!(number, 1),
        Work::Call(_) if name.ends_with("refused 6") => assert_eq!(number, 6),
        Work::Call(_) | Work::ReadCounter(_) | Work::ReadKnownCounter(_) => {
            assert_eq!(number, 0, "{name}: accepted")
        }
        Work::Sheet(_) => {
            assert_eq!(number, LINES);
            let accepted = proved.2.answers.iter().step_by(2).filter(|n| **n == 0);
            assert!(accepted.count() > LINES as usize / 4);
        }
    }
    let reads_only = match what {
        Work::IsBook | Work::ReadCounter(_) | Work::ReadKnownCounter(_) => true,
        Work::Call(Call::J { .. } | Call::A { .. }) => true,
        _ => name.ends_with("refused 6"),
    };
    assert_eq!(proved.1 == book.run, reads_only, "{name}: the book's words");
}

/// A sheet has fewer rounds.
fn rounds_of(works: &[Work]) -> usize {
    match works[0] {
        Work::Sheet(_) => ROUNDS / 3,
        _ => ROUNDS,
    }
}

fn measure(name: &str, books: &[Book], works: &[Work]) -> [Compared; 2] {
    let books = &books[..works.len()];
    let length = books[0].run.len();
    let lent = lent();
    for (book, what) in books.iter().zip(works) {
        check(name, book, what, &lent);
    }
    let (plain_count, plain_rounds) = if matches!(works[0], Work::Sheet(_)) {
        (1, 3)
    } else {
        ((4_096 / length).max(1), PLAIN_ROUNDS)
    };
    let beside = |side, count, rounds| {
        let mut batch = Batch::of(&books[..count], &works[..count], &lent);
        compare(rounds, |first| {
            batch.time(if first { Side::Proved } else { side })
        })
    };
    let hand = beside(Side::Hand, books.len(), rounds_of(works));
    let plain = beside(Side::Plain, plain_count, plain_rounds);
    let [proved, by_hand, plainly] = [hand.first, hand.second, plain.second].map(nanoseconds);
    eprintln!("{name}, {length} words: {proved} ns, (b) {by_hand} ns, (a) {plainly} ns");
    [hand, plain]
}

/// The table of a kind of book; of all rows, or of those that are named.
fn table(title: &str, kind: Kind, names: &[&str]) {
    let is_named = |name: &str| names.is_empty() || names.contains(&name);
    let mut rows: Vec<Row> = Vec::new();
    for length in LENGTHS {
        let books = books_of(kind, length);
        let used = used(&books[0].run);
        let classes = places(&books[0].run, CLASS).len();
        eprintln!("{title}, {used} of {length} words used, classes: {classes}");
        let mut works = rows_of(&books, |_, _| true);
        works.retain(|row| is_named(row.0));
        for (place, (name, works)) in works.iter().enumerate() {
            if place == rows.len() {
                let cells = Vec::new();
                rows.push(Row { name, cells });
            }
            rows[place].cells.push(measure(name, &books, works));
        }
    }
    println!("### {title}\n");
    print!("| |");
    for length in ["64 words", "4,096", "65,535"] {
        print!(" {length}: (b) best | median | (a) |");
    }
    println!();
    println!("|---|---|---|---|---|---|---|---|---|---|");
    for row in &rows {
        print!("| {} |", row.name);
        for [hand, plain] in &row.cells {
            let (best, median) = (hand.best(), hand.median);
            print!(" {best:.2} | {median:.2} | {} |", small(plain.best()));
        }
        println!();
    }
    println!();
}

/// A ratio with two figures that count.
fn small(ratio: f64) -> String {
    let places = (1 - ratio.log10().floor() as i32).max(2) as usize;
    format!("{ratio:.places$}")
}

/// The proved function's time for each word of the run, as a ratio to that at 4,096 words; the
/// three lengths are timed in turn.
fn growth() {
    println!("### Time per word of the run, beside that at 4,096 words\n");
    println!("| | book | 64 | 4,096 | 65,535 |");
    println!("|---|---|---|---|---|");
    let kinds: [(&str, Kind); 2] = [("full", books::full), ("nearly empty", books::nearly_empty)];
    for (title, kind) in kinds {
        let books = LENGTHS.map(|length| books_of(kind, length));
        let rows = [0, 1, 2].map(|i| rows_of(&books[i], |_, _| true));
        for name in ["`is_book`", "`J`", "`L`"] {
            let mut batches = [0, 1, 2].map(|i| {
                let row = rows[i].iter().find(|row| row.0 == name);
                Batch::of(&books[i], &row.expect("a row").1, &lent())
            });
            let mut best = [f64::MAX; 3];
            for _ in 0..ROUNDS {
                for i in 0..3 {
                    best[i] = best[i].min(batches[i].time(Side::Proved));
                }
            }
            let per_word = |i: usize| best[i] / LENGTHS[i] as f64;
            let [short, middle, long] = [0, 1, 2].map(|i| per_word(i) / per_word(1));
            println!("| {name} | {title} | {short:.2} | {middle:.2} | {long:.2} |");
        }
    }
}

fn main() {
    let words: Vec<String> = std::env::args().skip(1).collect();
    let words: Vec<&str> = words.iter().map(String::as_str).collect();
    match words[..] {
        [] => {
            table("Full books", books::full, &[]);
            table("Nearly empty books", books::nearly_empty, &[]);
            let of_program = ["`D`", "`L`", "`J`", "`A`"];
            table("In the $2.50 program", books::two_fifty, &of_program);
            let of_prices = ["`H`", "`L`", "`J`", "`A`"];
            table("Where low and high differ", books::low_and_high, &of_prices);
            growth();
        }
        ["sheet"] => programs::sheet(),
        ["known"] => known::known(),
        ["builds", first, second] => builds::builds(first, second),
        _ => panic!("no mode {words:?}"),
    }
}
