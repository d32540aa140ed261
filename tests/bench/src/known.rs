//! The calls over a full book that is known to be one, in two forms: without places, and with the place of the
//! class remembered from an earlier call. Both beside the form that tests the run, and beside the same form of
//! (b).

use crate::books::{full, Book};
use crate::clock::{in_turn, median_of, nanoseconds, Batch};
use crate::known_library::Known;
use crate::proved::Proved;
use crate::side::{Lent, Side, Work};
use crate::{books_of, lent, rounds_of, rows_of, LENGTHS};
use calls::words::{half_dollars, month, now, number, places, used, CLASS, EXPIRATION};
use calls::{Answer, Call, StrikeBook};
use std::hint::black_box;
use std::ops::Range;
use std::time::Instant;
use strikebook::library;

/// As many places as a sheet lends its lines.
const PLACES: usize = 1_024;

/// Calls that are timed at once, at least, so that the clock's own time doesn't count; fewer where words move.
const AT_ONCE: usize = 64;

/// Different books of a length, at least, so that the processor can't learn the searches by heart.
const BOOKS: u64 = 16;

/// A call that changes no more words than these moves none.
const FEW: usize = 1_024;

/// The proved functions or (b), without places or with them.
#[derive(Clone, Copy)]
enum Form {
    Without,
    HandWithout,
    With,
    HandWith,
}

use Form::{HandWith, HandWithout, With, Without};

const FORMS: [Form; 4] = [Without, HandWithout, With, HandWith];

/// Does the work once on a book. Answers the number and the value; for a sheet its lines.
#[inline(always)]
fn work(form: Form, work: &Work, run: &mut [u32], places: &mut [u32], lent: &mut Lent) -> Answer {
    let (second, answers) = (&mut lent.second[..], &mut lent.answers[..]);
    let places = match form {
        Without | HandWithout => &mut [],
        With | HandWith => places,
    };
    let lines = match (work, form) {
        // SAFETY: `rows` has asked the proved test of each book, and the runs are copies of them.
        (Work::Call(call), Without | With) => {
            return unsafe { Known::of(run, places) }.make(call, second)
        }
        (Work::Call(call), HandWithout | HandWith) => {
            return hand::Known(run, places).make(call, second)
        }
        // SAFETY: the same.
        (Work::Sheet(sheet), Without | With) => {
            unsafe { Known::of(run, places) }.run_sheet(second, sheet, answers)
        }
        (Work::Sheet(sheet), HandWithout | HandWith) => {
            hand::known::run_sheet(run, second, places, sheet, answers)
        }
        _ => unreachable!("no call"),
    };
    Answer {
        number: lines as u32,
        value: 0,
    }
}

/// The stretches of words that differ; in one of them, fewer than 16 words in a row are the same.
fn changed(before: &[u32], after: &[u32]) -> Vec<Range<usize>> {
    let mut stretches: Vec<Range<usize>> = Vec::new();
    for at in (0..before.len()).filter(|at| before[*at] != after[*at]) {
        match stretches.last_mut() {
            Some(stretch) if at < stretch.end + 16 => stretch.end = at + 1,
            _ => stretches.push(at..at + 1),
        }
    }
    stretches
}

/// Words of a run, or places, that are put back after each call: those that it changes.
struct Words {
    /// They begin after a few other words, so that not all heads are in one set of the cache.
    all: Vec<u32>,
    from: usize,
    before: Vec<u32>,
    changed: Vec<Range<usize>>,
}

impl Words {
    fn of(place: usize, before: &[u32], after: &[u32]) -> Words {
        let from = 16 * (place * 7 % 64);
        let mut all = vec![0; from];
        all.extend(before);
        Words {
            all,
            from,
            before: before.to_vec(),
            changed: changed(before, after),
        }
    }

    fn restore(&mut self) {
        let words = &mut self.all[self.from..];
        for stretch in &self.changed {
            words[stretch.clone()].copy_from_slice(&self.before[stretch.clone()]);
        }
    }

    #[inline(always)]
    fn lend(&mut self) -> &mut [u32] {
        &mut self.all[self.from..]
    }
}

/// A run, and the places that each side has remembered of it.
struct Run {
    words: Words,
    proved_places: Words,
    hand_places: Words,
}

/// Checks that all forms answer the same as the first and leave the same words in all runs, whether places
/// were noted before or not, and that a call is accepted, or refused where its row says so.
fn run_of(name: &str, place: usize, book: &Book, what: &Work) -> Run {
    let (mut first, mut first_lent) = (book.run.clone(), lent());
    let answer = match what {
        Work::Call(call) => Proved(&mut first).make(call, &mut first_lent.second),
        Work::Sheet(sheet) => {
            let Lent { second, answers } = &mut first_lent;
            let number = library::run_sheet(&mut first, second, sheet, answers) as u32;
            Answer { number, value: 0 }
        }
        _ => unreachable!("no call"),
    };
    let refused = name.split(" refused ").nth(1);
    if let Work::Call(_) = what {
        let wanted = refused.map_or(0, |number| number.parse().expect("a number"));
        assert_eq!(answer.number, wanted, "{name}");
    }
    let [proved_places, hand_places] =
        [(Without, With), (HandWithout, HandWith)].map(|(without, with)| {
            let done = |form: Form, noted: &[u32]| {
                let (mut run, mut lent) = (book.run.clone(), lent());
                let mut places = noted.to_vec();
                let told = work(form, what, &mut run, &mut places, &mut lent);
                let same = told == answer && run == first && lent == first_lent;
                assert!(same, "{name}: a form differs");
                places
            };
            done(without, &[]);
            let noted = done(with, &[0; PLACES]);
            let after = done(with, &noted);
            Words::of(place, &noted, &after)
        });
    Run {
        words: Words::of(place, &book.run, &first),
        proved_places,
        hand_places,
    }
}

/// The runs of a row and its works, one for each book in turn.
struct Runs<'a> {
    runs: Vec<Run>,
    works: &'a [Work],
    lent: Lent,
}

impl Runs<'_> {
    /// The nanoseconds for one run.
    fn time(&mut self, form: Form) -> f64 {
        match form {
            Without => {
                self.time_by(|what, run, lent| work(Without, what, run.words.lend(), &mut [], lent))
            }
            HandWithout => self.time_by(|what, run, lent| {
                work(HandWithout, what, run.words.lend(), &mut [], lent)
            }),
            With => self.time_by(|what, run, lent| {
                let places = run.proved_places.lend();
                work(With, what, run.words.lend(), places, lent)
            }),
            HandWith => self.time_by(|what, run, lent| {
                let places = run.hand_places.lend();
                work(HandWith, what, run.words.lend(), places, lent)
            }),
        }
    }

    #[inline(always)]
    fn time_by(&mut self, once: impl Fn(&Work, &mut Run, &mut Lent) -> Answer) -> f64 {
        for run in &mut self.runs {
            run.words.restore();
            run.proved_places.restore();
            run.hand_places.restore();
        }
        let start = Instant::now();
        for (run, what) in self.runs.iter_mut().zip(self.works.iter().cycle()) {
            black_box(once(what, black_box(run), &mut self.lent));
        }
        start.elapsed().as_secs_f64() * 1e9 / self.runs.len() as f64
    }
}

/// What one row shows at one length, in nanoseconds.
struct Cell {
    /// The form that tests the run.
    first: f64,
    /// By `FORMS`.
    best: [f64; FORMS.len()],
    /// The medians of the rounds' ratios: without places, and with them.
    medians: [f64; 2],
}

fn measure(name: &str, books: &[Book], count: usize, works: &[Work]) -> Cell {
    let mut runs = Vec::new();
    for (place, (book, what)) in books.iter().zip(works).enumerate() {
        runs.push(run_of(name, place, book, what));
    }
    if runs[0].words.changed.iter().map(Range::len).sum::<usize>() > FEW {
        runs.truncate(count);
    } else if let Work::Call(_) = works[0] {
        for place in runs.len()..AT_ONCE {
            let at = place % works.len();
            runs.push(run_of(name, place, &books[at], &works[at]));
        }
    }
    let works = &works[..works.len().min(runs.len())];
    let rounds = rounds_of(works);
    let few = works.len().min(count);
    let mut batch = Batch::of(&books[..few], &works[..few], &lent());
    let is_sheet = matches!(works[0], Work::Sheet(_));
    let lent = lent();
    let mut runs = Runs { runs, works, lent };
    let times: [_; FORMS.len() + 1] = in_turn(rounds, |side| match FORMS.get(side) {
        Some(form) => runs.time(*form),
        None => {
            let time = batch.time(Side::Proved);
            if !is_sheet {
                // The test of the run has filled the cache with other words.
                for form in FORMS {
                    runs.time(form);
                }
            }
            time
        }
    });
    let best = |side: usize| times[side].iter().copied().fold(f64::MAX, f64::min);
    let (first, best) = (best(FORMS.len()), [0, 1, 2, 3].map(best));
    let medians = [0, 2].map(|at| median_of(&times[at], &times[at + 1]));
    Cell {
        first,
        best,
        medians,
    }
}

/// A strike that is listed after all others of a book, so that no word moves.
fn last_strike(run: &[u32]) -> (u32, u32, u32) {
    let class = *places(run, CLASS).last().expect("a class");
    let c = number(run[class]);
    let expiration = places(run, EXPIRATION).pop().filter(|at| *at > class);
    let (last_month, last) = match expiration {
        Some(at) => (month(run[at]), half_dollars(run[used(run) - 1])),
        None => (now(run) + 1, 0),
    };
    let mut second = [0; 512];
    for m in last_month.. {
        let answer = hand::known::list_permitted(run, &mut second, &mut [], c, m);
        assert_eq!(answer.number, 0, "no strike can be listed last");
        let permitted = &second[..answer.value as usize];
        let is_later = |h: &&u32| m > last_month || **h > last;
        if let Some(h) = permitted.iter().find(is_later) {
            return (c, m, *h);
        }
    }
    unreachable!("months end")
}

/// The rows of a length.
struct Rows {
    /// More than elsewhere.
    books: Vec<Book>,
    /// The same with one strike more, at the end.
    longer: Vec<Book>,
    /// How many books are timed elsewhere.
    count: usize,
    rows: Vec<(&'static str, Vec<Work>)>,
}

const X_LAST: &str = "`X` at the end";

/// All books are books by the proved test.
fn rows(length: usize) -> Rows {
    let mut books = books_of(full, length);
    let count = books.len();
    for seed in books.len() as u64..BOOKS {
        books.push(full(length, seed));
    }
    let (mut listed, mut removed) = (Vec::new(), Vec::new());
    let mut longer = books.clone();
    for book in &mut longer {
        let (c, m, h) = last_strike(&book.run);
        let call = Call::L { c, m, h };
        assert_eq!(Proved(&mut book.run).make(&call, &mut []).number, 0);
        listed.push(Work::Call(call));
        removed.push(Work::Call(Call::X { c, m, h }));
    }
    for book in books.iter().chain(&longer) {
        assert!(library::is_book(&book.run), "no book");
    }
    let mut rows = rows_of(&books, |_, _| true);
    rows.retain(|(_, works)| matches!(works[0], Work::Call(_) | Work::Sheet(_)));
    // The strike that may be listed doesn't stand.
    let judged = rows
        .iter()
        .position(|(name, _)| *name == "`J`")
        .expect("a row");
    let delisted = rows[judged].1.iter().map(|what| match what {
        Work::Call(Call::J { c, m, h }) => Work::Call(Call::X {
            c: *c,
            m: *m,
            h: *h,
        }),
        _ => unreachable!("a row of J"),
    });
    let delisted = delisted.collect();
    let more = [
        ("`X` refused 7", delisted),
        ("`L` at the end", listed),
        (X_LAST, removed),
    ];
    let sheet = rows.len() - 1;
    rows.splice(sheet..sheet, more);
    Rows {
        books,
        longer,
        count,
        rows,
    }
}

/// The tables of the calls over a known book.
pub fn known() {
    let mut names = Vec::new();
    let mut lengths: Vec<Vec<Cell>> = Vec::new();
    for length in LENGTHS {
        let Rows {
            books,
            longer,
            count,
            rows,
        } = rows(length);
        names = rows.iter().map(|row| row.0).collect();
        println!("### Known full books of {length} words\n");
        println!("| | first form, ns | known, ns | (b) best | median | remembered, ns | (b) best | median |");
        println!("|---|---|---|---|---|---|---|---|");
        let mut cells = Vec::new();
        for (name, works) in &rows {
            let books = if *name == X_LAST { &longer } else { &books };
            let cell = measure(name, books, count, works);
            let [known, hand, remembered, by_hand] = cell.best;
            let [median, remembered_median] = cell.medians;
            println!(
                "| {name} | {} | {} | {:.2} | {median:.2} | {} | {:.2} | {remembered_median:.2} |",
                nanoseconds(cell.first),
                nanoseconds(known),
                known / hand,
                nanoseconds(remembered),
                remembered / by_hand,
            );
            cells.push(cell);
        }
        println!();
        lengths.push(cells);
    }
    println!("### Known full books of 65,535 words beside the first form, and beside 64 words\n");
    println!("| | known: first form | 64 words | remembered: first form | 64 words |");
    println!("|---|---|---|---|---|");
    for (at, name) in names.iter().enumerate() {
        let (short, long) = (&lengths[0][at], &lengths[2][at]);
        let told = [0, 2].map(|form| {
            let best = long.best[form];
            format!(
                " {:.5} | {:.2} |",
                best / long.first,
                best / short.best[form]
            )
        });
        println!("| {name} |{}", told.concat());
    }
}
