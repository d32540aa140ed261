//! Two builds of the library timed in one run. Each is a shared library that is opened by its path, so that
//! both are called alike; docs/PERFORMANCE.md says how one is made of an archive. Each makes its own books of
//! the same lines, as the two may lay out the same facts in other words.

use crate::books::{full, nearly_empty, Book};
use crate::clock::{compare, nanoseconds, Batch};
use crate::proved::told;
use crate::side::{readings, told_counter, Lent, Work};
use crate::{books_of, lent, rounds_of, rows_of, Kind, LENGTHS, READ_COUNTER, READ_KNOWN_COUNTER};
use calls::{Answer, Call, StrikeBook};
use std::ffi::{c_char, c_int, c_void, CString};
use std::hint::black_box;
use std::mem::transmute_copy;
use strikebook::library::{CounterReply, Reply};

extern "C" {
    fn dlopen(path: *const c_char, how: c_int) -> *mut c_void;
    fn dlsym(library: *mut c_void, name: *const c_char) -> *mut c_void;
}

/// RTLD_NOW without RTLD_GLOBAL: neither build sees the other's names.
const APART: c_int = 2;

type Run = *mut u32;

type ReadCounter = extern "C" fn(*const u32, usize, u32) -> CounterReply;

/// The functions of one build, as `strikebook::library` declares them.
struct Build {
    is_book: extern "C" fn(Run, usize) -> bool,
    fresh: extern "C" fn(Run, usize) -> Reply,
    set_month: extern "C" fn(Run, usize, u32) -> Reply,
    open_class: extern "C" fn(Run, usize, u32) -> Reply,
    set_close: extern "C" fn(Run, usize, u32, u32) -> Reply,
    set_volume: extern "C" fn(Run, usize, u32, u32) -> Reply,
    designate: extern "C" fn(Run, usize, u32, u32, u32) -> Reply,
    list_strike: extern "C" fn(Run, usize, u32, u32, u32) -> Reply,
    judge_strike: extern "C" fn(Run, usize, u32, u32, u32) -> Reply,
    delist_strike: extern "C" fn(Run, usize, u32, u32, u32) -> Reply,
    mark_strike: extern "C" fn(Run, usize, u32, u32, u32, u32, u32) -> Reply,
    review_class: extern "C" fn(Run, usize, u32) -> Reply,
    list_permitted: extern "C" fn(Run, usize, Run, usize, u32, u32) -> Reply,
    run_sheet: extern "C" fn(Run, usize, Run, usize, *const u8, usize, Run, usize) -> usize,
    /// Builds before #103 lack it.
    set_low_high: Option<extern "C" fn(Run, usize, u32, u32, u32) -> Reply>,
    /// Builds before #104 lack both.
    read_counter: Option<ReadCounter>,
    read_known_counter: Option<ReadCounter>,
}

impl Build {
    fn open(path: &str) -> Build {
        let name = CString::new(path).expect("a path");
        // SAFETY: the name ends in 0. The library is never closed.
        let library = unsafe { dlopen(name.as_ptr(), APART) };
        assert!(!library.is_null(), "{path} can't be opened");
        // Null where the library lacks it.
        let found = |function: &str| {
            let name = CString::new(format!("strike_book_{function}")).expect("a name");
            // SAFETY: the library is open, and the name ends in 0.
            unsafe { dlsym(library, name.as_ptr()) }
        };
        macro_rules! build {
            ($($function:ident)*) => {
                Build {
                    $($function: {
                        let name = stringify!($function);
                        let function = found(name);
                        assert!(!function.is_null(), "{path} lacks {name}");
                        // SAFETY: the function is of the field's type in every build.
                        unsafe { transmute_copy(&function) }
                    },)*
                    // SAFETY: the same of a build that has them; a null pointer is none.
                    set_low_high: unsafe { transmute_copy(&found("set_low_high")) },
                    read_counter: unsafe { transmute_copy(&found("read_counter")) },
                    read_known_counter: unsafe { transmute_copy(&found("read_known_counter")) },
                }
            };
        }
        build! {
            is_book fresh set_month open_class set_close set_volume designate list_strike judge_strike
            delist_strike mark_strike review_class list_permitted run_sheet
        }
    }

    /// A book of the same facts and length, in this build's words.
    fn made(&self, book: &Book) -> Book {
        let mut made = book.clone();
        let run = &mut made.run;
        assert_eq!((self.fresh)(run.as_mut_ptr(), run.len()).number, 0);
        let mut lent = Lent {
            second: Vec::new(),
            answers: vec![1; 2 * book.made_by.lines().count()],
        };
        let sheet = Work::Sheet(book.made_by.clone().into_bytes());
        self.work(&sheet, run, &mut lent);
        let mut numbers = lent.answers.iter().step_by(2);
        assert!(numbers.all(|number| *number == 0), "a line is refused");
        made
    }

    /// Whether it has what a row is about.
    fn has(&self, row: &str) -> bool {
        match row {
            "`H`" => self.set_low_high.is_some(),
            READ_COUNTER => self.read_counter.is_some(),
            READ_KNOWN_COUNTER => self.read_known_counter.is_some(),
            _ => true,
        }
    }

    /// Does the work once, as `side::work` does it.
    fn work(&self, work: &Work, run: &mut [u32], lent: &mut Lent) -> Answer {
        let (second, answers) = (&mut lent.second, &mut lent.answers);
        let number = match work {
            Work::Call(call) => return Called(self, run).make(call, second),
            Work::ReadCounter(program) => return read(self.read_counter, run, *program),
            Work::ReadKnownCounter(program) => {
                return readings(|| read(self.read_known_counter, black_box(run), *program))
            }
            Work::IsBook => (self.is_book)(run.as_mut_ptr(), run.len()) as usize,
            Work::Sheet(sheet) => (self.run_sheet)(
                run.as_mut_ptr(),
                run.len(),
                second.as_mut_ptr(),
                second.len(),
                sheet.as_ptr(),
                sheet.len(),
                answers.as_mut_ptr(),
                answers.len(),
            ),
        };
        Answer {
            number: number as u32,
            value: 0,
        }
    }
}

fn read(function: Option<ReadCounter>, run: &[u32], program: u32) -> Answer {
    let function = function.expect("a build that has it");
    told_counter(function(run.as_ptr(), run.len(), program))
}

/// A run that is lent to a build.
struct Called<'a>(&'a Build, &'a mut [u32]);

macro_rules! called {
    ($($function:ident($($number:ident),*))*) => {
        $(fn $function(&mut self, $($number: u32),*) -> Answer {
            told((self.0.$function)(self.1.as_mut_ptr(), self.1.len(), $($number),*))
        })*
    };
}

impl StrikeBook for Called<'_> {
    called! {
        set_month(m) open_class(c) set_close(c, p) set_volume(c, n) designate(c, p, d) list_strike(c, m, h)
        judge_strike(c, m, h) delist_strike(c, m, h) mark_strike(c, m, h, a, b) review_class(c)
    }

    fn set_low_high(&mut self, c: u32, low: u32, high: u32) -> Answer {
        let function = self.0.set_low_high.expect("a build that has it");
        told(function(self.1.as_mut_ptr(), self.1.len(), c, low, high))
    }

    fn list_permitted(&mut self, second: &mut [u32], c: u32, m: u32) -> Answer {
        let (at, length) = (second.as_mut_ptr(), second.len());
        told((self.0.list_permitted)(
            self.1.as_mut_ptr(),
            self.1.len(),
            at,
            length,
            c,
            m,
        ))
    }

    fn malformed(&mut self) -> Answer {
        unreachable!("no malformed line is timed alone")
    }
}

/// Both builds answer the same, and write the same; the same words of the book too, where they had the same.
fn check(builds: &[Build; 2], name: &str, books: [&Book; 2], what: &Work) {
    let done = |at: usize| {
        let (mut run, mut lent) = (books[at].run.clone(), lent());
        let answer = builds[at].work(what, &mut run, &mut lent);
        (answer, run, lent)
    };
    let (one, other) = (done(0), done(1));
    let alike = books[0].run == books[1].run;
    let same = one.0 == other.0 && one.2 == other.2 && (!alike || one.1 == other.1);
    assert!(same, "{name}: the builds differ");
}

/// One row of a table, of one length: the second build's time beside the first's, best and median.
fn measure(builds: &[Build; 2], name: &str, books: &[Vec<Book>; 2], works: &[Work]) -> String {
    let [ones, others] = books;
    for (place, what) in works.iter().enumerate() {
        check(builds, name, [&ones[place], &others[place]], what);
    }
    let mut batch = Batch::of(&ones[..works.len()], works, &lent());
    let compared = compare(rounds_of(works), |second| {
        let at = usize::from(second);
        batch.time_by(&books[at], |what, run, lent| {
            builds[at].work(what, run, lent)
        })
    });
    let (best, median) = (compared.best(), compared.median);
    let time = nanoseconds(compared.second);
    format!(" {time} | {best:.2} | {median:.2} |")
}

/// The books in the words of each build.
fn made_by_each(builds: &[Build; 2], books: &[Book]) -> [Vec<Book>; 2] {
    let made = |build: &Build| books.iter().map(|book| build.made(book)).collect();
    builds.each_ref().map(made)
}

/// The tables of the second build beside the first.
pub fn builds(first: &str, second: &str) {
    let builds = [first, second].map(Build::open);
    let both_have = |row: &str| builds.iter().all(|build| build.has(row));
    // Where one lays out a book in more words than the other, it runs out of them earlier.
    let is_shared = |call: &Call, answer: Answer| {
        (both_have("`H`") || call.letter() != 'H') && answer.number != 15
    };
    let kinds: [(&str, Kind); 2] = [("Full books", full), ("Nearly empty books", nearly_empty)];
    for (title, kind) in kinds {
        println!("### {title}: nanoseconds of the first build, the second's time beside it\n");
        println!("| | 64 words | best | median | 4,096 | best | median | 65,535 | best | median |");
        println!("|---|---|---|---|---|---|---|---|---|---|");
        let books = LENGTHS.map(|length| books_of(kind, length));
        let rows = books.each_ref().map(|books| rows_of(books, is_shared));
        let books = books.map(|books| made_by_each(&builds, &books));
        for (place, (name, _)) in rows[0].iter().enumerate() {
            if !both_have(name) {
                continue;
            }
            let cells = [0, 1, 2].map(|at| measure(&builds, name, &books[at], &rows[at][place].1));
            println!("| {name} |{}", cells.concat());
        }
        println!();
    }
}
