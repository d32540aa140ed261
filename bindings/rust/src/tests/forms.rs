//! The calls of a [`Book`], which test no word, beside those of [`library`] on a copy of its words.

use crate::known::PLACES;
use crate::library::{self, Reply};
use crate::{Book, Designation, Ground, Program, Refusal};

/// A letter as a sheet writes it, and numbers; those past its own are ignored.
type Call = (u8, [u32; 5]);

/// The letters, and how many numbers each has.
const LETTERS: [(u8, usize); 12] = [
    (b'M', 1),
    (b'O', 1),
    (b'C', 2),
    (b'H', 3),
    (b'V', 2),
    (b'D', 3),
    (b'L', 3),
    (b'J', 3),
    (b'X', 3),
    (b'I', 5),
    (b'R', 1),
    (b'A', 2),
];

/// Makes a call that tests the words.
fn on_words(words: &mut [u32], second: &mut [u32], (letter, numbers): Call) -> Reply {
    let [c, m, h, a, b] = numbers;
    match letter {
        b'M' => library::set_month(words, c),
        b'O' => library::open_class(words, c),
        b'C' => library::set_close(words, c, m),
        b'H' => library::set_low_high(words, c, m, h),
        b'V' => library::set_volume(words, c, m),
        b'D' => library::designate(words, c, m, h),
        b'L' => library::list_strike(words, c, m, h),
        b'J' => library::judge_strike(words, c, m, h),
        b'X' => library::delist_strike(words, c, m, h),
        b'I' => library::mark_strike(words, c, m, h, a, b),
        b'R' => library::review_class(words, c),
        b'A' => library::list_permitted(words, second, c, m),
        _ => unreachable!("no letter of a call"),
    }
}

/// The reply that tells an answer.
fn told<T>(answer: Result<T, Refusal>, value: impl Fn(T) -> u32) -> Reply {
    let (number, value) = match answer {
        Ok(accepted) => (0, value(accepted)),
        Err(Refusal::OutOfWords { needed }) => (15, needed),
        Err(refusal) => (refusal.number(), 0),
    };
    Reply { number, value }
}

fn designation_of(program: u32, designation: u32) -> Option<(Program, Designation)> {
    let mut programs = [Program::Dollar, Program::Half, Program::TwoFifty].into_iter();
    let program = programs.find(|p| *p as u32 == program)?;
    let mut designations = [Designation::None, Designation::Ours, Designation::Another].into_iter();
    Some((program, designations.find(|d| *d as u32 == designation)?))
}

/// Makes a call by the method of a book, or by what is beneath it where a type lacks the numbers.
fn on_book(book: &mut Book, second: &mut [u32], (letter, numbers): Call) -> Reply {
    let [c, m, h, a, b] = numbers;
    let nothing = |()| 0;
    let ground = |ground: Ground| ground as u32;
    match letter {
        b'M' => told(book.set_month(c), nothing),
        b'O' => told(book.open_class(c), nothing),
        b'C' => told(book.set_close(c, m), nothing),
        b'H' => told(book.set_low_high(c, m, h), nothing),
        b'V' => told(book.set_volume(c, m), nothing),
        b'D' => match designation_of(m, h) {
            Some((program, designation)) => told(book.designate(c, program, designation), nothing),
            None => book.known.designate(c, m, h),
        },
        b'L' => told(book.list_strike(c, m, h), ground),
        b'J' => told(book.judge_strike(c, m, h), ground),
        b'X' => told(book.delist_strike(c, m, h), nothing),
        b'I' if a.max(b) <= 1 => told(book.mark_strike(c, m, h, a == 1, b == 1), nothing),
        b'I' => book.known.mark_strike(c, m, h, a, b),
        b'R' => told(book.review_class(c), |removed| removed),
        b'A' => told(book.list_permitted(c, m, second), |permitted| {
            permitted.len() as u32
        }),
        _ => unreachable!("no letter of a call"),
    }
}

/// A book, and a copy of its words.
struct Both<'a> {
    book: Book<'a>,
    words: Vec<u32>,
}

impl Both<'_> {
    fn fresh(run: &mut [u32]) -> Both<'_> {
        let book = Book::fresh(run).unwrap();
        let words = book.words().to_vec();
        Both { book, words }
    }

    /// Makes the call in both forms, and wants the same reply and the same words of both runs.
    fn make(&mut self, call: Call) -> Reply {
        let (mut second, mut expected) = ([77; 24], [77; 24]);
        let wanted = on_words(&mut self.words, &mut expected, call);
        let reply = on_book(&mut self.book, &mut second, call);
        assert_eq!(reply, wanted, "{call:?}");
        assert_eq!(self.book.words(), self.words, "{call:?}");
        assert_eq!(second, expected, "{call:?}");
        reply
    }

    /// Makes a call that is to be accepted.
    fn accept(&mut self, letter: u8, numbers: [u32; 5]) {
        let reply = self.make((letter, numbers));
        assert_eq!(reply.number, 0, "{letter} {numbers:?}");
    }

    /// Where the words of a class begin.
    fn place(&self, class: u32) -> u32 {
        let is_its_word = |word: &u32| word >> 28 == 2 && word & 16_383 == class;
        self.words.iter().position(is_its_word).unwrap() as u32
    }

    /// What the book remembers of where a class stands.
    fn remembered(&mut self, class: u32) -> u32 {
        self.book.known.places()[class as usize % PLACES]
    }

    /// Makes calls on a class at $21, the last of which remembers where it stands.
    fn call_and_remember(&mut self, class: u32, month: u32) {
        self.accept(b'J', [class, month, 45, 0, 0]);
        self.accept(b'A', [class, month, 0, 0, 0]);
        self.accept(b'V', [class, 1_000, 0, 0, 0]);
        assert_eq!(self.remembered(class), self.place(class));
    }
}

/// Numbers from a seed.
struct Random(u64);

impl Random {
    fn below(&mut self, limit: u32) -> u32 {
        self.0 ^= self.0 << 13;
        self.0 ^= self.0 >> 7;
        self.0 ^= self.0 << 17;
        (self.0 >> 32) as u32 % limit
    }

    fn pick(&mut self, numbers: &[u32]) -> u32 {
        numbers[self.below(numbers.len() as u32) as usize]
    }

    /// A call on one of 80 classes, two of which share a place; half of those that need a standing strike
    /// have one.
    fn call(&mut self, words: &[u32]) -> Call {
        const PRICES: [u32; 7] = [200, 500, 1_300, 2_100, 2_475, 4_850, 12_000];
        let place = self.pick(&[0, 1, 1, 2, 3, 4, 5, 6, 6, 6, 7, 8, 9, 10, 11]);
        let letter = LETTERS[place as usize].0;
        let now = words[0] & 1_023;
        let class = 5 * (1 + self.below(40)) + PLACES as u32 * self.below(2);
        let month = now + self.pick(&[0, 1, 2, 9, 39]);
        let strike = self.pick(&[5, 9, 10, 24, 25, 26, 40, 44, 46, 50, 95, 105]);
        let mut numbers = match letter {
            b'M' => [
                (now + self.pick(&[0, 1, 1, 1, 2, 3])).saturating_sub(1),
                0,
                0,
                0,
                0,
            ],
            b'V' => [class, self.pick(&[0, 999, 1_000]), 0, 0, 0],
            b'D' => [class, self.below(4), self.below(3), 0, 0],
            b'C' | b'H' => [class, self.pick(&PRICES), self.pick(&PRICES), 0, 0],
            _ => [class, month, strike, self.below(2), self.below(2)],
        };
        let standing = standing(words);
        if matches!(letter, b'X' | b'I') && !standing.is_empty() && self.below(2) == 0 {
            let place = self.below(standing.len() as u32);
            numbers[..3].copy_from_slice(&standing[place as usize]);
        }
        if self.below(20) == 0 {
            let place = self.below(5) as usize;
            numbers[place] = self.pick(&[0, 2, 3, 1_024, 16_384, 20_000, 1_000_000, u32::MAX]);
        }
        (letter, numbers)
    }
}

/// Class, month and half dollars of each strike in the words of a book.
fn standing(words: &[u32]) -> Vec<[u32; 3]> {
    let (mut class, mut month, mut strikes) = (0, 0, Vec::new());
    for word in words {
        match word >> 28 {
            2 => class = word & 16_383,
            5 => month = word & 1_023,
            6 => strikes.push([class, month, word & 32_767]),
            _ => (),
        }
    }
    strikes
}

#[test]
fn mixed_calls() {
    // How often each letter was accepted and refused.
    let mut times = [[0; 2]; LETTERS.len()];
    for (seed, length) in [(1, 300), (2, 1_000), (3, 4_096)] {
        let mut random = Random(seed);
        let mut run = vec![9; length];
        let mut both = Both::fresh(&mut run);
        for _ in 0..8_000 {
            let call = random.call(&both.words);
            let reply = both.make(call);
            let letter = LETTERS.iter().position(|(letter, _)| *letter == call.0);
            times[letter.unwrap()][usize::from(reply.number != 0)] += 1;
        }
    }
    let mut times = times.as_flattened().iter();
    assert!(times.all(|times| *times >= 50), "{times:?}");
}

#[test]
fn places_of_any_words() {
    let mut random = Random(4);
    let mut run = [9; 2_000];
    let mut both = Both::fresh(&mut run);
    for _ in 0..8_000 {
        let limit = random.pick(&[1, 16, 2_000, 70_000, u32::MAX]);
        let places = both.book.known.places();
        places.fill_with(|| random.below(limit));
        let call = random.call(&both.words);
        both.make(call);
    }
}

/// A book of the classes 10, 20 to 1,000, each at $21: a long one, in which places are remembered.
fn hundred_classes(run: &mut [u32]) -> Both<'_> {
    let mut both = Both::fresh(run);
    for class in (10..=1_000).step_by(10) {
        both.accept(b'O', [class, 0, 0, 0, 0]);
        both.accept(b'C', [class, 2_100, 0, 0, 0]);
    }
    both
}

#[test]
fn places_that_are_stale() {
    let mut run = [0; 2_000];
    let mut both = hundred_classes(&mut run);
    both.call_and_remember(700, 5);
    // A class that is opened below moves it a little, and strikes that are listed below move it far.
    both.accept(b'O', [5, 0, 0, 0, 0]);
    assert_eq!(both.remembered(700) + 5, both.place(700));
    both.call_and_remember(700, 5);
    both.accept(b'C', [5, 2_100, 0, 0, 0]);
    for month in 1..=39 {
        for strike in [25, 30, 35, 40, 45, 50, 60] {
            both.accept(b'L', [5, month, strike, 0, 0]);
        }
    }
    assert_eq!(both.remembered(700) + 39 * 8, both.place(700));
    both.call_and_remember(700, 5);
    // The month after the last of them moves it back.
    both.accept(b'M', [40, 0, 0, 0, 0]);
    assert_eq!(both.remembered(700), both.place(700) + 39 * 8);
    both.call_and_remember(700, 45);
}

#[test]
fn places_that_are_shared() {
    let mut run = [0; 2_000];
    let mut both = hundred_classes(&mut run);
    let other = 700 - PLACES as u32;
    both.accept(b'O', [other, 0, 0, 0, 0]);
    both.accept(b'C', [other, 2_100, 0, 0, 0]);
    for class in [700, other, 700, other] {
        assert_ne!(both.remembered(class), both.place(class));
        both.call_and_remember(class, 5);
    }
}

#[test]
fn sheets_over_a_book() {
    let mut random = Random(5);
    let mut run = [0; 2_000];
    let mut both = hundred_classes(&mut run);
    for (room, places) in [(0, 51), (5, 52), (24, 53)].repeat(20) {
        let mut sheet = String::new();
        for _ in 0..50 {
            let (letter, numbers) = random.call(&both.words);
            let (_, count) = LETTERS.into_iter().find(|(l, _)| *l == letter).unwrap();
            sheet.push(letter.into());
            for number in &numbers[..count] {
                sheet += &format!(" {number}");
            }
            sheet.push('\n');
        }
        sheet += "\nO  7";
        let (mut second, mut expected) = (vec![77; room], vec![77; room]);
        let (mut answers, mut wanted) = (vec![[99; 2]; places], vec![[99; 2]; places]);
        let lines = both
            .book
            .run_sheet(&mut second, sheet.as_bytes(), &mut answers);
        let places = wanted.as_flattened_mut();
        library::run_sheet(&mut both.words, &mut expected, sheet.as_bytes(), places);
        assert_eq!(lines, 52);
        assert_eq!(answers, wanted, "{sheet}");
        assert_eq!(both.book.words(), both.words, "{sheet}");
        assert_eq!(second, expected, "{sheet}");
        let call = random.call(&both.words);
        both.make(call);
    }
}

#[test]
fn a_book_that_threads_judge() {
    let mut run = [0; 2_000];
    let both = hundred_classes(&mut run);
    let (book, words) = (&both.book, &both.words);
    std::thread::scope(|scope| {
        for first in [10, 20] {
            scope.spawn(move || {
                for class in (first..=1_000).step_by(20) {
                    let wanted = library::judge_strike(words, class, 5, 45);
                    let answer = book.judge_strike(class, 5, 45);
                    assert_eq!(told(answer, |ground| ground as u32), wanted, "{class}");
                }
            });
        }
    });
}
