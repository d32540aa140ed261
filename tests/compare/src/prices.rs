//! How often the answers to `J`, `L` and `A` hang on a low and a high that differ.

use calls::{Answer, Call, StrikeBook};
use second::{Class, PlainBook};
use std::collections::BTreeMap;

/// How often each must come.
const LEAST: u64 = 100;

const LETTERS: [char; 3] = ['J', 'L', 'A'];

/// A call is judged where low and high differ.
const JUDGED: &str = "judged";

/// The answer would be another at one price alone.
const ALONE: [(&str, fn(&Class) -> u32); 3] = [
    ("other at the low", |class| class.low),
    ("other at the high", |class| class.high),
    ("other at the close", |class| class.close),
];

/// A wing has its position at one price alone, and its range at the other alone.
const APART: &str = "position and range apart";

/// Whether the class of a call is judged at a low and a high that differ: the book with it alone.
pub fn judged(book: &PlainBook, call: &Call) -> Option<PlainBook> {
    let (Call::J { c, .. } | Call::L { c, .. } | Call::A { c, .. }) = call else {
        return None;
    };
    let class = book.classes.get(c)?;
    (class.low < class.high).then(|| PlainBook {
        now: book.now,
        length: book.length,
        classes: BTreeMap::from([(*c, class.clone())]),
    })
}

/// The book with one price as the low and the high.
fn at(book: &PlainBook, price: fn(&Class) -> u32) -> PlainBook {
    let mut book = book.clone();
    for class in book.classes.values_mut() {
        (class.low, class.high) = (price(class), price(class));
    }
    book
}

/// Whether another book answers otherwise; to `A` by refusing a strike that was written.
fn otherwise(mut book: PlainBook, call: &Call, answer: Answer, second: &[u32]) -> bool {
    match *call {
        Call::A { c, m } => {
            let mut written = second[..answer.value as usize].iter();
            written.any(|h| book.judge_strike(c, m, *h).number != 0)
        }
        Call::J { c, m, h } | Call::L { c, m, h } => book.judge_strike(c, m, h) != answer,
        _ => false,
    }
}

/// Whether a wing is out of range where it has its position, and in range where it has none.
fn is_apart(mut here: PlainBook, mut there: PlainBook, call: &Call) -> bool {
    let (Call::J { c, m, h } | Call::L { c, m, h }) = *call else {
        return false;
    };
    let drawn = [&mut here, &mut there].map(|book| book.judge_strike(c, m, h).number);
    // Without standing strikes, the multiples of $5 beside it are refused by their range alone.
    for class in there.classes.values_mut() {
        class.strikes.clear();
    }
    let mut beside = [h / 10 * 10, h / 10 * 10 + 10].into_iter();
    drawn == [12, 11] && beside.all(|h| there.judge_strike(c, m, h).number == 0)
}

#[derive(Default)]
pub struct ByPrice(BTreeMap<(char, &'static str), u64>);

impl ByPrice {
    /// Counts a call on a book that [`judged`] gave, with its answer and the second run that it left.
    pub fn count(&mut self, book: &PlainBook, call: &Call, answer: Answer, second: &[u32]) {
        if ![0, 11, 12, 13].contains(&answer.number) {
            return;
        }
        let mut add = |what| *self.0.entry((call.letter(), what)).or_default() += 1;
        add(JUDGED);
        for (what, price) in ALONE {
            if otherwise(at(book, price), call, answer, second) {
                add(what);
            }
        }
        let at_low = || at(book, |class| class.low);
        let at_high = || at(book, |class| class.high);
        if is_apart(at_low(), at_high(), call) || is_apart(at_high(), at_low(), call) {
            add(APART);
        }
    }

    fn times(&self, letter: char, what: &'static str) -> u64 {
        self.0.get(&(letter, what)).copied().unwrap_or(0)
    }

    /// Prints a line for each letter. Fails where one of them came too rarely.
    pub fn told(&self) -> Result<(), String> {
        let mut rarest = u64::MAX;
        for letter in LETTERS {
            let mut kinds = vec![JUDGED];
            kinds.extend(ALONE.map(|(what, _)| what));
            // `A` writes no wing that is refused.
            if letter != 'A' {
                kinds.push(APART);
            }
            let times = kinds.iter().map(|what| self.times(letter, what));
            rarest = rarest.min(times.min().unwrap_or(0));
            let told: Vec<String> = kinds
                .iter()
                .map(|what| format!("{what}: {}", self.times(letter, what)))
                .collect();
            println!("  {letter} at a low and a high  {}", told.join(", "));
        }
        match rarest {
            LEAST.. => Ok(()),
            _ => Err(format!("one of these came fewer than {LEAST} times")),
        }
    }
}
