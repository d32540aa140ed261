//! Books and sheets to measure on, the same for each seed.

use calls::words::{close, half_dollars, kind, month, now, number, used};
use calls::words::{CLASS, CLASS_WORDS, EXPIRATION, FIRST_CLASS, STRIKE};
use calls::{Answer, Call, Random, StrikeBook};
use hand::{known, Known};

const NOW: u32 = 4;

/// The close of the class that all calls are made on.
const CLOSE: u32 = 2_400;

/// Words that are left in a full book, so that `O` and `L` are accepted.
const LEFT: usize = CLASS_WORDS;

/// A book with one class that all calls are made on.
#[derive(Clone)]
pub struct Book {
    pub run: Vec<u32>,
    /// The lines that make it of a fresh book.
    pub made_by: String,
    class: u32,
    close: u32,
    /// The program in which it is another exchange's, and becomes ours, and whose counter is read.
    pub program: u32,
    /// A strike that may be listed.
    permitted: u32,
}

/// A book that is being made, and the lines of the calls that were accepted.
struct Maker {
    run: Vec<u32>,
    lines: String,
}

impl Maker {
    fn fresh(length: usize) -> Maker {
        let mut run = vec![0; length];
        assert!(hand::fresh(&mut run));
        let lines = String::new();
        let mut maker = Maker { run, lines };
        maker.make(Call::M { m: NOW });
        maker
    }

    /// Makes a call that must be accepted.
    fn make(&mut self, call: Call) {
        assert!(self.try_make(call), "{}", call.line());
    }

    /// Makes a call, and answers whether it is accepted.
    fn try_make(&mut self, call: Call) -> bool {
        let accepted = Known(&mut self.run, &mut []).make(&call, &mut []).number == 0;
        if accepted {
            self.lines.push_str(&call.line());
            self.lines.push('\n');
        }
        accepted
    }
}

/// The class that all calls are made on: another exchange's $1 class, with `strikes` whole dollars in
/// each month, from $36 down by $2 and then from $35. In the first month $26 is marked. A review
/// removes the ones that are far from the close.
fn add_middle(maker: &mut Maker, c: u32, close: u32, months: &[u32], strikes: u32) {
    maker.make(Call::O { c });
    maker.make(Call::C { c, p: close });
    maker.make(Call::V { c, n: 5_000 });
    maker.make(Call::D { c, p: 1, d: 2 });
    for &ahead in months {
        let m = NOW + ahead;
        for strike in 0..strikes {
            let h = if strike < 13 {
                72 - 4 * strike
            } else {
                70 - 4 * (strike - 13)
            };
            maker.make(Call::L { c, m, h });
        }
    }
    maker.make(Call::of('I', &[c, NOW + months[0], 52, 1, 0]));
}

/// A class of the mix: most closes below $50, some below $5, some above $50. Stops where the words end.
fn add_other(random: &mut Random, maker: &mut Maker, c: u32, place: u32, end: usize) {
    let p = match place % 8 {
        0 => 100 + random.below(400),
        1..=5 => 600 + random.below(4_300),
        _ => 5_000 + random.below(25_000),
    };
    if used(&maker.run) + CLASS_WORDS > end {
        return;
    }
    maker.make(Call::O { c });
    maker.make(Call::C { c, p });
    let n = random.below(20_000);
    maker.make(Call::V { c, n });
    if p < 5_000 && place % 3 != 0 {
        let own = place < 150 && place % 2 == 0;
        let d = if own { 1 } else { 2 };
        maker.make(Call::D { c, p: 1, d });
    }
    if p <= 500 {
        maker.make(Call::D { c, p: 2, d: 2 });
    }
    let mut second = [0; 512];
    let mut ahead = 0;
    for _ in 0..3 + random.below(5) {
        ahead += random.pick(&[1, 1, 1, 2, 3, 6]);
        let m = NOW + ahead;
        let answer = known::list_permitted(&maker.run, &mut second, &mut [], c, m);
        let permitted = &second[..answer.value as usize];
        // Neighbours about the middle; in a long month some of them are too near to each other.
        let count = (5 + random.below(21) as usize).min(permitted.len());
        let from = (permitted.len() - count) / 2;
        for &h in &permitted[from..from + count] {
            if used(&maker.run) + 2 > end {
                return;
            }
            if maker.try_make(Call::L { c, m, h }) && random.below(3) == 0 {
                maker.make(Call::of('I', &[c, m, h, 1, random.below(2)]));
            }
        }
    }
}

/// A full run: classes of the mix, each with three to seven expirations of 5 to 25 strikes, and the
/// class of the calls in the middle of the words.
pub fn full(length: usize, seed: u64) -> Book {
    let mut random = Random::new(seed);
    let mut maker = Maker::fresh(length);
    let small = length < 100;
    let (mut number, mut place, mut middle) = (1, random.below(8), 0);
    let end = length - LEFT;
    while used(&maker.run) + CLASS_WORDS + 2 <= end {
        number += 2 + random.below(28);
        if middle == 0 && used(&maker.run) + 12 >= length / 2 {
            let (months, strikes) = if small {
                (&[1, 2][..], 6)
            } else {
                (&[1, 2, 3, 6][..], 15)
            };
            add_middle(&mut maker, number, CLOSE, months, strikes);
            middle = number;
        } else {
            let stop = if small && middle == 0 {
                length / 2 - 8
            } else {
                end
            };
            add_other(&mut random, &mut maker, number, place, stop);
        }
        place += 1;
    }
    Book::of_dollars(maker, middle, CLOSE)
}

/// The class of the calls alone, with two expirations of six strikes.
fn alone(length: usize, seed: u64, close: u32) -> (Maker, u32) {
    let class = 1 + Random::new(seed).below(16_000);
    let mut maker = Maker::fresh(length);
    add_middle(&mut maker, class, close, &[1, 2], 6);
    (maker, class)
}

pub fn nearly_empty(length: usize, seed: u64) -> Book {
    let (maker, class) = alone(length, seed, CLOSE);
    Book::of_dollars(maker, class, CLOSE)
}

/// The same with the class in the $2.50 program too: at $48.50 it may list $52.50.
pub fn two_fifty(length: usize, seed: u64) -> Book {
    let close = 4_850;
    let (mut maker, c) = alone(length, seed, close);
    maker.make(Call::D { c, p: 3, d: 2 });
    Book {
        program: 3,
        permitted: 105,
        ..Book::of_dollars(maker, c, close)
    }
}

/// The same with a low of $19 and a high of $30: up to $38 is in range at the one, from $15 to $45 at the
/// other, where it may list $41.
pub fn low_and_high(length: usize, seed: u64) -> Book {
    let (low, high) = (1_900, 3_000);
    let (mut maker, c) = alone(length, seed, CLOSE);
    maker.make(Call::H { c, low, high });
    Book {
        permitted: 82,
        ..Book::of_dollars(maker, c, CLOSE)
    }
}

impl Book {
    /// A book whose calls are about the $1 program.
    fn of_dollars(maker: Maker, class: u32, close: u32) -> Book {
        Book {
            run: maker.run,
            made_by: maker.lines,
            class,
            close,
            program: 1,
            permitted: 54,
        }
    }

    /// The calls that are timed, each accepted but the last, with the name of its row. `M` lets the
    /// first month of every class pass. `O` opens a class in the middle. `D` is to a new 1, which asks
    /// the counter. `L` and `X` are in an expiration that stays. `R` removes strikes.
    pub fn calls(&self) -> Vec<(&'static str, Call)> {
        let c = self.class;
        let m = NOW + 2;
        let (p, h) = (self.program, self.permitted);
        let (low, high) = (self.close - 50, self.close + 50);
        vec![
            ("`M`", Call::M { m }),
            ("`O`", Call::O { c: c + 1 }),
            ("`C`", Call::C { c, p: 2_450 }),
            ("`H`", Call::H { c, low, high }),
            ("`V`", Call::V { c, n: 6_000 }),
            ("`D`", Call::D { c, p, d: 1 }),
            ("`L`", Call::L { c, m, h }),
            ("`J`", Call::J { c, m, h }),
            ("`X`", Call::X { c, m, h: 56 }),
            ("`I`", Call::of('I', &[c, m, 56, 0, 1])),
            ("`R`", Call::R { c }),
            ("`A`", Call::A { c, m }),
            ("`L` refused 6", Call::L { c, m, h: 56 }),
        ]
    }

    /// A sheet of mixed lines that suit the book as they change it, of calls that are wanted, by their
    /// answers too. A few are refused, one in a hundred is malformed, by a space at its end.
    pub fn sheet(&self, lines: u32, is_wanted: impl Fn(&Call, Answer) -> bool) -> Vec<u8> {
        let mut random = Random::new(0);
        let mut run = self.run.clone();
        let mut sheet = String::new();
        for n in 0..lines {
            let (call, after) = loop {
                let call = match n == lines / 4 * 3 {
                    true => Call::M { m: NOW + 1 },
                    false => mixed(&mut random, &run),
                };
                let mut after = run.clone();
                let answer = Known(&mut after, &mut []).make(&call, &mut [0; 512]);
                if is_wanted(&call, answer) {
                    break (call, after);
                }
            };
            sheet.push_str(&call.line());
            match random.one_in(100) {
                true => sheet.push(' '),
                false => run = after,
            }
            sheet.push('\n');
        }
        sheet.into_bytes()
    }
}

/// A call on any class and any standing strike, found from a word drawn.
fn mixed(random: &mut Random, run: &[u32]) -> Call {
    let from = random.index(used(run));
    let last = |wanted| run[..=from].iter().rposition(|word| kind(*word) == wanted);
    let place = last(CLASS).unwrap_or(FIRST_CLASS);
    let (c, close) = (number(run[place]), close(run[place + 1]));
    let expiration = last(EXPIRATION).filter(|at| *at > place);
    let m = expiration.map_or(NOW + 2, |at| month(run[at]));
    let standing = half_dollars(run[from]);
    let is_strike = kind(run[from]) == STRIKE;
    let mut second = [0; 512];
    let permitted = known::list_permitted(run, &mut second, &mut [], c, m);
    let h = match permitted.number == 0 && permitted.value > 0 {
        true => second[random.below(permitted.value) as usize],
        false => random.between(1, 100),
    };
    match random.below(100) {
        0..=1 => Call::M { m: now(run) },
        2 => Call::O { c: c + 1 },
        3..=11 => {
            let p = close - close / 16 + random.below(close / 8 + 2);
            Call::C { c, p }
        }
        12..=15 => {
            let n = random.below(20_000);
            Call::V { c, n }
        }
        16..=18 => {
            let d = random.below(3);
            Call::D { c, p: 1, d }
        }
        19..=20 => Call::R { c },
        21..=24 => Call::A { c, m },
        25..=39 if is_strike => Call::X { c, m, h: standing },
        40..=44 => {
            let span = close / 16 + 1;
            let (low, high) = (close - random.below(span), close + random.below(span));
            Call::H { c, low, high }
        }
        45..=57 if is_strike => {
            let (a, b) = (random.below(2), random.below(2));
            Call::of('I', &[c, m, standing, a, b])
        }
        58..=77 => Call::L { c, m, h },
        78..=81 => {
            let h = random.between(1, 120);
            Call::L { c, m, h }
        }
        82..=89 => {
            let h = random.between(1, 120);
            Call::J { c, m, h }
        }
        _ => Call::J { c, m, h },
    }
}
