//! The words of a run by document 01's layout and the requests', written and read without asking whether it
//! is a book.

use crate::Random;

/// Bits 28 to 31 of a word are its kind.
pub const HEAD: u32 = 1 << 28;
pub const CLASS: u32 = 2 << 28;
pub const CLOSE: u32 = 3 << 28;
pub const VOLUME: u32 = 4 << 28;
pub const EXPIRATION: u32 = 5 << 28;
pub const STRIKE: u32 = 6 << 28;
pub const LOW_HIGH: u32 = 7 << 28;
pub const COUNTER: u32 = 8 << 28;

/// A program: the lowest bit of its designation in a class word, how many of its classes may be ours, and
/// its grounds.
pub struct Program {
    pub low: u32,
    pub cap: u32,
    pub grounds: &'static [u32],
}

/// The $1, the $0.50 and the $2.50 program, 1 to 3 in `D`.
pub const PROGRAMS: [Program; 3] = [
    Program {
        low: 14,
        cap: 150,
        grounds: &[1, 3],
    },
    Program {
        low: 16,
        cap: 20,
        grounds: &[2],
    },
    Program {
        low: 18,
        cap: 60,
        grounds: &[4],
    },
];

/// A number for each program.
pub type ByProgram = [u32; PROGRAMS.len()];

/// The grounds of a strike.
pub const GROUNDS: [u32; 5] = [0, 1, 2, 3, 4];

pub fn head(now: u32, used: usize) -> u32 {
    HEAD | now | (used as u32) << 10
}

/// Where the first class stands, after the head and a counter for each program. A run with fewer words is
/// no book, and a fresh book just fits in as many.
pub const FIRST_CLASS: usize = 1 + PROGRAMS.len();

/// The counter of a program: its own classes, and the strikes that stand on its grounds.
pub fn counter(own_classes: u32, strikes: u32) -> u32 {
    COUNTER | own_classes | strikes << 8
}

/// The own classes of a counter.
pub fn own_classes(word: u32) -> u32 {
    word & 0xff
}

/// The standing strikes of a counter.
pub fn standing_strikes(word: u32) -> u32 {
    word >> 8 & 0xffff
}

/// The counters that are true of the words of classes.
pub fn counters(classes: &[u32]) -> ByProgram {
    PROGRAMS.map(|program| {
        let is_ours = |word: &&u32| kind(**word) == CLASS && designation(**word, &program) == 1;
        let is_on_its_ground =
            |word: &&u32| kind(**word) == STRIKE && program.grounds.contains(&ground(**word));
        let own = classes.iter().filter(is_ours).count();
        let strikes = classes.iter().filter(is_on_its_ground).count();
        counter(own as u32, strikes as u32)
    })
}

/// The words of classes after a head and counters that are true of them.
pub fn headed(now: u32, classes: &[u32]) -> Vec<u32> {
    let mut run = vec![head(now, FIRST_CLASS + classes.len())];
    run.extend(counters(classes));
    run.extend(classes);
    run
}

/// Writes the counters that are true of the words used, where a run has places for them.
pub fn recount(run: &mut [u32]) {
    if run.len() >= FIRST_CLASS {
        let end = used(run).clamp(FIRST_CLASS, run.len());
        let counters = counters(&run[FIRST_CLASS..end]);
        run[1..FIRST_CLASS].copy_from_slice(&counters);
    }
}

/// A class with its designations.
pub fn class(number: u32, designations: ByProgram) -> u32 {
    let mut word = CLASS | number;
    for (program, designation) in PROGRAMS.iter().zip(designations) {
        word |= designation << program.low;
    }
    word
}

/// The close of a class, its low and its high: all 0 before any close.
#[derive(Clone, Copy, Debug, PartialEq, Eq)]
pub struct Prices {
    pub close: u32,
    pub low: u32,
    pub high: u32,
}

impl Prices {
    /// A close alone, which is the low and the high too.
    pub fn at(close: u32) -> Prices {
        Prices {
            close,
            low: close,
            high: close,
        }
    }
}

/// How many words a class takes before its expirations.
pub const CLASS_WORDS: usize = 5;

/// The words of a class before its expirations.
pub fn class_words(
    number: u32,
    designations: ByProgram,
    prices: Prices,
    volume: u32,
) -> [u32; CLASS_WORDS] {
    [
        class(number, designations),
        CLOSE | prices.close,
        VOLUME | volume,
        LOW_HIGH | prices.low,
        LOW_HIGH | prices.high,
    ]
}

pub fn strike(h: u32, ground: u32, put: u32, call: u32) -> u32 {
    STRIKE | h | ground << 15 | put << 18 | call << 19
}

pub fn kind(word: u32) -> u32 {
    word & 0xf000_0000
}

/// The current month of a head, or the month of an expiration.
pub fn month(word: u32) -> u32 {
    word & 0x3ff
}

/// The number of a class.
pub fn number(word: u32) -> u32 {
    word & 0x3fff
}

/// The designation of a class in a program.
pub fn designation(word: u32, program: &Program) -> u32 {
    word >> program.low & 3
}

/// A class word with another designation in a program.
pub fn with_designation(word: u32, program: &Program, designation: u32) -> u32 {
    word & !(3 << program.low) | designation << program.low
}

/// A close; a low and a high have the same bits.
pub fn close(word: u32) -> u32 {
    word & 0xf_ffff
}

/// The half dollars of a strike.
pub fn half_dollars(word: u32) -> u32 {
    word & 0x7fff
}

/// The ground of a strike.
pub fn ground(word: u32) -> u32 {
    word >> 15 & 7
}

/// A strike word with another ground.
pub fn with_ground(word: u32, ground: u32) -> u32 {
    word & !(7 << 15) | ground << 15
}

/// The current month; 0 where there is no word.
pub fn now(run: &[u32]) -> u32 {
    run.first().map_or(0, |word| month(*word))
}

/// The words that the head counts as used.
pub fn used(run: &[u32]) -> usize {
    run.first().map_or(0, |word| (word >> 10 & 0xffff) as usize)
}

/// A class as its words show it.
pub struct Class {
    pub number: u32,
    pub prices: Prices,
    /// The month and the half dollars of each strike.
    pub strikes: Vec<(u32, u32)>,
}

/// The places of the words of a kind.
pub fn places(run: &[u32], wanted: u32) -> Vec<usize> {
    let is_wanted = |place: &usize| kind(run[*place]) == wanted;
    (0..run.len()).filter(is_wanted).collect()
}

/// Where the close, the low and the high stand of a class whose words begin at a place.
pub fn price_places(place: usize) -> [usize; 3] {
    [place + 1, place + 3, place + 4]
}

/// The class whose words begin at a place.
pub fn class_at(run: &[u32], place: usize) -> Class {
    let mut strikes = Vec::new();
    let mut expires = 0;
    for word in &run[place + 1..] {
        match kind(*word) {
            CLASS | 0 => break,
            EXPIRATION => expires = month(*word),
            STRIKE => strikes.push((expires, half_dollars(*word))),
            _ => {}
        }
    }
    let [close, low, high] =
        price_places(place).map(|place| run.get(place).map_or(0, |word| close(*word)));
    Class {
        number: number(run[place]),
        prices: Prices { close, low, high },
        strikes,
    }
}

/// The class of a number, if it is open.
pub fn class_of(run: &[u32], c: u32) -> Option<Class> {
    let is_it = |word: &u32| kind(*word) == CLASS && number(*word) == c;
    let place = run.iter().position(is_it)?;
    Some(class_at(run, place))
}

/// Any class that is open.
pub fn any_class(random: &mut Random, run: &[u32]) -> Option<Class> {
    let places = places(run, CLASS);
    match places.is_empty() {
        true => None,
        false => Some(class_at(run, random.pick(&places))),
    }
}

/// The class, the month and the half dollars of any strike that stands.
pub fn any_strike(random: &mut Random, run: &[u32]) -> Option<(u32, u32, u32)> {
    let places = places(run, STRIKE);
    if places.is_empty() {
        return None;
    }
    let place = random.pick(&places);
    let last = |wanted| run[..place].iter().rfind(|word| kind(**word) == wanted);
    let (class, expiration) = (last(CLASS)?, last(EXPIRATION)?);
    Some((number(*class), month(*expiration), half_dollars(run[place])))
}

#[cfg(test)]
mod tests {
    use super::*;

    #[test]
    fn a_class_is_read_as_written() {
        let prices = Prices {
            close: 200,
            low: 150,
            high: 250,
        };
        let mut classes = class_words(7, [1, 2, 1], prices, 1_000).to_vec();
        classes.extend([EXPIRATION | 5, strike(14, 4, 1, 1)]);
        classes.extend(class_words(9, [0; 3], Prices::at(0), 0));
        let mut run = headed(4, &classes);
        run.push(0);
        assert_eq!((now(&run), used(&run)), (4, run.len() - 1));
        assert_eq!(run[4], CLASS | 7 | 1 << 14 | 2 << 16 | 1 << 18);
        let figures = [CLOSE | 200, VOLUME | 1_000, LOW_HIGH | 150, LOW_HIGH | 250];
        assert_eq!(run[5..9], figures);
        assert_eq!(run[10], STRIKE | 14 | 4 << 15 | 1 << 18 | 1 << 19);
        let seven = class_of(&run, 7).unwrap();
        assert_eq!((seven.number, seven.prices), (7, prices));
        assert_eq!(seven.strikes, [(5, 14)]);
        let nine = class_of(&run, 9).unwrap();
        assert_eq!(nine.prices, Prices::at(0));
        assert!(nine.strikes.is_empty());
        assert!(class_of(&run, 8).is_none());
        let mut random = Random::new(0);
        assert_eq!(any_strike(&mut random, &run), Some((7, 5, 14)));
        assert!(any_class(&mut random, &[]).is_none());
    }

    #[test]
    fn each_counter_counts_its_own() {
        let mut classes = class_words(7, [1, 2, 0], Prices::at(0), 0).to_vec();
        classes.push(EXPIRATION | 4);
        classes.extend([1, 3, 3, 0].map(|ground| strike(10 + classes.len() as u32, ground, 0, 0)));
        classes.extend(class_words(9, [1, 1, 2], Prices::at(0), 0));
        classes.extend([EXPIRATION | 5, strike(1, 2, 1, 1), strike(2, 4, 0, 0)]);
        let mut run = headed(4, &classes);
        let written = [
            head(4, 22),
            8 << 28 | 2 | 3 << 8,
            8 << 28 | 1 | 1 << 8,
            8 << 28 | 1 << 8,
        ];
        assert_eq!(run[..FIRST_CLASS], written);
        let read = [1, 2, 3].map(|place| (own_classes(run[place]), standing_strikes(run[place])));
        assert_eq!(read, [(2, 3), (1, 1), (0, 1)]);
        // A class that is released, and a strike that changes its program.
        run[4] = with_designation(run[4], &PROGRAMS[0], 2);
        run[20] = with_ground(run[20], 4);
        recount(&mut run);
        assert_eq!(run[1..4], [counter(1, 3), counter(1, 0), counter(0, 2)]);
        assert_eq!(headed(0, &[]), [head(0, 4), COUNTER, COUNTER, COUNTER]);
    }
}
