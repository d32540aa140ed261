//! The layout: books, and words that are no book.

mod books;

use books::is_book;
use calls::draw::{self, Mix};
use calls::runs::damage;
use calls::words::{counter, counters, head, headed, recount};
use calls::words::{CLASS, CLOSE, COUNTER, EXPIRATION, HEAD, LOW_HIGH, STRIKE, VOLUME};
use calls::{Call, Random, StrikeBook};
use second::{make_on_words, PlainBook};

/// A small book: class 7, ours in the $1 program, with two expirations and three
/// strikes, a Standard one, a Wing and a Dollar one; class 16,383, none.
fn small() -> Vec<u32> {
    vec![
        head(4, 19),
        COUNTER + 1 + 2 * 256,
        COUNTER,
        COUNTER,
        CLASS + 7 + 16_384 + 2 * 65_536,
        CLOSE + 999_998,
        VOLUME + 9_999_999,
        LOW_HIGH + 1,
        LOW_HIGH + 999_999,
        EXPIRATION + 4,
        STRIKE + 5,
        STRIKE + 19_999 + 3 * 32_768 + 262_144 + 524_288,
        EXPIRATION + 43,
        STRIKE + 1 + 32_768 + 524_288,
        CLASS + 16_383,
        CLOSE,
        VOLUME,
        LOW_HIGH,
        LOW_HIGH,
        0,
        0,
    ]
}

#[test]
fn the_small_book() {
    let words = small();
    assert!(is_book(&words));
    let book = PlainBook::read(&words).unwrap();
    assert_eq!((book.now, book.length), (4, 21));
    let class = &book.classes[&7];
    assert_eq!((class.close, class.volume), (999_998, 9_999_999));
    assert_eq!((class.low, class.high), (1, 999_999));
    assert_eq!((class.dollar_designation, class.half_designation), (1, 2));
    let strike = class.strikes[&(4, 19_999)];
    assert_eq!((strike.ground, strike.put, strike.call), (3, 1, 1));
    let strike = class.strikes[&(43, 1)];
    assert_eq!((strike.ground, strike.put, strike.call), (1, 0, 1));
    assert_eq!(book.words_taken(), 19);
}

/// #101's designation in bits 18–19, and its ground under any strike and
/// designation.
#[test]
fn the_third_designation_and_ground_4() {
    for designation in 0..=2 {
        for h in [1, 5, 54, 55, 105, 19_999] {
            let mut words = small();
            words[14] += designation << 18;
            words[13] = STRIKE + h + 4 * 32_768;
            words[1] = counter(1, 1);
            words[3] = counter(u32::from(designation == 1), 1);
            assert!(is_book(&words));
            let book = PlainBook::read(&words).unwrap();
            assert_eq!(book.classes[&16_383].two_fifty_designation, designation);
            assert_eq!(book.classes[&7].two_fifty_designation, 0);
            assert_eq!(book.classes[&7].strikes[&(43, h)].ground, 4);
        }
    }
}

/// #104: "a length below 4 is bad."
#[test]
fn lengths() {
    for length in [0, 1, 2, 3, 65_536, 70_000] {
        assert_eq!(PlainBook::fresh(length), None);
        assert!(!is_book(&fresh_words(length)), "{length}");
    }
    for length in [4, 5, 4_096, 65_535] {
        let book = PlainBook::fresh(length).unwrap();
        let words = book.words();
        assert_eq!(words, fresh_words(length));
        assert_eq!(words[0], head(0, 4));
        assert_eq!(PlainBook::read(&words), Some(book));
    }
    // Nor with a head that counts the words that there are.
    for length in 1..4 {
        let mut words = fresh_words(length);
        words[0] = head(0, length);
        assert!(!is_book(&words), "{length}");
    }
}

/// As much of a fresh book as has room, and zero after it.
fn fresh_words(length: usize) -> Vec<u32> {
    let mut words = vec![head(0, 4), COUNTER, COUNTER, COUNTER];
    words.resize(length, 0);
    words
}

#[test]
fn damaged_words() {
    // The counters follow a changed class or strike: the change alone makes it no book.
    let change = |at: usize, word: u32| {
        let mut words = small();
        words[at] = word;
        if at >= 4 {
            recount(&mut words);
        }
        words
    };
    let no_books = [
        ("no head", change(0, 0)),
        ("head of another kind", change(0, head(4, 19) + HEAD)),
        ("head's stray bit", change(0, head(4, 19) + (1 << 26))),
        ("head's stray bit", change(0, head(4, 19) + (1 << 27))),
        ("count 0", change(0, head(4, 0))),
        ("count short by one", change(0, head(4, 18))),
        ("count short by one class", change(0, head(4, 14))),
        ("count long by one", change(0, head(4, 20))),
        ("count beyond the run", change(0, head(4, 22))),
        ("now above an expiration", change(0, head(5, 19))),
        ("expiration above now + 39", change(0, head(3, 19))),
        ("expiration above now + 39", change(12, EXPIRATION + 44)),
        ("expiration below now", change(9, EXPIRATION + 3)),
        ("class 0", change(4, CLASS)),
        ("class designation 3", change(4, CLASS + 7 + 3 * 16_384)),
        ("class designation 3", change(4, CLASS + 7 + 3 * 65_536)),
        ("class designation 3", change(4, CLASS + 7 + 3 * 262_144)),
        ("class stray bit", change(4, CLASS + 7 + (1 << 20))),
        ("class stray bit", change(4, CLASS + 7 + (1 << 27))),
        ("class twice", change(4, CLASS + 16_383)),
        ("classes fall", change(14, CLASS + 6)),
        ("close too high", change(5, CLOSE + 1_000_000)),
        ("close stray bit", change(5, CLOSE + 999_998 + (1 << 20))),
        ("close missing", change(5, VOLUME)),
        ("volume too high", change(6, VOLUME + 10_000_000)),
        ("volume stray bit", change(6, VOLUME + (1 << 24))),
        ("volume missing", change(6, CLOSE)),
        ("low stray bit", change(7, LOW_HIGH + 1 + (1 << 20))),
        ("low missing", change(7, EXPIRATION + 4)),
        ("high too high", change(8, LOW_HIGH + 1_000_000)),
        ("high stray bit", change(8, LOW_HIGH + 999_999 + (1 << 27))),
        ("high missing", change(8, EXPIRATION + 4)),
        (
            "expiration stray bit",
            change(9, EXPIRATION + 4 + (1 << 10)),
        ),
        ("expiration twice", change(12, EXPIRATION + 4)),
        ("expiration missing", change(9, STRIKE + 4)),
        ("expiration with no strike", change(10, EXPIRATION + 5)),
        ("expiration with no strike", change(13, EXPIRATION + 44)),
        ("strike 0", change(10, STRIKE)),
        ("strike 20,000", change(11, STRIKE + 20_000)),
        ("ground 5", change(10, STRIKE + 5 + 5 * 32_768)),
        ("ground 6", change(10, STRIKE + 5 + 6 * 32_768)),
        ("ground 7", change(10, STRIKE + 5 + 7 * 32_768)),
        ("strike stray bit", change(10, STRIKE + 5 + (1 << 20))),
        ("strike twice", change(11, STRIKE + 5)),
        ("strikes fall", change(11, STRIKE + 4)),
        ("word past those used", change(19, 1)),
        ("word past those used", change(20, 1 << 31)),
        ("a counter among the strikes", change(10, COUNTER)),
        ("a counter in a class's place", change(14, COUNTER)),
        ("kind 9", change(10, 9 << 28)),
        ("the head alone", change(0, head(4, 1))),
        ("the head and counters alone", change(0, head(4, 4))),
        ("kind 0 among the used", change(10, 0)),
        ("a second head", change(14, head(4, 1))),
        ("order of close and volume", {
            let mut words = small();
            words.swap(15, 16);
            words
        }),
    ];
    for (name, words) in no_books {
        assert!(!is_book(&words), "{name}");
        let mut changed = words.clone();
        let mut second = [5, 6];
        for call in [
            Call::Malformed,
            Call::M { m: 9 },
            Call::A { c: 7, m: 9 },
            Call::O { c: 3 },
        ] {
            let answer = make_on_words(&mut changed, &mut second, &call);
            assert_eq!((answer.number, answer.value), (1, 0));
        }
        assert_eq!(changed, words);
        assert_eq!(second, [5, 6]);
    }
    // A class cut short, and an expiration last among the used words, with no strike.
    let words = [
        0,
        COUNTER,
        COUNTER,
        COUNTER,
        CLASS + 1,
        CLOSE,
        VOLUME,
        LOW_HIGH,
        LOW_HIGH,
        EXPIRATION,
        STRIKE + 1,
    ];
    for used in 1..=words.len() {
        let mut words = words[..used].to_vec();
        words[0] = head(0, used);
        assert_eq!(is_book(&words), [4, 9, 11].contains(&used), "{used}");
    }
}

#[test]
fn caps_in_a_read_book() {
    let designated = |count: u32, bits: u32| {
        let mut classes = Vec::new();
        for c in 1..=count {
            classes.extend([CLASS + c + bits, CLOSE, VOLUME, LOW_HIGH, LOW_HIGH]);
        }
        headed(0, &classes)
    };
    assert!(is_book(&designated(150, 1 << 14)));
    assert!(!is_book(&designated(151, 1 << 14)));
    assert!(is_book(&designated(20, 1 << 16)));
    assert!(!is_book(&designated(21, 1 << 16)));
    assert!(is_book(&designated(60, 1 << 18)));
    assert!(!is_book(&designated(61, 1 << 18)));
    assert!(is_book(&designated(200, 2 << 14)));
    assert!(is_book(&designated(200, 2 << 16)));
    assert!(is_book(&designated(200, 2 << 18)));
}

/// Each single bit turned: no bit that isn't named leaves a book ("every bit
/// not named is zero"), and what is still a book is laid out as it stood.
#[test]
fn single_bits() {
    let words = small();
    // The count of named bits of each word, all from bit 0.
    let named = [
        26, 24, 24, 24, 20, 20, 24, 20, 20, 10, 20, 20, 10, 20, 20, 20, 24, 20, 20, 0, 0,
    ];
    let mut books = 0;
    for at in 0..words.len() {
        for bit in 0..32 {
            let mut turned = words.clone();
            turned[at] ^= 1 << bit;
            if at >= 4 {
                recount(&mut turned);
            }
            if is_book(&turned) {
                assert!(bit < named[at], "word {at}, bit {bit}");
                books += 1;
            }
        }
    }
    assert!(books > 0);
}

// ---- Random calls ------------------------------------------------------

const MIX: Mix = Mix {
    weights: [1, 3, 3, 3, 2, 4, 15, 3, 2, 5, 1, 1],
    highest: 9,
};

/// One call on the plain book and the same on its words: all equal, the book
/// read back from its own words, refusals changing nothing.
fn check_call(book: &mut PlainBook, words: &mut [u32], call: &Call, room: usize) -> u32 {
    let before = book.clone();
    let mut second = vec![99; room];
    let mut second_on_words = second.clone();
    let answer = book.make(call, &mut second);
    let answer_on_words = make_on_words(words, &mut second_on_words, call);
    assert_eq!(answer, answer_on_words, "{call:?}");
    assert_eq!(second, second_on_words);
    assert_eq!(&book.words(), words);
    assert_eq!(words[1..4], counters(words));
    assert_eq!(PlainBook::read(words).as_ref(), Some(&*book));
    let written = match (call, answer.number) {
        (Call::A { .. }, 0) => answer.value as usize,
        _ => 0,
    };
    assert!(second[written..].iter().all(|word| *word == 99));
    if answer.number != 0 {
        assert_eq!(&before, book);
    }
    if let (Call::A { c, m }, 0) = (call, answer.number) {
        let judged = |h: &u32| book.judge_strike(*c, *m, *h).number == 0;
        let accepted: Vec<u32> = (1..=19_999).filter(judged).collect();
        assert_eq!(second[..written], accepted);
    }
    answer.number
}

#[test]
fn random_lists() {
    let mut random = Random::new(0x5EED_0001);
    let mut drawn = [0; 17];
    for _ in 0..150 {
        let length = random.pick(&[4, 10, 19, 33, 63, 203, 503]);
        let mut book = PlainBook::fresh(length).unwrap();
        let mut words = book.words();
        for _ in 0..400 {
            let call = match random.one_in(40) {
                true => Call::Malformed,
                false => draw::call(&mut random, &words, &MIX),
            };
            let room = random.pick(&[0, 3, 20, 100]);
            drawn[check_call(&mut book, &mut words, &call, room) as usize] += 1;
        }
        // Damage: what is still a book is laid out as it stood.
        for _ in 0..50 {
            let mut damaged = words.clone();
            damage(&mut random, &mut damaged);
            is_book(&damaged);
        }
    }
    println!("drawn: {drawn:?}");
    // Each number but 1 (no book) and 10 (no 151 classes here) was drawn.
    for (number, times) in drawn.iter().enumerate() {
        assert_eq!(*times > 0, number != 1 && number != 10, "{number}: {times}");
    }
}
