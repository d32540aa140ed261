//! Whether a run is a book, against the plain implementation.

use calls::words::{class_words, counter, head, headed, month, recount, strike, used, Prices};
use calls::words::{CLASS, CLOSE, COUNTER, EXPIRATION, FIRST_CLASS, HEAD, LOW_HIGH, PROGRAMS};
use calls::words::{STRIKE, VOLUME};
use calls::{books, runs, Random};
use second::PlainBook;

fn is_book(run: &[u32]) -> bool {
    PlainBook::read(run).is_some()
}

#[test]
fn changed_books() {
    let mut random = Random::new(0x5eed_0011);
    let (mut books, mut others) = (0, 0);
    for _ in 0..15_000 {
        let most = random.pick(&[30, 600, 600]);
        let length = FIRST_CLASS + random.index(most);
        let book = books::any(&mut random, length);
        assert!(hand::is_book(&book), "{book:x?}");
        assert!(is_book(&book), "{book:x?}");
        for _ in 0..10 {
            let mut run = book.clone();
            runs::damage(&mut random, &mut run);
            let wanted = is_book(&run);
            assert_eq!(hand::is_book(&run), wanted, "{run:x?}");
            match wanted {
                true => books += 1,
                false => others += 1,
            }
        }
    }
    println!("{books} books and {others} others among the changed runs, no difference");
}

/// Each bit of each word turned over, and each word replaced by one of each kind, in books whose
/// stretches end at all places of the blocks, and in books of less than two blocks.
#[test]
fn every_bit() {
    let mut random = Random::new(0x5eed_0012);
    let mut tests = 0;
    for round in 0..64 {
        let length = match round % 2 {
            0 => 60 + round / 2 + random.index(100),
            _ => FIRST_CLASS + round,
        };
        let book = books::any(&mut random, length);
        for at in 0..length {
            let mut run = book.clone();
            let mut same = |word: u32| {
                run[at] = word;
                let told = hand::is_book(&run);
                assert_eq!(told, is_book(&run), "{at} {word:x} in {book:x?}");
                tests += 1;
            };
            for bit in 0..32 {
                same(book[at] ^ 1 << bit);
            }
            let kinds = [0, CLOSE, VOLUME, LOW_HIGH, EXPIRATION | month(book[0])];
            let heads = [HEAD | 4 << 10, COUNTER, CLASS | 5];
            let strikes = [0, 1, 19_999, 20_000].map(|h| STRIKE | h);
            for word in kinds.into_iter().chain(heads).chain(strikes) {
                same(word);
            }
        }
    }
    println!("{tests} runs, no difference");
}

#[test]
fn lengths() {
    for length in (0..100).chain([4_096, 65_535, 65_536, 70_000]) {
        let mut run = vec![0xffff_ffff; length];
        let good = (4..=65_535).contains(&length);
        assert_eq!(hand::fresh(&mut run), good);
        assert_eq!(hand::is_book(&run), good);
        assert_eq!(hand::read_counter(&run, 3).number, u32::from(!good));
        let known = hand::read_known_counter(&run, 3);
        assert_eq!(known.number, u32::from(length < FIRST_CLASS));
        if good {
            assert_eq!(run, PlainBook::fresh(length).unwrap().words());
        } else {
            assert!(run.iter().all(|w| *w == 0xffff_ffff));
        }
    }
}

/// Each cap at its end.
#[test]
fn caps() {
    for (place, program) in PROGRAMS.iter().enumerate() {
        let mut designations = [0; PROGRAMS.len()];
        designations[place] = 1;
        for classes in program.cap - 1..program.cap + 2 {
            let all = (1..=classes).map(|c| class_words(c, designations, Prices::at(0), 0));
            let run = headed(0, &all.flatten().collect::<Vec<u32>>());
            assert_eq!(hand::is_book(&run), classes <= program.cap);
            assert_eq!(is_book(&run), classes <= program.cap);
        }
    }
}

/// Every value of a class word's designations and the bit after them, and of a strike word's ground, marks
/// and the bit after them, with true counters and with those of no own class and no such strike.
#[test]
fn fields() {
    let (mut books, mut uncounted) = (0, 0);
    for designations in 0..1 << 7 {
        for ground in 0..1 << 6 {
            let mut run = one_strike(Prices::at(0));
            run[4] |= designations << 14;
            run[10] |= ground << 15;
            let told = hand::is_book(&run);
            assert_eq!(told, is_book(&run), "{run:x?}");
            uncounted += u32::from(told);
            recount(&mut run);
            let told = hand::is_book(&run);
            assert_eq!(told, is_book(&run), "{run:x?}");
            books += u32::from(told);
        }
    }
    // Three values of each designation; five grounds and any marks.
    assert_eq!(books, 27 * 20);
    // No designation of 1, and ground 0.
    assert_eq!(uncounted, 8 * 4);
}

/// Counters that say more or less than there is, of an own class and strikes of all grounds.
#[test]
fn counters() {
    for ground in 0..5 {
        let mut classes = class_words(7, [1, 2, 0], Prices::at(0), 0).to_vec();
        classes.push(EXPIRATION | 5);
        // Strikes that fill blocks and don't.
        classes.extend((1..150).map(|h| strike(h, ground, h & 1, h >> 1 & 1)));
        for count in [8, 30, 33, 66, 67, 68, 100, 133, classes.len()] {
            let book = headed(4, &classes[..count]);
            assert!(hand::is_book(&book), "{book:x?}");
            let strikes = count as u32 - 6;
            let place = [0, 1, 2, 1, 3][ground as usize];
            for at in 1..FIRST_CLASS {
                let own = u32::from(at == 1);
                let standing = if at == place { strikes } else { 0 };
                assert_eq!(book[at], counter(own, standing));
                for other in [1, 1 << 8, 256 << 8, 1 << 24, 1 << 27, 1 << 28] {
                    for word in [book[at].wrapping_add(other), book[at].wrapping_sub(other)] {
                        let mut run = book.clone();
                        run[at] = word;
                        assert!(!hand::is_book(&run), "{run:x?}");
                        assert!(!is_book(&run), "{run:x?}");
                    }
                }
            }
        }
    }
}

/// A book of one class with one strike.
fn one_strike(prices: Prices) -> Vec<u32> {
    let mut classes = class_words(7, [0; PROGRAMS.len()], prices, 0).to_vec();
    classes.extend([EXPIRATION | 5, strike(105, 0, 0, 0)]);
    headed(4, &classes)
}

/// Every close, low and high about 0, about each other and about the limit.
#[test]
fn prices() {
    let prices = [0, 1, 2, 199, 200, 201, 999_998, 999_999, 1_000_000, 1 << 20];
    let mut books = 0;
    for close in prices {
        for low in prices {
            for high in prices {
                let run = one_strike(Prices { close, low, high });
                let told = hand::is_book(&run);
                assert_eq!(told, is_book(&run), "{close} {low} {high}");
                books += u32::from(told);
            }
        }
    }
    // All 0; and of the seven from 1 to 999,999, three that rise or are equal.
    assert_eq!(books, 1 + 84);
}

/// Each word of a class and of its neighbours gone, there twice or in the place of the next, with the count,
/// and with true counters too.
#[test]
fn words_out_of_place() {
    let prices = Prices {
        close: 200,
        low: 150,
        high: 250,
    };
    let mut book = one_strike(prices);
    // No two counters are equal.
    for (number, designations) in [(8, [1, 1, 0]), (9, [1, 2, 0])] {
        book.extend(class_words(number, designations, prices, 0));
    }
    book[0] = head(4, book.len());
    recount(&mut book);
    assert!(hand::is_book(&book));
    let mut books = 0;
    for at in 1..book.len() {
        let mut short = book.clone();
        short.remove(at);
        let mut long = book.clone();
        long.insert(at, book[at]);
        let mut swapped = book.clone();
        swapped.swap(at - 1, at);
        for mut run in [short, long, swapped] {
            if used(&run) == book.len() {
                run[0] = head(4, run.len());
            }
            let told = hand::is_book(&run);
            assert_eq!(told, is_book(&run), "{run:x?}");
            books += u32::from(told);
            if at >= FIRST_CLASS {
                recount(&mut run);
                let told = hand::is_book(&run);
                assert_eq!(told, is_book(&run), "{run:x?}");
                books += u32::from(told);
            }
        }
    }
    assert_eq!(books, 0);
}
