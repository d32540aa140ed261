use calls::{Call, StrikeBook};
use second::{parse_line, printed, PlainBook};

/// Makes one written line on a book, with a second run of 512.
pub fn say(book: &mut PlainBook, line: &str) -> String {
    let call = parse_line(line.as_bytes());
    assert_ne!(call, Call::Malformed, "{line}");
    let mut second = [0; 512];
    let answer = book.make(&call, &mut second);
    printed(&call, answer, &second)
}

/// Makes each line and wants each answer: pairs of (line, answer).
pub fn expect(book: &mut PlainBook, wanted: &[(&str, &str)]) {
    for (line, answer) in wanted {
        assert_eq!(&say(book, line), answer, "{line}");
    }
}

/// Makes each line and wants all accepted.
pub fn accept(book: &mut PlainBook, text: &[&str]) {
    for line in text {
        let answer = say(book, line);
        assert!(
            answer == "0" || answer.starts_with("0 "),
            "{line}: {answer}"
        );
    }
}

pub fn fresh() -> PlainBook {
    PlainBook::fresh(4_096).unwrap()
}

/// A fresh book at `now` 4 with class 7 open at a close.
pub fn at_close(close: u32) -> PlainBook {
    let mut book = fresh();
    accept(&mut book, &["M 4", "O 7", &format!("C 7 {close}")]);
    book
}

/// The same, in the $1 program by another exchange's designation (which
/// needs nothing, so any close can be tried).
pub fn dollar_class(close: u32) -> PlainBook {
    let mut book = at_close(close);
    accept(&mut book, &["D 7 1 2"]);
    book
}

/// What `A 7 m` writes.
pub fn permitted(book: &mut PlainBook, m: u32) -> Vec<u32> {
    let mut second = vec![0; 20_000];
    let answer = book.list_permitted(&mut second, 7, m);
    assert_eq!(answer.number, 0);
    second.truncate(answer.value as usize);
    second
}

/// h of whole dollars.
pub fn dollars(list: &[u32]) -> Vec<u32> {
    list.iter().map(|dollar| dollar * 2).collect()
}
