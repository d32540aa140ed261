//! "The calls of a list, as a sheet writes them", and what the sheet program
//! prints.

use crate::PlainBook;
use calls::{Answer, Call, StrikeBook};

/// The lines of a sheet: each ends in byte 10. "The last line may lack its
/// line end."
pub fn lines(sheet: &[u8]) -> Vec<&[u8]> {
    let mut found = Vec::new();
    let mut start = 0;
    for (at, byte) in sheet.iter().enumerate() {
        if *byte == b'\n' {
            found.push(&sheet[start..at]);
            start = at + 1;
        }
    }
    if start < sheet.len() {
        found.push(&sheet[start..]);
    }
    found
}

/// "letter, then numbers without leading zeros, single spaces ... An empty
/// line, or any other form, is malformed."
pub fn parse_line(line: &[u8]) -> Call {
    let pieces: Vec<&[u8]> = line.split(|byte| *byte == b' ').collect();
    let mut numbers = Vec::new();
    for piece in &pieces[1..] {
        match parse_number(piece) {
            Some(number) => numbers.push(number),
            None => return Call::Malformed,
        }
    }
    match pieces[0] {
        &[letter] => Call::of(char::from(letter), &numbers),
        _ => Call::Malformed,
    }
}

/// A number in base ten "without leading zeros", of any number of digits;
/// one beyond 32 bits saturates, which is beyond every limit.
fn parse_number(digits: &[u8]) -> Option<u32> {
    if digits.is_empty() {
        return None;
    }
    if digits[0] == b'0' && digits.len() > 1 {
        return None;
    }
    let mut number: u32 = 0;
    for digit in digits {
        if !digit.is_ascii_digit() {
            return None;
        }
        let digit = u32::from(*digit - b'0');
        number = number.saturating_mul(10).saturating_add(digit);
    }
    Some(number)
}

/// "prints per line the number, then any value, then `A`'s strikes; a refusal
/// prints its number, and for 15 on `A` the value too." The strikes are those
/// at the front of the second run.
pub fn printed(call: &Call, answer: Answer, second: &[u32]) -> String {
    let mut text = answer.number.to_string();
    if prints_value(call, answer.number) {
        text.push_str(&format!(" {}", answer.value));
    }
    if matches!(call, Call::A { .. }) && answer.number == 0 {
        for strike in &second[..answer.value as usize] {
            text.push_str(&format!(" {strike}"));
        }
    }
    text
}

/// "a value: the ground for `L` and `J`, strikes removed for `R`, the count
/// for `A`. Other calls carry 0, unprinted."
fn prints_value(call: &Call, number: u32) -> bool {
    match call {
        Call::L { .. } | Call::J { .. } | Call::R { .. } => number == 0,
        Call::A { .. } => number == 0 || number == 15,
        _ => false,
    }
}

/// "The sheet program reads standard input over a fresh book of 4,096 words,
/// with a second run of 512, and prints per line": what it prints.
pub fn sheet_program(sheet: &[u8]) -> String {
    let mut book = PlainBook::fresh(4_096).expect("4,096 is a good length");
    let mut second = [0; 512];
    let mut text = String::new();
    for line in lines(sheet) {
        let call = parse_line(line);
        let answer = book.make(&call, &mut second);
        text.push_str(&printed(&call, answer, &second));
        text.push('\n');
    }
    text
}
