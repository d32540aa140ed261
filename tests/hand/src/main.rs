//! The sheet program: standard input over a fresh book of 4,096 words, with a second run of 512.

#![forbid(unsafe_code)]

use hand::sheet::each_line;
use hand::{fresh, Answer, Nowhere};
use std::io::{ErrorKind, Read, Result, Write};

const PIECE: usize = 1 << 16;

/// More than a line of output can take: 512 strikes of five digits, a number and a count, each with
/// a space or the line end.
const LONGEST: usize = 4_096;

/// The lines of the answers without strikes: 0 to 16, and then the grounds. Each is its bytes, and how many.
const LINES: [([u8; 4], usize); GROUND_0 + 5] = {
    let mut lines = [([b'\n'; 4], 0); GROUND_0 + 5];
    let mut i = 0;
    while i < lines.len() {
        lines[i] = if i < 10 {
            ([b'0' + i as u8, b'\n', 0, 0], 2)
        } else if i < GROUND_0 {
            ([b'1', b'0' + (i - 10) as u8, b'\n', 0], 3)
        } else {
            ([b'0', b' ', b'0' + (i - GROUND_0) as u8, b'\n'], 4)
        };
        i += 1;
    }
    lines
};

/// The place of the line of ground 0 in them.
const GROUND_0: usize = 17;

/// A space and a number below 1,000, by number.
const SHORT: [[u8; 4]; 1_000] = {
    let mut texts = [[b' '; 4]; 1_000];
    let mut n = 0;
    while n < 1_000 {
        let (hundreds, tens, ones) = (
            b'0' + (n / 100) as u8,
            b'0' + (n / 10 % 10) as u8,
            b'0' + (n % 10) as u8,
        );
        texts[n] = if n < 10 {
            [b' ', ones, 0, 0]
        } else if n < 100 {
            [b' ', tens, ones, 0]
        } else {
            [b' ', hundreds, tens, ones]
        };
        n += 1;
    }
    texts
};

struct Printer {
    text: Box<[u8; PIECE]>,
    at: usize,
}

impl Printer {
    #[inline(always)]
    fn put(&mut self, bytes: [u8; 4], count: usize) {
        if let Some(place) = self.text.get_mut(self.at..self.at + 4) {
            place.copy_from_slice(&bytes);
        }
        self.at += count;
    }

    /// A space and a number.
    #[inline(always)]
    fn put_number(&mut self, n: u32) {
        if n < 1_000 {
            self.put(
                SHORT[n as usize],
                2 + (n >= 10) as usize + (n >= 100) as usize,
            );
        } else {
            self.put_long(n);
        }
    }

    fn put_long(&mut self, n: u32) {
        let (high, low) = (n / 1_000, n % 1_000);
        self.put_number(high);
        let digits = [low / 100, low / 10 % 10, low % 10, 0].map(|digit| b'0' + digit as u8);
        self.put(digits, 3);
    }

    #[inline(always)]
    fn put_answer(&mut self, letter: u8, answer: Answer, strikes: &[u32]) {
        let Answer { number, value } = answer;
        if number == 0 && (letter == b'A' || letter == b'R') || number == 15 && letter == b'A' {
            let (text, count) = LINES[number as usize & 15];
            self.put(text, count - 1);
            self.put_number(value);
            if number == 0 && letter == b'A' {
                for &strike in &strikes[..value as usize] {
                    self.put_number(strike);
                }
            }
            self.put([b'\n'; 4], 1);
        } else {
            let ground = number == 0 && (letter == b'L' || letter == b'J');
            let (first, place) = if ground {
                (GROUND_0, value)
            } else {
                (0, number)
            };
            let (text, count) = LINES[(first + place as usize) % LINES.len()];
            self.put(text, count);
        }
    }

    fn write(&mut self, output: &mut impl Write) -> Result<()> {
        output.write_all(&self.text[..self.at])?;
        self.at = 0;
        Ok(())
    }
}

fn main() -> Result<()> {
    let mut run = [0; 4_096];
    let mut second = [0; 512];
    fresh(&mut run);
    let mut input = std::io::stdin().lock();
    let mut output = std::io::stdout().lock();
    let mut printer = Printer {
        text: Box::new([0; PIECE]),
        at: 0,
    };
    let mut text = vec![0; PIECE];
    // The bytes of a line that hasn't ended yet stand first in `text`.
    let mut held = 0;
    loop {
        let read = match input.read(&mut text[held..]) {
            Ok(read) => read,
            Err(error) if error.kind() == ErrorKind::Interrupted => continue,
            Err(error) => return Err(error),
        };
        let filled = held + read;
        // The end of input ends the last line too.
        let whole = if read == 0 {
            filled
        } else {
            let end = text[held..filled].iter().rposition(|&byte| byte == b'\n');
            end.map_or(0, |end| held + end + 1)
        };
        let mut written = Ok(());
        each_line(
            &mut run,
            &mut second,
            &mut Nowhere,
            &text[..whole],
            |letter, answer, strikes| {
                if printer.at > PIECE - LONGEST && written.is_ok() {
                    written = printer.write(&mut output);
                }
                printer.put_answer(letter, answer, strikes);
            },
        );
        written?;
        if read == 0 {
            printer.write(&mut output)?;
            return output.flush();
        }
        text.copy_within(whole..filled, 0);
        held = filled - whole;
        if held == PIECE {
            // No call is that long: the line is refused as this byte is.
            text[0] = b'?';
            held = 1;
        }
    }
}
