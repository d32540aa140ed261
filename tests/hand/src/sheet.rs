//! The reading of a sheet.

use crate::find::Places;
use crate::{inner, is_book, Answer, Nowhere, NO_BOOK};

/// The lines of a sheet, read in one go.
struct Reader<'a> {
    sheet: &'a [u8],
    at: usize,
}

impl Reader<'_> {
    /// Eight bytes from a place on, the first the lowest; past the sheet's end they are line ends.
    #[inline(always)]
    fn eight(&self, at: usize) -> u64 {
        match self.sheet.get(at..at + 8) {
            Some(bytes) => u64::from_le_bytes(bytes.try_into().unwrap()),
            None => self.last_eight(at),
        }
    }

    #[cold]
    fn last_eight(&self, at: usize) -> u64 {
        let mut bytes = [b'\n'; 8];
        let left = self.sheet.get(at..).unwrap_or(&[]);
        bytes[..left.len()].copy_from_slice(left);
        u64::from_le_bytes(bytes)
    }

    /// The numbers after a letter and a space, if they are all that the line still holds; the
    /// reader then is at the line's end. A number of more than seven digits is beyond every limit
    /// and counts as none.
    #[inline(always)]
    fn numbers<const N: usize>(&mut self) -> Option<[u32; N]> {
        let mut numbers = [0; N];
        for i in 0..N {
            let text = self.eight(self.at);
            // Digits are 0 to 9 here, and have no high bit in `stops`. Bytes after the first other
            // one may be marked wrongly.
            let digits = text ^ 0x3030_3030_3030_3030;
            let stops =
                (digits.wrapping_add(0x7676_7676_7676_7676) | digits) & 0x8080_8080_8080_8080;
            // Eight times the count of the digits.
            let bits = stops.trailing_zeros() & 0x78;
            if bits.wrapping_sub(8) >= 56 || (digits & 0xff == 0 && bits != 8) {
                return None;
            }
            let end = if i + 1 < N { b' ' } else { b'\n' };
            if (text >> bits) as u8 != end {
                return None;
            }
            numbers[i] = decimal(digits << (64 - bits));
            self.at += bits as usize / 8 + (i + 1 < N) as usize;
        }
        Some(numbers)
    }

    /// Goes on to the next line.
    #[inline(always)]
    fn skip_line(&mut self) {
        self.at += match self.sheet[self.at..].iter().position(|&byte| byte == b'\n') {
            Some(rest) => rest + 1,
            None => self.sheet.len() - self.at,
        };
    }
}

/// The number that eight digits make, the first digit in the lowest byte.
#[inline(always)]
fn decimal(digits: u64) -> u32 {
    let pairs = digits.wrapping_mul(2_561) >> 8 & 0x00ff_00ff_00ff_00ff;
    let fours = pairs.wrapping_mul(6_553_601) >> 16 & 0x0000_ffff_0000_ffff;
    (fours.wrapping_mul(42_949_672_960_001) >> 32) as u32
}

/// Makes the calls of a sheet over a run that is known to be a book, and hands on each line's
/// letter, its answer and the second run; a line that is malformed, or has a number of more than
/// seven digits, has no letter (0).
#[inline(always)]
pub fn each_line(
    run: &mut [u32],
    second: &mut [u32],
    places: &mut (impl Places + ?Sized),
    sheet: &[u8],
    mut each: impl FnMut(u8, Answer, &[u32]),
) {
    let mut reader = Reader { sheet, at: 0 };
    while reader.at < sheet.len() {
        let line = reader.at;
        let letter = sheet[line];
        reader.at += 2;
        let answer = if sheet.get(line + 1) == Some(&b' ') {
            call(&mut reader, letter, run, second, places)
        } else {
            None
        };
        match answer {
            Some(answer) => {
                reader.at += 1;
                each(letter, answer, second);
            }
            None => {
                reader.at = line;
                reader.skip_line();
                each(0, Answer::refused(2), second);
            }
        }
    }
}

/// Makes the call of a line; none if the line is malformed.
#[inline(always)]
fn call(
    reader: &mut Reader,
    letter: u8,
    run: &mut [u32],
    second: &mut [u32],
    places: &mut (impl Places + ?Sized),
) -> Option<Answer> {
    Some(match letter {
        b'M' => {
            let [m] = reader.numbers()?;
            inner::set_month(run, m)
        }
        b'O' => {
            let [c] = reader.numbers()?;
            inner::open_class(run, places, c)
        }
        b'C' => {
            let [c, p] = reader.numbers()?;
            inner::set_close(run, places, c, p)
        }
        b'H' => {
            let [c, low, high] = reader.numbers()?;
            inner::set_low_high(run, places, c, low, high)
        }
        b'V' => {
            let [c, n] = reader.numbers()?;
            inner::set_volume(run, places, c, n)
        }
        b'D' => {
            let [c, p, d] = reader.numbers()?;
            inner::designate(run, places, c, p, d)
        }
        b'L' => {
            let [c, m, h] = reader.numbers()?;
            inner::list_strike(run, places, c, m, h)
        }
        b'J' => {
            let [c, m, h] = reader.numbers()?;
            inner::judge_strike(run, places, c, m, h)
        }
        b'X' => {
            let [c, m, h] = reader.numbers()?;
            inner::delist_strike(run, places, c, m, h)
        }
        b'I' => {
            let [c, m, h, a, b] = reader.numbers()?;
            inner::mark_strike(run, places, c, m, h, a, b)
        }
        b'R' => {
            let [c] = reader.numbers()?;
            inner::review_class(run, places, c)
        }
        b'A' => {
            let [c, m] = reader.numbers()?;
            inner::list_permitted(run, second, places, c, m)
        }
        _ => return None,
    })
}

/// Makes the calls of a whole sheet over a run that is tested once. Writes the number and the value
/// of each answer to `answers`, two words a line, as far as it has places, and answers the number
/// of lines.
pub fn run_sheet(run: &mut [u32], second: &mut [u32], sheet: &[u8], answers: &mut [u32]) -> usize {
    if !is_book(run) {
        let ends = sheet.iter().filter(|&&byte| byte == b'\n').count();
        let lines = ends + sheet.last().map_or(false, |&byte| byte != b'\n') as usize;
        for (place, slot) in answers.iter_mut().take(2 * lines).enumerate() {
            *slot = if place % 2 == 0 {
                NO_BOOK.number
            } else {
                NO_BOOK.value
            };
        }
        return lines;
    }
    run_known_sheet(run, second, &mut Nowhere, sheet, answers)
}

/// The same over a run that is known to be a book.
#[inline(always)]
pub(crate) fn run_known_sheet(
    run: &mut [u32],
    second: &mut [u32],
    places: &mut (impl Places + ?Sized),
    sheet: &[u8],
    answers: &mut [u32],
) -> usize {
    let mut lines = 0;
    let mut slots = answers.chunks_mut(2);
    each_line(run, second, places, sheet, |_, answer, _| {
        lines += 1;
        match slots.next() {
            Some([number, value]) => (*number, *value) = (answer.number, answer.value),
            Some([number]) => *number = answer.number,
            _ => (),
        }
    });
    lines
}
