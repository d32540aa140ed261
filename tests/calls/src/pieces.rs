//! Sheets that a program reads and answers in several pieces.

use crate::draw::{self, Mix};
use crate::{Call, Random};
use std::collections::BTreeSet;

/// The bytes that a program reads or prints at once.
pub const PIECE: usize = 65_536;

/// Class 7 for lines that a piece breaks; 8 with as many permitted strikes as the second run of the
/// sheet program nearly takes, 501, and 9 with more, 521.
const OPENING: &str = "M 4\nO 7\nC 7 2500\nD 7 1 1\nL 7 5 50\nO 8\nC 8 500000\nO 9\nC 9 520000\n";

/// Lines that are broken after each of their bytes.
const BROKEN: [&str; 2] = ["J 7 12 44\n", "I 7 5 50 1 0\n"];

/// What is printed for these takes several pieces.
const PRINTED: &str = "A 8 5\nA 8 6\nA 8 12\nA 8 13\nA 8 43\nA 9 5\n";

/// Lines on other classes than those.
const MIX: Mix = Mix {
    weights: [0, 8, 10, 8, 5, 9, 40, 10, 6, 9, 3, 0],
    highest: 5,
};

/// A sheet for a fresh book. A piece end comes after each byte of two lines, and within two lines of
/// more than two pieces. The other lines are calls drawn over a run as `make` changes it, and long.
pub fn sheet(
    random: &mut Random,
    mut run: Vec<u32>,
    mut make: impl FnMut(&mut [u32], &Call),
) -> Vec<u8> {
    let mut sheet = OPENING.as_bytes().to_vec();
    for line in BROKEN {
        for broken in 0..line.len() {
            let end = sheet.len().next_multiple_of(PIECE) - broken;
            // The last line before it is as long as is left.
            while sheet.len() + 2_000 < end {
                let more = match random.one_in(40) {
                    true => long_line(1 + random.index(1_500)),
                    false => {
                        let call = draw::call(random, &run, &MIX);
                        make(&mut run, &call);
                        call.line() + "\n"
                    }
                };
                sheet.extend(more.as_bytes());
            }
            sheet.extend(long_line(end - sheet.len()).as_bytes());
            sheet.extend(line.as_bytes());
            sheet.extend(PRINTED.as_bytes());
        }
    }
    sheet.extend(long_line(2 * PIECE + 2).as_bytes());
    // Its first byte and its last ones alone would be a call.
    sheet.extend(format!("O{} 10\nO 10\nJ 7 5 44\n", "1".repeat(2 * PIECE)).as_bytes());
    sheet
}

/// A line of a number of bytes, its line end too: a close with too many digits where it has room.
fn long_line(bytes: usize) -> String {
    let line = format!("C 1 {}", "1".repeat(bytes));
    format!("{}\n", &line[..bytes - 1])
}

/// Fails where the sheet that [`sheet`] wrote, or what is printed for it, would not try what it is
/// for: told from the bytes alone.
pub fn tries_pieces(sheet: &[u8], printed: &[u8]) -> Result<(), String> {
    let wanted = |what: &str, holds: bool| match holds {
        true => Ok(()),
        false => Err(format!("the sheet of several pieces: {what}")),
    };
    wanted("1,000,000 bytes or more", sheet.len() >= 1_000_000)?;
    let longest = sheet.split(|byte| *byte == b'\n').map(<[u8]>::len).max();
    wanted("a line longer than two pieces", longest > Some(2 * PIECE))?;
    let ends = || (PIECE..sheet.len()).step_by(PIECE);
    wanted(
        "a line end just after a piece",
        ends().any(|end| sheet[end] == b'\n'),
    )?;
    // How many bytes of a line stand before each piece end.
    let held = |end: usize| sheet[..end].iter().rev().position(|byte| *byte == b'\n');
    let held: BTreeSet<usize> = ends().filter_map(held).collect();
    let broken = (0..13).all(|bytes| held.contains(&bytes));
    wanted("a line end at a piece end and 1 to 12 bytes before", broken)?;
    wanted("a last line end", sheet.ends_with(b"\n"))?;
    wanted("several pieces printed", printed.len() > 4 * PIECE)
}

/// Other sheets for a fresh book: lines about as long as one piece or two, at the sheet's end too, and
/// lines that a piece end breaks after fewer and fewer bytes.
pub fn others() -> Vec<Vec<u8>> {
    let mut sheets = Vec::new();
    for length in [65_534, 65_535, 65_536, 65_537, 131_072, 200_000] {
        for first in ["J ", "1 ", "  "] {
            let sheet = format!("{OPENING}{first}{}\nJ 7 5 44\nO 7\n", "1".repeat(length));
            sheets.push(sheet.as_bytes()[..length].to_vec());
            sheets.push(sheet.into_bytes());
        }
    }
    for length in [65_534, 65_535, 65_536, 131_070, 131_071] {
        sheets.push(format!("O{} 9\nO 9\nO 9", "1".repeat(length)).into_bytes());
    }
    let lines = "O 7\nC 7 200\nD 7 1 1\nA 7 5\nL 7 5 14\nL 7 5 16\nL 7 5 14\nI 7 5 14 1 1\n";
    for shift in 0..40 {
        let before = "O 11\n".repeat(13_105) + &"\n".repeat(shift);
        sheets.push((before + lines).into_bytes());
    }
    sheets
}

/// The sheet in parts of odd sizes: small ones first, and then about as long as a piece.
pub fn odd_parts(sheet: &[u8]) -> Vec<&[u8]> {
    let small = (0..1_000).map(|place| 1 + place % 40);
    let large = [1, 7, 4_095, 65_535, 13, 65_537, 101, 30_011, 2];
    let mut sizes = small.chain(large.into_iter().cycle());
    let mut parts = Vec::new();
    let mut left = sheet;
    while !left.is_empty() {
        let size = sizes.next().map_or(left.len(), |size| size.min(left.len()));
        let (part, rest) = left.split_at(size);
        parts.push(part);
        left = rest;
    }
    parts
}

#[cfg(test)]
mod tests {
    use super::*;

    fn drawn() -> Vec<u8> {
        sheet(&mut Random::new(0), vec![0; 64], |_, _| ())
    }

    #[test]
    fn long_lines() {
        for bytes in [1, 2, 5, 9, 70_000] {
            let line = long_line(bytes);
            assert_eq!(line.len(), bytes);
            assert_eq!(line.find('\n'), Some(bytes - 1));
        }
    }

    #[test]
    fn the_sheet_tries_pieces() {
        let (sheet, printed) = (drawn(), vec![b'0'; 5 * PIECE]);
        assert_eq!(tries_pieces(&sheet, &printed), Ok(()));
        assert!(tries_pieces(&sheet, &printed[..PIECE]).is_err());
        assert!(tries_pieces(&sheet[..sheet.len() - 1], &printed).is_err());
        assert!(tries_pieces(&sheet[..1_000_000], &printed).is_err());
        assert!(tries_pieces(&b"M 4\n".repeat(300_000), &printed).is_err());
    }

    #[test]
    fn the_parts_are_the_sheet() {
        let sheet = drawn();
        let parts = odd_parts(&sheet);
        assert!(parts.len() > 1_000);
        assert_eq!(parts.concat(), sheet);
    }
}
