//! The sheet program over sheets of several pieces, byte by byte: from a file, which is read in whole
//! pieces, and through a pipe, at once and in parts of odd sizes.

use crate::failures;
use crate::proved::Proved;
use calls::program::{filed, piped, same};
use calls::{pieces, Random, StrikeBook};
use second::{sheet_program, PlainBook};
use std::io;
use std::path::{Path, PathBuf};

/// Where `tools/build` leaves the program.
const PROGRAM: &str = concat!(env!("CARGO_MANIFEST_DIR"), "/../../target/bin/sheet");

/// A file beside this program, which the sheet is written to.
pub fn stored(sheet: &[u8]) -> io::Result<PathBuf> {
    let file = std::env::current_exe()?.with_file_name("pieces.txt");
    std::fs::write(&file, sheet)?;
    Ok(file)
}

/// Compares what the program prints with what is wanted, however the sheet comes.
fn print(sheet: &[u8], wanted: &[u8]) -> Result<(), String> {
    let program = Path::new(PROGRAM);
    let told = |error: io::Error| format!("{PROGRAM}: {error}");
    let file = stored(sheet).map_err(told)?;
    let ways = [
        ("from a file", filed(program, &file)),
        ("through a pipe", piped(program, &[sheet])),
        ("in odd parts", piped(program, &pieces::odd_parts(sheet))),
    ];
    for (way, printed) in ways {
        let printed = printed.map_err(told)?;
        same(sheet, &printed, wanted).map_err(|text| format!("{way}: {text}"))?;
    }
    Ok(())
}

pub fn compare() -> Result<(), String> {
    let run = PlainBook::fresh(4_096).expect("a good length").words();
    let long = pieces::sheet(&mut Random::new(0), run, |run, call| {
        Proved(run).make(call, &mut []);
    });
    let wanted = sheet_program(&long);
    pieces::tries_pieces(&long, wanted.as_bytes())?;
    let told = |text| format!("the sheet of several pieces, {text}");
    print(&long, wanted.as_bytes()).map_err(told)?;
    let unended = &long[..long.len() - 1];
    let told = |text| format!("the sheet of several pieces without its last line end, {text}");
    print(unended, sheet_program(unended).as_bytes()).map_err(told)?;
    let others = pieces::others();
    for (place, sheet) in others.iter().enumerate() {
        let told = |text| format!("sheet {place} of a piece or two, {text}");
        print(sheet, sheet_program(sheet).as_bytes()).map_err(told)?;
    }
    println!(
        "the sheet program: {} bytes read and {} printed agree, and {} sheets of a piece or two",
        long.len(),
        wanted.len(),
        others.len()
    );
    failures::compare(Path::new(PROGRAM), &long)
}
