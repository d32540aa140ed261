//! The sheet programs on a sheet of a million mixed lines, through files and through pipes.

use crate::clock::compare;
use calls::program::piped;
use std::fs::{read, write, File};
use std::path::{Path, PathBuf};
use std::process::Command;
use std::time::Instant;

const ROUNDS: usize = 21;

/// The nanoseconds of a program whose standard input and output are files.
fn by_files(program: &Path, sheet: &Path, output: &Path) -> f64 {
    let (input, output) = (File::open(sheet).unwrap(), File::create(output).unwrap());
    let start = Instant::now();
    let status = Command::new(program).stdin(input).stdout(output).status();
    let time = start.elapsed();
    assert!(status.unwrap().success());
    time.as_secs_f64() * 1e9
}

/// The same through pipes; and what was printed.
fn by_pipes(program: &Path, sheet: &[u8]) -> (f64, Vec<u8>) {
    let start = Instant::now();
    let printed = piped(program, &[sheet]).unwrap();
    (start.elapsed().as_secs_f64() * 1e9, printed)
}

/// A program that must have been built.
fn built(program: PathBuf) -> PathBuf {
    assert!(program.exists(), "{} is not built", program.display());
    program
}

pub fn sheet() {
    let here = std::env::current_exe().unwrap();
    let beside = |name: &str| here.with_file_name(name);
    let root = Path::new(env!("CARGO_MANIFEST_DIR")).join("../..");
    let proved = built(root.join("target/bin/sheet"));
    let hand = built(beside("hand"));
    let million = Command::new(built(beside("million"))).output().unwrap();
    assert!(million.status.success());
    let text = million.stdout;
    let lines = text.iter().filter(|byte| **byte == b'\n').count();
    let sheet = beside("million.txt");
    write(&sheet, &text).unwrap();

    // Both must print the same, through either.
    let wanted = by_pipes(&hand, &text).1;
    assert_eq!(wanted.iter().filter(|byte| **byte == b'\n').count(), lines);
    assert!(by_pipes(&proved, &text).1 == wanted, "through pipes");
    let printed = beside("million.answers");
    for program in [&proved, &hand] {
        by_files(program, &sheet, &printed);
        assert!(read(&printed).unwrap() == wanted, "{}", program.display());
    }

    println!("| through | proved, million lines a second | (b), million lines a second | best | median |");
    println!("|---|---|---|---|---|");
    let program = |first| if first { &proved } else { &hand };
    let files = compare(ROUNDS, |first| by_files(program(first), &sheet, &printed));
    let pipes = compare(ROUNDS, |first| by_pipes(program(first), &text).0);
    for (name, times) in [("files", files), ("pipes", pipes)] {
        println!(
            "| {name} | {:.1} | {:.1} | {:.2} | {:.2} |",
            lines as f64 / times.first * 1e3,
            lines as f64 / times.second * 1e3,
            times.best(),
            times.median
        );
    }
}
