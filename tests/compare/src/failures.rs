//! The sheet program where a read or a write fails: it makes no call of a line that has not ended,
//! prints no more, ends with status 1 and says one line on standard error, in the words of its
//! runtime. Where its input comes to its end, it ends with status 0 and says nothing.

use crate::program::stored;
use calls::pieces::PIECE;
use calls::program::{failed, quiet, same, socketed, End};
use second::sheet_program;
use std::fs::{File, OpenOptions};
use std::io::{self, Seek};
use std::path::Path;
use std::process::Command;

fn told(error: io::Error) -> String {
    error.to_string()
}

/// The program with one of its standard files closed, as the shell writes it.
fn closed(program: &Path, file: &str) -> Command {
    let mut command = Command::new("sh");
    command.arg("-c").arg(format!("exec \"$0\" {file}"));
    command.arg(program);
    command
}

/// A file that is open for writing only.
fn for_writing(path: &str) -> io::Result<File> {
    OpenOptions::new().write(true).open(path)
}

/// The program with a standard input of which no byte can be read.
fn unreadable(program: &Path) -> io::Result<[(&'static str, Command); 3]> {
    let with = |input: File| {
        let mut command = Command::new(program);
        command.stdin(input);
        command
    };
    Ok([
        ("a directory", with(File::open("/")?)),
        ("for writing only", with(for_writing("/dev/null")?)),
        ("closed", closed(program, "<&-")),
    ])
}

/// The program with a standard output that takes no byte.
fn unwritable(program: &Path) -> io::Result<[(&'static str, Command); 3]> {
    let with = |output: File| {
        let mut command = Command::new(program);
        command.stdout(output);
        command
    };
    Ok([
        ("full", with(for_writing("/dev/full")?)),
        ("for reading only", with(File::open("/dev/null")?)),
        ("closed", closed(program, ">&-")),
    ])
}

/// Fails where the program did not end as is wanted, or printed another byte than is wanted.
fn left(printed: io::Result<Vec<u8>>, sheet: &[u8], wanted: &str) -> Result<(), String> {
    same(sheet, &printed.map_err(told)?, wanted.as_bytes())
}

/// A sheet that comes through a socket, whose last line lacks its end and is a call that is
/// accepted. Where its end was read, the call is made; where the next read fails, more of that line
/// may be missing, and it is not.
fn through_socket(program: &Path, sheet: &[u8]) -> Result<(), String> {
    let ends = sheet.iter().rposition(|byte| *byte == b'\n');
    let whole = sheet_program(&sheet[..ends.map_or(0, |end| end + 1)]);
    let all = sheet_program(sheet);
    if all != format!("{whole}0\n") {
        return Err("its last line lacks no line end, or is refused".to_string());
    }
    let ended = socketed(program, sheet, End::Ordinary);
    let printed = ended.and_then(|output| quiet(program, output));
    left(printed, sheet, &all).map_err(|text| format!("to its end: {text}"))?;
    let reset = socketed(program, sheet, End::Reset);
    let printed = reset.and_then(|output| failed(program, output));
    left(printed, sheet, &whole).map_err(|text| format!("to a read that fails: {text}"))
}

/// A sheet in a file, of which no reply can be written: after the piece whose replies fail, no more
/// is read.
fn from_file(program: &Path, mut command: Command, sheet: &[u8]) -> Result<(), String> {
    let path = stored(sheet).map_err(told)?;
    // The program reads on from the same place in it.
    let mut file = File::open(path).map_err(told)?;
    command.stdin(file.try_clone().map_err(told)?);
    let output = command.output();
    left(output.and_then(|output| failed(program, output)), sheet, "")?;
    let read = file.stream_position().map_err(told)?;
    match sheet.len().min(PIECE) as u64 {
        wanted if read == wanted => Ok(()),
        wanted => Err(format!("{read} bytes were read, wanted {wanted}")),
    }
}

/// Tries reads and writes that fail, with a sheet of several pieces among others.
pub fn compare(program: &Path, long: &[u8]) -> Result<(), String> {
    for (input, mut command) in unreadable(program).map_err(told)? {
        let output = command.output();
        left(output.and_then(|output| failed(program, output)), b"", "")
            .map_err(|text| format!("standard input is {input}: {text}"))?;
    }
    // Their last lines are cut: `M 42` and `C 7 200` would be other calls.
    let long = [long, b"C 7 20"].concat();
    let sheets: [(&str, &[u8]); 3] = [
        ("one line without its end", b"M 4"),
        ("a short sheet", b"M 4\nO 7\nC 7 20"),
        ("the sheet of several pieces", &long),
    ];
    for (name, sheet) in sheets {
        through_socket(program, sheet)
            .map_err(|text| format!("{name} through a socket, {text}"))?;
        for (output, command) in unwritable(program).map_err(told)? {
            from_file(program, command, sheet)
                .map_err(|text| format!("{name}, standard output is {output}: {text}"))?;
        }
    }
    println!("the sheet program: reads and writes that fail are told");
    Ok(())
}
