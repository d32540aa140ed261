//! A program run on a sheet, and what it prints.

use std::fs::File;
use std::io::{self, Read, Write};
use std::os::fd::OwnedFd;
use std::os::unix::net::UnixStream;
use std::path::Path;
use std::process::{Command, Output, Stdio};
use std::thread;
use std::time::Duration;

/// What a program prints whose input comes through a pipe, in these parts; it says nothing on
/// standard error.
pub fn piped(program: &Path, parts: &[&[u8]]) -> io::Result<Vec<u8>> {
    let mut child = Command::new(program)
        .stdin(Stdio::piped())
        .stdout(Stdio::piped())
        .stderr(Stdio::piped())
        .spawn()?;
    let input = child.stdin.take().expect("a pipe");
    let mut output = child.stdout.take().expect("a pipe");
    let mut errors = child.stderr.take().expect("a pipe");
    let mut stdout = Vec::with_capacity(parts.iter().map(|part| part.len()).sum());
    let mut stderr = Vec::new();
    let written = thread::scope(|scope| {
        let writer = scope.spawn(move || write(input, parts));
        let listener = scope.spawn(|| errors.read_to_end(&mut stderr));
        output.read_to_end(&mut stdout)?;
        listener.join().expect("a listener that ends")?;
        io::Result::Ok(writer.join().expect("a writer that ends"))
    })?;
    let status = child.wait()?;
    let output = Output {
        status,
        stdout,
        stderr,
    };
    // A program that fails may leave its input unread: that it failed is told first.
    let printed = quiet(program, output)?;
    written.map(|()| printed)
}

/// Writes the parts and ends. A pause between two lets the program read the one before the other comes.
fn write(mut input: impl Write, parts: &[&[u8]]) -> io::Result<()> {
    for (place, part) in parts.iter().enumerate() {
        if place > 0 {
            thread::sleep(Duration::from_micros(50));
        }
        input.write_all(part)?;
    }
    Ok(())
}

/// What a program prints whose input is a file, which it reads in whole pieces; it says nothing on
/// standard error.
pub fn filed(program: &Path, sheet: &Path) -> io::Result<Vec<u8>> {
    let output = Command::new(program).stdin(File::open(sheet)?).output()?;
    quiet(program, output)
}

/// How the input ends that comes through a socket.
#[derive(Clone, Copy, Debug, PartialEq, Eq)]
pub enum End {
    /// As a file does.
    Ordinary,
    /// By a read that fails, after all bytes were read.
    Reset,
}

/// What a program leaves whose input comes through a socket, and ends like that.
pub fn socketed(program: &Path, sheet: &[u8], end: End) -> io::Result<Output> {
    let (mut ours, mut theirs) = UnixStream::pair()?;
    if end == End::Reset {
        // Closed with a byte unread, a socket resets the other one: that one still gives all that
        // was written, and then an error once.
        theirs.write_all(b"?")?;
    }
    thread::scope(|scope| {
        // The writer closes our socket.
        let writer = scope.spawn(move || ours.write_all(sheet));
        let output = Command::new(program)
            .stdin(OwnedFd::from(theirs))
            .output()?;
        writer.join().expect("a writer that ends")?;
        Ok(output)
    })
}

/// What was printed, of a program that ended well and said nothing on standard error.
pub fn quiet(program: &Path, output: Output) -> io::Result<Vec<u8>> {
    let wanted = output.status.success() && output.stderr.is_empty();
    printed(program, output, wanted)
}

/// What was printed, of a program that ended with status 1 and said one line on standard error.
pub fn failed(program: &Path, output: Output) -> io::Result<Vec<u8>> {
    let said = &output.stderr;
    let end = said.iter().position(|byte| *byte == b'\n');
    let is_line = end.is_some_and(|end| end > 0 && end + 1 == said.len());
    let wanted = is_line && output.status.code() == Some(1);
    printed(program, output, wanted)
}

/// What was printed, where the program ended as is wanted.
fn printed(program: &Path, output: Output, wanted: bool) -> io::Result<Vec<u8>> {
    if wanted {
        return Ok(output.stdout);
    }
    let (program, status) = (program.display(), output.status);
    let said = output.stderr.escape_ascii();
    Err(io::Error::other(format!("{program}: {status}, `{said}`")))
}

/// Fails at the first byte that was not wanted, with the line of the sheet that it answers.
pub fn same(sheet: &[u8], printed: &[u8], wanted: &[u8]) -> Result<(), String> {
    if printed == wanted {
        return Ok(());
    }
    let pairs = printed.iter().zip(wanted);
    let at = pairs.take_while(|(byte, wanted)| byte == wanted).count();
    let place = wanted[..at].iter().filter(|byte| **byte == b'\n').count();
    Err(format!(
        "byte {at}, line {place}, `{}`: printed `{}`, wanted `{}`",
        line(sheet, place),
        line(printed, place),
        line(wanted, place)
    ))
}

/// The line at a place, or its first bytes.
fn line(text: &[u8], place: usize) -> String {
    let line = text.split(|byte| *byte == b'\n').nth(place).unwrap_or(b"");
    line[..line.len().min(100)].escape_ascii().to_string()
}

#[cfg(test)]
mod tests {
    use super::*;

    #[test]
    fn parts_come_in_order() {
        let parts: [&[u8]; 3] = [b"M 4\nO", b" ", b"7"];
        assert_eq!(piped(Path::new("cat"), &parts).unwrap(), b"M 4\nO 7");
        assert!(piped(Path::new("false"), &[]).is_err());
    }

    #[test]
    fn what_is_said_on_standard_error_is_heard() {
        let says: &[u8] = b"echo 4; echo 5 >&2";
        let told = piped(Path::new("sh"), &[says]).unwrap_err().to_string();
        assert!(told.ends_with(r"`5\n`"), "{told}");
        let silent: &[u8] = b"echo 4";
        assert_eq!(piped(Path::new("sh"), &[silent]).unwrap(), b"4\n");
    }

    /// What the shell leaves that reads these commands.
    fn shell(commands: &str) -> Output {
        socketed(Path::new("sh"), commands.as_bytes(), End::Ordinary).unwrap()
    }

    #[test]
    fn a_program_fails_with_status_1_and_one_line() {
        let sh = Path::new("sh");
        let printed = |commands| failed(sh, shell(commands));
        assert_eq!(printed("echo 4; echo 5 6 >&2; exit 1").unwrap(), b"4\n");
        let others = [
            "echo 5 >&2",
            "echo 5 >&2; exit 2",
            "echo 5 >&2; kill -9 $$",
            "exit 1",
            "echo >&2; exit 1",
            "printf 5 >&2; exit 1",
            "printf '5\\n6' >&2; exit 1",
            "echo 5 >&2; echo 6 >&2; exit 1",
        ];
        for commands in others {
            assert!(printed(commands).is_err(), "{commands}");
        }
    }

    #[test]
    fn a_program_is_quiet_with_status_0_and_no_line() {
        let sh = Path::new("sh");
        assert_eq!(quiet(sh, shell("echo 4")).unwrap(), b"4\n");
        assert!(quiet(sh, shell("echo 4; exit 1")).is_err());
        assert!(quiet(sh, shell("echo 4; echo 5 >&2")).is_err());
    }

    #[test]
    fn a_socket_ends_or_is_reset_after_its_last_byte() {
        let cat = Path::new("cat");
        for sheet in [b"M 4".to_vec(), b"M 4\n".repeat(300_000)] {
            let ended = socketed(cat, &sheet, End::Ordinary).unwrap();
            assert!(ended.status.success() && ended.stderr.is_empty());
            assert!(ended.stdout == sheet);
            let reset = socketed(cat, &sheet, End::Reset).unwrap();
            assert!(!reset.status.success() && !reset.stderr.is_empty());
            assert!(reset.stdout == sheet);
        }
    }

    #[test]
    fn the_first_difference_is_told() {
        let sheet = b"M 4\nO 7\nO 7";
        assert_eq!(same(sheet, b"0\n0\n3\n", b"0\n0\n3\n"), Ok(()));
        let said = same(sheet, b"0\n0\n4\n", b"0\n0\n3\n").unwrap_err();
        assert_eq!(said, "byte 4, line 2, `O 7`: printed `4`, wanted `3`");
        let said = same(sheet, b"0\n0", b"0\n0\n3\n").unwrap_err();
        assert!(said.starts_with("byte 3, line 1, `O 7`: "), "{said}");
    }
}
