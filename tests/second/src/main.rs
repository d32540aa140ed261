//! The sheet program.

use std::io::{Read, Write};

fn main() -> std::io::Result<()> {
    let mut sheet = Vec::new();
    std::io::stdin().read_to_end(&mut sheet)?;
    let printed = second::sheet_program(&sheet);
    std::io::stdout().write_all(printed.as_bytes())
}
