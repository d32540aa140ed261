//! Whole sheets: lines of calls and of noise.

use crate::draw::{self, Mix};
use crate::{Call, Random};

/// A sheet over a run: calls drawn as `make` changes it, some with odd numbers, or noise; at times
/// damaged, at times without its last line end.
pub fn any(
    random: &mut Random,
    run: Vec<u32>,
    mix: &Mix,
    lines: usize,
    make: impl FnMut(&mut [u32], &Call),
) -> Vec<u8> {
    let mut sheet = match random.below(8) {
        0 => noise(random),
        kind => {
            let written = if kind < 3 { oddly } else { plainly };
            calls(random, run, mix, lines, make, written)
        }
    };
    if random.one_in(4) {
        damage(random, &mut sheet);
    }
    if random.one_in(3) {
        sheet.pop();
    }
    sheet
}

/// Lines of calls drawn over a run as `make` changes it.
fn calls(
    random: &mut Random,
    mut run: Vec<u32>,
    mix: &Mix,
    lines: usize,
    mut make: impl FnMut(&mut [u32], &Call),
    written: fn(&mut Random, &Call) -> String,
) -> Vec<u8> {
    let mut sheet = Vec::new();
    for _ in 0..lines {
        let call = draw::call(random, &run, mix);
        make(&mut run, &call);
        sheet.extend(written(random, &call).as_bytes());
        sheet.push(b'\n');
    }
    sheet
}

/// The line of a call.
fn plainly(_: &mut Random, call: &Call) -> String {
    call.line()
}

/// The line of a call with some numbers written oddly.
fn oddly(random: &mut Random, call: &Call) -> String {
    let mut numbers = Vec::new();
    for number in call.numbers() {
        numbers.push(match random.one_in(6) {
            true => odd(random, number),
            false => number.to_string(),
        });
    }
    call.line_with(&numbers)
}

/// A number written wrongly or beyond its limits: with a leading zero, with more than 8, 32 or 64
/// bits, very long, with a byte that is no digit.
fn odd(random: &mut Random, number: u32) -> String {
    let wide = u128::from(number);
    match random.below(9) {
        0 => format!("0{number}"),
        1 => (wide + (1 << 32)).to_string(),
        2 => (wide + (1 << 64)).to_string(),
        3 => (wide + 100_000_000).to_string(),
        4 => (wide + 256).to_string(),
        5 => format!("{number}{}", "0".repeat(random.index(400))),
        6 => format!("{}{number}", "9".repeat(random.index(30))),
        7 => format!("{number}{}", random.pick(&[" ", ".", "x", "\t", "\r", "-"])),
        _ => format!("{}{number}", random.pick(&[" ", "+", "-", "\t"])),
    }
}

/// Any bytes, or bytes of which calls are made.
fn noise(random: &mut Random) -> Vec<u8> {
    let alphabet: &[u8] = random.pick(&[
        &b"MOCHVDLJXIRA 0123456789\n"[..],
        &b"MOCHVDLJXIRA   0123457\n\n\r/:\x10\x80\xb0"[..],
        &b"MO 1234567\n"[..],
        &b"\n \r\t\0M 1\n"[..],
    ]);
    let any = random.one_in(2);
    let mut sheet = Vec::new();
    for _ in 0..random.pick(&[5, 25, 100, 500]) {
        sheet.push(match any {
            true => random.byte(),
            false => random.pick(alphabet),
        });
    }
    sheet
}

/// A few bytes replaced, put in, taken out or turned.
fn damage(random: &mut Random, sheet: &mut Vec<u8>) {
    for _ in 0..random.between(1, 12) {
        if sheet.is_empty() {
            return;
        }
        let at = random.index(sheet.len());
        let byte = match random.one_in(3) {
            true => random.byte(),
            false => random.pick(b"\n\n  \r\t0179MOLAJ"),
        };
        match random.below(4) {
            0 => sheet[at] = byte,
            1 => sheet.insert(at, byte),
            2 => {
                sheet.remove(at);
            }
            _ => sheet[at] ^= 1 << random.below(8),
        }
    }
}
