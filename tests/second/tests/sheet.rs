//! The written form of a list.

use calls::Call;
use second::{lines, parse_line, sheet_program};

#[test]
fn lines_of_a_sheet() {
    let none: Vec<&[u8]> = Vec::new();
    assert_eq!(lines(b""), none);
    assert_eq!(lines(b"\n"), [b""]);
    assert_eq!(lines(b"M 4"), [b"M 4"]);
    assert_eq!(lines(b"M 4\n"), [b"M 4"]);
    assert_eq!(lines(b"M 4\n\n"), [&b"M 4"[..], b""]);
    assert_eq!(lines(b"\nM 4\nR 7"), [&b""[..], b"M 4", b"R 7"]);
}

#[test]
fn well_formed_lines() {
    assert_eq!(parse_line(b"M 0"), Call::M { m: 0 });
    assert_eq!(parse_line(b"O 7"), Call::O { c: 7 });
    assert_eq!(parse_line(b"C 7 200"), Call::C { c: 7, p: 200 });
    let (c, low, high) = (7, 150, 250);
    assert_eq!(parse_line(b"H 7 150 250"), Call::H { c, low, high });
    assert_eq!(parse_line(b"V 7 0"), Call::V { c: 7, n: 0 });
    assert_eq!(parse_line(b"D 7 1 2"), Call::D { c: 7, p: 1, d: 2 });
    assert_eq!(parse_line(b"L 7 5 14"), Call::L { c: 7, m: 5, h: 14 });
    assert_eq!(parse_line(b"J 7 5 14"), Call::J { c: 7, m: 5, h: 14 });
    assert_eq!(parse_line(b"X 7 5 14"), Call::X { c: 7, m: 5, h: 14 });
    assert_eq!(
        parse_line(b"I 7 5 14 1 0"),
        Call::of('I', &[7, 5, 14, 1, 0])
    );
    assert_eq!(parse_line(b"R 7"), Call::R { c: 7 });
    assert_eq!(parse_line(b"A 7 5"), Call::A { c: 7, m: 5 });
    let highest = Call::M { m: u32::MAX };
    assert_eq!(parse_line(b"M 4294967294"), Call::M { m: u32::MAX - 1 });
    for beyond in [
        "4294967295",
        "4294967296",
        "4294967300",
        "18446744073709551617",
    ] {
        assert_eq!(parse_line(format!("M {beyond}").as_bytes()), highest);
    }
    let long = [b"M ".as_slice(), &[b'1'; 5_000]].concat();
    assert_eq!(parse_line(&long), highest);
}

#[test]
fn malformed_lines() {
    let malformed: &[&[u8]] = &[
        b"",
        b" ",
        b"M",
        b"M ",
        b"M 4 ",
        b" M 4",
        b"M  4",
        b"M 04",
        b"M 00",
        b"M 4\r",
        b"M\t4",
        b"m 4",
        b"M4",
        b"M +4",
        b"M -4",
        b"M 4 5",
        b"M 4.",
        b"M 4,0",
        b"M 0x4",
        b"M a",
        b"4",
        b"4 M",
        b"O",
        b"O 7 7",
        b"C 7",
        b"C 7 200 1",
        b"H",
        b"H 7",
        b"H 7 150",
        b"H 7 150 250 1",
        b"H 7 0150 250",
        b"H 7 150  250",
        b"H 7 150 250 ",
        b"h 7 150 250",
        b"V 7",
        b"D 7 1",
        b"D 7 1 1 1",
        b"L 7 5",
        b"L 7 5 14 1",
        b"J 7 5",
        b"X 7 5",
        b"I 7 5 14 1",
        b"I 7 5 14 1 0 0",
        b"R",
        b"R 7 5",
        b"A 7",
        b"A 7 5 1",
        b"B 7",
        b"MM 4",
        b"M 4\0",
        b"\xEF\xBB\xBFM 4",
        b"M \xFF",
        b"Malformed",
        b"M 4 # now",
    ];
    for line in malformed {
        assert_eq!(parse_line(line), Call::Malformed, "{line:?}");
    }
    assert_eq!(sheet_program(b"M 4\n\nM 4\r\nM 5"), "0\n2\n2\n0\n");
}

#[test]
fn printed_values() {
    let sheet =
        b"O 7\nC 7 1300\nD 7 1 1\nV 7 5\nL 7 1 14\nJ 7 1 20\nI 7 1 14 0 0\nR 7\nR 7\nA 7 0\n\
        X 7 1 14\nC 7 666666\nA 7 1\nL 7 1 1\n";
    assert_eq!(
        sheet_program(sheet),
        "0\n0\n0\n0\n0 1\n0 0\n0\n0 1\n0 0\n5\n7\n0\n15 666\n11\n"
    );
    assert_eq!(sheet_program(b""), "");
}
