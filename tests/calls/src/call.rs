//! The calls of a list, as a sheet writes them.

/// The twelve calls, and the malformed line. A number of more than 32 bits is held as the highest of
/// 32 bits: both are beyond every limit.
#[derive(Clone, Copy, Debug, PartialEq, Eq)]
#[rustfmt::skip]
pub enum Call {
    M { m: u32 },
    O { c: u32 },
    C { c: u32, p: u32 },
    H { c: u32, low: u32, high: u32 },
    V { c: u32, n: u32 },
    D { c: u32, p: u32, d: u32 },
    L { c: u32, m: u32, h: u32 },
    J { c: u32, m: u32, h: u32 },
    X { c: u32, m: u32, h: u32 },
    I { c: u32, m: u32, h: u32, a: u32, b: u32 },
    R { c: u32 },
    A { c: u32, m: u32 },
    Malformed,
}

/// The letters of the twelve calls.
pub const LETTERS: [char; 12] = ['M', 'O', 'C', 'H', 'V', 'D', 'L', 'J', 'X', 'I', 'R', 'A'];

impl Call {
    /// The call that a letter and its numbers name; what names none is malformed.
    pub fn of(letter: char, numbers: &[u32]) -> Call {
        match (letter, numbers) {
            ('M', &[m]) => Call::M { m },
            ('O', &[c]) => Call::O { c },
            ('C', &[c, p]) => Call::C { c, p },
            ('H', &[c, low, high]) => Call::H { c, low, high },
            ('V', &[c, n]) => Call::V { c, n },
            ('D', &[c, p, d]) => Call::D { c, p, d },
            ('L', &[c, m, h]) => Call::L { c, m, h },
            ('J', &[c, m, h]) => Call::J { c, m, h },
            ('X', &[c, m, h]) => Call::X { c, m, h },
            ('I', &[c, m, h, a, b]) => Call::I { c, m, h, a, b },
            ('R', &[c]) => Call::R { c },
            ('A', &[c, m]) => Call::A { c, m },
            _ => Call::Malformed,
        }
    }

    /// The letter, `-` of a malformed line.
    pub fn letter(&self) -> char {
        match self {
            Call::M { .. } => 'M',
            Call::O { .. } => 'O',
            Call::C { .. } => 'C',
            Call::H { .. } => 'H',
            Call::V { .. } => 'V',
            Call::D { .. } => 'D',
            Call::L { .. } => 'L',
            Call::J { .. } => 'J',
            Call::X { .. } => 'X',
            Call::I { .. } => 'I',
            Call::R { .. } => 'R',
            Call::A { .. } => 'A',
            Call::Malformed => '-',
        }
    }

    pub fn numbers(&self) -> Vec<u32> {
        match *self {
            Call::M { m } => vec![m],
            Call::O { c } | Call::R { c } => vec![c],
            Call::C { c, p } => vec![c, p],
            Call::H { c, low, high } => vec![c, low, high],
            Call::V { c, n } => vec![c, n],
            Call::D { c, p, d } => vec![c, p, d],
            Call::L { c, m, h } | Call::J { c, m, h } | Call::X { c, m, h } => vec![c, m, h],
            Call::I { c, m, h, a, b } => vec![c, m, h, a, b],
            Call::A { c, m } => vec![c, m],
            Call::Malformed => Vec::new(),
        }
    }

    /// The line of the call, without its line end.
    pub fn line(&self) -> String {
        let numbers: Vec<String> = self.numbers().iter().map(u32::to_string).collect();
        self.line_with(&numbers)
    }

    /// The line of the call, with its numbers written as given.
    pub fn line_with(&self, numbers: &[String]) -> String {
        let mut line = self.letter().to_string();
        for number in numbers {
            line.push(' ');
            line.push_str(number);
        }
        line
    }
}

#[cfg(test)]
mod tests {
    use super::*;

    #[test]
    fn written_and_read() {
        let counts = [1, 1, 2, 3, 2, 3, 3, 3, 3, 5, 1, 2];
        for (letter, count) in LETTERS.into_iter().zip(counts) {
            let numbers: Vec<u32> = (7..12).collect();
            for given in 0..=5 {
                let call = Call::of(letter, &numbers[..given]);
                assert_eq!(call != Call::Malformed, given == count, "{letter} {given}");
            }
            let call = Call::of(letter, &numbers[..count]);
            assert_eq!(call.letter(), letter);
            assert_eq!(call.numbers(), numbers[..count]);
        }
        assert_eq!(Call::of('B', &[7]), Call::Malformed);
        assert_eq!(Call::Malformed.line(), "-");
        let call = Call::of('I', &[7, 5, 14, 1, 0]);
        assert_eq!(call.line(), "I 7 5 14 1 0");
        assert_eq!(Call::M { m: 4 }.line_with(&["04".to_string()]), "M 04");
    }
}
