//! "Units": the limits of each number, in base ten.

/// "A price P is in cents, 1 to 999,999."
pub fn is_price(n: u32) -> bool {
    (1..=999_999).contains(&n)
}

/// "A strike is counted in half dollars, h from 1 to 19,999"
pub const LOWEST_STRIKE: u32 = 1;
pub const HIGHEST_STRIKE: u32 = 19_999;

pub fn is_strike(n: u32) -> bool {
    (1..=19_999).contains(&n)
}

/// "and K = 50 × h is the same strike in cents."
pub fn cents(h: u32) -> u32 {
    50 * h
}

/// "A month is 0 to 1,023"
pub fn is_month(n: u32) -> bool {
    n <= 1_023
}

/// "A class number is 1 to 16,383."
pub fn is_class_number(n: u32) -> bool {
    (1..=16_383).contains(&n)
}

/// "Volume, the national average of contracts a day, is 0 to 9,999,999."
pub fn is_volume(n: u32) -> bool {
    n <= 9_999_999
}

/// "program p (1 for $1, 2 for $0.50)"; #101: "`D` program 3", for $2.50.
pub const DOLLAR_PROGRAM: u32 = 1;
pub const HALF_PROGRAM: u32 = 2;
pub const TWO_FIFTY_PROGRAM: u32 = 3;
pub const PROGRAMS: [u32; 3] = [DOLLAR_PROGRAM, HALF_PROGRAM, TWO_FIFTY_PROGRAM];

pub fn is_program(n: u32) -> bool {
    PROGRAMS.contains(&n)
}

/// "(0 none, 1 ours, 2 another exchange's)"
pub fn is_designation(n: u32) -> bool {
    n <= 2
}

/// "put mark a, call mark b, 0 or 1."
pub fn is_mark(n: u32) -> bool {
    n <= 1
}

/// "ground in 15–17 (0 to 3)"; #101: "This is ground 4".
pub fn is_ground(n: u32) -> bool {
    n <= 4
}

/// "The book is a lent run of 1 to 65,535 words of 32 bits." #104: "a length
/// below 4 is bad."
pub fn is_length(n: usize) -> bool {
    (4..=65_535).contains(&n)
}

/// "each expiration from `now` to `now` + 39"
pub const MONTHS_AHEAD: u32 = 39;

/// The cap of a program: how many classes may have its designation 1.
pub fn cap(program: u32) -> usize {
    match program {
        // "at most 150 classes with $1 designation 1"
        DOLLAR_PROGRAM => 150,
        // "and at most 20 with $0.50 designation 1."
        HALF_PROGRAM => 20,
        // #101: "up to 60 classes of our own"
        _ => 60,
    }
}
