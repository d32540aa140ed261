use crate::common::{dollar_class, expect};
use second::PlainBook;

/// Dollar $7, $8, $19 and Standard $20 at a close of 1300.
pub fn for_review() -> PlainBook {
    let mut book = dollar_class(1_300);
    expect(
        &mut book,
        &[
            ("L 7 5 14", "0 1"),
            ("L 7 5 16", "0 1"),
            ("L 7 5 38", "0 1"),
            ("L 7 5 40", "0 0"),
        ],
    );
    book
}
