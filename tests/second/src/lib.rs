//! The strike book of document 01, written a second time, plainly: maps and
//! sets, no words until its own layout.

mod book;
mod layout;
mod lists;
mod on_book;
mod rules;
mod sheet;
mod units;

pub use book::{Class, Counter, PlainBook, Strike};
pub use lists::compare_lists;
pub use on_book::{counter_on_words, make_on_words};
pub use sheet::{lines, parse_line, printed, sheet_program};
