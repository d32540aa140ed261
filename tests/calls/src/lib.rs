//! What the tests of the strike book share: its calls as values, and what is drawn of them and of
//! their books with one seeded generator. It knows no implementation.

pub mod books;
mod call;
pub mod draw;
pub mod figures;
pub mod pieces;
pub mod program;
mod random;
pub mod records;
pub mod runs;
pub mod sheets;
mod strike_book;
mod tally;
pub mod words;

pub use call::{Call, LETTERS};
pub use random::Random;
pub use strike_book::{Answer, StrikeBook};
pub use tally::{Read, Tally};
