//! Demand 3 executed: two lists of calls, each from a fresh book, and whether
//! the same facts stand after them.

use crate::PlainBook;
use calls::{records, Answer, StrikeBook};

/// The book that a list leaves. "Its first call gets the fresh book, each
/// later one the book as the call before left it". Each `A` is lent as many
/// words of the pool as it asks for, or all. Words left over after the last
/// record are no call.
fn book_after(length: usize, pool: &mut [u32], list: &[u32]) -> Option<PlainBook> {
    let mut book = PlainBook::fresh(length)?;
    let (list, _) = list.as_chunks();
    for record in list {
        let (call, room) = records::read(record);
        let room = room.min(pool.len());
        book.make(&call, &mut pool[..room]);
    }
    Some(book)
}

/// Runs a list on each of two runs, and answers 1 where the same facts stand,
/// 0 where others do. Refuses 1 on a bad length or two lengths.
pub fn compare_lists(
    left: &mut [u32],
    right: &mut [u32],
    pool: &mut [u32],
    calls: &[u32],
    others: &[u32],
) -> Answer {
    let refused = Answer {
        number: 1,
        value: 0,
    };
    if left.len() != right.len() {
        return refused;
    }
    let Some(book) = book_after(left.len(), pool, calls) else {
        return refused;
    };
    let Some(other) = book_after(right.len(), pool, others) else {
        return refused;
    };
    left.copy_from_slice(&book.words());
    right.copy_from_slice(&other.words());
    Answer {
        number: 0,
        value: u32::from(book == other),
    }
}
