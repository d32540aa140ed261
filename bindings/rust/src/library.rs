//! The functions of the static library over any words, each with a safe one over it: for callers who hold a run
//! and no [`Book`](crate::Book). Over words that are no book each call replies 1 and changes nothing;
//! [`read_known_counter`] alone doesn't ask whether they are one.
//!
//! They are safe for any slices: a slice's pointer is non-null, aligned and valid for its length (an
//! empty slice's too, of which nothing is read or written), and Rust's borrows keep the slices of
//! one call apart and everyone else from writing them. The library keeps no pointer after a call.

/// The number and the value of an answer.
#[derive(Clone, Copy, Debug, PartialEq, Eq)]
#[repr(C)]
pub struct Reply {
    /// 0 where the call is accepted, else the number of its refusal.
    pub number: u32,
    /// What the call answers beside it; 0 where nothing is said.
    pub value: u32,
}

/// The number of an answer and the two counts of a program. Both are 0 in a refusal.
#[derive(Clone, Copy, Debug, PartialEq, Eq)]
#[repr(C)]
pub struct CounterReply {
    /// 0 where the counter is read, else the number of the refusal.
    pub number: u32,
    /// The classes of our own in the program.
    pub own_classes: u32,
    /// The standing strikes on the program's grounds.
    pub strikes: u32,
}

mod raw {
    use super::{CounterReply, Reply};

    extern "C" {
        pub fn strike_book_is_book(run: *const u32, length: usize) -> bool;
        pub fn strike_book_fresh(run: *mut u32, length: usize) -> Reply;
        pub fn strike_book_set_month(run: *mut u32, length: usize, m: u32) -> Reply;
        pub fn strike_book_open_class(run: *mut u32, length: usize, c: u32) -> Reply;
        pub fn strike_book_set_close(run: *mut u32, length: usize, c: u32, p: u32) -> Reply;
        pub fn strike_book_set_low_high(
            run: *mut u32,
            length: usize,
            c: u32,
            low: u32,
            high: u32,
        ) -> Reply;
        pub fn strike_book_set_volume(run: *mut u32, length: usize, c: u32, n: u32) -> Reply;
        pub fn strike_book_designate(run: *mut u32, length: usize, c: u32, p: u32, d: u32)
            -> Reply;
        pub fn strike_book_list_strike(
            run: *mut u32,
            length: usize,
            c: u32,
            m: u32,
            h: u32,
        ) -> Reply;
        pub fn strike_book_judge_strike(
            run: *const u32,
            length: usize,
            c: u32,
            m: u32,
            h: u32,
        ) -> Reply;
        pub fn strike_book_delist_strike(
            run: *mut u32,
            length: usize,
            c: u32,
            m: u32,
            h: u32,
        ) -> Reply;
        pub fn strike_book_mark_strike(
            run: *mut u32,
            length: usize,
            c: u32,
            m: u32,
            h: u32,
            a: u32,
            b: u32,
        ) -> Reply;
        pub fn strike_book_review_class(run: *mut u32, length: usize, c: u32) -> Reply;
        pub fn strike_book_list_permitted(
            run: *const u32,
            length: usize,
            second: *mut u32,
            second_length: usize,
            c: u32,
            m: u32,
        ) -> Reply;
        pub fn strike_book_read_counter(
            run: *const u32,
            length: usize,
            program: u32,
        ) -> CounterReply;
        pub fn strike_book_read_known_counter(
            run: *const u32,
            length: usize,
            program: u32,
        ) -> CounterReply;
        pub fn strike_book_run_sheet(
            run: *mut u32,
            length: usize,
            second: *mut u32,
            second_length: usize,
            sheet: *const u8,
            sheet_length: usize,
            answers: *mut u32,
            answers_length: usize,
        ) -> usize;
        pub fn strike_book_compare_lists(
            left: *mut u32,
            left_length: usize,
            right: *mut u32,
            right_length: usize,
            pool: *mut u32,
            pool_length: usize,
            calls: *const u32,
            calls_length: usize,
            others: *const u32,
            others_length: usize,
        ) -> Reply;
    }
}

/// Whether the run is a book.
#[inline]
pub fn is_book(run: &[u32]) -> bool {
    // SAFETY: the slice is valid for reading its length, and nobody writes it during the borrow.
    unsafe { raw::strike_book_is_book(run.as_ptr(), run.len()) }
}

/// Makes a fresh book of the run, whatever it holds.
#[inline]
pub fn fresh(run: &mut [u32]) -> Reply {
    // SAFETY: the slice is valid for reading and writing its length, and borrowed by us alone.
    unsafe { raw::strike_book_fresh(run.as_mut_ptr(), run.len()) }
}

/// `M`: sets the current month.
#[inline]
pub fn set_month(run: &mut [u32], m: u32) -> Reply {
    // SAFETY: the slice is valid for reading and writing its length, and borrowed by us alone.
    unsafe { raw::strike_book_set_month(run.as_mut_ptr(), run.len(), m) }
}

/// `O`: opens a class.
#[inline]
pub fn open_class(run: &mut [u32], c: u32) -> Reply {
    // SAFETY: the slice is valid for reading and writing its length, and borrowed by us alone.
    unsafe { raw::strike_book_open_class(run.as_mut_ptr(), run.len(), c) }
}

/// `C`: sets the close, and low and high to it.
#[inline]
pub fn set_close(run: &mut [u32], c: u32, p: u32) -> Reply {
    // SAFETY: the slice is valid for reading and writing its length, and borrowed by us alone.
    unsafe { raw::strike_book_set_close(run.as_mut_ptr(), run.len(), c, p) }
}

/// `H`: sets the day's low and high.
#[inline]
pub fn set_low_high(run: &mut [u32], c: u32, low: u32, high: u32) -> Reply {
    // SAFETY: the slice is valid for reading and writing its length, and borrowed by us alone.
    unsafe { raw::strike_book_set_low_high(run.as_mut_ptr(), run.len(), c, low, high) }
}

/// `V`: sets the volume.
#[inline]
pub fn set_volume(run: &mut [u32], c: u32, n: u32) -> Reply {
    // SAFETY: the slice is valid for reading and writing its length, and borrowed by us alone.
    unsafe { raw::strike_book_set_volume(run.as_mut_ptr(), run.len(), c, n) }
}

/// `D`: gives the program p the designation d.
#[inline]
pub fn designate(run: &mut [u32], c: u32, p: u32, d: u32) -> Reply {
    // SAFETY: the slice is valid for reading and writing its length, and borrowed by us alone.
    unsafe { raw::strike_book_designate(run.as_mut_ptr(), run.len(), c, p, d) }
}

/// `L`: adds a strike; its value is the ground.
#[inline]
pub fn list_strike(run: &mut [u32], c: u32, m: u32, h: u32) -> Reply {
    // SAFETY: the slice is valid for reading and writing its length, and borrowed by us alone.
    unsafe { raw::strike_book_list_strike(run.as_mut_ptr(), run.len(), c, m, h) }
}

/// `J`: judges a strike and adds nothing; its value is the ground.
#[inline]
pub fn judge_strike(run: &[u32], c: u32, m: u32, h: u32) -> Reply {
    // SAFETY: the slice is valid for reading its length, and nobody writes it during the borrow.
    unsafe { raw::strike_book_judge_strike(run.as_ptr(), run.len(), c, m, h) }
}

/// `X`: delists a strike.
#[inline]
pub fn delist_strike(run: &mut [u32], c: u32, m: u32, h: u32) -> Reply {
    // SAFETY: the slice is valid for reading and writing its length, and borrowed by us alone.
    unsafe { raw::strike_book_delist_strike(run.as_mut_ptr(), run.len(), c, m, h) }
}

/// `I`: sets the put mark a and the call mark b.
#[inline]
pub fn mark_strike(run: &mut [u32], c: u32, m: u32, h: u32, a: u32, b: u32) -> Reply {
    // SAFETY: the slice is valid for reading and writing its length, and borrowed by us alone.
    unsafe { raw::strike_book_mark_strike(run.as_mut_ptr(), run.len(), c, m, h, a, b) }
}

/// `R`: reviews a class; its value is how many strikes it removed.
#[inline]
pub fn review_class(run: &mut [u32], c: u32) -> Reply {
    // SAFETY: the slice is valid for reading and writing its length, and borrowed by us alone.
    unsafe { raw::strike_book_review_class(run.as_mut_ptr(), run.len(), c) }
}

/// `A`: writes the permitted strikes to the second run; its value is their count.
#[inline]
pub fn list_permitted(run: &[u32], second: &mut [u32], c: u32, m: u32) -> Reply {
    let (at, length) = (second.as_mut_ptr(), second.len());
    // SAFETY: `run` is valid for reading and `second` for reading and writing their lengths. The
    // second is borrowed by us alone, so the two don't overlap; nobody writes the first.
    unsafe { raw::strike_book_list_permitted(run.as_ptr(), run.len(), at, length, c, m) }
}

/// Reads the counter of a program, and asks whether the run is a book: 1 where it is none, then 2
/// where the program is none.
#[inline]
pub fn read_counter(run: &[u32], program: u32) -> CounterReply {
    // SAFETY: the slice is valid for reading its length, and nobody writes it during the borrow.
    unsafe { raw::strike_book_read_counter(run.as_ptr(), run.len(), program) }
}

/// Reads the counter of a program at a constant cost, for a run that is known to be a book: there it
/// replies as [`read_counter`]. Over any other words it replies 1 where there are fewer than 4, then
/// 2 where the program is none, else 0 and what the bits of the program's counter word hold, true or
/// not.
#[inline]
pub fn read_known_counter(run: &[u32], program: u32) -> CounterReply {
    // SAFETY: the slice is valid for reading its length, and nobody writes it during the borrow.
    unsafe { raw::strike_book_read_known_counter(run.as_ptr(), run.len(), program) }
}

/// Reads a whole sheet, two words of `answers` a line; answers how many lines it has.
#[inline]
pub fn run_sheet(run: &mut [u32], second: &mut [u32], sheet: &[u8], answers: &mut [u32]) -> usize {
    // SAFETY: each slice is valid for its length, the three that are written are borrowed by us
    // alone, so no two overlap; nobody writes the sheet.
    unsafe {
        raw::strike_book_run_sheet(
            run.as_mut_ptr(),
            run.len(),
            second.as_mut_ptr(),
            second.len(),
            sheet.as_ptr(),
            sheet.len(),
            answers.as_mut_ptr(),
            answers.len(),
        )
    }
}

/// Runs two lists of calls, eight words a call, each from a fresh book, and compares the books that
/// they leave; its value is 1 where they are equal. `include/strikebook.h` has the eight words.
#[inline]
pub fn compare_lists(
    left: &mut [u32],
    right: &mut [u32],
    pool: &mut [u32],
    calls: &[u32],
    others: &[u32],
) -> Reply {
    // SAFETY: each slice is valid for its length, the three that are written are borrowed by us
    // alone, so none overlaps another or a list; nobody writes the lists.
    unsafe {
        raw::strike_book_compare_lists(
            left.as_mut_ptr(),
            left.len(),
            right.as_mut_ptr(),
            right.len(),
            pool.as_mut_ptr(),
            pool.len(),
            calls.as_ptr(),
            calls.len(),
            others.as_ptr(),
            others.len(),
        )
    }
}
