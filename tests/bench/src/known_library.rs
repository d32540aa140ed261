//! The proved calls over a known book, which the bindings keep to themselves.

use crate::proved::told;
use calls::{Answer, StrikeBook};
use strikebook::library::Reply;

type Run = *mut u32;

#[link(name = "known", kind = "static")]
extern "C" {
    fn strike_book_known_set_month(run: Run, length: usize, m: u32) -> Reply;
    fn strike_book_known_open_class(
        run: Run,
        length: usize,
        places: Run,
        count: usize,
        c: u32,
    ) -> Reply;
    fn strike_book_known_set_close(
        run: Run,
        length: usize,
        places: Run,
        count: usize,
        c: u32,
        p: u32,
    ) -> Reply;
    fn strike_book_known_set_low_high(
        run: Run,
        length: usize,
        places: Run,
        count: usize,
        c: u32,
        low: u32,
        high: u32,
    ) -> Reply;
    fn strike_book_known_set_volume(
        run: Run,
        length: usize,
        places: Run,
        count: usize,
        c: u32,
        n: u32,
    ) -> Reply;
    fn strike_book_known_designate(
        run: Run,
        length: usize,
        places: Run,
        count: usize,
        c: u32,
        p: u32,
        d: u32,
    ) -> Reply;
    fn strike_book_known_list_strike(
        run: Run,
        length: usize,
        places: Run,
        count: usize,
        c: u32,
        m: u32,
        h: u32,
    ) -> Reply;
    fn strike_book_known_judge_strike(
        run: *const u32,
        length: usize,
        places: Run,
        count: usize,
        c: u32,
        m: u32,
        h: u32,
    ) -> Reply;
    fn strike_book_known_delist_strike(
        run: Run,
        length: usize,
        places: Run,
        count: usize,
        c: u32,
        m: u32,
        h: u32,
    ) -> Reply;
    fn strike_book_known_mark_strike(
        run: Run,
        length: usize,
        places: Run,
        count: usize,
        c: u32,
        m: u32,
        h: u32,
        a: u32,
        b: u32,
    ) -> Reply;
    fn strike_book_known_review_class(
        run: Run,
        length: usize,
        places: Run,
        count: usize,
        c: u32,
    ) -> Reply;
    fn strike_book_known_list_permitted(
        run: *const u32,
        length: usize,
        second: Run,
        second_length: usize,
        places: Run,
        count: usize,
        c: u32,
        m: u32,
    ) -> Reply;
    fn strike_book_known_run_sheet(
        run: Run,
        length: usize,
        second: Run,
        second_length: usize,
        places: Run,
        count: usize,
        sheet: *const u8,
        sheet_length: usize,
        answers: Run,
        answers_length: usize,
    ) -> usize;
}

/// A lent run that is a book, and the places that calls remember.
pub struct Known<'a> {
    run: &'a mut [u32],
    places: &'a mut [u32],
}

impl<'a> Known<'a> {
    /// # Safety
    ///
    /// The run is a book.
    #[inline(always)]
    pub unsafe fn of(run: &'a mut [u32], places: &'a mut [u32]) -> Known<'a> {
        Known { run, places }
    }

    /// The calls of a whole sheet; answers its lines.
    #[inline(always)]
    pub fn run_sheet(&mut self, second: &mut [u32], sheet: &[u8], answers: &mut [u32]) -> usize {
        // SAFETY: the run is a book, by `of`. The slices are apart and valid for their lengths.
        unsafe {
            strike_book_known_run_sheet(
                self.run.as_mut_ptr(),
                self.run.len(),
                second.as_mut_ptr(),
                second.len(),
                self.places.as_mut_ptr(),
                self.places.len(),
                sheet.as_ptr(),
                sheet.len(),
                answers.as_mut_ptr(),
                answers.len(),
            )
        }
    }
}

macro_rules! called {
    ($($function:ident by $raw:ident($($number:ident),*))*) => {
        $(#[inline(always)]
        fn $function(&mut self, $($number: u32),*) -> Answer {
            let (run, places) = (&mut *self.run, &mut *self.places);
            // SAFETY: the run is a book, by `of`, and every call leaves a book. The slices are apart and valid
            // for their lengths.
            told(unsafe {
                $raw(run.as_mut_ptr(), run.len(), places.as_mut_ptr(), places.len(), $($number),*)
            })
        })*
    };
}

impl StrikeBook for Known<'_> {
    called! {
        open_class by strike_book_known_open_class(c)
        set_close by strike_book_known_set_close(c, p)
        set_low_high by strike_book_known_set_low_high(c, low, high)
        set_volume by strike_book_known_set_volume(c, n)
        designate by strike_book_known_designate(c, p, d)
        list_strike by strike_book_known_list_strike(c, m, h)
        judge_strike by strike_book_known_judge_strike(c, m, h)
        delist_strike by strike_book_known_delist_strike(c, m, h)
        mark_strike by strike_book_known_mark_strike(c, m, h, a, b)
        review_class by strike_book_known_review_class(c)
    }

    #[inline(always)]
    fn set_month(&mut self, m: u32) -> Answer {
        // SAFETY: as of the others.
        told(unsafe { strike_book_known_set_month(self.run.as_mut_ptr(), self.run.len(), m) })
    }

    #[inline(always)]
    fn list_permitted(&mut self, second: &mut [u32], c: u32, m: u32) -> Answer {
        // SAFETY: as of the others.
        told(unsafe {
            strike_book_known_list_permitted(
                self.run.as_ptr(),
                self.run.len(),
                second.as_mut_ptr(),
                second.len(),
                self.places.as_mut_ptr(),
                self.places.len(),
                c,
                m,
            )
        })
    }

    fn malformed(&mut self) -> Answer {
        unreachable!("no malformed line is timed alone")
    }
}
