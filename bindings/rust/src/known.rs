//! A run that is known to be a book, and the calls that don't ask whether it is one.
//!
//! Over words that are no book the library promises nothing of these calls, memory safety neither. So
//! they are reached through [`Known`] alone, whose words nobody outside of this module can write, and
//! every word that this module lends to them is a book's.

use crate::library::{self, Reply};

mod raw {
    use crate::library::Reply;

    extern "C" {
        pub fn strike_book_known_set_month(run: *mut u32, length: usize, m: u32) -> Reply;
        pub fn strike_book_known_open_class(
            run: *mut u32,
            length: usize,
            places: *mut u32,
            places_length: usize,
            c: u32,
        ) -> Reply;
        pub fn strike_book_known_set_close(
            run: *mut u32,
            length: usize,
            places: *mut u32,
            places_length: usize,
            c: u32,
            p: u32,
        ) -> Reply;
        pub fn strike_book_known_set_low_high(
            run: *mut u32,
            length: usize,
            places: *mut u32,
            places_length: usize,
            c: u32,
            low: u32,
            high: u32,
        ) -> Reply;
        pub fn strike_book_known_set_volume(
            run: *mut u32,
            length: usize,
            places: *mut u32,
            places_length: usize,
            c: u32,
            n: u32,
        ) -> Reply;
        pub fn strike_book_known_designate(
            run: *mut u32,
            length: usize,
            places: *mut u32,
            places_length: usize,
            c: u32,
            p: u32,
            d: u32,
        ) -> Reply;
        pub fn strike_book_known_list_strike(
            run: *mut u32,
            length: usize,
            places: *mut u32,
            places_length: usize,
            c: u32,
            m: u32,
            h: u32,
        ) -> Reply;
        pub fn strike_book_known_judge_strike(
            run: *const u32,
            length: usize,
            places: *mut u32,
            places_length: usize,
            c: u32,
            m: u32,
            h: u32,
        ) -> Reply;
        pub fn strike_book_known_delist_strike(
            run: *mut u32,
            length: usize,
            places: *mut u32,
            places_length: usize,
            c: u32,
            m: u32,
            h: u32,
        ) -> Reply;
        pub fn strike_book_known_mark_strike(
            run: *mut u32,
            length: usize,
            places: *mut u32,
            places_length: usize,
            c: u32,
            m: u32,
            h: u32,
            a: u32,
            b: u32,
        ) -> Reply;
        pub fn strike_book_known_review_class(
            run: *mut u32,
            length: usize,
            places: *mut u32,
            places_length: usize,
            c: u32,
        ) -> Reply;
        pub fn strike_book_known_list_permitted(
            run: *const u32,
            length: usize,
            second: *mut u32,
            second_length: usize,
            places: *mut u32,
            places_length: usize,
            c: u32,
            m: u32,
        ) -> Reply;
        pub fn strike_book_known_run_sheet(
            run: *mut u32,
            length: usize,
            second: *mut u32,
            second_length: usize,
            places: *mut u32,
            places_length: usize,
            sheet: *const u8,
            sheet_length: usize,
            answers: *mut u32,
            answers_length: usize,
        ) -> usize;
    }
}

/// How many words remember where classes were found; a class has the one at its number modulo this. Classes
/// that share one are searched for anew, each after the other. 256 are more than the classes that the caps
/// of the programs let be ours (230), and 1 KiB is soon cleared when a book is made.
pub(crate) const PLACES: usize = 256;

/// A run of words that is a book.
///
/// It is one when it is made, by [`fresh`](Known::fresh) or [`open`](Known::open), and after each call
/// on it. Its fields are private to this module, it is not `Clone`, and it lends its words for reading
/// alone: nobody else writes them while it lives.
pub(crate) struct Known<'a> {
    /// A book.
    run: &'a mut [u32],
    /// Any words: nothing but speed depends on them.
    places: [u32; PLACES],
}

impl<'a> Known<'a> {
    /// Makes a fresh book of the run, or gives the reply that refuses it.
    #[inline]
    pub(crate) fn fresh(run: &'a mut [u32]) -> Result<Known<'a>, Reply> {
        match library::fresh(run) {
            // SAFETY: where it is accepted the run is the layout of the fresh facts, which is a book.
            Reply { number: 0, .. } => Ok(unsafe { Known::of(run) }),
            reply => Err(reply),
        }
    }

    /// Takes a run that is a book.
    #[inline]
    pub(crate) fn open(run: &'a mut [u32]) -> Option<Known<'a>> {
        // SAFETY: the answer is true of books alone.
        library::is_book(run).then(|| unsafe { Known::of(run) })
    }

    /// # Safety
    ///
    /// The run is a book.
    #[inline]
    unsafe fn of(run: &'a mut [u32]) -> Known<'a> {
        let places = [0; PLACES];
        Known { run, places }
    }

    #[inline]
    pub(crate) fn words(&self) -> &[u32] {
        self.run
    }

    /// A copy of the one place that a call on the class looks at, for calls that may not write it.
    #[inline]
    fn place_of(&self, c: u32) -> u32 {
        self.places[c as usize % PLACES]
    }

    /// All places, to be read and changed.
    #[cfg(test)]
    pub(crate) fn places(&mut self) -> &mut [u32; PLACES] {
        &mut self.places
    }
}

/// The calls by plain numbers. Each replies as the one of [`library`] does over the same words.
///
/// That the run is a book is what `Known` stands for: it was one when it was made, and each of these
/// calls leaves a book of as many words of a book, which is proved. All slices are valid for their
/// lengths, and the library keeps no pointer to them.
impl Known<'_> {
    /// `M`: sets the current month.
    #[inline]
    pub(crate) fn set_month(&mut self, m: u32) -> Reply {
        // SAFETY: the run of a `Known` is a book, and is borrowed by us alone.
        unsafe { raw::strike_book_known_set_month(self.run.as_mut_ptr(), self.run.len(), m) }
    }

    /// `O`: opens a class.
    #[inline]
    pub(crate) fn open_class(&mut self, c: u32) -> Reply {
        let (run, length) = (self.run.as_mut_ptr(), self.run.len());
        let places = self.places.as_mut_ptr();
        // SAFETY: the run of a `Known` is a book. Run and places are apart, and ours alone.
        unsafe { raw::strike_book_known_open_class(run, length, places, PLACES, c) }
    }

    /// `C`: sets the close, and low and high to it.
    #[inline]
    pub(crate) fn set_close(&mut self, c: u32, p: u32) -> Reply {
        let (run, length) = (self.run.as_mut_ptr(), self.run.len());
        let places = self.places.as_mut_ptr();
        // SAFETY: the run of a `Known` is a book. Run and places are apart, and ours alone.
        unsafe { raw::strike_book_known_set_close(run, length, places, PLACES, c, p) }
    }

    /// `H`: sets the day's low and high.
    #[inline]
    pub(crate) fn set_low_high(&mut self, c: u32, low: u32, high: u32) -> Reply {
        let (run, length) = (self.run.as_mut_ptr(), self.run.len());
        let places = self.places.as_mut_ptr();
        // SAFETY: the run of a `Known` is a book. Run and places are apart, and ours alone.
        unsafe { raw::strike_book_known_set_low_high(run, length, places, PLACES, c, low, high) }
    }

    /// `V`: sets the volume.
    #[inline]
    pub(crate) fn set_volume(&mut self, c: u32, n: u32) -> Reply {
        let (run, length) = (self.run.as_mut_ptr(), self.run.len());
        let places = self.places.as_mut_ptr();
        // SAFETY: the run of a `Known` is a book. Run and places are apart, and ours alone.
        unsafe { raw::strike_book_known_set_volume(run, length, places, PLACES, c, n) }
    }

    /// `D`: gives the program p the designation d.
    #[inline]
    pub(crate) fn designate(&mut self, c: u32, p: u32, d: u32) -> Reply {
        let (run, length) = (self.run.as_mut_ptr(), self.run.len());
        let places = self.places.as_mut_ptr();
        // SAFETY: the run of a `Known` is a book. Run and places are apart, and ours alone.
        unsafe { raw::strike_book_known_designate(run, length, places, PLACES, c, p, d) }
    }

    /// `L`: adds a strike; its value is the ground.
    #[inline]
    pub(crate) fn list_strike(&mut self, c: u32, m: u32, h: u32) -> Reply {
        let (run, length) = (self.run.as_mut_ptr(), self.run.len());
        let places = self.places.as_mut_ptr();
        // SAFETY: the run of a `Known` is a book. Run and places are apart, and ours alone.
        unsafe { raw::strike_book_known_list_strike(run, length, places, PLACES, c, m, h) }
    }

    /// `X`: delists a strike.
    #[inline]
    pub(crate) fn delist_strike(&mut self, c: u32, m: u32, h: u32) -> Reply {
        let (run, length) = (self.run.as_mut_ptr(), self.run.len());
        let places = self.places.as_mut_ptr();
        // SAFETY: the run of a `Known` is a book. Run and places are apart, and ours alone.
        unsafe { raw::strike_book_known_delist_strike(run, length, places, PLACES, c, m, h) }
    }

    /// `I`: sets the put mark a and the call mark b.
    #[inline]
    pub(crate) fn mark_strike(&mut self, c: u32, m: u32, h: u32, a: u32, b: u32) -> Reply {
        let (run, length) = (self.run.as_mut_ptr(), self.run.len());
        let places = self.places.as_mut_ptr();
        // SAFETY: the run of a `Known` is a book. Run and places are apart, and ours alone.
        unsafe { raw::strike_book_known_mark_strike(run, length, places, PLACES, c, m, h, a, b) }
    }

    /// `R`: reviews a class; its value is how many strikes it removed.
    #[inline]
    pub(crate) fn review_class(&mut self, c: u32) -> Reply {
        let (run, length) = (self.run.as_mut_ptr(), self.run.len());
        let places = self.places.as_mut_ptr();
        // SAFETY: the run of a `Known` is a book. Run and places are apart, and ours alone.
        unsafe { raw::strike_book_known_review_class(run, length, places, PLACES, c) }
    }

    /// `J`: judges a strike and adds nothing; its value is the ground.
    #[inline]
    pub(crate) fn judge_strike(&self, c: u32, m: u32, h: u32) -> Reply {
        let (run, length) = (self.run.as_ptr(), self.run.len());
        let mut place = self.place_of(c);
        // SAFETY: the run of a `Known` is a book, and nobody writes it during the borrow. The
        // place is a copy of our own.
        unsafe { raw::strike_book_known_judge_strike(run, length, &mut place, 1, c, m, h) }
    }

    /// `A`: writes the permitted strikes to the second run; its value is their count.
    #[inline]
    pub(crate) fn list_permitted(&self, second: &mut [u32], c: u32, m: u32) -> Reply {
        let mut place = self.place_of(c);
        // SAFETY: the run of a `Known` is a book, and nobody writes it during the borrow. The
        // second is borrowed by us alone, so that it is apart from the run; the place is a copy of our
        // own.
        unsafe {
            raw::strike_book_known_list_permitted(
                self.run.as_ptr(),
                self.run.len(),
                second.as_mut_ptr(),
                second.len(),
                &mut place,
                1,
                c,
                m,
            )
        }
    }

    /// Reads a whole sheet, two words of `answers` a line; answers how many lines it has.
    #[inline]
    pub(crate) fn run_sheet(
        &mut self,
        second: &mut [u32],
        sheet: &[u8],
        answers: &mut [u32],
    ) -> usize {
        // SAFETY: the run of a `Known` is a book. Run, places, second and answers are borrowed
        // by us alone, so that all are apart; nobody writes the sheet.
        unsafe {
            raw::strike_book_known_run_sheet(
                self.run.as_mut_ptr(),
                self.run.len(),
                second.as_mut_ptr(),
                second.len(),
                self.places.as_mut_ptr(),
                PLACES,
                sheet.as_ptr(),
                sheet.len(),
                answers.as_mut_ptr(),
                answers.len(),
            )
        }
    }
}
