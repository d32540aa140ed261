//! The calls as the tests make them: over a run that is tested, or known to be a book.

use calls::{Answer, StrikeBook};

/// A lent run that each call tests.
pub struct Tested<'a>(pub &'a mut [u32]);

/// A lent run that is known to be a book, and the places that calls remember.
pub struct Known<'a>(pub &'a mut [u32], pub &'a mut [u32]);

#[inline(always)]
fn told(answer: crate::Answer) -> Answer {
    let crate::Answer { number, value } = answer;
    Answer { number, value }
}

macro_rules! calls_of {
    ($book:ident[$($places:tt)?], $($module:tt)+) => {
        impl StrikeBook for $book<'_> {
            #[inline(always)]
            fn set_month(&mut self, m: u32) -> Answer {
                told($($module)+::set_month(self.0, m))
            }

            #[inline(always)]
            fn open_class(&mut self, c: u32) -> Answer {
                told($($module)+::open_class(self.0, $(self.$places,)? c))
            }

            #[inline(always)]
            fn set_close(&mut self, c: u32, p: u32) -> Answer {
                told($($module)+::set_close(self.0, $(self.$places,)? c, p))
            }

            #[inline(always)]
            fn set_low_high(&mut self, c: u32, low: u32, high: u32) -> Answer {
                told($($module)+::set_low_high(self.0, $(self.$places,)? c, low, high))
            }

            #[inline(always)]
            fn set_volume(&mut self, c: u32, n: u32) -> Answer {
                told($($module)+::set_volume(self.0, $(self.$places,)? c, n))
            }

            #[inline(always)]
            fn designate(&mut self, c: u32, p: u32, d: u32) -> Answer {
                told($($module)+::designate(self.0, $(self.$places,)? c, p, d))
            }

            #[inline(always)]
            fn list_strike(&mut self, c: u32, m: u32, h: u32) -> Answer {
                told($($module)+::list_strike(self.0, $(self.$places,)? c, m, h))
            }

            #[inline(always)]
            fn judge_strike(&mut self, c: u32, m: u32, h: u32) -> Answer {
                told($($module)+::judge_strike(self.0, $(self.$places,)? c, m, h))
            }

            #[inline(always)]
            fn delist_strike(&mut self, c: u32, m: u32, h: u32) -> Answer {
                told($($module)+::delist_strike(self.0, $(self.$places,)? c, m, h))
            }

            #[inline(always)]
            fn mark_strike(&mut self, c: u32, m: u32, h: u32, a: u32, b: u32) -> Answer {
                told($($module)+::mark_strike(self.0, $(self.$places,)? c, m, h, a, b))
            }

            #[inline(always)]
            fn review_class(&mut self, c: u32) -> Answer {
                told($($module)+::review_class(self.0, $(self.$places,)? c))
            }

            #[inline(always)]
            fn list_permitted(&mut self, second: &mut [u32], c: u32, m: u32) -> Answer {
                told($($module)+::list_permitted(self.0, second, $(self.$places,)? c, m))
            }

            /// As the one line, an empty one, of a sheet.
            fn malformed(&mut self) -> Answer {
                let mut answers = [0; 2];
                $($module)+::run_sheet(self.0, &mut [], $(self.$places,)? b"\n", &mut answers);
                let [number, value] = answers;
                Answer { number, value }
            }
        }
    };
}

calls_of!(Tested[], crate);
calls_of!(Known[1], crate::known);
