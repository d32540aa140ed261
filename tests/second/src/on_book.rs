//! "The calls, and the plain book" and "Who draws which number".

use crate::book::{Class, Counter, PlainBook, Strike};
use crate::rules::{ground_or_refusal, Setting, DOLLAR, WING};
use crate::units::*;
use calls::{Answer, Call, StrikeBook};

/// The value of an accepted call, or the number of its refusal.
type Answered = Result<u32, u32>;

/// "An accepted call answers 0 and a value"; "A refusal ... carries value 0".
fn answer(answered: Answered) -> Answer {
    match answered {
        Ok(value) => Answer { number: 0, value },
        Err(number) => Answer { number, value: 0 },
    }
}

/// "2 a number beyond its limits"
fn limits(hold: bool) -> Result<(), u32> {
    match hold {
        true => Ok(()),
        false => Err(2),
    }
}

fn is_series(c: u32, m: u32, h: u32) -> bool {
    is_class_number(c) && is_month(m) && is_strike(h)
}

/// "The lowest number that applies is given": each call tests its refusals in rising order. What 15
/// refuses is taken back.
impl StrikeBook for PlainBook {
    fn set_month(&mut self, m: u32) -> Answer {
        answer(self.try_set_month(m))
    }

    fn open_class(&mut self, c: u32) -> Answer {
        answer(self.try_open_class(c))
    }

    fn set_close(&mut self, c: u32, p: u32) -> Answer {
        answer(self.try_set_close(c, p))
    }

    fn set_low_high(&mut self, c: u32, low: u32, high: u32) -> Answer {
        answer(self.try_set_low_high(c, low, high))
    }

    fn set_volume(&mut self, c: u32, n: u32) -> Answer {
        answer(self.try_set_volume(c, n))
    }

    fn designate(&mut self, c: u32, p: u32, d: u32) -> Answer {
        answer(self.try_designate(c, p, d))
    }

    fn list_strike(&mut self, c: u32, m: u32, h: u32) -> Answer {
        answer(self.try_list_strike(c, m, h))
    }

    fn judge_strike(&mut self, c: u32, m: u32, h: u32) -> Answer {
        answer(self.try_judge_strike(c, m, h))
    }

    fn delist_strike(&mut self, c: u32, m: u32, h: u32) -> Answer {
        answer(self.try_delist_strike(c, m, h))
    }

    fn mark_strike(&mut self, c: u32, m: u32, h: u32, a: u32, b: u32) -> Answer {
        answer(self.try_mark_strike(c, m, h, a, b))
    }

    fn review_class(&mut self, c: u32) -> Answer {
        answer(self.try_review_class(c))
    }

    /// "15 ... `A`'s strikes exceed the second run, and then their count is the value." "After `A`,
    /// words past the count are unchanged."
    fn list_permitted(&mut self, second: &mut [u32], c: u32, m: u32) -> Answer {
        let strikes = match self.permitted(c, m) {
            Ok(strikes) => strikes,
            Err(number) => return answer(Err(number)),
        };
        let value = strikes.len() as u32;
        if strikes.len() > second.len() {
            return Answer { number: 15, value };
        }
        for (place, h) in strikes.iter().enumerate() {
            second[place] = *h;
        }
        answer(Ok(value))
    }

    /// "2 ... a malformed line"
    fn malformed(&mut self) -> Answer {
        answer(Err(2))
    }
}

impl PlainBook {
    /// "4 class not open"
    fn class(&self, c: u32) -> Result<&Class, u32> {
        self.classes.get(&c).ok_or(4)
    }

    fn class_mut(&mut self, c: u32) -> Result<&mut Class, u32> {
        self.classes.get_mut(&c).ok_or(4)
    }

    /// "`M m`: sets `now`, removes strikes of earlier months. Equal to `now`
    /// is accepted." "5 `M` below `now`"
    fn try_set_month(&mut self, m: u32) -> Answered {
        limits(is_month(m))?;
        if m < self.now {
            return Err(5);
        }
        self.now = m;
        for class in self.classes.values_mut() {
            class.strikes.retain(|(month, _), _| *month >= m);
        }
        Ok(0)
    }

    /// "`O` adds a class with close, volume and designations 0 and no
    /// strike." "3 class already open"; "15 the words needed exceed the run"
    /// #103: before a close low and high are 0 too.
    fn try_open_class(&mut self, c: u32) -> Answered {
        limits(is_class_number(c))?;
        if self.classes.contains_key(&c) {
            return Err(3);
        }
        self.classes.insert(c, Class::default());
        if self.words_taken() > self.length {
            self.classes.remove(&c);
            return Err(15);
        }
        Ok(0)
    }

    /// "`C c P`: close."
    fn try_set_close(&mut self, c: u32, p: u32) -> Answered {
        limits(is_class_number(c) && is_price(p))?;
        self.class_mut(c)?.set_close(p);
        Ok(0)
    }

    /// #103: "`H c low high`" "refuses with 8 before any close, and with 16,
    /// tested straight after 8, a low above the close or a high below it."
    fn try_set_low_high(&mut self, c: u32, low: u32, high: u32) -> Answered {
        limits(is_class_number(c) && is_price(low) && is_price(high))?;
        let class = self.class_mut(c)?;
        if !class.has_close() {
            return Err(8);
        }
        if low > class.close || high < class.close {
            return Err(16);
        }
        class.low = low;
        class.high = high;
        Ok(0)
    }

    /// "`V c n`: volume."
    fn try_set_volume(&mut self, c: u32, n: u32) -> Answered {
        limits(is_class_number(c) && is_volume(n))?;
        self.class_mut(c)?.volume = n;
        Ok(0)
    }

    /// "program p (1 for $1, 2 for $0.50) gets designation d. A repeat of the
    /// present d is accepted unchanged, untested. A new d of 1 needs ... the
    /// cap. d of 0 or 2 needs nothing." #101: "`D` program 3"
    fn try_designate(&mut self, c: u32, p: u32, d: u32) -> Answered {
        limits(is_class_number(c) && is_program(p) && is_designation(d))?;
        let class = self.class(c)?;
        if d == class.designation(p) {
            return Ok(0);
        }
        if d == 1 {
            qualifies(class, p)?;
            if self.own_count(p) >= cap(p) {
                return Err(10);
            }
        }
        self.class_mut(c)?.designate(p, d);
        Ok(0)
    }

    /// "`L`, `J`, `A` with m at or below `now` or above `now` + 39"
    fn month_to_add(&self, m: u32) -> Result<(), u32> {
        if m <= self.now || m > self.now + MONTHS_AHEAD {
            return Err(5);
        }
        Ok(())
    }

    /// "`J c m h`: the same judgement without 15, adding nothing."
    fn try_judge_strike(&self, c: u32, m: u32, h: u32) -> Answered {
        limits(is_series(c, m, h))?;
        let class = self.class(c)?;
        self.month_to_add(m)?;
        // "6 strike standing already"
        if class.strikes.contains_key(&(m, h)) {
            return Err(6);
        }
        if !class.has_close() {
            return Err(8);
        }
        let setting = Setting {
            class,
            now: self.now,
            month: m,
        };
        ground_or_refusal(&setting, h)
    }

    /// "`L c m h`: adds the strike, no open interest." "`L` adds (m, h, the
    /// ground, 0, 0)." "15 the words needed exceed the run"
    fn try_list_strike(&mut self, c: u32, m: u32, h: u32) -> Answered {
        let ground = self.try_judge_strike(c, m, h)?;
        let strike = Strike {
            ground,
            put: 0,
            call: 0,
        };
        self.class_mut(c)?.strikes.insert((m, h), strike);
        if self.words_taken() > self.length {
            self.class_mut(c)?.strikes.remove(&(m, h));
            return Err(15);
        }
        Ok(ground)
    }

    /// "7 not standing (`X`, `I`)"
    fn standing(&self, c: u32, m: u32, h: u32) -> Result<Strike, u32> {
        let class = self.class(c)?;
        class.strikes.get(&(m, h)).copied().ok_or(7)
    }

    /// "`X c m h`: delists." "14 `X` on a marked strike."
    fn try_delist_strike(&mut self, c: u32, m: u32, h: u32) -> Answered {
        limits(is_series(c, m, h))?;
        if self.standing(c, m, h)?.is_marked() {
            return Err(14);
        }
        self.class_mut(c)?.strikes.remove(&(m, h));
        Ok(0)
    }

    /// "`I c m h a b`: put mark a, call mark b" "`I` sets both marks."
    fn try_mark_strike(&mut self, c: u32, m: u32, h: u32, a: u32, b: u32) -> Answered {
        limits(is_series(c, m, h) && is_mark(a) && is_mark(b))?;
        let ground = self.standing(c, m, h)?.ground;
        let marked = Strike {
            ground,
            put: a,
            call: b,
        };
        self.class_mut(c)?.strikes.insert((m, h), marked);
        Ok(0)
    }

    /// "`R c`: the review." "strikes removed for `R`"
    fn try_review_class(&mut self, c: u32) -> Answered {
        limits(is_class_number(c))?;
        let class = self.class_mut(c)?;
        if !class.has_close() {
            return Err(8);
        }
        let mut leaving = Vec::new();
        for ((month, h), strike) in &class.strikes {
            if leaves_at_review(class, *month, *h, strike) {
                leaving.push((*month, *h));
            }
        }
        for key in &leaving {
            class.strikes.remove(key);
        }
        Ok(leaving.len() as u32)
    }

    /// "`A c m`: writes all strikes that `J` would accept, h rising": those strikes.
    fn permitted(&self, c: u32, m: u32) -> Result<Vec<u32>, u32> {
        limits(is_class_number(c) && is_month(m))?;
        let class = self.class(c)?;
        self.month_to_add(m)?;
        if !class.has_close() {
            return Err(8);
        }
        let accepted = |h: &u32| self.try_judge_strike(c, m, *h).is_ok();
        Ok((LOWEST_STRIKE..=HIGHEST_STRIKE).filter(accepted).collect())
    }
}

/// "8 no close yet (... `D` to a new 1); 9 close or volume doesn't qualify"
fn qualifies(class: &Class, program: u32) -> Result<(), u32> {
    // #101: "a new 1 needs the cap only, not a close."
    if program == TWO_FIFTY_PROGRAM {
        return Ok(());
    }
    if !class.has_close() {
        return Err(8);
    }
    let qualified = match program {
        // "a close below 5,000 for $1"
        DOLLAR_PROGRAM => class.close < 5_000,
        // "a close of at most 500 and a volume of at least 1,000 for $0.50"
        _ => class.close <= 500 && class.volume >= 1_000,
    };
    match qualified {
        true => Ok(()),
        false => Err(9),
    }
}

/// "It removes each strike of ground 1 or 3 with |K − P| above 500, both
/// marks 0, and h above the highest or below the lowest marked strike of its
/// expiration." #103: "The program's price conditions and the review keep the
/// close."
fn leaves_at_review(class: &Class, month: u32, h: u32, strike: &Strike) -> bool {
    let ground_of_program = strike.ground == DOLLAR || strike.ground == WING;
    ground_of_program
        && far_from(cents(h), class.close)
        && strike.put == 0
        && strike.call == 0
        && outside_marked(class, month, h)
}

/// "|K − P| above 500"
fn far_from(k: u32, p: u32) -> bool {
    k.abs_diff(p) > 500
}

/// "h above the highest or below the lowest marked strike of its expiration
/// ... with none marked, every strike counts as outside."
fn outside_marked(class: &Class, month: u32, h: u32) -> bool {
    let mut marked = Vec::new();
    for (other, strike) in class.strikes_of(month) {
        if strike.is_marked() {
            marked.push(other);
        }
    }
    match (marked.iter().max(), marked.iter().min()) {
        (Some(highest), Some(lowest)) => h > *highest || h < *lowest,
        _ => true,
    }
}

/// One call over any words: "1 the run is no book", else what the plain book and the layout make of
/// them. "A refusal alters no word of either run".
pub fn make_on_words(words: &mut [u32], second: &mut [u32], call: &Call) -> Answer {
    let Some(mut book) = PlainBook::read(words) else {
        return answer(Err(1));
    };
    let answer = book.make(call, second);
    words.copy_from_slice(&book.words());
    answer
}

/// #104: "Margin reads the number of own classes in each program": a counter of
/// any words. "1 the run is no book"; "2 a number beyond its limits".
pub fn counter_on_words(words: &[u32], program: u32) -> Result<Counter, u32> {
    let book = PlainBook::read(words).ok_or(1u32)?;
    limits(is_program(program))?;
    Ok(book.counter(program))
}
