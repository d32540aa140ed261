//! The twelve calls over a run that is known to be a book, with what they remember of its classes.

use crate::find::{class_or_close, expiration_from, strike_from, Places};
use crate::permitted;
use crate::program::{counted, packed_strikes, unpacked, Program, DOLLAR, HALF, TWO_FIFTY};
use crate::rule::Terms;
use crate::word::{ground, head, now, own_classes, strike, used, CLASS, CLASS_WORDS, CLOSE};
use crate::word::{word, UNMARKED, VOLUME};
use crate::word::{EXPIRATION, FIRST_CLASS, KEY, LOW_HIGH, MARKS, ONE_STRIKE, STRIKE};
use crate::Answer;

const DONE: Answer = Answer::accepted(0);

#[inline(always)]
fn is_class(c: u32) -> bool {
    c.wrapping_sub(1) < 16_383
}

#[inline(always)]
fn is_month(m: u32) -> bool {
    m <= 1_023
}

#[inline(always)]
fn is_price(p: u32) -> bool {
    p.wrapping_sub(1) < 999_999
}

#[inline(always)]
fn is_strike(h: u32) -> bool {
    h.wrapping_sub(1) < 19_999
}

/// Where the class word of an open class stands.
#[inline(always)]
fn class_at(run: &[u32], places: &mut (impl Places + ?Sized), c: u32) -> Option<usize> {
    let used = used(run);
    let place = places.class_place(run, used, c);
    (place < used && run[place] & 16_383 == c).then_some(place)
}

/// Where a strike of an open class stands, or would be put; and whether its expiration stands.
#[inline(always)]
fn strike_at(run: &[u32], class: usize, m: u32, h: u32) -> (usize, bool) {
    let place = expiration_from(run, class + CLASS_WORDS, m);
    if place < run.len() && run[place] == EXPIRATION | m {
        (strike_from(run, place + 1, h), true)
    } else {
        (place, false)
    }
}

/// `M m`
pub fn set_month(run: &mut [u32], m: u32) -> Answer {
    if !is_month(m) {
        return Answer::refused(2);
    }
    let current = now(run);
    if m < current {
        return Answer::refused(5);
    }
    if m == current {
        return DONE;
    }
    // The months that go stand first in each class.
    let end = used(run);
    let (mut written, mut kept, mut at) = (FIRST_CLASS, FIRST_CLASS, FIRST_CLASS);
    let mut gone = 0;
    while at < end {
        let first = at + CLASS_WORDS;
        let stays = if word(run, first).wrapping_sub(EXPIRATION) < m {
            let stays = expiration_from(run, first, m);
            gone += packed_strikes(&run[first..stays]);
            if written != kept {
                run.copy_within(kept..first, written);
            }
            written += first - kept;
            kept = stays;
            stays
        } else {
            first
        };
        at = class_or_close(run, stays);
    }
    if written != kept {
        run.copy_within(kept..end, written);
    }
    written += end - kept;
    run[written..end].fill(0);
    run[0] = head(m, written);
    for (counter, gone) in run[1..FIRST_CLASS].iter_mut().zip(unpacked(gone)) {
        *counter -= gone * ONE_STRIKE;
    }
    DONE
}

/// `O c`
pub fn open_class(run: &mut [u32], places: &mut (impl Places + ?Sized), c: u32) -> Answer {
    if !is_class(c) {
        return Answer::refused(2);
    }
    let end = used(run);
    let place = places.class_place(run, end, c);
    if place < end && run[place] & 16_383 == c {
        return Answer::refused(3);
    }
    if end + CLASS_WORDS > run.len() {
        return Answer::refused(15);
    }
    let after = place + CLASS_WORDS;
    run.copy_within(place..end, after);
    run[place..after].copy_from_slice(&[CLASS | c, CLOSE, VOLUME, LOW_HIGH, LOW_HIGH]);
    run[0] += (CLASS_WORDS as u32) << 10;
    DONE
}

/// `C c P`
pub fn set_close(run: &mut [u32], places: &mut (impl Places + ?Sized), c: u32, p: u32) -> Answer {
    if !(is_class(c) & is_price(p)) {
        return Answer::refused(2);
    }
    let Some(at) = class_at(run, places, c) else {
        return Answer::refused(4);
    };
    let class = &mut run[at..at + CLASS_WORDS];
    class[1] = CLOSE | p;
    class[3] = LOW_HIGH | p;
    class[4] = LOW_HIGH | p;
    DONE
}

/// `H c low high`
pub fn set_low_high(
    run: &mut [u32],
    places: &mut (impl Places + ?Sized),
    c: u32,
    low: u32,
    high: u32,
) -> Answer {
    if !(is_class(c) & is_price(low) & is_price(high)) {
        return Answer::refused(2);
    }
    let Some(at) = class_at(run, places, c) else {
        return Answer::refused(4);
    };
    let class = &mut run[at..at + CLASS_WORDS];
    let close = class[1] - CLOSE;
    if close == 0 {
        return Answer::refused(8);
    }
    if (low > close) | (high < close) {
        return Answer::refused(16);
    }
    class[3] = LOW_HIGH | low;
    class[4] = LOW_HIGH | high;
    DONE
}

/// `V c n`
pub fn set_volume(run: &mut [u32], places: &mut (impl Places + ?Sized), c: u32, n: u32) -> Answer {
    if !(is_class(c) & (n <= 9_999_999)) {
        return Answer::refused(2);
    }
    let Some(at) = class_at(run, places, c) else {
        return Answer::refused(4);
    };
    run[at + 2] = VOLUME | n;
    DONE
}

/// `D c p d`
pub fn designate(
    run: &mut [u32],
    places: &mut (impl Places + ?Sized),
    c: u32,
    p: u32,
    d: u32,
) -> Answer {
    match p {
        1 => designate_in(&DOLLAR, run, places, c, d),
        2 => designate_in(&HALF, run, places, c, d),
        3 => designate_in(&TWO_FIFTY, run, places, c, d),
        _ => Answer::refused(2),
    }
}

/// The same in one program: each has code of its own.
#[inline(always)]
fn designate_in(
    program: &Program,
    run: &mut [u32],
    places: &mut (impl Places + ?Sized),
    c: u32,
    d: u32,
) -> Answer {
    if !(is_class(c) & (d <= 2)) {
        return Answer::refused(2);
    }
    let Some(at) = class_at(run, places, c) else {
        return Answer::refused(4);
    };
    let class = run[at];
    let was_ours = program.designation(class) == 1;
    let counter = run[program.counter];
    if d == 1 && !was_ours {
        let close = run[at + 1] - CLOSE;
        let volume = run[at + 2] - VOLUME;
        if program.needs.is_some() && close == 0 {
            return Answer::refused(8);
        }
        if !program.qualifies(close, volume) {
            return Answer::refused(9);
        }
        if own_classes(counter) >= program.cap {
            return Answer::refused(10);
        }
    }
    run[program.counter] = counter + (d == 1) as u32 - was_ours as u32;
    run[at] = class & !(3 << program.low) | d << program.low;
    DONE
}

/// The judgement of a strike, its place, and whether its expiration stands.
#[inline(always)]
fn judged(
    run: &[u32],
    places: &mut (impl Places + ?Sized),
    c: u32,
    m: u32,
    h: u32,
) -> (Answer, usize, bool) {
    let refused = |number| (Answer::refused(number), 0, false);
    if !(is_class(c) & is_month(m) & is_strike(h)) {
        return refused(2);
    }
    let Some(at) = class_at(run, places, c) else {
        return refused(4);
    };
    let ahead = m.wrapping_sub(now(run));
    if ahead.wrapping_sub(1) >= 39 {
        return refused(5);
    }
    let (place, stands) = strike_at(run, at, m, h);
    let above = word(run, place);
    if above & KEY == STRIKE | h {
        return refused(6);
    }
    let class = class_words(run, at);
    if class[1] == CLOSE {
        return refused(8);
    }
    // The word before a new expiration may be a strike of the one before it.
    let below = if stands { run[place - 1] } else { 0 };
    let answer = match low_and_high(class) {
        [low, high] if low == high => Terms::of(class, [low], ahead < 9).judge(h, below, above),
        both => Terms::of(class, both, ahead < 9).judge(h, below, above),
    };
    (answer, place, stands)
}

#[inline(always)]
fn class_words(run: &[u32], at: usize) -> &[u32; CLASS_WORDS] {
    run[at..at + CLASS_WORDS].try_into().unwrap()
}

#[inline(always)]
fn low_and_high(class: &[u32; CLASS_WORDS]) -> [u32; 2] {
    [class[3] - LOW_HIGH, class[4] - LOW_HIGH]
}

/// `L c m h`
pub fn list_strike(
    run: &mut [u32],
    places: &mut (impl Places + ?Sized),
    c: u32,
    m: u32,
    h: u32,
) -> Answer {
    let (answer, place, stands) = judged(run, places, c, m, h);
    if answer.number != 0 {
        return answer;
    }
    let end = used(run);
    let listed = strike(h, answer.value);
    let (counter, one) = counted(answer.value);
    if stands {
        if end + 1 > run.len() {
            return Answer::refused(15);
        }
        run.copy_within(place..end, place + 1);
        run[place] = listed;
        run[0] += 1 << 10;
    } else {
        if end + 2 > run.len() {
            return Answer::refused(15);
        }
        run.copy_within(place..end, place + 2);
        run[place] = EXPIRATION | m;
        run[place + 1] = listed;
        run[0] += 2 << 10;
    }
    run[counter] += one;
    answer
}

/// `J c m h`
pub fn judge_strike(
    run: &[u32],
    places: &mut (impl Places + ?Sized),
    c: u32,
    m: u32,
    h: u32,
) -> Answer {
    judged(run, places, c, m, h).0
}

/// Where a standing strike stands, or the refusal 2, 4 or 7.
#[inline(always)]
fn standing(
    run: &[u32],
    places: &mut (impl Places + ?Sized),
    c: u32,
    m: u32,
    h: u32,
) -> Result<usize, Answer> {
    if !(is_class(c) & is_month(m) & is_strike(h)) {
        return Err(Answer::refused(2));
    }
    let Some(at) = class_at(run, places, c) else {
        return Err(Answer::refused(4));
    };
    let (place, _) = strike_at(run, at, m, h);
    if word(run, place) & KEY != STRIKE | h {
        return Err(Answer::refused(7));
    }
    Ok(place)
}

/// `X c m h`
pub fn delist_strike(
    run: &mut [u32],
    places: &mut (impl Places + ?Sized),
    c: u32,
    m: u32,
    h: u32,
) -> Answer {
    let place = match standing(run, places, c, m, h) {
        Ok(place) => place,
        Err(refusal) => return refusal,
    };
    if run[place] & MARKS != 0 {
        return Answer::refused(14);
    }
    let (counter, one) = counted(ground(run[place]));
    run[counter] -= one;
    let end = used(run);
    if run[place - 1] < STRIKE && word(run, place + 1) < STRIKE {
        run.copy_within(place + 1..end, place - 1);
        run[end - 2..end].fill(0);
        run[0] -= 2 << 10;
    } else {
        run.copy_within(place + 1..end, place);
        run[end - 1] = 0;
        run[0] -= 1 << 10;
    }
    DONE
}

/// `I c m h a b`
pub fn mark_strike(
    run: &mut [u32],
    places: &mut (impl Places + ?Sized),
    c: u32,
    m: u32,
    h: u32,
    a: u32,
    b: u32,
) -> Answer {
    if !((a <= 1) & (b <= 1)) {
        return Answer::refused(2);
    }
    match standing(run, places, c, m, h) {
        Ok(place) => {
            run[place] = run[place] & UNMARKED | a << 18 | b << 19;
            DONE
        }
        Err(refusal) => refusal,
    }
}

/// `R c`
pub fn review_class(run: &mut [u32], places: &mut (impl Places + ?Sized), c: u32) -> Answer {
    if !is_class(c) {
        return Answer::refused(2);
    }
    let Some(at) = class_at(run, places, c) else {
        return Answer::refused(4);
    };
    let close = run[at + 1] - CLOSE;
    if close == 0 {
        return Answer::refused(8);
    }
    // The lowest and the highest strike that aren't far from the close.
    let low = ((close.saturating_sub(500) + 49) / 50) as i32;
    let high = ((close + 500) / 50) as i32;
    // Whether a strike goes if it is outside the marked ones: its ground is 1 or 3, it has no mark
    // and is far. No expiration word passes for one.
    let may_go = |w: u32| {
        let h = (w & 0x7fff) as i32;
        (w & (1 << 15 | MARKS) == 1 << 15) & ((h < low) | (h > high))
    };
    let from = at + CLASS_WORDS;
    let to = class_or_close(run, from);
    let class = &mut run[from..to];
    if !class.iter().fold(false, |any, &w| any | may_go(w)) {
        return DONE;
    }
    let (mut written, mut read, mut removed) = (0, 0, 0);
    while read < class.len() {
        // An expiration word, then its strikes.
        let start = written;
        class[written] = class[read];
        written += 1;
        let first = read + 1;
        read = strike_from(class, first, 0x7fff);
        let (mut lowest, mut highest) = (u32::MAX, 0);
        for &w in &class[first..read] {
            if w & MARKS != 0 {
                let h = w & 0x7fff;
                lowest = lowest.min(h);
                highest = h;
            }
        }
        for i in first..read {
            let w = class[i];
            let h = w & 0x7fff;
            let goes = may_go(w) & ((h < lowest) | (h > highest));
            class[written] = w;
            written += !goes as usize;
            removed += goes as u32;
        }
        if written == start + 1 {
            written = start;
        }
    }
    if removed != 0 {
        let end = used(run);
        run.copy_within(to..end, from + written);
        let left = end - (to - from - written);
        run[left..end].fill(0);
        run[0] = head(now(run), left);
        run[DOLLAR.counter] -= removed * ONE_STRIKE;
    }
    Answer::accepted(removed)
}

/// `A c m`
pub fn list_permitted(
    run: &[u32],
    second: &mut [u32],
    places: &mut (impl Places + ?Sized),
    c: u32,
    m: u32,
) -> Answer {
    if !(is_class(c) & is_month(m)) {
        return Answer::refused(2);
    }
    let Some(at) = class_at(run, places, c) else {
        return Answer::refused(4);
    };
    let ahead = m.wrapping_sub(now(run));
    if ahead.wrapping_sub(1) >= 39 {
        return Answer::refused(5);
    }
    let class = class_words(run, at);
    if class[1] == CLOSE {
        return Answer::refused(8);
    }
    let place = expiration_from(run, at + CLASS_WORDS, m);
    let standing = if word(run, place) == EXPIRATION | m {
        &run[place + 1..strike_from(run, place + 1, 0x7fff)]
    } else {
        &[]
    };
    match low_and_high(class) {
        [low, high] if low == high => {
            let terms = Terms::of(class, [low], ahead < 9);
            permitted::list(&terms, standing, second)
        }
        both => {
            let terms = Terms::of(class, both, ahead < 9);
            permitted::list(&terms, standing, second)
        }
    }
}
