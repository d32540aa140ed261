//! "Grids", "Range" and "Spacing": which strikes a class may list.

use crate::book::{Class, Strike};
use crate::units::*;

pub const STANDARD: u32 = 0;
pub const DOLLAR: u32 = 1;
pub const HALF: u32 = 2;
pub const WING: u32 = 3;
pub const TWO_FIFTY: u32 = 4;

/// "Four grounds", from 0 up. #101: "This is ground 4, tried after Wing".
pub const GROUNDS: [u32; 5] = [STANDARD, DOLLAR, HALF, WING, TWO_FIFTY];

/// #104: "that program's grounds" "Wings belong to the $1 program." Standard is
/// no program's.
pub fn grounds_of(program: u32) -> &'static [u32] {
    match program {
        DOLLAR_PROGRAM => &[DOLLAR, WING],
        HALF_PROGRAM => &[HALF],
        _ => &[TWO_FIFTY],
    }
}

/// One class and one expiration, at the present `now`, as the rules look at
/// them.
pub struct Setting<'a> {
    pub class: &'a Class,
    pub now: u32,
    pub month: u32,
}

impl Setting<'_> {
    /// "An expiration m is *long* when m − `now` is 9 or more"
    pub fn is_long(&self) -> bool {
        self.month >= self.now + 9
    }

    /// "else *near*."
    pub fn is_near(&self) -> bool {
        !self.is_long()
    }

    /// #103: "The program's price conditions ... keep the close."
    fn close(&self) -> u32 {
        self.class.close
    }

    /// #103: "at the low or at the high"
    fn low_and_high(&self) -> [u32; 2] {
        [self.class.low, self.class.high]
    }
}

// ---- Grids -------------------------------------------------------------

const ONE_DOLLAR: u32 = 100;
const TWO_DOLLARS_FIFTY: u32 = 250;
const FIVE_DOLLARS: u32 = 500;
const TEN_DOLLARS: u32 = 1_000;

fn is_multiple(k: u32, of: u32) -> bool {
    k.is_multiple_of(of)
}

fn distance(k: u32, other: u32) -> u32 {
    k.abs_diff(other)
}

/// "The *ladder*: multiples of $2.50 to $25, of $5 above $25 to $200, of $10
/// above $200."
pub fn on_ladder(k: u32) -> bool {
    if k <= 2_500 {
        is_multiple(k, TWO_DOLLARS_FIFTY)
    } else if k <= 20_000 {
        is_multiple(k, FIVE_DOLLARS)
    } else {
        is_multiple(k, TEN_DOLLARS)
    }
}

/// "every strike below $50 that isn't a multiple of $5 if the class is a $1
/// class."
fn is_lost(setting: &Setting, k: u32) -> bool {
    setting.class.is_in(DOLLAR_PROGRAM) && k < 5_000 && !is_multiple(k, FIVE_DOLLARS)
}

/// "0. Standard: the ladder, less every strike below $50 that isn't a
/// multiple of $5 if the class is a $1 class."
pub fn on_standard_grid(setting: &Setting, k: u32) -> bool {
    on_ladder(k) && !is_lost(setting, k)
}

/// "1. Dollar: near, $1 class, P below 5,000; whole dollars from $1 to $50."
pub fn on_dollar_grid(setting: &Setting, k: u32) -> bool {
    setting.is_near()
        && setting.class.is_in(DOLLAR_PROGRAM)
        && setting.close() < 5_000
        && is_multiple(k, ONE_DOLLAR)
        && (100..=5_000).contains(&k)
}

/// "2. Half: near, half class, P at most 500, volume at least 1,000;
/// multiples of $0.50 to $5.50."
pub fn on_half_grid(setting: &Setting, k: u32) -> bool {
    setting.is_near()
        && setting.class.is_in(HALF_PROGRAM)
        && setting.close() <= 500
        && setting.class.volume >= 1_000
        && is_multiple(k, 50)
        && k <= 550
}

/// "3. Wing: long, $1 class, P below 5,000." #103: "a wing's position is taken
/// at the same price" as its range; "its grid asks the position at either."
pub fn on_wing_grid(setting: &Setting, k: u32) -> bool {
    let has_position = |p: u32| !wing_bases(p, k).is_empty();
    setting.is_long()
        && setting.class.is_in(DOLLAR_PROGRAM)
        && setting.close() < 5_000
        && setting.low_and_high().into_iter().any(has_position)
}

/// The L for which K is a wing at P: "For L a multiple of $5 from $5 to $45:
/// L + $2 if L is at or above P; L + $3 if L + $5 is at or below P; and
/// L + $2 if L is the largest multiple of $5 strictly below P."
fn wing_bases(p: u32, k: u32) -> Vec<u32> {
    let mut bases = Vec::new();
    for l in [500, 1_000, 1_500, 2_000, 2_500, 3_000, 3_500, 4_000, 4_500] {
        let above = k == l + 200 && l >= p;
        let below = k == l + 300 && l + 500 <= p;
        let just_below = k == l + 200 && l == largest_five_strictly_below(p);
        if above || below || just_below {
            bases.push(l);
        }
    }
    bases
}

/// "the largest multiple of $5 strictly below P", $0 for a P up to $5 (which
/// is no L).
fn largest_five_strictly_below(p: u32) -> u32 {
    let mut largest = 0;
    while largest + 500 < p {
        largest += 500;
    }
    largest
}

/// #101: "Near expirations may then have multiples of $2.50 above $25 and below
/// $50, and from $50 to $100 those no more than $10 from the close." "The $10
/// condition belongs to its grid. In a $1 class ground 4 grants no strike below
/// $50 that isn't a multiple of $5."
pub fn on_two_fifty_grid(setting: &Setting, k: u32) -> bool {
    let above_25_below_50 = 2_500 < k && k < 5_000;
    let from_50_to_100 = (5_000..=10_000).contains(&k);
    let at_most_10_from_close = distance(k, setting.close()) <= TEN_DOLLARS;
    setting.is_near()
        && setting.class.is_in(TWO_FIFTY_PROGRAM)
        && is_multiple(k, TWO_DOLLARS_FIFTY)
        && (above_25_below_50 || from_50_to_100 && at_most_10_from_close)
        && !is_lost(setting, k)
}

pub fn passes_grid(setting: &Setting, ground: u32, k: u32) -> bool {
    match ground {
        STANDARD => on_standard_grid(setting, k),
        DOLLAR => on_dollar_grid(setting, k),
        HALF => on_half_grid(setting, k),
        WING => on_wing_grid(setting, k),
        _ => on_two_fifty_grid(setting, k),
    }
}

// ---- Range -------------------------------------------------------------

/// "At P above 2,000, K is in range when P ≤ 2K ≤ 3P. At P of 2,000 or less,
/// K is in range when K ≤ 2P, or when K is among the five lowest strikes
/// above P of the *range grid*."
fn in_range(setting: &Setting, ground: u32, p: u32, k: u32) -> bool {
    if p > 2_000 {
        p <= 2 * k && 2 * k <= 3 * p
    } else {
        k <= 2 * p || five_lowest_above(setting, ground, p).contains(&k)
    }
}

/// "the five lowest strikes above P of the *range grid*" (fewer where the
/// grid holds fewer)
fn five_lowest_above(setting: &Setting, ground: u32, p: u32) -> Vec<u32> {
    let mut five = Vec::new();
    for h in LOWEST_STRIKE..=HIGHEST_STRIKE {
        let k = cents(h);
        if k > p && on_range_grid(setting, ground, k) {
            five.push(k);
        }
        if five.len() == 5 {
            break;
        }
    }
    five
}

/// "That grid is: whole dollars for Standard and Dollar in a near $1 class;
/// the Standard grid otherwise for Standard; the Half grid for Half, which
/// may hold fewer than five."
fn on_range_grid(setting: &Setting, ground: u32, k: u32) -> bool {
    let near_dollar_class = setting.is_near() && setting.class.is_in(DOLLAR_PROGRAM);
    if ground == HALF {
        on_half_grid(setting, k)
    } else if near_dollar_class {
        is_multiple(k, ONE_DOLLAR)
    } else {
        on_standard_grid(setting, k)
    }
}

/// "A wing is in range when L and L + $5 both are, as Standard." #103: "a wing's
/// position is taken at the same price"
fn wing_in_range(setting: &Setting, p: u32, k: u32) -> bool {
    for l in wing_bases(p, k) {
        if in_range(setting, STANDARD, p, l) && in_range(setting, STANDARD, p, l + 500) {
            return true;
        }
    }
    false
}

fn passes_range_at(setting: &Setting, ground: u32, p: u32, k: u32) -> bool {
    match ground {
        WING => wing_in_range(setting, p, k),
        // #101: "The range rule holds as for Standard."
        TWO_FIFTY => in_range(setting, STANDARD, p, k),
        _ => in_range(setting, ground, p, k),
    }
}

/// #103: "A strike or wing passes its range when it passes at the low or at the
/// high"
pub fn passes_range(setting: &Setting, ground: u32, k: u32) -> bool {
    let passes_at = |p: u32| passes_range_at(setting, ground, p, k);
    setting.low_and_high().into_iter().any(passes_at)
}

// ---- Spacing -----------------------------------------------------------

/// #101: "For spacing it counts as Standard."
fn counts_as_standard(ground: u32) -> bool {
    ground == STANDARD || ground == TWO_FIFTY
}

/// "a Standard strike at an odd multiple of $2.50"
fn is_odd_standard(ground: u32, k: u32) -> bool {
    counts_as_standard(ground)
        && is_multiple(k, TWO_DOLLARS_FIFTY)
        && (k / TWO_DOLLARS_FIFTY) % 2 == 1
}

/// "Within one expiration, a Dollar strike and a Standard strike at an odd
/// multiple of $2.50 stay more than $0.50 from each other, whichever came
/// first."
fn dollar_and_odd_standard_apart(ground: u32, k: u32, other: &Strike, other_k: u32) -> bool {
    let new_dollar = ground == DOLLAR && is_odd_standard(other.ground, other_k);
    let new_standard = is_odd_standard(ground, k) && other.ground == DOLLAR;
    if new_dollar || new_standard {
        distance(k, other_k) > 50
    } else {
        true
    }
}

/// "In a long expiration a new strike stays more than $1 from every standing
/// one, on any ground."
fn long_apart(setting: &Setting, k: u32, other_k: u32) -> bool {
    if setting.is_long() {
        distance(k, other_k) > 100
    } else {
        true
    }
}

pub fn passes_spacing(setting: &Setting, ground: u32, k: u32) -> bool {
    for (other_h, other) in setting.class.strikes_of(setting.month) {
        let other_k = cents(other_h);
        if !dollar_and_odd_standard_apart(ground, k, &other, other_k) {
            return false;
        }
        if !long_apart(setting, k, other_k) {
            return false;
        }
    }
    true
}

// ---- The ground --------------------------------------------------------

/// "The ground is the first of the four, from 0 up, that passes grid, range
/// and spacing. With none: 11 if none passes its grid, 12 if some pass the
/// grid and none the range too, else 13." #101: "This is ground 4, tried after
/// Wing", so the four are five.
pub fn ground_or_refusal(setting: &Setting, h: u32) -> Result<u32, u32> {
    let k = cents(h);
    let mut some_pass_grid = false;
    let mut some_pass_grid_and_range = false;
    for ground in GROUNDS {
        if !passes_grid(setting, ground, k) {
            continue;
        }
        some_pass_grid = true;
        if !passes_range(setting, ground, k) {
            continue;
        }
        some_pass_grid_and_range = true;
        if !passes_spacing(setting, ground, k) {
            continue;
        }
        return Ok(ground);
    }
    if !some_pass_grid {
        Err(11)
    } else if !some_pass_grid_and_range {
        Err(12)
    } else {
        Err(13)
    }
}
