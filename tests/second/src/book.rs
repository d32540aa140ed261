//! "The plain book holds `now`, and for each open class its close, volume,
//! two designations and a set of (month, h, ground, put, call). It holds the
//! run's length too." #101: "equality of books now reads the third designation
//! too." #103: "low and high being facts." The counters of #104 follow from
//! these facts, and are none themselves.

use crate::rules::grounds_of;
use crate::units::*;
use std::collections::{BTreeMap, BTreeSet};

#[derive(Clone, Debug, PartialEq, Eq)]
pub struct PlainBook {
    pub now: u32,
    pub length: usize,
    pub classes: BTreeMap<u32, Class>,
}

#[derive(Clone, Debug, PartialEq, Eq, Default)]
pub struct Class {
    /// In cents, 0 when none has come.
    pub close: u32,
    /// The day's low, in cents, 0 when no close has come.
    pub low: u32,
    /// The day's high, in cents, 0 when no close has come.
    pub high: u32,
    pub volume: u32,
    /// 0 none, 1 ours, 2 another exchange's.
    pub dollar_designation: u32,
    /// 0 none, 1 ours, 2 another exchange's.
    pub half_designation: u32,
    /// 0 none, 1 ours, 2 another exchange's.
    pub two_fifty_designation: u32,
    /// By (month, h).
    pub strikes: BTreeMap<(u32, u32), Strike>,
}

#[derive(Clone, Copy, Debug, PartialEq, Eq)]
pub struct Strike {
    /// 0 Standard, 1 Dollar, 2 Half, 3 Wing, 4 the $2.50 program's.
    pub ground: u32,
    /// Put open interest, 1 yes.
    pub put: u32,
    /// Call open interest, 1 yes.
    pub call: u32,
}

/// #104: "own classes", and "standing strikes on that program's grounds".
#[derive(Clone, Copy, Debug, PartialEq, Eq)]
pub struct Counter {
    pub own_classes: u32,
    pub strikes: u32,
}

impl Strike {
    /// "A marked strike has a mark of 1"
    pub fn is_marked(&self) -> bool {
        self.put == 1 || self.call == 1
    }
}

impl Class {
    /// The designation of a program.
    pub fn designation(&self, program: u32) -> u32 {
        match program {
            DOLLAR_PROGRAM => self.dollar_designation,
            HALF_PROGRAM => self.half_designation,
            _ => self.two_fifty_designation,
        }
    }

    /// "program p ... gets designation d."
    pub fn designate(&mut self, program: u32, designation: u32) {
        match program {
            DOLLAR_PROGRAM => self.dollar_designation = designation,
            HALF_PROGRAM => self.half_designation = designation,
            _ => self.two_fifty_designation = designation,
        }
    }

    /// "A *$1 class* has $1 designation 1 or 2; a *half class* has $0.50
    /// designation 1 or 2." #101: "classes of our own, others by another
    /// exchange", for $2.50.
    pub fn is_in(&self, program: u32) -> bool {
        self.designation(program) == 1 || self.designation(program) == 2
    }

    /// "close ... 0 when none has come."
    pub fn has_close(&self) -> bool {
        self.close != 0
    }

    /// "`C c P`: close." #103: "`C` sets both to the close", low and high.
    pub fn set_close(&mut self, close: u32) {
        self.close = close;
        self.low = close;
        self.high = close;
    }

    /// #103: "In every book all three are 0, or 1 ≤ low ≤ close ≤ high."
    pub fn prices_hold(&self) -> bool {
        let all_zero = self.close == 0 && self.low == 0 && self.high == 0;
        let in_order = 1 <= self.low && self.low <= self.close && self.close <= self.high;
        all_zero || in_order
    }

    /// The months that have a strike.
    pub fn expirations(&self) -> BTreeSet<u32> {
        self.strikes.keys().map(|(month, _)| *month).collect()
    }

    /// The strikes of one expiration, h rising.
    pub fn strikes_of(&self, month: u32) -> Vec<(u32, Strike)> {
        let of_month = (month, LOWEST_STRIKE)..=(month, HIGHEST_STRIKE);
        let strikes = self.strikes.range(of_month);
        strikes.map(|((_, h), strike)| (*h, *strike)).collect()
    }
}

impl PlainBook {
    /// "A fresh book has `now` 0 and no class; making one ... refuses 1 on a
    /// bad length." (`None` stands for the refusal.)
    pub fn fresh(length: usize) -> Option<PlainBook> {
        if !is_length(length) {
            return None;
        }
        Some(PlainBook {
            now: 0,
            length,
            classes: BTreeMap::new(),
        })
    }

    /// "The words the facts take are 1 + 3 × classes + expirations that have
    /// strikes + strikes." #103: "A class then takes five words" #104: "The words
    /// needed grow by three"
    pub fn words_taken(&self) -> usize {
        let mut words = 1 + 3;
        for class in self.classes.values() {
            words += 5;
            words += class.expirations().len();
            words += class.strikes.len();
        }
        words
    }

    /// The count against a program's cap. "The count against 150 and the count
    /// against 20 are two counters, and neither is ever tested against the
    /// other's cap." #101: "and its own counter", for $2.50.
    pub fn own_count(&self, program: u32) -> usize {
        let ours = |class: &&Class| class.designation(program) == 1;
        self.classes.values().filter(ours).count()
    }

    /// The strikes of all classes on a program's grounds, whatever the classes'
    /// designations are now.
    fn strikes_on_grounds_of(&self, program: u32) -> usize {
        let mut count = 0;
        for class in self.classes.values() {
            for strike in class.strikes.values() {
                if grounds_of(program).contains(&strike.ground) {
                    count += 1;
                }
            }
        }
        count
    }

    /// #104: what the book's word of a program, 1 to 3, counts.
    pub fn counter(&self, program: u32) -> Counter {
        Counter {
            own_classes: self.own_count(program) as u32,
            strikes: self.strikes_on_grounds_of(program) as u32,
        }
    }

    /// "at most 150 classes with $1 designation 1 and at most 20 with $0.50
    /// designation 1." #101: "a run over the cap being no book"
    pub fn caps_hold(&self) -> bool {
        let holds = |program: u32| self.own_count(program) <= cap(program);
        PROGRAMS.into_iter().all(holds)
    }
}
