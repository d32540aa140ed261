//! Answers: the value of an accepted call, or a refusal.

use crate::library::{CounterReply, Reply};
use std::fmt;

/// The ground on which a strike is listed.
#[derive(Clone, Copy, Debug, PartialEq, Eq)]
pub enum Ground {
    /// The standard intervals: $2.50 to $25, $5 to $200, $10 above; by $5 below $50 in the $1 program.
    Standard = 0,
    /// Whole dollars to $50: near expirations, $1 program, close below $50.
    Dollar = 1,
    /// Half dollars to $5.50: near expirations, $0.50 program, close at most $5, volume at least 1,000.
    Half = 2,
    /// $2 or $3 above a multiple of $5, below $50, by its place beside the low or the high: long expirations,
    /// $1 program, close below $50.
    Wing = 3,
    /// Multiples of $2.50 above $25 and below $50 (in the $1 program only of $5), and from $50 to $100 those
    /// at most $10 from the close: near expirations, $2.50 program.
    TwoFifty = 4,
}

/// What a book counts of a program.
#[derive(Clone, Copy, Debug, PartialEq, Eq)]
pub struct Counter {
    /// The classes of our own in the program: those that count against its cap.
    pub own_classes: u32,
    /// The standing strikes on the program's grounds, over all classes and whatever their
    /// designations are now: [`Ground::Dollar`] and [`Ground::Wing`] for the $1 program,
    /// [`Ground::Half`] for the $0.50 program, [`Ground::TwoFifty`] for the $2.50 program.
    pub strikes: u32,
}

/// Why a call was refused. Of several reasons it is the one that stands first here.
#[derive(Clone, Copy, Debug, PartialEq, Eq)]
pub enum Refusal {
    /// 1: the run is no book.
    NotABook,
    /// 2: a number is beyond its limits, or a line of a sheet is malformed.
    BeyondLimits,
    /// 3: the class is open already.
    AlreadyOpen,
    /// 4: the class is not open.
    NotOpen,
    /// 5: the new current month is before the present one; or the month to list in is not after the
    /// current one, or more than 39 months after it.
    MonthOutside,
    /// 6: the strike stands already.
    AlreadyStanding,
    /// 7: the strike does not stand.
    NotStanding,
    /// 8: the class has no close yet.
    NoClose,
    /// 16: the low is above the close, or the high is below it.
    CloseOutside,
    /// 9: close or volume does not qualify for the program.
    NotQualified,
    /// 10: the program has as many classes of our own as it may have.
    CapReached,
    /// 11: the strike is on no ground's grid.
    OffGrid,
    /// 12: the strike is on a grid, and out of range at the low and at the high.
    OutOfRange,
    /// 13: the strike is on a grid and in range, and too near to one that stands.
    TooClose,
    /// 14: the strike has open interest.
    OpenInterest,
    /// 15: the run has too few words for a class or a strike, or the second run for the permitted
    /// strikes.
    OutOfWords {
        /// The words that the second run needs; 0 where it is the book's run that is too short.
        needed: u32,
    },
}

impl Refusal {
    /// The number of the refusal, 1 to 16.
    pub fn number(self) -> u32 {
        match self {
            Refusal::NotABook => 1,
            Refusal::BeyondLimits => 2,
            Refusal::AlreadyOpen => 3,
            Refusal::NotOpen => 4,
            Refusal::MonthOutside => 5,
            Refusal::AlreadyStanding => 6,
            Refusal::NotStanding => 7,
            Refusal::NoClose => 8,
            Refusal::CloseOutside => 16,
            Refusal::NotQualified => 9,
            Refusal::CapReached => 10,
            Refusal::OffGrid => 11,
            Refusal::OutOfRange => 12,
            Refusal::TooClose => 13,
            Refusal::OpenInterest => 14,
            Refusal::OutOfWords { .. } => 15,
        }
    }

    /// The refusal that a reply tells, which is no acceptance.
    pub(crate) fn of(reply: Reply) -> Refusal {
        match reply.number {
            1 => Refusal::NotABook,
            2 => Refusal::BeyondLimits,
            3 => Refusal::AlreadyOpen,
            4 => Refusal::NotOpen,
            5 => Refusal::MonthOutside,
            6 => Refusal::AlreadyStanding,
            7 => Refusal::NotStanding,
            8 => Refusal::NoClose,
            16 => Refusal::CloseOutside,
            9 => Refusal::NotQualified,
            10 => Refusal::CapReached,
            11 => Refusal::OffGrid,
            12 => Refusal::OutOfRange,
            13 => Refusal::TooClose,
            14 => Refusal::OpenInterest,
            15 => Refusal::OutOfWords {
                needed: reply.value,
            },
            number => unreachable!("no refusal has the number {number}"),
        }
    }
}

impl fmt::Display for Refusal {
    fn fmt(&self, formatter: &mut fmt::Formatter<'_>) -> fmt::Result {
        let text = match self {
            Refusal::NotABook => "the run is no book",
            Refusal::BeyondLimits => "a number is beyond its limits, or a line is malformed",
            Refusal::AlreadyOpen => "the class is open already",
            Refusal::NotOpen => "the class is not open",
            Refusal::MonthOutside => "the month is too early or too late",
            Refusal::AlreadyStanding => "the strike stands already",
            Refusal::NotStanding => "the strike does not stand",
            Refusal::NoClose => "the class has no close yet",
            Refusal::CloseOutside => "the low is above the close, or the high is below it",
            Refusal::NotQualified => "close or volume does not qualify for the program",
            Refusal::CapReached => "the cap of the program is reached",
            Refusal::OffGrid => "the strike is on no grid",
            Refusal::OutOfRange => "the strike is out of range at the low and at the high",
            Refusal::TooClose => "the strike is too near to one that stands",
            Refusal::OpenInterest => "the strike has open interest",
            Refusal::OutOfWords { .. } => "the run has too few words",
        };
        formatter.write_str(text)
    }
}

impl std::error::Error for Refusal {}

/// The value of an accepted call.
pub(crate) fn accepted(reply: Reply) -> Result<u32, Refusal> {
    match reply.number {
        0 => Ok(reply.value),
        _ => Err(Refusal::of(reply)),
    }
}

/// An accepted call whose value says nothing.
pub(crate) fn done(reply: Reply) -> Result<(), Refusal> {
    accepted(reply).map(|_| ())
}

/// An accepted comparison, whose value is 1 where the two books are equal.
pub(crate) fn equal(reply: Reply) -> Result<bool, Refusal> {
    accepted(reply).map(|value| value == 1)
}

/// An accepted call whose value is a ground.
pub(crate) fn ground(reply: Reply) -> Result<Ground, Refusal> {
    accepted(reply).map(|value| match value {
        0 => Ground::Standard,
        1 => Ground::Dollar,
        2 => Ground::Half,
        3 => Ground::Wing,
        4 => Ground::TwoFifty,
        _ => unreachable!("no ground has the number {value}"),
    })
}

/// A counter that was read.
pub(crate) fn counter(reply: CounterReply) -> Result<Counter, Refusal> {
    done(Reply {
        number: reply.number,
        value: 0,
    })?;
    Ok(Counter {
        own_classes: reply.own_classes,
        strikes: reply.strikes,
    })
}

/// The counter of a run that is a book, which is never refused.
pub(crate) fn known_counter(reply: CounterReply) -> Counter {
    match counter(reply) {
        Ok(counter) => counter,
        Err(refusal) => unreachable!("a book has a counter for each program: {refusal}"),
    }
}
