//! Why a call did nothing.
use std::fmt;

use crate::sys::Refusal;

/// Why a network is refused.
#[derive(Clone, Copy, Debug, PartialEq, Eq, Hash)]
#[non_exhaustive]
pub enum Cause {
    /// The line isn't one that may stand there.
    Form,
    /// A number is past its limit.
    TooLarge,
    /// There are more of a kind than there may be.
    TooMany,
    /// It names a node, a subscriber or an actor that there isn't.
    Unknown,
    /// A subscriber that is off moves or switches off, or one that is on switches on.
    Switched,
    /// A subscriber moves to where it is.
    Nowhere,
    /// The text ends before the input does.
    Unfinished,
    /// No walk leads from node 0 to this one, the least such.
    Apart(u32),
    /// The text has more than 4,194,304 bytes.
    TooLong,
}

/// Why a call did nothing: every object is as it was before.
#[derive(Clone, Copy, Debug, PartialEq, Eq, Hash)]
#[non_exhaustive]
pub enum Error {
    /// There was no memory.
    NoMemory,
    /// The text of a network is refused, at this line.
    BadNetwork {
        /// Why.
        cause: Cause,
        /// The line, from 1 on.
        line: u32,
    },
    /// The plan has no such node.
    NoNode,
    /// There is no such subscriber.
    NoSubscriber,
    /// The subscriber stands there.
    SamePlace,
    /// A step that was begun has puts left.
    UnderWay,
    /// The subscriber is off, and doesn't move.
    IsOff,
    /// The subscriber has moved 2^32 - 1 times.
    NumbersSpent,
    /// The subscriber is off, or on, already.
    Already,
    /// No put is left.
    AtRest,
    /// No look is left: the find has its answer.
    Ended,
    /// A look is left: the find has no answer yet.
    Looking,
    /// There are no more.
    PastEnd,
    /// The cell can't hold this word.
    BadWord,
    /// No word says this.
    BadFields,
    /// The state has another number of words than there is room for.
    NoRoom,
    /// There are fewer words than a state for this plan has.
    ShortState,
    /// No mover over a plan of this size has just these words.
    GarbledState,
    /// Levels, numbers or weights of the state don't go with one another, or with the plan.
    MixedState,
    /// There may not be so many.
    CountTooLarge,
    /// There is no room for so many visits.
    Unreserved,
    /// Another member of the crew was inside a node just then.
    Held,
    /// A code that this package doesn't know, of another version of the library.
    Other(u32),
}

impl fmt::Display for Cause {
    fn fmt(&self, f: &mut fmt::Formatter<'_>) -> fmt::Result {
        match self {
            Cause::Form => f.write_str("the line isn't one that may stand there"),
            Cause::TooLarge => f.write_str("a number is past its limit"),
            Cause::TooMany => f.write_str("there are more of a kind than there may be"),
            Cause::Unknown => f.write_str("it names what there isn't"),
            Cause::Switched => f.write_str("a switch or a move of a subscriber in the other state"),
            Cause::Nowhere => f.write_str("a subscriber moves to where it is"),
            Cause::Unfinished => f.write_str("the text ends before the input does"),
            Cause::Apart(node) => write!(f, "no walk leads from node 0 to {node}"),
            Cause::TooLong => f.write_str("the text has more than 4,194,304 bytes"),
        }
    }
}

impl fmt::Display for Error {
    fn fmt(&self, f: &mut fmt::Formatter<'_>) -> fmt::Result {
        f.write_str(match self {
            Error::BadNetwork { cause, line } => return write!(f, "line {line}: {cause}"),
            Error::Other(code) => return write!(f, "the library answered {code}"),
            Error::NoMemory => "there was no memory",
            Error::NoNode => "the plan has no such node",
            Error::NoSubscriber => "there is no such subscriber",
            Error::SamePlace => "the subscriber stands there",
            Error::UnderWay => "a step that was begun has puts left",
            Error::IsOff => "the subscriber is off",
            Error::NumbersSpent => "the subscriber has moved 2^32 - 1 times",
            Error::Already => "the subscriber is in that state already",
            Error::AtRest => "no put is left",
            Error::Ended => "no look is left",
            Error::Looking => "a look is left",
            Error::PastEnd => "there are no more",
            Error::BadWord => "the cell can't hold this word",
            Error::BadFields => "no word says this",
            Error::NoRoom => "there is room for another number of words",
            Error::ShortState => "the state has too few words for this plan",
            Error::GarbledState => "the words are no mover's over a plan of this size",
            Error::MixedState => "the parts of the state don't go together, or with this plan",
            Error::CountTooLarge => "there may not be so many",
            Error::Unreserved => "there is no room for so many visits",
            Error::Held => "another member of the crew was inside a node just then",
        })
    }
}

impl std::error::Error for Error {}

impl From<Refusal> for Error {
    fn from(refusal: Refusal) -> Self {
        let cause = match refusal.cause {
            2 => Cause::TooLarge,
            3 => Cause::TooMany,
            4 => Cause::Unknown,
            5 => Cause::Switched,
            6 => Cause::Nowhere,
            7 => Cause::Unfinished,
            8 => Cause::Apart(refusal.node),
            9 => Cause::TooLong,
            _ => Cause::Form,
        };
        Error::BadNetwork {
            cause,
            line: refusal.line,
        }
    }
}

/// What a code of `track.h` says.
pub(crate) fn check(code: u32) -> Result<(), Error> {
    Err(match code {
        0 => return Ok(()),
        1 => Error::NoMemory,
        6 => Error::NoNode,
        7 => Error::NoSubscriber,
        8 => Error::SamePlace,
        9 => Error::UnderWay,
        10 => Error::IsOff,
        11 => Error::NumbersSpent,
        12 => Error::Already,
        13 => Error::AtRest,
        14 => Error::Ended,
        15 => Error::Looking,
        16 => Error::PastEnd,
        17 => Error::BadWord,
        18 => Error::BadFields,
        19 => Error::NoRoom,
        20 => Error::ShortState,
        21 => Error::GarbledState,
        22 => Error::MixedState,
        23 => Error::CountTooLarge,
        24 => Error::Unreserved,
        25 => Error::Held,
        other => Error::Other(other),
    })
}

/// The same of a call that reads a network.
pub(crate) fn check_read(code: u32, refusal: Refusal) -> Result<(), Error> {
    if code == 5 {
        return Err(refusal.into());
    }
    check(code)
}
