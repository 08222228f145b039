//! A directory that the threads of one program share: the library keeps its cells in memory.
use crate::sys::Handle;
use crate::{Answer, Error};

/// The members of a shared directory that nobody has taken yet.
pub struct Crew {
    handle: Handle,
    // The first so many actors are subscribers.
    subs: u32,
}

/// A member of a crew, with its number.
pub enum Member {
    /// A subscriber; their numbers are the first.
    Subscriber(u32, Subscriber),
    /// A caller; their numbers come after the subscribers'.
    Caller(u32, Caller),
}

/// The subscribers that are at a node.
#[derive(Clone, Debug, PartialEq, Eq, Hash)]
pub struct Census {
    /// How many visits of all came before it.
    pub ticket: u64,
    /// Their numbers, in order.
    pub subs: Vec<u32>,
}

/// Looks for subscribers. It goes on after its crew is dropped.
pub struct Caller(Handle);

/// Moves, and is found. It goes on after its crew is dropped.
pub struct Subscriber(Handle);

impl Crew {
    pub(crate) fn new(handle: Handle, subs: u32) -> Self {
        Self { handle, subs }
    }

    /// The next member, or None where all are taken: the callers from the last one on, and then the subscribers from the
    /// last one on. [`Error::NoMemory`], and then a later call gives that member.
    pub fn next_member(&mut self) -> Result<Option<Member>, Error> {
        let (handle, number) = match self.handle.next_member() {
            Err(Error::PastEnd) => return Ok(None),
            told => told?,
        };
        Ok(Some(if number < self.subs {
            Member::Subscriber(number, Subscriber(handle))
        } else {
            Member::Caller(number, Caller(handle))
        }))
    }
}

impl Caller {
    /// Sees to room for so many visits, each look being one; it takes 8 bytes a visit. [`Error::CountTooLarge`],
    /// [`Error::NoMemory`].
    pub fn reserve(&mut self, visits: u64) -> Result<(), Error> {
        self.0.reserve(visits)
    }

    /// Finds a subscriber from a node. [`Error::NoNode`], [`Error::NoSubscriber`]; [`Error::Unreserved`] where there may be
    /// more looks than there is room for; [`Error::Held`] where another member was inside a node just then.
    pub fn find(&mut self, from: u32, sub: u32) -> Result<Answer, Error> {
        Ok(self.0.find(from, sub)?.into())
    }

    /// The subscribers that are at a node; it is one visit. [`Error::NoNode`], [`Error::Unreserved`]; [`Error::Held`] where
    /// another member was inside the node just then.
    pub fn census(&mut self, node: u32) -> Result<Census, Error> {
        let told = self.0.census(node)?;
        Ok(Census {
            ticket: told.ticket,
            subs: (0..64).filter(|sub| told.who >> sub & 1 == 1).collect(),
        })
    }
}

impl Subscriber {
    /// Sees to room for so many visits, each put being one; it takes 8 bytes a visit. [`Error::CountTooLarge`],
    /// [`Error::NoMemory`].
    pub fn reserve(&mut self, visits: u64) -> Result<(), Error> {
        self.0.reserve(visits)
    }

    /// Begins a move. [`Error::NoNode`], [`Error::SamePlace`], [`Error::UnderWay`], [`Error::IsOff`], [`Error::NumbersSpent`].
    pub fn move_to(&mut self, to: u32) -> Result<(), Error> {
        self.0.begin_move(to)
    }

    /// Begins a switch off, or on. [`Error::UnderWay`], [`Error::Already`].
    pub fn switch(&mut self, off: bool) -> Result<(), Error> {
        self.0.begin_switch(off)
    }

    /// Makes the next put of what was begun: its ticket, or None where none is left. [`Error::Unreserved`]; [`Error::Held`]
    /// where another member was inside the node just then.
    pub fn step(&mut self) -> Result<Option<u64>, Error> {
        match self.0.step() {
            Err(Error::AtRest) => Ok(None),
            told => told.map(Some),
        }
    }
}
