//! Subscribers that move: what a move or a switch writes next.
use crate::sys::Handle;
use crate::{Cell, Error, Put};

/// The one mover of a subscriber. It goes on after its plan is dropped.
pub struct Mover(Handle);

/// Where a mover stands, by the puts made.
#[derive(Clone, Copy, Debug, PartialEq, Eq, Hash)]
pub struct Place {
    /// The subscriber.
    pub sub: u32,
    /// Its node.
    pub node: u32,
    /// How many moves it has made.
    pub number: u32,
    /// Whether it is off.
    pub off: bool,
}

impl Mover {
    pub(crate) fn new(handle: Handle) -> Self {
        Self(handle)
    }

    /// Begins a move. [`Error::NoNode`], [`Error::SamePlace`], [`Error::UnderWay`], [`Error::IsOff`], [`Error::NumbersSpent`].
    pub fn move_to(&mut self, to: u32) -> Result<(), Error> {
        self.0.move_to(to)
    }

    /// Begins a switch off, or on. [`Error::UnderWay`], [`Error::Already`].
    pub fn switch(&mut self, off: bool) -> Result<(), Error> {
        self.0.switch(off)
    }

    /// The put that comes next, or None where none is left.
    pub fn next_put(&self) -> Result<Option<Put>, Error> {
        match self.0.next_put() {
            Err(Error::AtRest) => Ok(None),
            told => told.map(|put| Some(put.into())),
        }
    }

    /// That put is made. [`Error::AtRest`].
    pub fn made(&mut self) -> Result<(), Error> {
        self.0.made_put()
    }

    /// The state: words of which [`Plan::load`](crate::Plan::load) makes a mover that is as this one, at rest or in the
    /// middle of a step. [`Error::NoMemory`].
    pub fn save(&self) -> Result<Vec<u64>, Error> {
        self.0.save()
    }

    /// Where the subscriber stands.
    pub fn place(&self) -> Result<Place, Error> {
        let it = self.0.place()?;
        Ok(Place {
            sub: it.sub,
            node: it.node,
            number: it.number,
            off: it.off == 1,
        })
    }

    /// All puts that are left, by `write`, which writes a word into a cell. Where `write` fails that put comes next again.
    pub fn run<E: From<Error>>(
        &mut self,
        mut write: impl FnMut(Cell, u64) -> Result<(), E>,
    ) -> Result<(), E> {
        while let Some(put) = self.next_put()? {
            write(put.cell, put.word)?;
            self.made()?;
        }
        Ok(())
    }
}
