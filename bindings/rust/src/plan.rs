//! The plan of a network: its levels, clusters and homes.
use crate::sys::{EdgeFields, Handle, RoomFields, Sizes};
use crate::{Crew, Error, Finder, Mover, Put};

/// An edge of a network: it joins two nodes in both directions.
#[derive(Clone, Copy, Debug, PartialEq, Eq, Hash)]
pub struct Edge {
    /// One node.
    pub a: u32,
    /// The other.
    pub b: u32,
    /// Its weight, 1 to 1,048,576.
    pub weight: u64,
}

/// How many visits are wanted: no find from a node has more looks, and no move more puts.
#[derive(Clone, Copy, Debug, PartialEq, Eq, Hash)]
pub struct Room {
    /// Of a find.
    pub looks: u64,
    /// Of a move.
    pub puts: u64,
}

/// The plan of a network. `share` gives another owner of the same, for another thread.
pub struct Plan {
    handle: Handle,
    sizes: Sizes,
}

impl Plan {
    /// The plan of the network that a text says (docs/FORMATS.md); [`Error::BadNetwork`] tells where and why it says none.
    pub fn read(text: &[u8]) -> Result<Self, Error> {
        Self::of(Handle::read_plan(text)?)
    }

    /// The plan of a network of so many nodes with these edges, within the limits of texts; the line of a
    /// [`Error::BadNetwork`] is the place of an edge, from 1 on, or 0 where it is none.
    pub fn build(nodes: u32, k: u32, edges: &[Edge]) -> Result<Self, Error> {
        let edges: Vec<EdgeFields> = edges
            .iter()
            .map(|&Edge { a, b, weight }| EdgeFields { a, b, weight })
            .collect();
        Self::of(Handle::build_plan(nodes, k, &edges)?)
    }

    /// One more owner of the plan.
    pub fn share(&self) -> Result<Self, Error> {
        Self::of(self.handle.share()?)
    }

    fn of(handle: Handle) -> Result<Self, Error> {
        let sizes = handle.sizes()?;
        Ok(Self { handle, sizes })
    }

    /// How many nodes there are: they are 0 to this, less 1.
    pub fn nodes(&self) -> u32 {
        self.sizes.nodes
    }

    /// How many levels there are.
    pub fn levels(&self) -> u32 {
        self.sizes.levels
    }

    /// The trade-off of the covers.
    pub fn k(&self) -> u32 {
        self.sizes.k
    }

    /// How many subscribers the plan's text says.
    pub fn subs(&self) -> u32 {
        self.sizes.subs
    }

    /// Where a subscriber of the plan's text starts; [`Error::NoSubscriber`] where the text says no such.
    pub fn start(&self, sub: u32) -> Result<u32, Error> {
        self.handle.start(sub)
    }

    /// How many visits a find from a node may make, and how many a move. [`Error::NoNode`].
    pub fn room(&self, node: u32) -> Result<Room, Error> {
        let RoomFields { looks, puts } = self.handle.room(node)?;
        Ok(Room { looks, puts })
    }

    /// The cells of a new subscriber at its start node that aren't 0. Write them, in any order, before its first find or
    /// move. [`Error::NoNode`].
    pub fn opening(&self, sub: u32, node: u32) -> Result<Vec<Put>, Error> {
        (0..=self.sizes.levels)
            .map(|index| Ok(self.handle.opening(sub, node, index)?.into()))
            .collect()
    }

    /// A find of a subscriber from a node. [`Error::NoNode`].
    pub fn find(&self, from: u32, sub: u32) -> Result<Finder, Error> {
        Ok(Finder::new(self.handle.finder(from, sub, u32::MAX)?))
    }

    /// The one mover of a subscriber, at rest at its start node. [`Error::NoNode`].
    pub fn mover(&self, sub: u32, node: u32) -> Result<Mover, Error> {
        Ok(Mover::new(self.handle.mover(sub, node)?))
    }

    /// The mover of a state that [`Mover::save`] told, over the plan that it was saved over. Where the words are no state
    /// for this plan: [`Error::ShortState`], [`Error::GarbledState`], [`Error::NoNode`], [`Error::MixedState`].
    ///
    /// ```
    /// # fn main() -> Result<(), track::Error> {
    /// let plan = track::Plan::read(b"track 1\nnodes 2\nk 2\nedge 0 1 4\nsub 0\ncallers 1\n")?;
    /// let mut mover = plan.mover(0, 0)?;
    /// mover.move_to(1)?;
    /// let state = mover.save()?;
    /// let again = plan.load(&state)?;
    /// assert_eq!(again.next_put()?, mover.next_put()?);
    /// assert_eq!(plan.load(&state[..11]).err(), Some(track::Error::ShortState));
    /// # Ok(())
    /// # }
    /// ```
    pub fn load(&self, state: &[u64]) -> Result<Mover, Error> {
        Ok(Mover::new(self.handle.load(state)?))
    }

    /// A directory in memory for the threads of one program: 1 to 64 subscribers, which start at these nodes, and at most 64
    /// callers. [`Error::NoSubscriber`] where there is none, [`Error::CountTooLarge`], [`Error::NoNode`], [`Error::NoMemory`].
    pub fn crew(&self, starts: &[u32], callers: u32) -> Result<Crew, Error> {
        // A crew of more than 64 is refused, so that the count is small.
        Ok(Crew::new(
            self.handle.crew(starts, callers)?,
            starts.len() as u32,
        ))
    }
}
