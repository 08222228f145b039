//! Cells, what is put into them, and what their words say.
use std::fmt;

use crate::sys::{self, CellFields, PutFields, WordFields};
use crate::Error;

/// A cell: one 64-bit word, read and written in one step. One that nobody has written holds 0.
#[derive(Clone, Copy, Debug, PartialEq, Eq, Hash, PartialOrd, Ord)]
pub enum Cell {
    /// The presence of a subscriber at a node.
    Presence {
        /// Where the cell lies.
        node: u32,
        /// The subscriber.
        sub: u32,
    },
    /// The entry of a subscriber at a cluster of a level.
    Entry {
        /// The leader of the cluster, where the cell lies.
        node: u32,
        /// The level, from 0 on.
        level: u32,
        /// The number of the cluster in its level.
        cluster: u32,
        /// The subscriber.
        sub: u32,
    },
}

impl Cell {
    /// The node at which the cell lies.
    pub fn node(&self) -> u32 {
        match *self {
            Cell::Presence { node, .. } | Cell::Entry { node, .. } => node,
        }
    }
}

/// A key for stores that have keys; the node comes first, so that a store can be parted by nodes.
impl fmt::Display for Cell {
    fn fmt(&self, f: &mut fmt::Formatter<'_>) -> fmt::Result {
        match self {
            Cell::Presence { node, sub } => write!(f, "{node}/presence/{sub}"),
            Cell::Entry {
                node,
                level,
                cluster,
                sub,
            } => write!(f, "{node}/entry/{level}/{cluster}/{sub}"),
        }
    }
}

impl From<CellFields> for Cell {
    fn from(it: CellFields) -> Self {
        match it.kind {
            0 => Cell::Presence {
                node: it.node,
                sub: it.sub,
            },
            _ => Cell::Entry {
                node: it.node,
                level: it.level,
                cluster: it.cluster,
                sub: it.sub,
            },
        }
    }
}

/// What is to be written: from now on the cell holds the word.
#[derive(Clone, Copy, Debug, PartialEq, Eq, Hash)]
pub struct Put {
    /// Where.
    pub cell: Cell,
    /// What.
    pub word: u64,
}

impl From<PutFields> for Put {
    fn from(it: PutFields) -> Self {
        Put {
            cell: it.cell.into(),
            word: it.word,
        }
    }
}

/// What the word of a presence says. Numbers count the moves of the subscriber.
#[derive(Clone, Copy, Debug, PartialEq, Eq, Hash)]
pub enum Mark {
    /// Not here, or not any more.
    Nothing,
    /// Here since this move, and off or not.
    Here {
        /// The move that brought it here, 0 for its start.
        number: u32,
        /// Whether it is off.
        off: bool,
    },
    /// Left with this move, to a node.
    Gone {
        /// The move.
        number: u32,
        /// Where it went.
        to: u32,
    },
    /// Coming with this move, from a node.
    Coming {
        /// The move.
        number: u32,
        /// Whence it comes.
        from: u32,
    },
}

impl Mark {
    /// What a word says; [`Error::BadWord`] where no mark has it.
    pub fn read(word: u64) -> Result<Self, Error> {
        let WordFields { kind, number, node } = sys::read_mark(word)?;
        Ok(match kind {
            1 => Mark::Here { number, off: false },
            2 => Mark::Gone { number, to: node },
            3 => Mark::Coming { number, from: node },
            4 => Mark::Here { number, off: true },
            _ => Mark::Nothing,
        })
    }

    /// The word that says this; [`Error::BadFields`] where there is none.
    pub fn pack(self) -> Result<u64, Error> {
        let (kind, number, node) = match self {
            Mark::Nothing => (0, 0, 0),
            Mark::Here { number, off: false } => (1, number, 0),
            Mark::Gone { number, to } => (2, number, to),
            Mark::Coming { number, from } => (3, number, from),
            Mark::Here { number, off: true } => (4, number, 0),
        };
        sys::pack_mark(WordFields { kind, number, node })
    }
}

/// What the word of an entry says, where it says anything: the subscriber went to the node with this move.
#[derive(Clone, Copy, Debug, PartialEq, Eq, Hash)]
pub struct Address {
    /// The move, 0 for the start.
    pub number: u32,
    /// Where it went.
    pub node: u32,
}

impl Address {
    /// What a word says; [`Error::BadWord`] where no entry has it.
    pub fn read(word: u64) -> Result<Option<Self>, Error> {
        let WordFields { kind, number, node } = sys::read_entry(word)?;
        Ok((kind != 0).then_some(Address { number, node }))
    }

    /// The word that says this; [`Error::BadFields`] where there is none.
    pub fn pack(address: Option<Self>) -> Result<u64, Error> {
        let fields = address.map_or_else(WordFields::default, |it| WordFields {
            kind: 1,
            number: it.number,
            node: it.node,
        });
        sys::pack_entry(fields)
    }
}
