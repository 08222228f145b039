//! Finds under way: which cell is looked at next, and what the answer is.
use crate::sys::{AnswerFields, Handle};
use crate::{Cell, Error};

/// A find under way. It goes on after its plan is dropped.
pub struct Finder(Handle);

/// Why a find is to be made again: in each case a move of its subscriber fell within it. A find of a subscriber that was
/// never opened answers [`Why::NoEntry`] however often it is made: know which are open, or set a limit.
#[derive(Clone, Copy, Debug, PartialEq, Eq, Hash)]
pub enum Why {
    /// The mark at this node was empty.
    EmptyMark(u32),
    /// No entry had an address.
    NoEntry,
    /// The chase had no hop left.
    Chased,
}

/// What a find answers.
#[derive(Clone, Copy, Debug, PartialEq, Eq, Hash)]
pub enum Outcome {
    /// The subscriber stood at the node at the find's last look, since the move of this number; off, or not.
    At {
        /// The node.
        node: u32,
        /// The move, 0 for the start.
        number: u32,
        /// Whether it was off.
        off: bool,
    },
    /// Make the find again.
    Again(Why),
}

/// The answer of a find.
#[derive(Clone, Copy, Debug, PartialEq, Eq, Hash)]
pub struct Answer {
    /// What it says.
    pub outcome: Outcome,
    /// The level at which an address was met, if one was needed.
    pub level: Option<u32>,
    /// What the find travelled, in the unit of the edges.
    pub weight: u64,
}

/// What a find comes to by a look.
#[derive(Clone, Copy, Debug, PartialEq, Eq, Hash)]
pub enum Came {
    /// The cell to look at next.
    Next(Cell),
    /// Its answer.
    Done(Answer),
}

impl From<AnswerFields> for Answer {
    fn from(it: AnswerFields) -> Self {
        let outcome = match (it.kind, it.why) {
            (0 | 1, _) => Outcome::At {
                node: it.node,
                number: it.number,
                off: it.kind == 1,
            },
            (_, 1) => Outcome::Again(Why::EmptyMark(it.node)),
            (_, 2) => Outcome::Again(Why::NoEntry),
            _ => Outcome::Again(Why::Chased),
        };
        Answer {
            outcome,
            level: (it.climbed == 1).then_some(it.level),
            weight: it.weight,
        }
    }
}

impl Finder {
    pub(crate) fn new(handle: Handle) -> Self {
        Self(handle)
    }

    /// The cell to look at, or None once the find has its answer.
    pub fn next_cell(&self) -> Result<Option<Cell>, Error> {
        match self.0.next_look() {
            Err(Error::Ended) => Ok(None),
            told => told.map(|cell| Some(cell.into())),
        }
    }

    /// The look at that cell read this word. [`Error::BadWord`], [`Error::Ended`].
    pub fn saw(&mut self, word: u64) -> Result<(), Error> {
        self.0.saw(word)
    }

    /// The answer; [`Error::Looking`] while there is none.
    pub fn answer(&self) -> Result<Answer, Error> {
        Ok(self.0.answer()?.into())
    }

    /// [`Finder::saw`], and then [`Finder::next_cell`] or [`Finder::answer`], in one call: the look at the cell that came next
    /// read this word. The answer stays once it is there. [`Error::BadWord`].
    pub fn look(&mut self, word: u64) -> Result<Came, Error> {
        Ok(match self.0.look(word)? {
            Ok(cell) => Came::Next(cell.into()),
            Err(answer) => Came::Done(answer.into()),
        })
    }

    /// Begins another find in the place of this one, over the same plan. [`Error::NoNode`], and then this one stands.
    pub fn again(&mut self, from: u32, sub: u32) -> Result<(), Error> {
        self.0.again(from, sub, u32::MAX)
    }

    /// All looks that are left, by `look`, which reads a cell; and the answer. Where `look` fails the find can go on: a look
    /// changes nothing.
    pub fn run<E: From<Error>>(
        &mut self,
        mut look: impl FnMut(Cell) -> Result<u64, E>,
    ) -> Result<Answer, E> {
        let Some(mut cell) = self.next_cell()? else {
            return Ok(self.answer()?);
        };
        loop {
            match self.look(look(cell)?)? {
                Came::Next(next) => cell = next,
                Came::Done(answer) => return Ok(answer),
            }
        }
    }
}
