//! The proved decisions of a directory of mobile subscribers: what a move writes next, where a find looks next, and what
//! its answer is. The cells are the caller's: one 64-bit word each, read and written in one step, in memory, in Redis, in
//! etcd. docs/EMBEDDING.md says what a store owes, and what is proved.
//!
//! ```
//! use std::collections::HashMap;
//! use track::{Error, Outcome, Plan};
//!
//! fn main() -> Result<(), Error> {
//!     let plan = Plan::read(b"track 1\nnodes 3\nk 2\nedge 0 1 4\nedge 1 2 3\nsub 2\ncallers 1\n")?;
//!     let mut cells: HashMap<_, u64> = HashMap::new();
//!     for put in plan.opening(0, plan.start(0)?)? {
//!         cells.insert(put.cell, put.word);
//!     }
//!     let mut mover = plan.mover(0, 2)?;
//!     mover.move_to(1)?;
//!     mover.run(|cell, word| {
//!         cells.insert(cell, word);
//!         Ok::<(), Error>(())
//!     })?;
//!     let answer = plan.find(0, 0)?.run(|cell| Ok::<u64, Error>(cells.get(&cell).copied().unwrap_or(0)))?;
//!     assert_eq!(answer.outcome, Outcome::At { node: 1, number: 1, off: false });
//!     Ok(())
//! }
//! ```
//!
//! Where a text says no network, the error tells the line and the cause:
//!
//! ```
//! use track::{Cause, Error, Plan};
//!
//! let refused = Plan::read(b"track 1\nnodes x\n").err();
//! assert_eq!(refused, Some(Error::BadNetwork { cause: Cause::Form, line: 2 }));
//! ```
//!
//! An object may go to another thread, and isn't shared between threads:
//!
//! ```
//! let plan = track::Plan::read(b"track 1\nnodes 1\nk 1\nsub 0\ncallers 0\n").unwrap();
//! let other = plan.share().unwrap();
//! std::thread::spawn(move || other.nodes()).join().unwrap();
//! ```
//!
//! ```compile_fail
//! let plan = track::Plan::read(b"track 1\nnodes 1\nk 1\nsub 0\ncallers 0\n").unwrap();
//! std::thread::scope(|scope| scope.spawn(|| plan.nodes()).join().unwrap());
//! ```
#![deny(unsafe_code, missing_docs)]

mod cells;
mod crew;
mod error;
mod finder;
mod mover;
mod plan;
#[allow(unsafe_code)]
mod sys;

pub use cells::{Address, Cell, Mark, Put};
pub use crew::{Caller, Census, Crew, Member, Subscriber};
pub use error::{Cause, Error};
pub use finder::{Answer, Came, Finder, Outcome, Why};
pub use mover::{Mover, Place};
pub use plan::{Edge, Plan, Room};
