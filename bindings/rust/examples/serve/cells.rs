//! The directory over cells in memory.
use std::collections::HashMap;
use std::sync::{Arc, Mutex, RwLock};

use track::{Cell, Error, Mover, Plan};

use crate::lock;
use crate::protocol::{Reply, Request, Service};
use crate::record::{told, Actor, Record, Span};

/// The directory: the cells of each node behind its lock, and the subscribers' movers.
pub struct Directory {
    plan: Mutex<Plan>,
    cells: Vec<Mutex<HashMap<Cell, u64>>>,
    movers: RwLock<Vec<Arc<Mutex<Mover>>>>,
    pub record: Option<Record>,
}

impl Directory {
    pub fn new(plan: Plan, is_recorded: bool) -> Directory {
        let cells = (0..plan.nodes()).map(|_| Mutex::default()).collect();
        let record = is_recorded.then(Record::default);
        Directory {
            plan: Mutex::new(plan),
            cells,
            movers: RwLock::default(),
            record,
        }
    }

    /// One visit: the cell's node is locked, and a ticket is drawn.
    fn visit<T>(
        &self,
        cell: Cell,
        actor: Actor,
        span: &mut Span,
        deed: impl FnOnce(&mut HashMap<Cell, u64>) -> T,
    ) -> T {
        let mut cells = lock(&self.cells[cell.node() as usize]);
        if let Some(record) = &self.record {
            span.add(record.draw(actor));
        }
        deed(&mut cells)
    }

    fn mover(&self, sub: u32) -> Result<Arc<Mutex<Mover>>, Error> {
        let movers = self
            .movers
            .read()
            .unwrap_or_else(|broken| broken.into_inner());
        movers.get(sub as usize).cloned().ok_or(Error::NoSubscriber)
    }

    /// A new subscriber, which nobody can ask for before its cells stand.
    fn add(&self, node: u32) -> Result<Reply, Error> {
        let mut movers = self
            .movers
            .write()
            .unwrap_or_else(|broken| broken.into_inner());
        if self.record.is_some() && movers.len() == 64 {
            return Ok(Reply::Refused("full"));
        }
        let sub = movers.len() as u32;
        let (puts, mover) = {
            let plan = lock(&self.plan);
            (plan.opening(sub, node)?, plan.mover(sub, node)?)
        };
        for put in puts {
            lock(&self.cells[put.cell.node() as usize]).insert(put.cell, put.word);
        }
        if let Some(record) = &self.record {
            lock(&record.starts).push(node);
        }
        movers.push(Arc::new(Mutex::new(mover)));
        Ok(Reply::Sub(sub))
    }

    /// All puts of a step that was begun. Its cells are in memory, so that none can fail.
    fn write(&self, mover: &mut Mover) -> Result<Span, Error> {
        let (mut span, before) = (Span::default(), mover.place()?);
        while let Some(put) = mover.next_put()? {
            self.visit(
                put.cell,
                Actor::Subscriber(before.sub),
                &mut span,
                |cells| match put.word {
                    0 => cells.remove(&put.cell),
                    word => cells.insert(put.cell, word),
                },
            );
            let number = mover.place()?.number;
            mover.made()?;
            if mover.place()?.number != number {
                span.commit = span.last;
            }
        }
        Ok(span)
    }

    fn move_to(&self, sub: u32, to: u32) -> Result<Reply, Error> {
        let mover = self.mover(sub)?;
        let mut mover = lock(&mover);
        let from = mover.place()?.node;
        mover.move_to(to)?;
        let span = self.write(&mut mover)?;
        if let (Some(record), Some(first)) = (&self.record, span.first) {
            let number = mover.place()?.number;
            let line = format!(
                "move @ {number} {from} {to} weight - first {first} commit {} last {}",
                span.commit, span.last
            );
            record.tell(Actor::Subscriber(sub), format!("move @ {to}"), line);
        }
        Ok(Reply::Done)
    }

    fn switch(&self, sub: u32, off: bool) -> Result<Reply, Error> {
        let mover = self.mover(sub)?;
        let mut mover = lock(&mover);
        mover.switch(off)?;
        let (span, place, word) = (
            self.write(&mut mover)?,
            mover.place()?,
            if off { "off" } else { "on" },
        );
        if let (Some(record), Some(first)) = (&self.record, span.first) {
            let line = format!(
                "switch @ {word} {} number {} ticket {first}",
                place.node, place.number
            );
            record.tell(Actor::Subscriber(sub), format!("{word} @"), line);
        }
        Ok(Reply::Done)
    }

    fn find(&self, caller: usize, from: u32, sub: u32) -> Result<Reply, Error> {
        self.mover(sub)?;
        let mut finder = lock(&self.plan).find(from, sub)?;
        let mut span = Span::default();
        let answer = finder.run(|cell| {
            let word = self.visit(cell, Actor::Caller(caller), &mut span, |cells| {
                cells.get(&cell).copied()
            });
            Ok::<u64, Error>(word.unwrap_or(0))
        })?;
        if let (Some(record), Some(first)) = (&self.record, span.first) {
            let line = format!(
                "{} weight {} first {first} last {}",
                told(from, sub, &answer),
                answer.weight,
                span.last
            );
            record.tell(Actor::Caller(caller), format!("find @ {from} {sub}"), line);
        }
        Ok(Reply::Found(answer.outcome))
    }
}

impl Service for Directory {
    fn serve(&self, caller: usize, request: Request) -> Reply {
        let served = match request {
            Request::New { node } => self.add(node),
            Request::Move { sub, node } => self.move_to(sub, node),
            Request::Switch { sub, off } => self.switch(sub, off),
            Request::Find { from, sub } => self.find(caller, from, sub),
            Request::Quit => Ok(Reply::Done),
        };
        served.unwrap_or_else(Reply::from)
    }
}
