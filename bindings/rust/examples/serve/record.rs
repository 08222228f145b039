//! What a server has seen: an input whose order is that of the visits, and the lines that its replay has to have.
use std::collections::HashMap;
use std::fmt::Write as _;
use std::sync::atomic::{AtomicU32, Ordering::SeqCst};
use std::sync::Mutex;

use track::{Answer, Outcome, Why};

use crate::protocol::name_of;
use crate::{lock, MOST_CALLERS};

/// An actor of the record: its calls as an input has them, and the lines that their replay has to have.
#[derive(Default)]
pub struct Told {
    calls: Vec<String>,
    lines: Vec<String>,
}

/// What is recorded: whose visit each ticket was, and what each actor was told.
#[derive(Default)]
pub struct Record {
    visits: Mutex<Vec<(u32, Actor)>>,
    tickets: AtomicU32,
    pub starts: Mutex<Vec<u32>>,
    told: Mutex<HashMap<Actor, Told>>,
}

#[derive(Clone, Copy, PartialEq, Eq, Hash)]
pub enum Actor {
    Subscriber(u32),
    Caller(usize),
}

impl Record {
    /// The next ticket, drawn while the visited node is locked: so tickets agree with each node and each actor.
    pub fn draw(&self, actor: Actor) -> u32 {
        let ticket = self.tickets.fetch_add(1, SeqCst);
        lock(&self.visits).push((ticket, actor));
        ticket
    }

    pub fn tell(&self, actor: Actor, call: String, line: String) {
        let mut told = lock(&self.told);
        let told = told.entry(actor).or_default();
        told.calls.push(call);
        told.lines.push(line);
    }

    /// The input, and the lines that its replay has to have.
    pub fn texts(&self, network: &str) -> (String, String) {
        let (starts, told) = (lock(&self.starts), lock(&self.told));
        let number = |actor| match actor {
            Actor::Subscriber(sub) => sub as usize,
            Actor::Caller(caller) => starts.len() + caller,
        };
        let (mut input, mut seen) = (String::from(network), String::new());
        for start in starts.iter() {
            let _ = writeln!(input, "sub {start}");
        }
        let _ = writeln!(input, "callers {MOST_CALLERS}");
        let mut actors: Vec<_> = told.keys().copied().collect();
        actors.sort_by_key(|actor| number(*actor));
        for actor in actors {
            for call in &told[&actor].calls {
                let _ = writeln!(input, "{}", call.replace('@', &number(actor).to_string()));
            }
            for line in &told[&actor].lines {
                let _ = writeln!(seen, "{}", line.replace('@', &number(actor).to_string()));
            }
        }
        let mut visits = lock(&self.visits).clone();
        visits.sort_by_key(|(ticket, _)| *ticket);
        for line in visits.chunks(64) {
            let actors: Vec<String> = line
                .iter()
                .map(|(_, actor)| number(*actor).to_string())
                .collect();
            let _ = writeln!(input, "order {}", actors.join(" "));
            let _ = writeln!(seen, "order {}", actors.join(" "));
        }
        let _ = writeln!(seen, "end {}", visits.len());
        (input, seen)
    }
}

/// The first and the last ticket of a call, and that of a move's commit.
#[derive(Clone, Copy, Default)]
pub struct Span {
    pub first: Option<u32>,
    pub commit: u32,
    pub last: u32,
}

impl Span {
    pub fn add(&mut self, ticket: u32) {
        self.first.get_or_insert(ticket);
        self.last = ticket;
    }
}

/// The front of a find's line.
pub fn told(from: u32, sub: u32, answer: &Answer) -> String {
    let level = answer.level.map_or("-".into(), |level| level.to_string());
    match answer.outcome {
        Outcome::At { node, number, off } => {
            let word = if off { "off" } else { "find" };
            format!("{word} @ {from} {sub} at {node} number {number} level {level}")
        }
        Outcome::Again(Why::EmptyMark(node)) => format!("again @ {from} {sub} empty {node}"),
        Outcome::Again(why) => format!("again @ {from} {sub} {}", name_of(why)),
    }
}
