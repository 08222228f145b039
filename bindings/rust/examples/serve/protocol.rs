//! One line comes, one line goes.
use std::fmt;

use track::{Error, Outcome, Why};

/// What clients ask for.
pub enum Request {
    New { node: u32 },
    Move { sub: u32, node: u32 },
    Switch { sub: u32, off: bool },
    Find { from: u32, sub: u32 },
    Quit,
}

impl Request {
    pub fn read(line: &str) -> Option<Request> {
        let mut words = line.split_ascii_whitespace();
        let word = words.next()?;
        let numbers: Vec<u32> = words.map(|it| it.parse().ok()).collect::<Option<_>>()?;
        Some(match (word, numbers.as_slice()) {
            ("new", &[node]) => Request::New { node },
            ("move", &[sub, node]) => Request::Move { sub, node },
            ("off", &[sub]) => Request::Switch { sub, off: true },
            ("on", &[sub]) => Request::Switch { sub, off: false },
            ("find", &[from, sub]) => Request::Find { from, sub },
            ("quit", []) => Request::Quit,
            _ => return None,
        })
    }
}

/// What they are told.
pub enum Reply {
    Sub(u32),
    Done,
    Found(Outcome),
    Refused(&'static str),
}

impl From<Error> for Reply {
    fn from(error: Error) -> Reply {
        Reply::Refused(match error {
            Error::NoNode => "node",
            Error::NoSubscriber => "subscriber",
            Error::SamePlace => "place",
            Error::IsOff => "off",
            Error::Already => "already",
            _ => "memory",
        })
    }
}

impl fmt::Display for Reply {
    fn fmt(&self, f: &mut fmt::Formatter<'_>) -> fmt::Result {
        match self {
            Reply::Sub(sub) => write!(f, "sub {sub}"),
            Reply::Done => f.write_str("ok"),
            Reply::Found(Outcome::At {
                node, off: false, ..
            }) => write!(f, "at {node}"),
            Reply::Found(Outcome::At {
                node, off: true, ..
            }) => write!(f, "off {node}"),
            Reply::Found(Outcome::Again(why)) => write!(f, "again {}", name_of(*why)),
            Reply::Refused(cause) => write!(f, "refused {cause}"),
        }
    }
}

/// What a directory and a plain map both serve.
pub trait Service: Send + Sync {
    fn serve(&self, caller: usize, request: Request) -> Reply;
}

pub fn name_of(why: Why) -> &'static str {
    match why {
        Why::EmptyMark(_) => "empty",
        Why::NoEntry => "none",
        Why::Chased => "chased",
    }
}
