//! What the directory is compared with: one map behind one lock.
use std::sync::Mutex;

use track::Outcome;

use crate::lock;
use crate::protocol::{Reply, Request, Service};

/// One map behind one lock: where each subscriber is, and whether it is off.
pub struct PlainMap {
    pub nodes: u32,
    pub places: Mutex<Vec<(u32, bool)>>,
}

impl Service for PlainMap {
    fn serve(&self, _: usize, request: Request) -> Reply {
        let mut places = lock(&self.places);
        match request {
            Request::New { node } | Request::Move { node, .. } if node >= self.nodes => {
                Reply::Refused("node")
            }
            Request::Find { from, .. } if from >= self.nodes => Reply::Refused("node"),
            Request::New { node } => {
                places.push((node, false));
                Reply::Sub(places.len() as u32 - 1)
            }
            Request::Move { sub, .. } | Request::Switch { sub, .. } | Request::Find { sub, .. }
                if sub as usize >= places.len() =>
            {
                Reply::Refused("subscriber")
            }
            Request::Move { sub, node } => match &mut places[sub as usize] {
                (_, true) => Reply::Refused("off"),
                (at, _) if *at == node => Reply::Refused("place"),
                (at, _) => {
                    *at = node;
                    Reply::Done
                }
            },
            Request::Switch { sub, off } if places[sub as usize].1 == off => {
                Reply::Refused("already")
            }
            Request::Switch { sub, off } => {
                places[sub as usize].1 = off;
                Reply::Done
            }
            Request::Find { sub, .. } => {
                let (node, off) = places[sub as usize];
                Reply::Found(Outcome::At {
                    node,
                    number: 0,
                    off,
                })
            }
            Request::Quit => Reply::Done,
        }
    }
}
