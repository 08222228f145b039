//! What calls refuse, what stands after a refusal, and what words say: tables that one function plays.
use std::collections::HashMap;

use track::{
    Address, Caller, Came, Cause, Cell, Edge, Error, Mark, Member, Mover, Outcome, Place, Plan, Put,
    Subscriber,
};

const LINE: &[u8] =
    b"track 2\nnodes 4\nk 2\nedge 0 1 1\nedge 1 2 1\nedge 2 3 1\nsub 3\ncallers 1\n";

type Cells = HashMap<Cell, u64>;

fn opened() -> (Plan, Cells, Mover) {
    let plan = Plan::read(LINE).expect("a plan");
    let cells = plan
        .opening(0, 3)
        .expect("an opening")
        .into_iter()
        .map(|Put { cell, word }| (cell, word))
        .collect();
    let mover = plan.mover(0, 3).expect("a mover");
    (plan, cells, mover)
}

fn make(mover: &mut Mover, cells: &mut Cells) {
    mover
        .run(|cell, word| {
            cells.insert(cell, word);
            Ok::<(), Error>(())
        })
        .expect("puts");
}

fn find(plan: &Plan, cells: &Cells, from: u32) -> Outcome {
    let mut finder = plan.find(from, 0).expect("a find");
    finder
        .run(|cell| Ok::<u64, Error>(cells.get(&cell).copied().unwrap_or(0)))
        .expect("an answer")
        .outcome
}

#[test]
fn refusals() {
    let begun = || {
        let (plan, cells, mut mover) = opened();
        mover.move_to(1).expect("a move");
        (plan, cells, mover)
    };
    let rows: [(&str, Option<Error>, Error); 9] = [
        (
            "a find from no node",
            opened().0.find(4, 0).err(),
            Error::NoNode,
        ),
        (
            "a start of nobody",
            opened().0.start(1).err(),
            Error::NoSubscriber,
        ),
        (
            "a mover at no node",
            opened().0.mover(0, 4).err(),
            Error::NoNode,
        ),
        (
            "a move to nowhere",
            opened().2.move_to(4).err(),
            Error::NoNode,
        ),
        (
            "a move to where it is",
            opened().2.move_to(3).err(),
            Error::SamePlace,
        ),
        ("a put too many", opened().2.made().err(), Error::AtRest),
        ("on already", opened().2.switch(false).err(), Error::Already),
        (
            "a move within a move",
            begun().2.move_to(2).err(),
            Error::UnderWay,
        ),
        (
            "a word of nothing",
            opened()
                .0
                .find(0, 0)
                .and_then(|mut it| it.saw(u64::MAX))
                .err(),
            Error::BadWord,
        ),
    ];
    for (name, found, wanted) in rows {
        assert_eq!(found, Some(wanted), "{name}");
    }
}

#[test]
fn moves_and_finds() {
    let (plan, mut cells, mut mover) = opened();
    for (number, to) in [0, 3, 1, 2].into_iter().enumerate() {
        mover.move_to(to).expect("a move");
        make(&mut mover, &mut cells);
        let number = number as u32 + 1;
        assert_eq!(
            mover.place().expect("a place"),
            Place {
                sub: 0,
                node: to,
                number,
                off: false
            }
        );
        for from in 0..4 {
            assert_eq!(
                find(&plan, &cells, from),
                Outcome::At {
                    node: to,
                    number,
                    off: false
                }
            );
        }
    }
    mover.switch(true).expect("off");
    make(&mut mover, &mut cells);
    assert_eq!(
        find(&plan, &cells, 0),
        Outcome::At {
            node: 2,
            number: 4,
            off: true
        }
    );
}

#[test]
fn a_put_that_fails_comes_again() {
    let (_, _, mut mover) = opened();
    mover.move_to(0).expect("a move");
    let first = mover.next_put().expect("a put");
    let failed = mover.run(|_, _| Err(Error::NoMemory));
    assert_eq!(
        (failed, mover.next_put().expect("a put")),
        (Err(Error::NoMemory), first)
    );
}

#[test]
fn a_mover_outlives_its_process() {
    let (plan, _, mut mover) = opened();
    mover.move_to(0).expect("a move");
    while mover.next_put().expect("a put").is_some() {
        let state = mover.save().expect("a state");
        let again = plan.load(&state).expect("a mover");
        assert_eq!(
            (again.next_put(), again.place(), again.save()),
            (mover.next_put(), mover.place(), Ok(state))
        );
        mover.made().expect("a put");
    }
    let mut state = mover.save().expect("a state");
    assert_eq!(plan.load(&state[..11]).err(), Some(Error::ShortState));
    state[1] = 4;
    assert_eq!(plan.load(&state).err(), Some(Error::NoNode));
    state[1] = 1 << 32;
    assert_eq!(plan.load(&state).err(), Some(Error::GarbledState));
}

#[test]
fn edges_make_the_same_plan() {
    let edges: Vec<Edge> = (0..3)
        .map(|a| Edge {
            a,
            b: a + 1,
            weight: 1,
        })
        .collect();
    let (built, read) = (Plan::build(4, 2, &edges).expect("a plan"), opened().0);
    for node in 0..4 {
        assert_eq!(built.opening(0, node), read.opening(0, node));
    }
    let beyond = [
        edges.as_slice(),
        &[Edge {
            a: 3,
            b: 4,
            weight: 1,
        }],
    ]
    .concat();
    assert_eq!(
        Plan::build(4, 2, &beyond).err(),
        Some(Error::BadNetwork {
            cause: Cause::Unknown,
            line: 4
        })
    );
}

#[test]
fn a_find_takes_a_call_for_each_look() {
    let (plan, cells, _) = opened();
    let room = plan.room(0).expect("room");
    assert_eq!(room.puts, u64::from(3 + 2 * plan.levels() + plan.nodes()));
    assert_eq!(plan.room(4).err(), Some(Error::NoNode));
    let mut finder = plan.find(0, 0).expect("a find");
    let first = finder.next_cell().expect("a look").expect("a cell");
    let (mut came, mut looks) = (Came::Next(first), 0);
    while let Came::Next(cell) = came {
        came = finder
            .look(cells.get(&cell).copied().unwrap_or(0))
            .expect("a look");
        looks += 1;
    }
    assert!(looks <= room.looks);
    assert_eq!(came, Came::Done(finder.answer().expect("an answer")));
    assert_eq!(finder.look(u64::MAX), Ok(came));
    assert_eq!(finder.again(4, 0), Err(Error::NoNode));
    assert_eq!(finder.look(0), Ok(came));
    assert_eq!(finder.again(3, 0), Ok(()));
    assert_eq!(finder.look(u64::MAX), Err(Error::BadWord));
    assert_eq!(finder.answer(), Err(Error::Looking));
    let answer = finder.run(|cell| Ok::<u64, Error>(cells.get(&cell).copied().unwrap_or(0)));
    assert_eq!(answer.map(|it| it.weight), Ok(0));
}

#[test]
fn words() {
    let marks = [
        Mark::Nothing,
        Mark::Here {
            number: 0,
            off: false,
        },
        Mark::Here {
            number: 7,
            off: true,
        },
        Mark::Gone { number: 3, to: 2 },
        Mark::Coming {
            number: u32::MAX,
            from: 1023,
        },
    ];
    for mark in marks {
        assert_eq!(mark.pack().and_then(Mark::read), Ok(mark));
    }
    for address in [
        None,
        Some(Address { number: 0, node: 0 }),
        Some(Address {
            number: u32::MAX,
            node: 1023,
        }),
    ] {
        assert_eq!(Address::pack(address).and_then(Address::read), Ok(address));
    }
}

/// A crew of the line of four: one subscriber at node 3, and one caller.
fn crew_of_two() -> (Subscriber, Caller) {
    let plan = Plan::read(LINE).expect("a plan");
    let mut crew = plan.crew(&[3], 1).expect("a crew");
    let first = crew.next_member().expect("a member");
    let second = crew.next_member().expect("a member");
    assert!(crew.next_member().expect("an end").is_none());
    match (first, second) {
        (Some(Member::Caller(1, caller)), Some(Member::Subscriber(0, subscriber))) => {
            (subscriber, caller)
        }
        _ => panic!("the caller comes first"),
    }
}

#[test]
fn a_crew_is_refused() {
    let plan = Plan::read(LINE).expect("a plan");
    assert_eq!(plan.crew(&[], 1).err(), Some(Error::NoSubscriber));
    assert_eq!(plan.crew(&[0; 65], 1).err(), Some(Error::CountTooLarge));
    assert_eq!(plan.crew(&[4], 1).err(), Some(Error::NoNode));
}

#[test]
fn members_of_a_crew_move_and_find_on_threads_of_their_own() {
    let (mut subscriber, mut caller) = crew_of_two();
    assert_eq!(caller.find(0, 0).err(), Some(Error::Unreserved));
    caller.reserve(1000).expect("room");
    subscriber.reserve(1000).expect("room");
    subscriber.move_to(1).expect("a move");
    assert_eq!(subscriber.move_to(2), Err(Error::UnderWay));
    let mover = std::thread::spawn(move || {
        while subscriber.step().expect("a put").is_some() {}
        subscriber
    });
    mover.join().expect("a thread");
    let answer = caller.find(0, 0).expect("an answer");
    let wanted = Outcome::At {
        node: 1,
        number: 1,
        off: false,
    };
    assert_eq!(answer.outcome, wanted);
    let listed = caller.census(1).expect("a census");
    assert_eq!(listed.subs, [0]);
    assert_eq!(
        caller.census(3).map(|it| (it.ticket, it.subs)),
        Ok((listed.ticket + 1, vec![]))
    );
    assert_eq!(caller.census(4).err(), Some(Error::NoNode));
}
