//! The calls of `track.h`, and the only unsafe code of this package.
use std::cell::UnsafeCell;
use std::ptr::null_mut;

use crate::error::{check, check_read, Error};

#[repr(C)]
struct Raw {
    full: bool,
    at: *mut u8,
}

#[repr(C)]
#[derive(Clone, Copy, Default)]
pub(crate) struct Refusal {
    pub cause: u32,
    pub line: u32,
    pub node: u32,
}

#[repr(C)]
#[derive(Clone, Copy, Default)]
pub(crate) struct Sizes {
    pub nodes: u32,
    pub levels: u32,
    pub k: u32,
    pub subs: u32,
}

#[repr(C)]
#[derive(Clone, Copy, Default)]
pub(crate) struct EdgeFields {
    pub a: u32,
    pub b: u32,
    pub weight: u64,
}

#[repr(C)]
#[derive(Clone, Copy, Default)]
pub(crate) struct CellFields {
    pub kind: u32,
    pub node: u32,
    pub level: u32,
    pub cluster: u32,
    pub sub: u32,
}

#[repr(C)]
#[derive(Clone, Copy, Default)]
pub(crate) struct PutFields {
    pub cell: CellFields,
    pub word: u64,
}

#[repr(C)]
#[derive(Clone, Copy, Default)]
pub(crate) struct AnswerFields {
    pub kind: u32,
    pub why: u32,
    pub node: u32,
    pub number: u32,
    pub climbed: u32,
    pub level: u32,
    pub weight: u64,
}

#[repr(C)]
#[derive(Clone, Copy, Default)]
pub(crate) struct CensusFields {
    pub ticket: u64,
    pub who: u64,
    pub count: u32,
}

#[repr(C)]
#[derive(Clone, Copy, Default)]
pub(crate) struct RoomFields {
    pub looks: u64,
    pub puts: u64,
}

#[repr(C)]
#[derive(Clone, Copy, Default)]
pub(crate) struct PlaceFields {
    pub sub: u32,
    pub node: u32,
    pub number: u32,
    pub off: u32,
}

#[repr(C)]
#[derive(Clone, Copy, Default)]
pub(crate) struct WordFields {
    pub kind: u32,
    pub number: u32,
    pub node: u32,
}

extern "C" {
    fn track_plan_read(
        text: *const u8,
        length: usize,
        plan: *mut Raw,
        refusal: *mut Refusal,
    ) -> u32;
    fn track_plan_build(
        nodes: u32,
        k: u32,
        edges: *const EdgeFields,
        count: usize,
        plan: *mut Raw,
        refusal: *mut Refusal,
    ) -> u32;
    fn track_plan_share(plan: *mut Raw, other: *mut Raw) -> u32;
    fn track_plan_sizes(plan: *mut Raw, sizes: *mut Sizes) -> u32;
    fn track_plan_start(plan: *mut Raw, sub: u32, node: *mut u32) -> u32;
    fn track_plan_opening(
        plan: *mut Raw,
        sub: u32,
        node: u32,
        index: u32,
        put: *mut PutFields,
    ) -> u32;
    fn track_plan_room(plan: *mut Raw, node: u32, room: *mut RoomFields) -> u32;
    fn track_finder_new(plan: *mut Raw, from: u32, sub: u32, subs: u32, finder: *mut Raw) -> u32;
    fn track_finder_next(finder: *mut Raw, cell: *mut CellFields) -> u32;
    fn track_finder_saw(finder: *mut Raw, word: u64) -> u32;
    fn track_finder_answer(finder: *mut Raw, answer: *mut AnswerFields) -> u32;
    fn track_finder_look(
        finder: *mut Raw,
        word: u64,
        cell: *mut CellFields,
        answer: *mut AnswerFields,
    ) -> u32;
    fn track_finder_again(finder: *mut Raw, from: u32, sub: u32, subs: u32) -> u32;
    fn track_mover_new(plan: *mut Raw, sub: u32, node: u32, mover: *mut Raw) -> u32;
    fn track_mover_move(mover: *mut Raw, to: u32) -> u32;
    fn track_mover_switch(mover: *mut Raw, off: bool) -> u32;
    fn track_mover_next(mover: *mut Raw, put: *mut PutFields) -> u32;
    fn track_mover_made(mover: *mut Raw) -> u32;
    fn track_mover_place(mover: *mut Raw, place: *mut PlaceFields) -> u32;
    fn track_mover_length(mover: *mut Raw, count: *mut u32) -> u32;
    fn track_mover_save(mover: *mut Raw, words: *mut u64, count: usize) -> u32;
    fn track_mover_load(
        plan: *mut Raw,
        words: *const u64,
        count: usize,
        mover: *mut Raw,
    ) -> u32;
    fn track_crew_new(
        plan: *mut Raw,
        starts: *const u32,
        count: usize,
        callers: u32,
        crew: *mut Raw,
    ) -> u32;
    fn track_crew_next(crew: *mut Raw, member: *mut Raw, number: *mut u32) -> u32;
    fn track_actor_reserve(actor: *mut Raw, visits: u64) -> u32;
    fn track_caller_find(caller: *mut Raw, from: u32, sub: u32, answer: *mut AnswerFields) -> u32;
    fn track_caller_census(caller: *mut Raw, node: u32, census: *mut CensusFields) -> u32;
    fn track_subscriber_move(subscriber: *mut Raw, to: u32) -> u32;
    fn track_subscriber_switch(subscriber: *mut Raw, off: bool) -> u32;
    fn track_subscriber_step(subscriber: *mut Raw, ticket: *mut u64) -> u32;
    fn track_mark_read(word: u64, fields: *mut WordFields) -> u32;
    fn track_mark_pack(fields: *const WordFields, word: *mut u64) -> u32;
    fn track_entry_read(word: u64, fields: *mut WordFields) -> u32;
    fn track_entry_pack(fields: *const WordFields, word: *mut u64) -> u32;
    fn track_close(handle: *mut Raw) -> u32;
}

/// An object of the library, closed as it is dropped. A handle serves one call at a time; this type
/// isn't `Sync`, so that all calls by `&self` come from the one thread that has it.
pub(crate) struct Handle(UnsafeCell<Raw>);

// SAFETY: the library proves that what a handle holds may go to another thread.
unsafe impl Send for Handle {}

impl Drop for Handle {
    fn drop(&mut self) {
        // SAFETY: the handle is empty, which is refused, or as the library wrote it.
        unsafe { track_close(self.0.get()) };
    }
}

impl Handle {
    fn empty() -> Self {
        Self(UnsafeCell::new(Raw {
            full: false,
            at: null_mut(),
        }))
    }

    pub fn read_plan(text: &[u8]) -> Result<Self, Error> {
        let (handle, mut refusal) = (Self::empty(), Refusal::default());
        // SAFETY: pointer and length are those of one slice, which is lent for the call; the handle is empty.
        let code =
            unsafe { track_plan_read(text.as_ptr(), text.len(), handle.0.get(), &mut refusal) };
        check_read(code, refusal)?;
        Ok(handle)
    }

    pub fn build_plan(nodes: u32, k: u32, edges: &[EdgeFields]) -> Result<Self, Error> {
        let (handle, mut refusal) = (Self::empty(), Refusal::default());
        // SAFETY: pointer and count are those of one slice, which is lent for the call; the handle is empty.
        let code = unsafe {
            track_plan_build(
                nodes,
                k,
                edges.as_ptr(),
                edges.len(),
                handle.0.get(),
                &mut refusal,
            )
        };
        check_read(code, refusal)?;
        Ok(handle)
    }

    /// A new object by a call that writes a handle.
    fn made(call: impl FnOnce(*mut Raw) -> u32) -> Result<Self, Error> {
        let handle = Self::empty();
        check(call(handle.0.get()))?;
        Ok(handle)
    }

    /// What a call writes into a place of its own.
    fn told<T: Default>(&self, call: impl FnOnce(*mut Raw, *mut T) -> u32) -> Result<T, Error> {
        let mut place = T::default();
        check(call(self.0.get(), &mut place))?;
        Ok(place)
    }

    // SAFETY of the calls below: each handle is as the library wrote it, two in one call are apart, and what else is
    // lent is a place of the type that track.h names.

    pub fn share(&self) -> Result<Self, Error> {
        Self::made(|other| unsafe { track_plan_share(self.0.get(), other) })
    }

    pub fn sizes(&self) -> Result<Sizes, Error> {
        self.told(|plan, sizes| unsafe { track_plan_sizes(plan, sizes) })
    }

    pub fn start(&self, sub: u32) -> Result<u32, Error> {
        self.told(|plan, node| unsafe { track_plan_start(plan, sub, node) })
    }

    pub fn opening(&self, sub: u32, node: u32, index: u32) -> Result<PutFields, Error> {
        self.told(|plan, put| unsafe { track_plan_opening(plan, sub, node, index, put) })
    }

    pub fn room(&self, node: u32) -> Result<RoomFields, Error> {
        self.told(|plan, room| unsafe { track_plan_room(plan, node, room) })
    }

    pub fn finder(&self, from: u32, sub: u32, subs: u32) -> Result<Self, Error> {
        Self::made(|finder| unsafe { track_finder_new(self.0.get(), from, sub, subs, finder) })
    }

    pub fn next_look(&self) -> Result<CellFields, Error> {
        self.told(|finder, cell| unsafe { track_finder_next(finder, cell) })
    }

    pub fn saw(&self, word: u64) -> Result<(), Error> {
        check(unsafe { track_finder_saw(self.0.get(), word) })
    }

    pub fn answer(&self) -> Result<AnswerFields, Error> {
        self.told(|finder, answer| unsafe { track_finder_answer(finder, answer) })
    }

    /// The cell to look at next, or else the answer.
    pub fn look(&self, word: u64) -> Result<Result<CellFields, AnswerFields>, Error> {
        let (mut cell, mut answer) = (CellFields::default(), AnswerFields::default());
        let code = unsafe { track_finder_look(self.0.get(), word, &mut cell, &mut answer) };
        match check(code) {
            Err(Error::Ended) => Ok(Err(answer)),
            told => told.map(|()| Ok(cell)),
        }
    }

    pub fn again(&self, from: u32, sub: u32, subs: u32) -> Result<(), Error> {
        check(unsafe { track_finder_again(self.0.get(), from, sub, subs) })
    }

    pub fn mover(&self, sub: u32, node: u32) -> Result<Self, Error> {
        Self::made(|mover| unsafe { track_mover_new(self.0.get(), sub, node, mover) })
    }

    pub fn move_to(&self, to: u32) -> Result<(), Error> {
        check(unsafe { track_mover_move(self.0.get(), to) })
    }

    pub fn switch(&self, off: bool) -> Result<(), Error> {
        check(unsafe { track_mover_switch(self.0.get(), off) })
    }

    pub fn next_put(&self) -> Result<PutFields, Error> {
        self.told(|mover, put| unsafe { track_mover_next(mover, put) })
    }

    pub fn made_put(&self) -> Result<(), Error> {
        check(unsafe { track_mover_made(self.0.get()) })
    }

    pub fn save(&self) -> Result<Vec<u64>, Error> {
        let count: u32 = self.told(|mover, count| unsafe { track_mover_length(mover, count) })?;
        let mut words = vec![0; count as usize];
        check(unsafe { track_mover_save(self.0.get(), words.as_mut_ptr(), words.len()) })?;
        Ok(words)
    }

    pub fn load(&self, words: &[u64]) -> Result<Self, Error> {
        Self::made(|mover| unsafe {
            track_mover_load(self.0.get(), words.as_ptr(), words.len(), mover)
        })
    }

    pub fn place(&self) -> Result<PlaceFields, Error> {
        self.told(|mover, place| unsafe { track_mover_place(mover, place) })
    }

    pub fn crew(&self, starts: &[u32], callers: u32) -> Result<Self, Error> {
        let (first, count) = (starts.as_ptr(), starts.len());
        Self::made(|crew| unsafe { track_crew_new(self.0.get(), first, count, callers, crew) })
    }

    pub fn next_member(&self) -> Result<(Self, u32), Error> {
        let mut number = 0;
        let member =
            Self::made(|member| unsafe { track_crew_next(self.0.get(), member, &mut number) })?;
        Ok((member, number))
    }

    pub fn reserve(&self, visits: u64) -> Result<(), Error> {
        check(unsafe { track_actor_reserve(self.0.get(), visits) })
    }

    pub fn find(&self, from: u32, sub: u32) -> Result<AnswerFields, Error> {
        self.told(|caller, answer| unsafe { track_caller_find(caller, from, sub, answer) })
    }

    pub fn census(&self, node: u32) -> Result<CensusFields, Error> {
        self.told(|caller, census| unsafe { track_caller_census(caller, node, census) })
    }

    pub fn begin_move(&self, to: u32) -> Result<(), Error> {
        check(unsafe { track_subscriber_move(self.0.get(), to) })
    }

    pub fn begin_switch(&self, off: bool) -> Result<(), Error> {
        check(unsafe { track_subscriber_switch(self.0.get(), off) })
    }

    pub fn step(&self) -> Result<u64, Error> {
        self.told(|subscriber, ticket| unsafe { track_subscriber_step(subscriber, ticket) })
    }
}

pub(crate) fn read_mark(word: u64) -> Result<WordFields, Error> {
    let mut fields = WordFields::default();
    // SAFETY: the place is of the type that track.h names.
    check(unsafe { track_mark_read(word, &mut fields) })?;
    Ok(fields)
}

pub(crate) fn pack_mark(fields: WordFields) -> Result<u64, Error> {
    let mut word = 0;
    // SAFETY: as above.
    check(unsafe { track_mark_pack(&fields, &mut word) })?;
    Ok(word)
}

pub(crate) fn read_entry(word: u64) -> Result<WordFields, Error> {
    let mut fields = WordFields::default();
    // SAFETY: as above.
    check(unsafe { track_entry_read(word, &mut fields) })?;
    Ok(fields)
}

pub(crate) fn pack_entry(fields: WordFields) -> Result<u64, Error> {
    let mut word = 0;
    // SAFETY: as above.
    check(unsafe { track_entry_pack(&fields, &mut word) })?;
    Ok(word)
}
