use std::marker::PhantomData;
use std::ops::Range;

use crate::place::{text, Place};
use crate::refused::{done, told};
use crate::sys::{self, hs_key_handle, hs_told};
use crate::{Code, Kind, Phase, Refused};

/// Knows the leases of a server task, and decides whether the task may serve a key. Readings are those of the task's clock.
#[derive(Debug)]
pub struct Slicelet(pub(crate) Place);

/// The lease under which a key is served. While it lives, the slicelet is borrowed, and so the lease is not released.
#[derive(Clone, Copy, Debug, PartialEq, Eq)]
pub struct Serving<'slicelet> {
    kind: Kind,
    generation: u64,
    number: u64,
    until: u64,
    covering: u64,
    slicelet: PhantomData<&'slicelet Slicelet>,
}

impl Serving<'_> {
    pub fn kind(&self) -> Kind {
        self.kind
    }

    pub fn generation(&self) -> u64 {
        self.generation
    }

    /// Of its grant.
    pub fn number(&self) -> u64 {
        self.number
    }

    /// The first reading of the task's clock at which it has ended.
    pub fn until(&self) -> u64 {
        self.until
    }

    /// The greatest generation of the held leases that cover the key, live or ended. It may be above `generation`.
    pub fn covering(&self) -> u64 {
        self.covering
    }

    // The lease that a call told, while its slicelet is borrowed.
    pub(crate) fn of(it: hs_told) -> Serving<'static> {
        let kind = Kind::from_number(it.kind).expect("a key is served under a lease of a kind");
        let hs_told { generation, number, until, covering, .. } = it;
        Serving { kind, generation, number, until, covering, slicelet: PhantomData }
    }
}

/// A key that the task held when it took the handle.
#[derive(Clone, Copy, Debug, PartialEq, Eq)]
pub struct Handle {
    pub task: u64,
    pub slice_key: u64,
    pub position: u64,
    pub life: u32,
}

/// A lease that a task holds.
#[derive(Clone, Copy, Debug, PartialEq, Eq)]
pub struct Lease {
    /// Of its grant.
    pub number: u64,
    /// That it was granted for.
    pub generation: u64,
    /// The first reading of the task's clock at which it has ended.
    pub until: u64,
}

/// What a task does next about its leases.
#[derive(Clone, Copy, Debug, PartialEq, Eq)]
#[non_exhaustive]
pub enum TaskAction {
    /// Starts a life.
    Start,
    /// Asks the table for a grant, which is of this kind now.
    Ask(Kind),
    /// Releases the lease of this kind, and sends the note to the table.
    GiveUp(Kind),
    /// Nothing.
    Rest,
}

impl Slicelet {
    /// The slicelet of a task of a job. The name of the job has at most 64 bytes, and `task` is 1 to 64; otherwise
    /// `WRONG_FORM`.
    pub fn new(job: &str, task: u64) -> Result<Slicelet, Refused> {
        let open =
            |place| done(unsafe { sys::hs_slicelet_open(place, job.as_ptr(), job.len(), task) });
        Place::open(open).map(Slicelet)
    }

    /// The slicelet of a task's new process. `life` is the greatest life that the task ever started, or a greater one: only
    /// lives above it are started. Never call it beside a process of the task that may still run.
    pub fn resume(job: &str, task: u64, life: u32) -> Result<Slicelet, Refused> {
        let open = |place| {
            done(unsafe { sys::hs_slicelet_resume(place, job.as_ptr(), job.len(), task, life) })
        };
        Place::open(open).map(Slicelet)
    }

    /// Starts a life of the task, which holds no lease yet. `OLD_LIFE`, `CLOCK_BACK`, `HISTORY_FULL`.
    pub fn start(&mut self, life: u32, at: u64) -> Result<(), Refused> {
        done(unsafe { sys::hs_slicelet_start(self.0.write(), life, at) })
    }

    /// Hears a grant, given as its message: its lease replaces the held one of its kind. Codes of messages, then
    /// `NOT_STARTED`, `CLOCK_BACK`, `OTHER_TASK`, `OTHER_LIFE`, `OLD`, `TOO_LATE`, `HISTORY_FULL`, `NO_MEMORY`.
    pub fn hear(&mut self, grant: &[u8], at: u64) -> Result<(), Refused> {
        let place = self.0.write();
        told(|it| unsafe { sys::hs_slicelet_hear(place, grant.as_ptr(), grant.len(), at, it) })
            .map(drop)
    }

    /// Gives up the lease of a kind, and returns the message of its note, for the table. `NOT_STARTED`, `CLOCK_BACK`,
    /// `NOTHING_HELD`, `HISTORY_FULL`, `NO_MEMORY`: the lease is still held.
    pub fn release(&mut self, kind: Kind, at: u64) -> Result<Vec<u8>, Refused> {
        let place = self.0.write();
        text(|out, length, needed| unsafe {
            sys::hs_slicelet_release(place, kind as u32, at, out, length, needed)
        })
    }

    /// The lease under which the task may serve a key now, or `DOWN`, `CLOCK_BACK`, `ENDED`, `NOT_OWNED` or `NO_LEASE`.
    /// Keep it until the answer is given.
    pub fn serve(&self, key: &[u8], at: u64) -> Result<Serving<'_>, Refused> {
        let ask =
            |it| unsafe { sys::hs_slicelet_serve(self.0.read(), key.as_ptr(), key.len(), at, it) };
        told(ask).map(Serving::of)
    }

    /// `serve` by slice key, without the hash of the key. `WRONG_FORM` if no key has this slice key, which is 2^63 or more.
    pub fn serve_at(&self, slice_key: u64, at: u64) -> Result<Serving<'_>, Refused> {
        let ask = |it| unsafe { sys::hs_slicelet_serve_at(self.0.read(), slice_key, at, it) };
        told(ask).map(Serving::of)
    }

    /// Takes a handle on a key if the task may serve it, and otherwise returns the code of `serve`.
    pub fn hold(&self, key: &[u8], at: u64) -> Result<Handle, Refused> {
        self.hold_served(key, at).map(|(handle, _)| handle)
    }

    /// `hold` by slice key, without the hash of the key.
    pub fn hold_at(&self, slice_key: u64, at: u64) -> Result<Handle, Refused> {
        self.hold_served_at(slice_key, at).map(|(handle, _)| handle)
    }

    /// `hold`, with the lease under which the task may serve the key.
    pub fn hold_served(&self, key: &[u8], at: u64) -> Result<(Handle, Serving<'_>), Refused> {
        let mut out = hs_key_handle::default();
        let place = self.0.read();
        let told = told(|it| unsafe {
            sys::hs_slicelet_hold(place, key.as_ptr(), key.len(), at, &mut out, it)
        })?;
        Ok((Handle::of(out), Serving::of(told)))
    }

    /// `hold_served` by slice key, without the hash of the key.
    pub fn hold_served_at(
        &self,
        slice_key: u64,
        at: u64,
    ) -> Result<(Handle, Serving<'_>), Refused> {
        let mut out = hs_key_handle::default();
        let place = self.0.read();
        let told =
            told(|it| unsafe { sys::hs_slicelet_hold_at(place, slice_key, at, &mut out, it) })?;
        Ok((Handle::of(out), Serving::of(told)))
    }

    /// Whether the task has held the key of a handle without a break since it took the handle, and may serve it now.
    /// `WRONG_FORM`, `STRANGER`, `BROKEN`.
    pub fn check(&self, handle: &Handle, at: u64) -> Result<(), Refused> {
        let Handle { task, slice_key, position, life } = *handle;
        let raw = hs_key_handle { task, slice_key, position, life };
        done(unsafe { sys::hs_slicelet_check(self.0.read(), &raw, at) })
    }

    /// The lease of a kind that the task holds, which may have ended. `NOTHING_HELD`.
    pub fn held(&self, kind: Kind) -> Result<Lease, Refused> {
        let mut out = sys::hs_held_lease::default();
        done(unsafe { sys::hs_slicelet_held(self.0.read(), kind as u32, &mut out) })?;
        Ok(Lease { number: out.number, generation: out.generation, until: out.until })
    }

    /// The ranges of the slice keys that the task may serve at a reading; they rise, and do not touch. What it gained and
    /// lost by `hear` or `release` is how they differ before and after it. `NO_MEMORY`.
    pub fn permitted(&self, at: u64) -> Result<Vec<Range<u64>>, Refused> {
        let (place, mut edges, mut needed) = (self.0.read(), vec![0; 64], 0);
        loop {
            let (room, length) = (edges.as_mut_ptr(), edges.len());
            let call = unsafe { sys::hs_slicelet_permitted(place, at, room, length, &mut needed) };
            match done(call) {
                Ok(()) => return Ok(ranges_of(&edges[..needed])),
                Err(refused) if refused.code() == Code::NO_ROOM => edges.resize(needed, 0),
                Err(refused) => return Err(refused),
            }
        }
    }

    /// What the task does next about its leases, in a phase of the table. It does not ask before a lease ends: ask before
    /// that, by `until` of `held`. `WRONG_FORM`.
    pub fn next(&self, phase: Phase, at: u64) -> Result<TaskAction, Refused> {
        let mut action = 0;
        done(unsafe { sys::hs_slicelet_next(self.0.read(), &phase.raw(), at, &mut action) })?;
        Ok(match action {
            sys::HS_START => TaskAction::Start,
            sys::HS_ASK_GUARD => TaskAction::Ask(Kind::Guard),
            sys::HS_ASK_BRIDGE => TaskAction::Ask(Kind::Bridge),
            sys::HS_GIVE_UP_GUARD => TaskAction::GiveUp(Kind::Guard),
            sys::HS_GIVE_UP_BRIDGE => TaskAction::GiveUp(Kind::Bridge),
            _ => TaskAction::Rest,
        })
    }

    /// How many more calls of `start`, `hear` and `release` are accepted before `HISTORY_FULL`.
    pub fn calls_left(&self) -> Result<u64, Refused> {
        let mut left = 0;
        done(unsafe { sys::hs_slicelet_calls_left(self.0.read(), &mut left) })?;
        Ok(left)
    }
}

impl Handle {
    pub(crate) fn of(raw: hs_key_handle) -> Handle {
        Handle { task: raw.task, slice_key: raw.slice_key, position: raw.position, life: raw.life }
    }
}

/// What the message of a grant says.
#[derive(Clone, Debug, PartialEq, Eq)]
pub struct Grant {
    pub number: u64,
    pub task: u64,
    pub life: u64,
    pub kind: Kind,
    pub generation: u64,
    /// The first reading of the task's clock at which its lease has ended.
    pub ends: u64,
    /// The first reading of the table's clock at which it has.
    pub table_ends: u64,
    /// Each from its first slice key up to the one after its last; they rise, and do not touch.
    pub ranges: Vec<Range<u64>>,
}

/// Reads a grant of a job from its message. Its task holds the ranges once it has heard the grant, until it hears another
/// one of its kind or releases the lease. `WRONG_FORM` if the name is not that of a job, codes of messages.
pub fn read_grant(job: &str, grant: &[u8]) -> Result<Grant, Refused> {
    let mut out = sys::hs_grant::default();
    let (mut edges, mut needed) = (vec![0; 64], 0);
    loop {
        let call = unsafe {
            let (name, text, room) = (job.as_ptr(), grant.as_ptr(), edges.as_mut_ptr());
            sys::hs_grant_read(
                name,
                job.len(),
                text,
                grant.len(),
                &mut out,
                room,
                edges.len(),
                &mut needed,
            )
        };
        match done(call) {
            Ok(()) => break,
            Err(refused) if refused.code() == Code::NO_ROOM => edges.resize(needed, 0),
            Err(refused) => return Err(refused),
        }
    }
    let kind = Kind::from_number(out.kind).expect("a grant is of a kind");
    let ranges = ranges_of(&edges[..needed]);
    let sys::hs_grant { number, task, life, generation, ends, table_ends, .. } = out;
    Ok(Grant { number, task, life, kind, generation, ends, table_ends, ranges })
}

fn ranges_of(edges: &[u64]) -> Vec<Range<u64>> {
    edges.chunks_exact(2).map(|it| it[0]..it[1]).collect()
}

/// The note of a job that gives back all leases of a kind of a life that ended with its process. No process of the task in
/// this life may still run.
pub fn ended_note(job: &str, task: u64, life: u32, kind: Kind) -> Result<Vec<u8>, Refused> {
    text(|out, length, needed| unsafe {
        sys::hs_ended_note(job.as_ptr(), job.len(), task, life, kind as u32, out, length, needed)
    })
}
