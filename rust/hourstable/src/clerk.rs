use crate::place::Place;
use crate::refused::{done, told};
use crate::sys::{self, hs_owners};
use crate::Refused;

/// Knows the newest assignment that a client was given.
#[derive(Debug)]
pub struct Clerk(Place);

/// The owners of a key in an assignment, in rising order.
#[derive(Clone, Copy, Debug, PartialEq, Eq)]
pub struct Owners {
    generation: u64,
    count: usize,
    tasks: [u64; 5],
}

impl Owners {
    pub fn generation(&self) -> u64 {
        self.generation
    }

    pub fn tasks(&self) -> &[u64] {
        &self.tasks[..self.count]
    }

    fn of(raw: hs_owners) -> Owners {
        Owners { generation: raw.generation, count: raw.count as usize, tasks: raw.tasks }
    }
}

impl Clerk {
    /// A clerk of a job, which keeps no assignment. `WRONG_FORM` if the name is not that of a job.
    pub fn new(job: &str) -> Result<Clerk, Refused> {
        let open = |place| done(unsafe { sys::hs_clerk_open(place, job.as_ptr(), job.len()) });
        Place::open(open).map(Clerk)
    }

    /// Keeps an assignment, given as its message. Codes of messages, then `OLD_GENERATION`, `NO_MEMORY`.
    pub fn learn(&mut self, assignment: &[u8]) -> Result<(), Refused> {
        let place = self.0.write();
        told(|it| unsafe { sys::hs_clerk_learn(place, assignment.as_ptr(), assignment.len(), it) })
            .map(drop)
    }

    /// The owners of a key in the kept assignment. `UNKNOWN`.
    pub fn look(&self, key: &[u8]) -> Result<Owners, Refused> {
        let mut out = hs_owners::default();
        done(unsafe { sys::hs_clerk_look(self.0.read(), key.as_ptr(), key.len(), &mut out) })?;
        Ok(Owners::of(out))
    }

    /// `look` by slice key, without the hash of the key. `WRONG_FORM` if no key has this slice key, `UNKNOWN`.
    pub fn look_at(&self, slice_key: u64) -> Result<Owners, Refused> {
        let mut out = hs_owners::default();
        done(unsafe { sys::hs_clerk_look_at(self.0.read(), slice_key, &mut out) })?;
        Ok(Owners::of(out))
    }

    /// Forgets the kept assignment.
    pub fn forget(&mut self) -> Result<(), Refused> {
        done(unsafe { sys::hs_clerk_forget(self.0.write()) })
    }
}
