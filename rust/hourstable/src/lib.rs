//! Decides which server task may answer for a key, by the proved library of `include/hourstable.h`: each decision is a
//! call of it.
//!
//! A server task has a [`Slicelet`], a client a [`Clerk`], and a control plane a [`Table`], a [`LoadBook`] and an
//! [`Assigner`]. The clocks [`TaskClock`] and [`TableClock`] give their readings, with nothing synchronised. Readings
//! are in ticks, of one length in the whole job. Grants, notes, assignments and kept values are messages: bytes of
//! JSON, as they go over the network.
//!
//! A call that is not done changes nothing and returns a [`Refused`]. `docs/BINDINGS.md` says what each code means.
//!
//! A [`Serving`] borrows its slicelet, so the lease cannot be released before the answer is given:
//!
//! ```compile_fail,E0502
//! # fn answer(mut task: hourstable::Slicelet) -> Result<(), hourstable::Refused> {
//! let serving = task.serve(b"apples", 6)?;
//! task.release(hourstable::Kind::Guard, 6)?;
//! println!("served under generation {}", serving.generation());
//! # Ok(()) }
//! ```
//!
//! Threads share one in a `std::sync::RwLock`: the read guard then lives as long as the [`Serving`].
mod block;
mod clerk;
mod clock;
mod control;
mod loads;
mod place;
mod receipt;
mod refused;
mod slicelet;
mod token;

pub use block::Block;
pub use clerk::{Clerk, Owners};
pub use clock::{boottime_ticks, clock_evidence, Drift, TableClock, TaskClock};
pub use control::{plan, Action, Assigner, PlanPolicy, Policy, Row, Table, Term};
pub use loads::{LoadBook, LoadRecord};
pub use receipt::Receipt;
pub use refused::{Code, Refused};
pub use slicelet::{ended_note, read_grant, Grant, Handle, Lease, Serving, Slicelet, TaskAction};
pub use token::{Fence, Token};

use hourstable_sys as sys;

/// A kind of leases.
#[derive(Clone, Copy, Debug, PartialEq, Eq, Hash)]
pub enum Kind {
    Guard = sys::HS_GUARD as isize,
    Bridge = sys::HS_BRIDGE as isize,
}

impl Kind {
    pub(crate) fn from_number(number: u64) -> Option<Kind> {
        [Kind::Guard, Kind::Bridge].into_iter().find(|kind| *kind as u64 == number)
    }

    /// The word of scripts and messages.
    pub fn word(self) -> &'static str {
        match self {
            Kind::Guard => "guard",
            Kind::Bridge => "bridge",
        }
    }
}

/// The phase of a table: `proposed` is 0 if no assignment is proposed, otherwise `committed` + 1.
#[derive(Clone, Copy, Debug, Default, PartialEq, Eq)]
pub struct Phase {
    /// 0 before the first commit.
    pub committed: u64,
    pub proposed: u64,
}

impl Phase {
    pub(crate) fn raw(self) -> sys::hs_phase {
        sys::hs_phase { committed: self.committed, proposed: self.proposed }
    }
}

/// The version of the library that is linked or loaded: major, minor and patch.
pub fn library_version() -> (u32, u32, u32) {
    let mut out = sys::hs_library_version::default();
    unsafe { sys::hs_library_version(&mut out) };
    (out.major, out.minor, out.patch)
}

/// The slice key of a key: the first eight bytes of its SHA-256, most significant first, without the lowest bit.
pub fn slice_key(key: &[u8]) -> u64 {
    unsafe { sys::hs_slice_key(key.as_ptr(), key.len()) }
}
