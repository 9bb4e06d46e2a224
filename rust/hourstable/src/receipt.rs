use crate::block::LINE;
use crate::sys::{self, hs_receipt};
use crate::{Policy, Refused, Serving, Slicelet, TaskClock};

/// A grant that a task received, for [`Slicelet::receive`]: what the last call passed and wrote. It may be used again.
#[derive(Clone, Debug, Default)]
pub struct Receipt {
    /// The place of the next call among all calls of the job. Draw it before the call.
    pub ticket: u64,
    raw: hs_receipt,
    room: Vec<u8>,
    length: usize,
    is_called: bool,
}

impl Receipt {
    /// A receipt whose calls write no line.
    pub fn new() -> Receipt {
        Receipt::default()
    }

    /// A receipt whose calls write their lines.
    pub fn with_lines() -> Receipt {
        Receipt { room: vec![0; LINE], ..Receipt::default() }
    }

    /// The task's reading at which the last call was made.
    pub fn at(&self) -> u64 {
        self.raw.at
    }

    /// Whether the last call was made. If not, the clock refused or the message is no grant of the job, and there is no line.
    pub fn is_called(&self) -> bool {
        self.is_called
    }

    /// The line of the last call for the log, with its line feed; empty if none was wanted, or the grant is evidence.
    pub fn line(&self) -> &[u8] {
        &self.room[..self.length]
    }
}

impl Slicelet {
    /// Receives a grant, given as its message: reads the clock at the local reading `now`, hears the grant at its value as
    /// `hear` does, unless it shows that clocks are not timely, and writes the line of that call, in one call of the library,
    /// which decodes the message once. `policy` is that of the table. Returns the lease, with a `covering` of 0, or `None` if
    /// the grant shows that clocks are not timely: then nothing is heard, and there is no line.
    ///
    /// The codes of [`TaskClock::read`], with which no call is made, `WRONG_FORM` if a number of the policy is outside its
    /// limits, then those of `hear`, of which those of the slicelet have a line. After a code of messages the clock is as
    /// before.
    pub fn receive(
        &mut self,
        clock: &mut TaskClock,
        now: u64,
        policy: Policy,
        grant: &[u8],
        receipt: &mut Receipt,
    ) -> Result<Option<Serving<'_>>, Refused> {
        if !receipt.room.is_empty() && receipt.room.len() < grant.len() + LINE {
            receipt.room.resize(grant.len() + LINE, 0); // the line has what the grant says
        }
        receipt.length = 0;
        receipt.raw = hs_receipt { ticket: receipt.ticket, ..hs_receipt::default() };
        let (place, policy) = (self.0.write(), policy.raw());
        let (text, length) = (grant.as_ptr(), grant.len());
        let (code, needed) = loop {
            let (raw, out, room) =
                (&mut receipt.raw, receipt.room.as_mut_ptr(), receipt.room.len());
            let mut needed = usize::MAX; // if the clock refuses
            let code = unsafe {
                sys::hs_slicelet_receive(
                    place,
                    &mut clock.0,
                    now,
                    &policy,
                    text,
                    length,
                    raw,
                    out,
                    room,
                    &mut needed,
                )
            };
            if code != sys::HS_NO_ROOM {
                break (code, needed);
            }
            receipt.room.resize(needed, 0);
        };
        receipt.is_called = code >= 0 && needed != usize::MAX;
        if receipt.is_called {
            receipt.length = needed;
        }
        let told = receipt.raw.told;
        if code != sys::HS_DONE {
            return Err(Refused::new(code, told));
        }
        Ok(if receipt.raw.evidence == 1 { None } else { Some(Serving::of(told)) })
    }
}
