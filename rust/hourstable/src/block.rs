use crate::refused::done;
use crate::sys::{self, hs_block};
use crate::{Handle, Refused, Serving, Slicelet, TaskClock};

/// A block of work on a key, for [`Slicelet::enter`] and [`Slicelet::leave`]: what the last call passed and wrote. It may be
/// used again for the next block, and then takes no more memory.
#[derive(Clone, Debug, Default)]
pub struct Block {
    /// The place of the next call among all calls of the job. Draw it before the call.
    pub ticket: u64,
    raw: hs_block,
    room: Vec<u8>,
    length: usize,
    is_called: bool,
}

/// How many bytes a line of a block needs at most.
pub(crate) const LINE: usize = 512;

impl Block {
    /// A block whose calls write no line.
    pub fn new() -> Block {
        Block::default()
    }

    /// A block whose calls write their lines.
    pub fn with_lines() -> Block {
        Block { room: vec![0; LINE], ..Block::default() }
    }

    /// The task's reading at which the last call was made.
    pub fn at(&self) -> u64 {
        self.raw.at
    }

    /// What `enter` took, and `leave` checks.
    pub fn handle(&self) -> Handle {
        Handle::of(self.raw.handle)
    }

    /// Whether the last call was made. If not, the clock refused, and there is no line.
    pub fn is_called(&self) -> bool {
        self.is_called
    }

    /// The line of the last call for the log, with its line feed; empty if none was wanted.
    pub fn line(&self) -> &[u8] {
        &self.room[..self.length]
    }

    /// Makes a call. If its line does not fit, makes it again, which has changed nothing, with a longer buffer.
    fn call(
        &mut self,
        mut call: impl FnMut(&mut hs_block, *mut u8, usize, *mut usize) -> i32,
    ) -> i32 {
        self.raw.ticket = self.ticket;
        self.length = 0;
        loop {
            let mut needed = usize::MAX; // if the clock refuses
            let (out, room) = (self.room.as_mut_ptr(), self.room.len());
            let code = call(&mut self.raw, out, room, &mut needed);
            if code == sys::HS_NO_ROOM {
                self.room.resize(needed, 0);
                continue;
            }
            self.is_called = code >= 0 && needed != usize::MAX;
            if self.is_called {
                self.length = needed;
            }
            return code;
        }
    }
}

impl Slicelet {
    /// Enters a block of work on a key: reads the clock at the local reading `now`, takes a handle at its value as `hold`
    /// does, and writes the line of that call, in one call of the library. The codes of [`TaskClock::read`], with which no
    /// call is made, then those of `hold`, which have a line. After any other error the clock is as before.
    pub fn enter(
        &self,
        clock: &mut TaskClock,
        now: u64,
        key: &[u8],
        block: &mut Block,
    ) -> Result<Serving<'_>, Refused> {
        let place = self.0.read();
        block.raw.told = Default::default();
        let code = block.call(|it, out, room, needed| unsafe {
            let (key, length) = (key.as_ptr(), key.len());
            sys::hs_slicelet_enter(place, &mut clock.0, now, key, length, it, out, room, needed)
        });
        entered(code, block)
    }

    /// `enter` by slice key, without the hash of the key. `WRONG_FORM` if no key has this slice key, which is 2^63 or more.
    pub fn enter_at(
        &self,
        clock: &mut TaskClock,
        now: u64,
        slice_key: u64,
        block: &mut Block,
    ) -> Result<Serving<'_>, Refused> {
        let place = self.0.read();
        block.raw.told = Default::default();
        let code = block.call(|it, out, room, needed| unsafe {
            sys::hs_slicelet_enter_at(place, &mut clock.0, now, slice_key, it, out, room, needed)
        });
        entered(code, block)
    }

    /// Leaves a block of work: reads the clock at the local reading `now`, checks the handle that `enter` took as `check`
    /// does, and writes the line of that call. The codes of [`TaskClock::read`], with which no call is made, then those of
    /// `check`.
    pub fn leave(&self, clock: &mut TaskClock, now: u64, block: &mut Block) -> Result<(), Refused> {
        let place = self.0.read();
        done(block.call(|it, out, room, needed| unsafe {
            sys::hs_slicelet_leave(place, &mut clock.0, now, it, out, room, needed)
        }))
    }
}

fn entered<'slicelet>(code: i32, block: &Block) -> Result<Serving<'slicelet>, Refused> {
    match code {
        sys::HS_DONE => Ok(Serving::of(block.raw.told)),
        code => Err(Refused::new(code, block.raw.told)),
    }
}

#[cfg(test)]
mod tests {
    use super::*;
    use crate::Drift;

    /// The task was not started. The clock shows 6 at 0, and a call that finds no room leaves it at its last reading.
    #[test]
    fn a_line_that_finds_no_room() {
        let task = Slicelet::new("shop", 2).unwrap();
        let mut clock = TaskClock::new(Drift { extra: 0, per: 1, grain: 0 }, 9).unwrap();
        clock.sample(0, 6, 0).unwrap();
        let mut block = Block { ticket: 5, room: vec![0; 1], ..Block::default() };
        let refused = task.enter_at(&mut clock, 1, 9, &mut block).unwrap_err();
        assert_eq!(refused.to_string(), "down");
        assert_eq!(
            block.line(),
            b"{\"at\":7,\"do\":\"hold\",\"reply\":\"denied down\",\"slice_key\":9,\"task\":2,\"ticket\":5}\n"
        );
        assert!(block.is_called() && block.room.len() == block.line().len());
    }
}
