use std::io;

use crate::refused::done;
use crate::sys::{self, hs_table_clock, hs_task_clock, hs_told};
use crate::{Policy, Refused};

/// How far a task's clock may fall behind the table's: while the local clock of the task gains `per` ticks, that of the
/// table gains at most `per` + `extra`, and `grain` ticks more. 201 in 1,000,000 with a grain of 2 is enough for clocks that
/// each keep within 100 parts in a million (`docs/OPERATIONS.md`).
#[derive(Clone, Copy, Debug, PartialEq, Eq)]
pub struct Drift {
    pub extra: u64,
    pub per: u64,
    pub grain: u64,
}

/// Gives the readings of a task, from answers of the table and a local clock that counts while the machine is suspended,
/// such as [`boottime_ticks`]. A new life of a task has a new clock.
#[derive(Clone, Debug)]
pub struct TaskClock(pub(crate) hs_task_clock);

impl TaskClock {
    /// A clock with no sample. `oldest` is how many ticks the task goes on without an answer of the table. `WRONG_FORM` if
    /// `per` of the drift is 0.
    pub fn new(drift: Drift, oldest: u64) -> Result<TaskClock, Refused> {
        let mut clock = hs_task_clock::default();
        done(unsafe {
            sys::hs_task_clock_new(&mut clock, drift.extra, drift.per, drift.grain, oldest)
        })?;
        Ok(TaskClock(clock))
    }

    /// Takes an answer of the table: the local reading before its request was sent, the table's reading that it carries, and
    /// the local reading now. `CLOCK_BACK`, `SENT_AHEAD`.
    pub fn sample(&mut self, sent: u64, reading: u64, now: u64) -> Result<(), Refused> {
        done(unsafe { sys::hs_task_clock_sample(&mut self.0, sent, reading, now) })
    }

    /// The task's reading at the local reading `now`. Read the local clock and then this one for each decision, and decide
    /// at once. `CLOCK_BACK`, `NO_SAMPLE`, `TOO_OLD`, `TOO_LARGE`.
    pub fn read(&mut self, now: u64) -> Result<u64, Refused> {
        let mut out = 0;
        done(unsafe { sys::hs_task_clock_read(&mut self.0, now, &mut out) })?;
        Ok(out)
    }
}

/// Gives the readings of the table in one process.
#[derive(Clone, Debug)]
pub struct TableClock(hs_table_clock);

impl TableClock {
    /// The clock of a new process of the table: `kept` is the last value that was kept, 0 at first, and `now` the local
    /// reading. The clock starts `ahead` ticks below `kept`. If values are kept up to S ticks above the reading, `ahead` is
    /// at least S + `grain` + 1.
    pub fn open(kept: u64, ahead: u64, now: u64) -> Result<TableClock, Refused> {
        let mut clock = hs_table_clock::default();
        done(unsafe { sys::hs_table_clock_open(&mut clock, kept, ahead, now) })?;
        Ok(TableClock(clock))
    }

    /// The table's reading at the local reading `now`. Before it is used, keep a value that is not below it where the next
    /// process finds it. `CLOCK_BACK`, `TOO_LARGE`, `NOT_YET`: the clock gets to `until` of the error in at most `ahead`
    /// ticks.
    pub fn read(&mut self, now: u64) -> Result<u64, Refused> {
        let mut out = 0;
        match unsafe { sys::hs_table_clock_read(&mut self.0, now, &mut out) } {
            sys::HS_DONE => Ok(out),
            code @ sys::HS_NOT_YET => {
                Err(Refused::new(code, hs_told { until: self.0.kept, ..hs_told::default() }))
            }
            code => Err(Refused::new(code, hs_told::default())),
        }
    }
}

/// Whether a grant of a job shows, at the reading `at` of its task, that clocks are not timely; `false` shows nothing.
/// `WRONG_FORM`, codes of messages.
pub fn clock_evidence(job: &str, grant: &[u8], at: u64, policy: Policy) -> Result<bool, Refused> {
    let (mut shown, given) = (0, policy.raw());
    let (name, text) = (job.as_ptr(), grant.as_ptr());
    done(unsafe {
        sys::hs_clock_evidence(name, job.len(), text, grant.len(), at, &given, &mut shown)
    })?;
    Ok(shown == 1)
}

#[repr(C)]
struct Timespec {
    seconds: i64,
    nanoseconds: i64,
}

const CLOCK_BOOTTIME: i32 = 7;

extern "C" {
    fn clock_gettime(clock: i32, out: *mut Timespec) -> i32;
}

/// `CLOCK_BOOTTIME` of Linux in ticks of a millisecond. It counts while the machine is suspended, as the local clock of a
/// task must; `std::time::Instant` does not.
pub fn boottime_ticks() -> io::Result<u64> {
    let mut now = Timespec { seconds: 0, nanoseconds: 0 };
    if unsafe { clock_gettime(CLOCK_BOOTTIME, &mut now) } != 0 {
        return Err(io::Error::last_os_error());
    }
    Ok(now.seconds as u64 * 1000 + now.nanoseconds as u64 / 1_000_000)
}
