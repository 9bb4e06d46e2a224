use crate::place::{text, Place};
use crate::refused::{done, told};
use crate::sys::{self, hs_job_term, hs_row};
use crate::{Code, Kind, Phase, Refused};

/// The policy of a table. `guard`, `bridge`, `job` and `numbers` are 1 to 2^32.
#[derive(Clone, Copy, Debug, PartialEq, Eq)]
pub struct Policy {
    /// The fewest owners that a plan gives a slice, 1 or more.
    pub low: u64,
    /// The most owners of a slice, `low` to 5.
    pub high: u64,
    /// How many ticks clocks may be apart, below `guard` and below `bridge`.
    pub skew: u64,
    /// How many ticks a guard lease lasts.
    pub guard: u64,
    /// How many ticks a bridge lease lasts.
    pub bridge: u64,
    /// How many ticks the job lease lasts.
    pub job: u64,
    /// How many grants the table makes, for good.
    pub numbers: u64,
}

impl Policy {
    pub(crate) fn raw(self) -> sys::hs_policy {
        let Policy { low, high, skew, guard, bridge, job, numbers } = self;
        sys::hs_policy { low, high, skew, guard, bridge, job, numbers }
    }
}

/// A term of the job lease.
#[derive(Clone, Copy, Debug, PartialEq, Eq)]
pub struct Term {
    pub number: u64,
    /// 1 or more.
    pub assigner: u64,
    /// The first reading at which it has ended.
    pub until: u64,
}

impl Term {
    fn of(raw: hs_job_term) -> Term {
        Term { number: raw.number, assigner: raw.assigner, until: raw.until }
    }
}

/// What a table keeps of a grant until its lease ends or is freed.
#[derive(Clone, Copy, Debug, PartialEq, Eq)]
pub struct Row {
    pub number: u64,
    pub task: u64,
    pub life: u64,
    pub kind: Kind,
    pub generation: u64,
    /// The first reading at which it has ended.
    pub table_ends: u64,
}

/// The lease table of a job. Readings are those of the table's clock. A job has one table at a time: it is opened once, and
/// from then on restored from what [`Table::kept`] returned, which is saved before the reply to a call that changed the
/// table leaves the process.
#[derive(Debug)]
pub struct Table(Place);

impl Table {
    /// A new table of a job. `WRONG_FORM` if the name is not that of a job, or a number of the policy is outside its limits.
    pub fn new(job: &str, policy: Policy) -> Result<Table, Refused> {
        let open = |place| {
            done(unsafe { sys::hs_table_open(place, job.as_ptr(), job.len(), &policy.raw()) })
        };
        Place::open(open).map(Table)
    }

    /// The table of a job that kept these values, as [`Table::restart`] leaves it. `WRONG_FORM`, codes of messages,
    /// `OTHER_POLICY`, `READING_RANGE`, `NO_TERM`, `TERM_RANGE`, `KEPT_GENERATION`, `TOO_MANY_OWNERS_FOR_JOB`,
    /// `NO_ASSIGNMENT`, `TOO_MANY_GRANTS`, `DEADLINE_RANGE`.
    pub fn restore(job: &str, policy: Policy, kept: &[u8]) -> Result<Table, Refused> {
        let (name, given) = (job.as_bytes(), policy.raw());
        let restore = |place| {
            told(|it| unsafe {
                sys::hs_table_restore(
                    place,
                    name.as_ptr(),
                    name.len(),
                    &given,
                    kept.as_ptr(),
                    kept.len(),
                    it,
                )
            })
        };
        Place::open(|place| restore(place).map(drop)).map(Table)
    }

    /// The message of the kept values of the table: all of it but its rows.
    pub fn kept(&self) -> Result<Vec<u8>, Refused> {
        text(|out, length, needed| unsafe {
            sys::hs_table_kept(self.0.read(), out, length, needed)
        })
    }

    /// The values to save in place of `saved`, the message that was saved last, ahead of the table by so many grants and
    /// ticks; `saved` is empty if nothing was saved. `None` if `saved` covers the table, so that nothing has to be saved.
    /// Codes of messages, those of [`Table::restore`], `NO_MEMORY`.
    pub fn save(&self, saved: &[u8], grants: u64, ticks: u64) -> Result<Option<Vec<u8>>, Refused> {
        let (place, last) = (self.0.read(), saved.as_ptr());
        let message = text(|out, length, needed| unsafe {
            sys::hs_table_save(place, last, saved.len(), grants, ticks, out, length, needed)
        })?;
        Ok(Some(message).filter(|it| !it.is_empty()))
    }

    /// Gives the job lease to an assigner, and returns its term. `WRONG_FORM` if `assigner` is 0, `READING_RANGE`,
    /// `CLOCK_BACK`, `JOB_HELD`.
    pub fn take(&mut self, assigner: u64, at: u64) -> Result<Term, Refused> {
        let mut out = hs_job_term::default();
        told(|it| unsafe { sys::hs_table_take(self.0.write(), assigner, at, &mut out, it) })?;
        Ok(Term::of(out))
    }

    /// Renews the term with this number, and returns it. `READING_RANGE`, `CLOCK_BACK`, `NOT_HOLDER`.
    pub fn renew(&mut self, number: u64, at: u64) -> Result<Term, Refused> {
        let mut out = hs_job_term::default();
        told(|it| unsafe { sys::hs_table_renew(self.0.write(), number, at, &mut out, it) })?;
        Ok(Term::of(out))
    }

    /// Proposes an assignment, given as its message, under the term with this number. Codes of messages, then
    /// `READING_RANGE`, `CLOCK_BACK`, `NOT_HOLDER`, `STALE_BASE`, `PENDING`, `TOO_MANY_OWNERS_FOR_JOB`, `NO_MEMORY`.
    pub fn propose(&mut self, number: u64, assignment: &[u8], at: u64) -> Result<(), Refused> {
        let (place, text) = (self.0.write(), assignment.as_ptr());
        told(|it| unsafe { sys::hs_table_propose(place, number, text, assignment.len(), at, it) })
            .map(drop)
    }

    /// Commits the proposed assignment under the term with this number, and returns its generation. `READING_RANGE`,
    /// `CLOCK_BACK`, `NOT_HOLDER`, `NOTHING_PENDING`, `GRACE`, `HELD`.
    pub fn commit(&mut self, number: u64, at: u64) -> Result<u64, Refused> {
        told(|it| unsafe { sys::hs_table_commit(self.0.write(), number, at, it) })
            .map(|it| it.generation)
    }

    /// Grants a task a lease for one of its lives, and returns the message of the grant. `WRONG_FORM` if `task` is not 1 to
    /// 64 or `life` is 0, `READING_RANGE`, `CLOCK_BACK`, `NO_ASSIGNMENT`, `NUMBERS_SPENT`, `NO_MEMORY`.
    pub fn grant(&mut self, task: u64, life: u32, at: u64) -> Result<Vec<u8>, Refused> {
        let place = self.0.write();
        text(|out, length, needed| unsafe {
            sys::hs_table_grant(place, task, life, at, out, length, needed)
        })
    }

    /// Frees the rows that a note, given as its message, closes, and returns how many. Codes of messages, then
    /// `READING_RANGE`, `CLOCK_BACK`, `NO_ROW`.
    pub fn free(&mut self, note: &[u8], at: u64) -> Result<u64, Refused> {
        let mut freed = 0;
        let place = self.0.write();
        told(|it| unsafe {
            sys::hs_table_free(place, note.as_ptr(), note.len(), at, &mut freed, it)
        })?;
        Ok(freed)
    }

    /// Restarts the table, which loses its rows and keeps all else, and returns how many rows `rows` would have returned.
    pub fn restart(&mut self) -> Result<u64, Refused> {
        let mut lost = 0;
        done(unsafe { sys::hs_table_restart(self.0.write(), &mut lost) })?;
        Ok(lost)
    }

    /// The phase of the table.
    pub fn phase(&self) -> Result<Phase, Refused> {
        let mut out = sys::hs_phase::default();
        done(unsafe { sys::hs_table_phase(self.0.read(), &mut out) })?;
        Ok(Phase { committed: out.committed, proposed: out.proposed })
    }

    /// The rows that have not ended at the last accepted reading, in grant order. `NO_MEMORY`.
    pub fn rows(&self) -> Result<Vec<Row>, Refused> {
        let mut out = vec![hs_row::default(); 64];
        let mut needed = 0;
        loop {
            let call = unsafe {
                sys::hs_table_rows(self.0.read(), out.as_mut_ptr(), out.len(), &mut needed)
            };
            match done(call) {
                Ok(()) => return Ok(out[..needed].iter().map(Row::of).collect()),
                Err(refused) if refused.code() == Code::NO_ROOM => {
                    out.resize(needed, hs_row::default())
                }
                Err(refused) => return Err(refused),
            }
        }
    }

    /// The message of the committed assignment. `NO_ASSIGNMENT`, `NO_MEMORY`.
    pub fn committed(&self) -> Result<Vec<u8>, Refused> {
        text(|out, length, needed| unsafe {
            sys::hs_table_committed(self.0.read(), out, length, needed)
        })
    }
}

impl Row {
    fn of(raw: &hs_row) -> Row {
        let hs_row { number, task, life, generation, table_ends, .. } = *raw;
        let kind = Kind::from_number(raw.kind).expect("a row is of a kind");
        Row { number, task, life, kind, generation, table_ends }
    }
}

/// Keeps a term of the job lease.
#[derive(Debug)]
pub struct Assigner(Place);

/// What an assigner does next, by calls of the table.
#[derive(Clone, Copy, Debug, PartialEq, Eq)]
#[non_exhaustive]
pub enum Action {
    Take,
    Renew,
    Commit,
    Propose,
    /// Nothing.
    Rest,
}

impl Assigner {
    /// An assigner, which keeps no term. A job lease lasts `job` ticks. `WRONG_FORM` if `id` is 0.
    pub fn new(id: u64, job: u64) -> Result<Assigner, Refused> {
        Place::open(|place| done(unsafe { sys::hs_assigner_open(place, id, job) })).map(Assigner)
    }

    /// Keeps a term that a table gave. `NOT_ADOPTED`.
    pub fn adopt(&mut self, term: Term) -> Result<(), Refused> {
        let raw = hs_job_term { number: term.number, assigner: term.assigner, until: term.until };
        done(unsafe { sys::hs_assigner_adopt(self.0.write(), &raw) })
    }

    /// Drops the kept term.
    pub fn drop_term(&mut self) -> Result<(), Refused> {
        done(unsafe { sys::hs_assigner_drop_term(self.0.write()) })
    }

    /// What to do next, and the number of the kept term, 0 for none. `wanted` says whether another assignment is wanted.
    /// `WRONG_FORM`.
    pub fn next(&self, at: u64, phase: Phase, wanted: bool) -> Result<(Action, u64), Refused> {
        let (mut action, mut number) = (0, 0);
        let (place, given, wanted) = (self.0.read(), phase.raw(), u32::from(wanted));
        done(unsafe {
            sys::hs_assigner_next(place, at, &given, wanted, &mut action, &mut number)
        })?;
        let action = match action {
            sys::HS_TAKE => Action::Take,
            sys::HS_RENEW => Action::Renew,
            sys::HS_COMMIT => Action::Commit,
            sys::HS_PROPOSE => Action::Propose,
            _ => Action::Rest,
        };
        Ok((action, number))
    }
}

/// The policy of a plan.
#[derive(Clone, Copy, Debug, PartialEq, Eq)]
pub struct PlanPolicy {
    /// The fewest owners of a slice, 1 or more.
    pub low: u64,
    /// The most owners of a slice, `low` to 5.
    pub high: u64,
    /// How many keys may move, up to 2^63.
    pub churn: u64,
    /// Neighbours merge up to this load.
    pub cold: u64,
    /// A slice above this load is halved.
    pub hot: u64,
    /// Slices are halved while there are fewer than this, 1 to 1,024.
    pub most: u64,
}

/// Plans the assignment of the next generation of a job for `tasks`, which rise strictly, from a load of each slice of
/// `assignment`, and returns its message. `WRONG_FORM`, codes of messages, `NO_TASKS`, `LOADS_LENGTH`, `LOAD_RANGE`,
/// `NO_MEMORY`.
pub fn plan(
    job: &str,
    assignment: &[u8],
    loads: &[u64],
    tasks: &[u64],
    policy: PlanPolicy,
) -> Result<Vec<u8>, Refused> {
    let PlanPolicy { low, high, churn, cold, hot, most } = policy;
    let given = sys::hs_plan_policy { low, high, churn, cold, hot, most };
    text(|out, length, needed| unsafe {
        sys::hs_plan(
            job.as_ptr(),
            job.len(),
            assignment.as_ptr(),
            assignment.len(),
            loads.as_ptr(),
            loads.len(),
            tasks.as_ptr(),
            tasks.len(),
            &given,
            out,
            length,
            needed,
        )
    })
}
