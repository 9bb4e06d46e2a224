use crate::place::Place;
use crate::refused::done;
use crate::sys::{self, hs_load_record};
use crate::{Code, Refused};

/// Counts the work that the tasks of a job did.
#[derive(Debug)]
pub struct LoadBook(Place);

/// A record that a task did some work for a key.
#[derive(Clone, Copy, Debug, PartialEq, Eq)]
pub struct LoadRecord {
    /// Of the key: `slice_key`.
    pub slice_key: u64,
    /// Of the work, 1 to 2^32.
    pub weight: u64,
}

impl LoadBook {
    /// A load book of a job, whose totals are 0. `WRONG_FORM` if the name is not that of a job.
    pub fn new(job: &str) -> Result<LoadBook, Refused> {
        let open = |place| done(unsafe { sys::hs_load_book_open(place, job.as_ptr(), job.len()) });
        Place::open(open).map(LoadBook)
    }

    /// Adds records of a task to its total, and returns the load that they are of each slice of an assignment, given
    /// as its message. Gather each record once. For `plan`, add the loads of several tasks slice by slice. Codes of
    /// messages, `WRONG_FORM`, `WEIGHT_RANGE`, `TOTAL_RANGE`, `NO_MEMORY`.
    pub fn gather(
        &mut self,
        assignment: &[u8],
        task: u64,
        records: &[LoadRecord],
    ) -> Result<Vec<u64>, Refused> {
        let raw = |it: &LoadRecord| hs_load_record { slice_key: it.slice_key, weight: it.weight };
        let given: Vec<hs_load_record> = records.iter().map(raw).collect();
        let mut loads = vec![0; 64];
        loop {
            let mut needed = 0;
            let call = unsafe {
                sys::hs_load_book_gather(
                    self.0.write(),
                    assignment.as_ptr(),
                    assignment.len(),
                    task,
                    given.as_ptr(),
                    given.len(),
                    loads.as_mut_ptr(),
                    loads.len(),
                    &mut needed,
                )
            };
            match done(call) {
                Ok(()) => {
                    loads.truncate(needed);
                    return Ok(loads);
                }
                Err(refused) if refused.code() == Code::NO_ROOM => loads.resize(needed, 0),
                Err(refused) => return Err(refused),
            }
        }
    }

    /// The sum of the weights of all records of a task that were gathered. `WRONG_FORM` if `task` is not 1 to 64.
    pub fn total(&self, task: u64) -> Result<u64, Refused> {
        let mut total = 0;
        done(unsafe { sys::hs_load_book_total(self.0.read(), task, &mut total) })?;
        Ok(total)
    }
}
