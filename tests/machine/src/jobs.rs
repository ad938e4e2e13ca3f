//! Four jobs that queue stores for one controller, and whose turn it is, as document 02's eighth wish has it.

use crate::machine::{address, Refusal};
use crate::mutants::Mutant;
use std::collections::VecDeque;

pub const JOBS: usize = 4;
/// Stores that wait for one job.
pub const QUEUE_LIMIT: usize = 8;

/// A store as a job queues it.
#[derive(Clone, Copy, Debug, PartialEq, Eq)]
pub struct Store {
    pub address: u8,
    pub operand: [u8; 4],
}

impl Store {
    pub fn names_drive(&self) -> bool {
        self.address & address::NAMES_DRIVE != 0
    }

    /// By its operation alone: a drive above 3 does not make it another store.
    pub fn is_reset(&self) -> bool {
        address::operation(self.address) == 0
    }
}

#[derive(Clone, Debug, PartialEq, Eq)]
pub struct Queues {
    pub of_job: [VecDeque<Store>; JOBS],
    pub last_served: usize,
}

impl Queues {
    /// Nothing queued, and job 0 to come first.
    pub fn fresh() -> Queues {
        Queues {
            of_job: Default::default(),
            last_served: JOBS - 1,
        }
    }

    /// The state as it is before the first call, where a rule may be wrong from the start.
    pub fn fresh_with(mutant: Option<Mutant>) -> Queues {
        let mut queues = Queues::fresh();
        if mutant == Some(Mutant::JobsStartWith1) {
            queues.last_served = 0;
        }
        queues
    }

    pub fn is_empty(&self) -> bool {
        self.of_job.iter().all(VecDeque::is_empty)
    }

    /// Queues a store for a job.
    pub fn put(&mut self, job: u8, store: Store, mutant: Option<Mutant>) -> Result<(), Refusal> {
        let wrong = |rule| mutant == Some(rule);
        let job = match job as usize {
            job if wrong(Mutant::JobsWrapped) => job % JOBS,
            job => job,
        };
        let drive_4_to_7 = store.names_drive() && store.address & address::DRIVE > 3;
        let refused = job >= JOBS
            || !store.names_drive() && !wrong(Mutant::JobsNoDriveQueued)
            || drive_4_to_7 && wrong(Mutant::JobsHighDriveRefused)
            || store.is_reset()
                && !wrong(Mutant::JobsResetQueued)
                && !(drive_4_to_7 && wrong(Mutant::JobsHighResetQueued));
        let limit = match mutant {
            Some(Mutant::JobsNinthTaken) => QUEUE_LIMIT + 1,
            Some(Mutant::JobsEighthRefused) => QUEUE_LIMIT - 1,
            _ => QUEUE_LIMIT,
        };
        let length = match self.of_job.get(job) {
            _ if wrong(Mutant::JobsOneLimitForAll) => self.of_job.iter().map(VecDeque::len).sum(),
            Some(queue) => queue.len(),
            None => 0,
        };
        if length >= limit && wrong(Mutant::JobsFullFirst) {
            return Err(Refusal::QueueFull);
        }
        if refused {
            return Err(Refusal::Store);
        }
        if length >= limit {
            return Err(Refusal::QueueFull);
        }
        match mutant {
            Some(Mutant::JobsLastInFirstOut) => self.of_job[job].push_front(store),
            _ => self.of_job[job].push_back(store),
        }
        Ok(())
    }

    /// The job whose turn it is: in turn from the one after the last served, empty queues passed over.
    pub fn next_job(&self, mutant: Option<Mutant>) -> Option<usize> {
        let first = match mutant {
            Some(Mutant::JobsLastServedFirst) => 0,
            _ => 1,
        };
        let looked_at = match mutant {
            Some(Mutant::JobsEmptyNotPassed) => 1,
            _ => JOBS,
        };
        (first..first + looked_at)
            .map(|steps| match mutant {
                Some(Mutant::JobsDownward) => (self.last_served + JOBS - steps) % JOBS,
                Some(Mutant::JobsFromJob0) => steps - 1,
                _ => (self.last_served + steps) % JOBS,
            })
            .find(|&job| !self.of_job[job].is_empty())
    }

    /// Takes the next store out of its queue; its place is free from then on.
    pub fn take(&mut self, mutant: Option<Mutant>) -> Option<Store> {
        let job = self.next_job(mutant)?;
        self.last_served = job;
        match mutant {
            Some(Mutant::JobsPlaceKept) if self.of_job[job].len() == QUEUE_LIMIT => {
                self.of_job[job].front().copied()
            }
            _ => self.of_job[job].pop_front(),
        }
    }
}
