//! K7: firm requests. C slots before a deadline are asked for in a running plan; a yes makes a LO job of them.

use super::intervals::Layout;
use super::plan::{Job, Level, Refusal, JOBS};
use super::run::{Entry, Origin, Run};

/// What a request is granted: its job's number and, by slot, the table it then has.
struct Grant {
    number: u16,
    slots: Vec<usize>,
}

impl Run {
    /// Asks for `count` slots before `deadline`. Answers the number of the job that has them, or 10, 11, 19, 20 or 21.
    /// A refusal leaves the run as it was.
    pub fn ask(&mut self, count: u16, deadline: u16) -> Result<u16, Refusal> {
        let grant = self.grant(count, deadline)?;
        Ok(self.take(grant, count, deadline))
    }

    /// The same with the slot that the asker names, which has to be t: 12, after 19 to 21.
    pub fn ask_at(&mut self, slot: u16, count: u16, deadline: u16) -> Result<u16, Refusal> {
        let grant = self.grant(count, deadline)?;
        if slot != self.t {
            return Err(Refusal::WrongSlot { t: self.t });
        }
        Ok(self.take(grant, count, deadline))
    }

    /// What a request would get; nothing is taken yet.
    fn grant(&self, count: u16, deadline: u16) -> Result<Grant, Refusal> {
        self.layout()?;
        self.check_not_over()?;
        let t = self.t;
        if count == 0 || !(t < deadline && deadline <= self.plan.slots) {
            return Err(Refusal::Request { t });
        }
        let number = self.free_number().ok_or(Refusal::NoNumber { t })?;
        let mut slots: Vec<usize> = (t.into()..deadline.into()).filter(|&slot| self.is_open(slot)).collect();
        if slots.len() < count.into() {
            return Err(Refusal::TooFew { open: slots.len() });
        }
        slots.truncate(count.into());
        Ok(Grant { number, slots })
    }

    /// The least free number above the planned ones: never used, or its job ended and without a table slot from t on.
    fn free_number(&self) -> Option<u16> {
        let used = self.plan.planned().len();
        let planned = self.entry[..used].iter().filter(|entry| entry.origin == Origin::Planned).count();
        let still_to_come = &self.plan.row()[usize::from(self.t)..];
        let is_free = |k: usize| {
            let number = k as u16 + 1;
            k >= used || !self.entry[k].is_live() && !still_to_come.contains(&number)
        };
        (planned..JOBS).find(|&k| is_free(k)).map(|k| k as u16 + 1)
    }

    /// Idle in the table, or a firm job's that has ended.
    fn is_open(&self, slot: usize) -> bool {
        match self.plan.table[slot] {
            0 => true,
            number => {
                let entry = &self.entry[usize::from(number) - 1];
                entry.origin == Origin::Firm && !entry.is_live()
            }
        }
    }

    /// Makes the job: its number's older slots become idle, the granted ones are its own. Clock and phase stay.
    fn take(&mut self, grant: Grant, count: u16, deadline: u16) -> u16 {
        let k = usize::from(grant.number) - 1;
        for slot in self.plan.table.iter_mut().filter(|slot| **slot == grant.number) {
            *slot = 0;
        }
        for slot in grant.slots {
            self.plan.table[slot] = grant.number;
        }
        self.plan.job[k] = Job { level: Level::Lo, release: self.t, deadline, lo: count, hi: count };
        self.entry[k] = Entry { origin: Origin::Firm, ..Entry::BLANK };
        self.plan.jobs = self.plan.jobs.max(grant.number);
        self.refresh(&Layout::of(&self.plan));
        grant.number
    }
}
