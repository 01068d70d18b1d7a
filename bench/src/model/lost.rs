//! K6: slots lost to the watchdog. They count as idle, the clock moves on, and the answer says whether every HI job can
//! still have its larger budget.

use super::intervals::Layout;
use super::plan::Refusal;
use super::run::{Run, Standing};

impl Run {
    /// Slots t to t + count - 1 are lost. Answers yes or no, or 10, 11 or 18. A refusal leaves the run as it was.
    pub fn lose(&mut self, count: u16) -> Result<bool, Refusal> {
        self.check_loss(count)?;
        Ok(self.pass_lost(count))
    }

    /// The same with the first lost slot named, which has to be t: 12, after 18.
    pub fn lose_at(&mut self, slot: u16, count: u16) -> Result<bool, Refusal> {
        self.check_loss(count)?;
        if slot != self.t {
            return Err(Refusal::WrongSlot { t: self.t });
        }
        Ok(self.pass_lost(count))
    }

    fn check_loss(&self, count: u16) -> Result<(), Refusal> {
        self.layout()?;
        self.check_not_over()?;
        if count == 0 || count > self.plan.slots - self.t {
            return Err(Refusal::Loss { t: self.t });
        }
        Ok(())
    }

    fn pass_lost(&mut self, count: u16) -> bool {
        self.t += count;
        self.expire();
        self.phase = self.phase_from_h();
        self.refresh(&Layout::of(&self.plan));
        let missed = self.jobs().any(|(_, job, entry)| job.is_hi() && matches!(entry.standing, Standing::Missed(_)));
        !missed && self.some_order_exists()
    }

    /// Whether some order of the coming slots gives every live HI job the rest of its larger budget in its window.
    /// If there is one, taking the earliest deadline at each slot is one.
    fn some_order_exists(&self) -> bool {
        let live = self.jobs().filter(|(_, job, entry)| job.is_hi() && entry.is_live());
        let mut rest: Vec<(u16, u16, u16)> =
            live.map(|(_, job, entry)| (job.deadline, job.release, job.hi - entry.given)).collect();
        rest.sort_unstable();
        for slot in self.t..self.plan.slots {
            if let Some(first) = rest.iter_mut().find(|(_, release, left)| *release <= slot && *left > 0) {
                first.2 -= 1;
                if first.0 <= slot {
                    return false;
                }
            }
        }
        rest.iter().all(|(_, _, left)| *left == 0)
    }
}
