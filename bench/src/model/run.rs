//! The executive: a run's record, its coherence, the choice for a slot, and one step. Requests stand in `firm`, lost
//! slots in `lost`.

use super::acceptance::{analyse_by, well_formed_but, Analysis};
use super::intervals::{Ends, Layout, Row, INTERVALS};
use super::plan::{Job, Plan, Refusal, JOBS};
use super::rules::Rules;

/// T follows the table; H is entered by an overrun.
#[derive(Clone, Copy, Debug, PartialEq, Eq)]
pub enum Phase {
    T,
    H,
}

/// How a job stands; an ended one with the border at which it ended.
#[derive(Clone, Copy, Debug, PartialEq, Eq)]
pub enum Standing {
    Waiting,
    Finished(u16),
    Cut(u16),
    Dropped(u16),
    /// A HI job whose deadline came first (K6).
    Missed(u16),
}

impl Standing {
    /// The border at which an ended job ended.
    pub fn end(self) -> Option<u16> {
        match self {
            Standing::Waiting => None,
            Standing::Finished(end) | Standing::Cut(end) | Standing::Dropped(end) | Standing::Missed(end) => Some(end),
        }
    }
}

/// Whether a job was in the plan from the start or was asked for in the run.
#[derive(Clone, Copy, Debug, PartialEq, Eq)]
pub enum Origin {
    Planned,
    Firm,
}

/// A job's record in a run.
#[derive(Clone, Copy, Debug, PartialEq, Eq)]
pub struct Entry {
    pub standing: Standing,
    pub given: u16,
    pub origin: Origin,
}

impl Entry {
    pub const BLANK: Entry = Entry { standing: Standing::Waiting, given: 0, origin: Origin::Planned };

    pub fn is_live(&self) -> bool {
        self.standing == Standing::Waiting
    }

    /// The clauses of coherence that speak of one job.
    fn holds(&self, job: &Job, t: u16) -> bool {
        match self.standing.end() {
            None => self.given < job.hi,
            Some(end) => self.given <= job.hi && end <= t,
        }
    }
}

/// A run's whole record. Its fields are open: any record can be asked for, and an incoherent one is refused.
#[derive(Clone, Debug, PartialEq)]
pub struct Run {
    pub rules: Rules,
    pub plan: Plan,
    pub t: u16,
    pub phase: Phase,
    pub entry: [Entry; JOBS],
    pub hi: Row,
    pub lo: Row,
    pub hi_end: Ends,
    pub lo_end: Ends,
}

/// What a slot is used for.
#[derive(Clone, Copy, Debug, PartialEq, Eq)]
pub enum Slot {
    /// The job with this number, from 1.
    Job(u16),
    Idle,
}

/// The slot's use and the ready jobs, job 1 at bit 0.
#[derive(Clone, Copy, Debug, PartialEq, Eq)]
pub struct Choice {
    pub slot: Slot,
    pub ready: u32,
}

#[derive(Clone, Copy, Debug, PartialEq, Eq)]
pub enum Kind {
    End,
    More,
    None,
}

#[derive(Clone, Copy, Debug, PartialEq, Eq)]
pub struct Report {
    pub slot: u16,
    pub kind: Kind,
}

impl Run {
    pub const BLANK: Run = Run {
        rules: Rules::LANDED,
        plan: Plan::BLANK,
        t: 0,
        phase: Phase::T,
        entry: [Entry::BLANK; JOBS],
        hi: [0; INTERVALS],
        lo: [0; INTERVALS],
        hi_end: [0; INTERVALS],
        lo_end: [0; INTERVALS],
    };

    /// A new run of an accepted plan, by the rules that the product has.
    pub fn start(plan: &Plan) -> Result<Run, Refusal> {
        Run::start_by(Rules::LANDED, plan)
    }

    /// A new run of an accepted plan.
    pub fn start_by(rules: Rules, plan: &Plan) -> Result<Run, Refusal> {
        let Analysis { hi, lo, hi_end, lo_end, .. } = analyse_by(rules, plan)?;
        Ok(Run { rules, plan: plan.clone(), hi, lo, hi_end, lo_end, ..Run::BLANK })
    }

    pub fn coherent(&self) -> bool {
        self.layout().is_ok()
    }

    /// The plan's layout, if the record is coherent. An ended firm job is not owed its table slots: others may have
    /// them.
    pub fn layout(&self) -> Result<Layout, Refusal> {
        let planned = |k: usize| self.entry[k].origin == Origin::Planned;
        let owed = |k: usize| planned(k) || self.entry[k].is_live();
        let clauses_hold = well_formed_but(self.rules, &self.plan, owed, planned).is_ok()
            && self.planned_come_first()
            && self.t <= self.plan.slots
            && self.jobs().all(|(_, job, entry)| entry.holds(job, self.t));
        if !clauses_hold {
            return Err(Refusal::Incoherent);
        }
        let layout = Layout::of(&self.plan);
        if self.fresh_rows(&layout) != (self.hi, self.lo, self.hi_end, self.lo_end) {
            return Err(Refusal::Incoherent);
        }
        Ok(layout)
    }

    fn planned_come_first(&self) -> bool {
        self.entry[..self.plan.planned().len()].is_sorted_by_key(|entry| entry.origin == Origin::Firm)
    }

    /// The jobs on record: place from 0, job, entry.
    pub fn jobs(&self) -> impl Iterator<Item = (usize, &Job, &Entry)> {
        self.plan.planned().iter().zip(&self.entry).enumerate().map(|(k, (job, entry))| (k, job, entry))
    }

    /// Both spare rows at border t with their ends; all 0 at t = N.
    fn fresh_rows(&self, layout: &Layout) -> (Row, Row, Ends, Ends) {
        let (mut hi, mut lo) = ([0; INTERVALS], [0; INTERVALS]);
        for (k, job, entry) in self.jobs().filter(|(_, _, entry)| entry.is_live()) {
            let home = layout.home(k);
            if job.is_hi() {
                hi[home] += i32::from(job.hi) - i32::from(entry.given);
            }
            lo[home] += i32::from(job.lo.saturating_sub(entry.given));
        }
        let ends = |needed| layout.ends(self.rules, self.t, needed);
        (layout.spares(self.t, &hi), layout.spares(self.t, &lo), ends(&hi), ends(&lo))
    }

    pub fn refresh(&mut self, layout: &Layout) {
        (self.hi, self.lo, self.hi_end, self.lo_end) = self.fresh_rows(layout);
    }

    /// The spares of the current interval, HI then LO. Both are 0 when the run is over.
    pub fn current_spares(&self, layout: &Layout) -> (i32, i32) {
        let current = layout.past(self.t).min(INTERVALS - 1);
        (self.hi[current], self.lo[current])
    }

    /// The ends that make the current spares, HI then LO, in a coherent record.
    pub fn current_ends(&self) -> (u16, u16) {
        let current = Layout::of(&self.plan).past(self.t).min(INTERVALS - 1);
        (self.hi_end[current], self.lo_end[current])
    }

    /// What the next slot is for, or 10 or 11.
    pub fn choose(&self) -> Result<Choice, Refusal> {
        let layout = self.layout()?;
        self.check_not_over()?;
        Ok(self.choice(&layout))
    }

    pub fn check_not_over(&self) -> Result<(), Refusal> {
        if self.t == self.plan.slots {
            Err(Refusal::Over { t: self.t })
        } else {
            Ok(())
        }
    }

    /// The choice in a coherent record that is not over.
    fn choice(&self, layout: &Layout) -> Choice {
        let ready = self.set_of(|job, entry| entry.is_live() && job.release <= self.t);
        let candidates = match self.phase {
            Phase::T => {
                let number = self.plan.table[usize::from(self.t)];
                if number != 0 && self.entry[usize::from(number) - 1].is_live() {
                    return Choice { slot: Slot::Job(number), ready };
                }
                ready
            }
            Phase::H => {
                let high = ready & self.set_of(|job, _| job.is_hi());
                match self.current_spares(layout) {
                    (1.., 0..) => ready,
                    (1.., _) if self.rules.dead_slot && high == 0 => ready,
                    _ => high,
                }
            }
        };
        Choice { slot: self.earliest_deadline(candidates), ready }
    }

    fn set_of(&self, member: impl Fn(&Job, &Entry) -> bool) -> u32 {
        self.jobs().fold(0, |set, (k, job, entry)| set | u32::from(member(job, entry)) << k)
    }

    /// Least deadline, then HI before LO, then the lower number.
    fn earliest_deadline(&self, set: u32) -> Slot {
        let members = (0..JOBS).filter(|k| set >> k & 1 == 1);
        match members.min_by_key(|&k| (self.plan.job[k].deadline, self.plan.job[k].level)) {
            Some(k) => Slot::Job(k as u16 + 1),
            None => Slot::Idle,
        }
    }

    /// Applies a report to the slot at t. Answers what the slot was for and the current spares before it.
    /// A refusal leaves the run as it was.
    pub fn step(&mut self, report: Report) -> Result<(Slot, (i32, i32)), Refusal> {
        let layout = self.layout()?;
        self.check_not_over()?;
        if report.slot != self.t {
            return Err(Refusal::WrongSlot { t: self.t });
        }
        let slot = self.choice(&layout).slot;
        if (slot == Slot::Idle) != (report.kind == Kind::None) {
            return Err(Refusal::WrongKind { t: self.t });
        }
        let spares = self.current_spares(&layout);
        self.t += 1;
        if let Slot::Job(number) = slot {
            self.report(usize::from(number) - 1, report.kind);
        }
        self.expire();
        self.phase = self.next_phase(slot);
        self.refresh(&layout);
        Ok((slot, spares))
    }

    /// One more slot given to job k, from 0, which ends or is cut; t is the border after the slot.
    fn report(&mut self, k: usize, kind: Kind) {
        let entry = &mut self.entry[k];
        entry.given += 1;
        if kind == Kind::End {
            entry.standing = Standing::Finished(self.t);
        } else if entry.given == self.plan.job[k].hi {
            entry.standing = Standing::Cut(self.t);
        }
    }

    /// Live LO jobs whose deadline has come are dropped; HI ones stand as missed where the rules say so.
    pub fn expire(&mut self) {
        for (job, entry) in self.plan.planned().iter().zip(&mut self.entry) {
            if entry.is_live() && job.deadline <= self.t {
                match job.is_hi() {
                    false => entry.standing = Standing::Dropped(self.t),
                    true if self.rules.missed => entry.standing = Standing::Missed(self.t),
                    true => (),
                }
            }
        }
    }

    /// The phase after a slot, judged on the record as it then stands.
    fn next_phase(&self, slot: Slot) -> Phase {
        match (self.phase, slot) {
            (Phase::T, Slot::Job(number)) if self.overruns(usize::from(number) - 1) => Phase::H,
            (Phase::T, _) => Phase::T,
            (Phase::H, _) => self.phase_from_h(),
        }
    }

    /// A live HI job that has had its smaller budget.
    fn overruns(&self, k: usize) -> bool {
        let (job, entry) = (&self.plan.job[k], &self.entry[k]);
        job.is_hi() && entry.is_live() && entry.given >= job.lo
    }

    /// The return test.
    pub fn phase_from_h(&self) -> Phase {
        let counts = self.table_counts();
        let stays = |k: usize, entry: &Entry| self.overruns(k) || entry.is_live() && entry.given < counts[k];
        if self.jobs().any(|(k, _, entry)| stays(k, entry)) {
            Phase::H
        } else {
            Phase::T
        }
    }

    /// How many table slots before t each job has.
    fn table_counts(&self) -> [u16; JOBS] {
        let mut counts = [0; JOBS];
        for &number in self.plan.table[..usize::from(self.t)].iter().filter(|&&number| number != 0) {
            counts[usize::from(number) - 1] += 1;
        }
        counts
    }
}
