//! Start and step on a run's record. A step tests the record, chooses, applies the report and makes both rows anew,
//! with one scan of the table, one layout and one sum of the work.

use super::acceptance::{analyse, well_formed, Counts};
use super::intervals::{Layout, Rows};
use crate::model::{Entry, Job, Kind, Phase, Refusal, Report, Rules, Run, Slot, Standing, JOBS};

/// Makes a blank run that holds a plan into a new run of it.
pub fn start(run: &mut Run) -> Result<(), Refusal> {
    let mut layout = Layout::EMPTY;
    analyse(&run.plan, &mut layout, &mut run.hi, &mut run.lo)
}

/// What a step works out of a coherent record.
struct Work {
    layout: Layout,
    needed: Rows,
    /// Table slots before the coming border.
    counts: Counts,
    live: u32,
    ready: u32,
}

/// What a job still needs of the HI and of the LO spares.
fn needs(job: &Job, entry: &Entry) -> (i32, i32) {
    if entry.standing != Standing::Waiting {
        return (0, 0);
    }
    let high = if job.is_hi() { i32::from(job.hi) - i32::from(entry.given) } else { 0 };
    (high, i32::from(job.lo.saturating_sub(entry.given)))
}

/// The clauses of coherence that speak of one job.
fn entry_holds(job: &Job, entry: &Entry, t: u16) -> bool {
    match entry.standing.end() {
        None => entry.given < job.hi,
        Some(end) => entry.given <= job.hi && end <= t,
    }
}

/// Works out what a step needs; false for an incoherent record.
fn coherent(run: &Run, work: &mut Work) -> bool {
    let coming = run.t.saturating_add(1);
    let Ok(counts) = well_formed(&run.plan, coming) else { return false };
    if run.t > run.plan.slots {
        return false;
    }
    work.counts = counts;
    let jobs = run.plan.planned();
    work.layout.lay(jobs, run.plan.slots);
    for (k, (job, entry)) in jobs.iter().zip(&run.entry).enumerate() {
        if !entry_holds(job, entry, run.t) {
            return false;
        }
        let (high, low) = needs(job, entry);
        let home = work.layout.home(k);
        work.needed.hi[home] += high;
        work.needed.lo[home] += low;
        let live = u32::from(entry.standing == Standing::Waiting);
        work.live |= live << k;
        work.ready |= (live & u32::from(job.release <= run.t)) << k;
    }
    work.layout.are_spares(run.t, &work.needed, &run.hi, &run.lo)
}

/// Applies a report to the slot at t. Answers what the slot was for and the current spares before it.
pub fn step(run: &mut Run, report: Report) -> Result<(Slot, (i32, i32)), Refusal> {
    let mut work = Work { layout: Layout::EMPTY, needed: Rows::NONE, counts: [0; JOBS + 1], live: 0, ready: 0 };
    if !coherent(run, &mut work) {
        return Err(Refusal::Incoherent);
    }
    let t = run.t;
    if t == run.plan.slots {
        return Err(Refusal::Over { t });
    }
    if report.slot != t {
        return Err(Refusal::WrongSlot { t });
    }
    let current = work.layout.past(t);
    let spares = (run.hi[current], run.lo[current]);
    let slot = choice(run, &work, spares);
    if (slot == Slot::Idle) != (report.kind == Kind::None) {
        return Err(Refusal::WrongKind { t });
    }
    run.t = t + 1;
    if let Slot::Job(number) = slot {
        apply(run, &mut work, usize::from(number) - 1, report.kind);
    }
    expire(run, &mut work);
    run.phase = next_phase(run, &work, slot);
    work.layout.spares(run.t, &work.needed, &mut run.hi, &mut run.lo);
    Ok((slot, spares))
}

fn choice(run: &Run, work: &Work, spares: (i32, i32)) -> Slot {
    let candidates = match run.phase {
        Phase::T => {
            let number = run.plan.table[usize::from(run.t)];
            if number != 0 && work.live >> (number - 1) & 1 == 1 {
                return Slot::Job(number);
            }
            work.ready
        }
        Phase::H => {
            let high = members(work.ready).filter(|&k| run.plan.job[k].is_hi()).fold(0, |set, k| set | 1 << k);
            match spares {
                (1.., 0..) => work.ready,
                (1.., _) if Rules::LANDED.dead_slot && high == 0 => work.ready,
                _ => high,
            }
        }
    };
    match members(candidates).min_by_key(|&k| (run.plan.job[k].deadline, run.plan.job[k].level)) {
        Some(k) => Slot::Job(k as u16 + 1),
        None => Slot::Idle,
    }
}

/// The places in a set, from the lowest on.
fn members(mut set: u32) -> impl Iterator<Item = usize> {
    std::iter::from_fn(move || {
        let k = set.trailing_zeros();
        (set != 0).then(|| {
            set &= set - 1;
            k as usize
        })
    })
}

/// Changes job k's entry and takes what it no longer needs from the sums.
fn change(run: &mut Run, work: &mut Work, k: usize, entry: Entry) {
    let job = &run.plan.job[k];
    let (before, after) = (needs(job, &run.entry[k]), needs(job, &entry));
    let home = work.layout.home(k);
    work.needed.hi[home] += after.0 - before.0;
    work.needed.lo[home] += after.1 - before.1;
    if entry.standing != Standing::Waiting {
        work.live &= !(1 << k);
    }
    run.entry[k] = entry;
}

fn apply(run: &mut Run, work: &mut Work, k: usize, kind: Kind) {
    let given = run.entry[k].given + 1;
    let standing = match kind {
        Kind::End => Standing::Finished(run.t),
        _ if given == run.plan.job[k].hi => Standing::Cut(run.t),
        _ => Standing::Waiting,
    };
    change(run, work, k, Entry { standing, given, ..run.entry[k] });
}

fn expire(run: &mut Run, work: &mut Work) {
    for k in members(work.live) {
        let job = &run.plan.job[k];
        if job.deadline <= run.t && (!job.is_hi() || Rules::LANDED.missed) {
            let standing = if job.is_hi() { Standing::Missed(run.t) } else { Standing::Dropped(run.t) };
            change(run, work, k, Entry { standing, ..run.entry[k] });
        }
    }
}

fn next_phase(run: &Run, work: &Work, slot: Slot) -> Phase {
    let overruns = |k: usize| run.plan.job[k].is_hi() && run.entry[k].given >= run.plan.job[k].lo;
    let high = match (run.phase, slot) {
        (Phase::T, Slot::Idle) => false,
        (Phase::T, Slot::Job(number)) => {
            let k = usize::from(number) - 1;
            work.live >> k & 1 == 1 && overruns(k)
        }
        (Phase::H, _) => members(work.live).any(|k| overruns(k) || run.entry[k].given < work.counts[k + 1]),
    };
    if high {
        Phase::H
    } else {
        Phase::T
    }
}
