//! The checks 2 to 9 in their order, and the analysis: intervals and both spare rows at border 0.

use super::intervals::{Ends, Interval, Layout, Row, INTERVALS};
use super::plan::{Job, Plan, Refusal, JOBS, SLOTS};
use super::rules::Rules;

/// The most runs of adjoining table slots that a job has (17).
const RUNS: u16 = 4;

/// What an accepted plan's analysis shows.
#[derive(Clone, Debug)]
pub struct Analysis {
    pub layout: Layout,
    pub hi: Row,
    pub lo: Row,
    pub hi_end: Ends,
    pub lo_end: Ends,
}

impl Analysis {
    pub fn intervals(&self) -> &[Interval] {
        self.layout.intervals()
    }
}

/// The analysis by the rules that the product has.
pub fn analyse(plan: &Plan) -> Result<Analysis, Refusal> {
    analyse_by(Rules::LANDED, plan)
}

/// All checks, then the spares at border 0, where nothing is given yet.
pub fn analyse_by(rules: Rules, plan: &Plan) -> Result<Analysis, Refusal> {
    well_formed_by(rules, plan)?;
    windows_hold_the_work(plan)?;
    let layout = Layout::of(plan);
    table_keeps_the_spare(rules, plan, &layout)?;
    let (mut hi, mut lo) = ([0; INTERVALS], [0; INTERVALS]);
    for (k, job) in plan.planned().iter().enumerate() {
        hi[layout.home(k)] += hi_budget(job);
        lo[layout.home(k)] += i32::from(job.lo);
    }
    let (hi_end, lo_end) = (layout.ends(rules, 0, &hi), layout.ends(rules, 0, &lo));
    let (hi, lo) = (layout.spares(0, &hi), layout.spares(0, &lo));
    Ok(Analysis { layout, hi, lo, hi_end, lo_end })
}

/// What a job asks of the HI spares before it runs.
fn hi_budget(job: &Job) -> i32 {
    if job.is_hi() {
        i32::from(job.hi)
    } else {
        0
    }
}

/// Checks 2 to 7, and 17 where it has landed.
pub fn well_formed(plan: &Plan) -> Result<(), Refusal> {
    well_formed_by(Rules::LANDED, plan)
}

/// Checks 2 to 7, and 17 where the rules have it.
pub fn well_formed_by(rules: Rules, plan: &Plan) -> Result<(), Refusal> {
    well_formed_but(rules, plan, |_| true, |_| true)
}

/// The same, where 7 is asked only of the jobs, from 0, that are `owed` their table slots, and 17 only of `planned`
/// ones.
pub fn well_formed_but(
    rules: Rules,
    plan: &Plan,
    owed: impl Fn(usize) -> bool,
    planned: impl Fn(usize) -> bool,
) -> Result<(), Refusal> {
    if !(1..=SLOTS).contains(&usize::from(plan.slots)) {
        return Err(Refusal::SlotLimit);
    }
    if !(1..=JOBS).contains(&usize::from(plan.jobs)) {
        return Err(Refusal::JobLimit);
    }
    let jobs = plan.planned();
    if let Some(k) = jobs.iter().position(|job| !window_holds(job, plan.slots)) {
        return Err(Refusal::Window { job: k + 1 });
    }
    if let Some(k) = jobs.iter().position(|job| !budgets_hold(job, plan.slots)) {
        return Err(Refusal::Budget { job: k + 1 });
    }
    let mut counts = [0; JOBS];
    for (slot, &number) in plan.row().iter().enumerate() {
        if number == 0 {
            continue;
        }
        let k = usize::from(number) - 1;
        match jobs.get(k) {
            Some(job) if (usize::from(job.release)..usize::from(job.deadline)).contains(&slot) => counts[k] += 1,
            _ => return Err(Refusal::Table { slot }),
        }
    }
    if let Some(k) = (0..jobs.len()).position(|k| owed(k) && jobs[k].lo != counts[k]) {
        return Err(Refusal::Count { job: k + 1 });
    }
    let runs = runs(plan);
    match (0..jobs.len()).position(|k| rules.chopped && planned(k) && runs[k] > RUNS) {
        Some(k) => Err(Refusal::Chopped { job: k + 1 }),
        None => Ok(()),
    }
}

/// How many longest rows of adjoining table slots each job has.
fn runs(plan: &Plan) -> [u16; JOBS] {
    let mut runs = [0; JOBS];
    let mut before = 0;
    for &number in plan.row() {
        if number != 0 && number != before {
            runs[usize::from(number) - 1] += 1;
        }
        before = number;
    }
    runs
}

fn window_holds(job: &Job, slots: u16) -> bool {
    job.release < job.deadline && job.deadline <= slots
}

fn budgets_hold(job: &Job, slots: u16) -> bool {
    1 <= job.lo && job.lo <= job.hi && job.hi <= slots && (job.is_hi() || job.lo == job.hi)
}

/// Check 8: no window from a HI release to a HI deadline asks for more HI slots than it has.
fn windows_hold_the_work(plan: &Plan) -> Result<(), Refusal> {
    let mut jobs = [Job::BLANK; JOBS];
    let mut count = 0;
    for job in plan.planned().iter().filter(|job| job.is_hi()) {
        jobs[count] = *job;
        count += 1;
    }
    let jobs = &mut jobs[..count];
    jobs.sort_unstable_by_key(|job| job.deadline);
    let first_overload = |from: u16| {
        let mut sum = 0;
        jobs.iter().filter(|job| from <= job.release).find_map(|job| {
            sum += u32::from(job.hi);
            (sum > u32::from(job.deadline - from)).then_some(job.deadline)
        })
    };
    let worst = jobs.iter().filter_map(|job| Some((job.release, first_overload(job.release)?))).min();
    match worst {
        Some((from, to)) => Err(Refusal::Overload { from, to }),
        None => Ok(()),
    }
}

/// Check 9: along the table, each job ending on its lo-th slot, the current HI spare stays at 0 or above.
fn table_keeps_the_spare(rules: Rules, plan: &Plan, layout: &Layout) -> Result<(), Refusal> {
    let mut needed = [0; INTERVALS];
    for (k, job) in plan.planned().iter().enumerate() {
        needed[layout.home(k)] += hi_budget(job);
    }
    let mut given = [0; JOBS];
    for (border, &number) in plan.row().iter().enumerate() {
        let t = border as u16;
        if layout.current_spare(t, &needed) < 0 {
            let end = layout.ends(rules, t, &needed)[layout.past(t)];
            return Err(if rules.ends { Refusal::SpareBy { border, end } } else { Refusal::Spare { border } });
        }
        if number == 0 {
            continue;
        }
        let k = usize::from(number) - 1;
        let job = &plan.job[k];
        given[k] += 1;
        if job.is_hi() {
            // The last table slot ends the job, and what was left of its larger budget is free.
            let ends = given[k] == job.lo;
            needed[layout.home(k)] -= if ends { i32::from(job.hi) - i32::from(job.lo) + 1 } else { 1 };
        }
    }
    Ok(())
}
