//! The checks 2 to 9 and the analysis.

use super::intervals::{Layout, Rows};
use crate::model::{Job, Plan, Refusal, Row, Rules, JOBS, SLOTS};

/// A number for each job, the job's number as the index; place 0 takes the idle slots.
pub type Counts = [u16; JOBS + 1];

/// All checks; then the layout and the spares at border 0 are those of the plan.
pub fn analyse(plan: &Plan, layout: &mut Layout, hi: &mut Row, lo: &mut Row) -> Result<(), Refusal> {
    well_formed(plan, 0)?;
    let jobs = plan.planned();
    layout.lay(jobs, plan.slots);
    let mut high = [0; JOBS];
    let high = high_by_deadline(jobs, layout, &mut high);
    windows_hold_the_work(jobs, high)?;
    table_keeps_the_spare(plan, high)?;
    let mut needed = Rows::NONE;
    for (k, job) in jobs.iter().enumerate() {
        let home = layout.home(k);
        needed.hi[home] += if job.is_hi() { i32::from(job.hi) } else { 0 };
        needed.lo[home] += i32::from(job.lo);
    }
    layout.spares(0, &needed, hi, lo);
    Ok(())
}

/// Checks 2 to 7; the table slots of each job before border t.
pub fn well_formed(plan: &Plan, t: u16) -> Result<Counts, Refusal> {
    if !(1..=SLOTS).contains(&usize::from(plan.slots)) {
        return Err(Refusal::SlotLimit);
    }
    if !(1..=JOBS).contains(&usize::from(plan.jobs)) {
        return Err(Refusal::JobLimit);
    }
    let jobs = plan.planned();
    windows_and_budgets(jobs, plan.slots)?;
    let mut windows = [(0, 0); JOBS + 1];
    windows[0] = (0, plan.slots);
    for (window, job) in windows[1..].iter_mut().zip(jobs) {
        *window = (job.release, job.deadline - job.release);
    }
    let windows = &windows[..=jobs.len()];
    let mut counts = [0; JOBS + 1];
    let (before, from_t) = plan.row().split_at(usize::from(t.min(plan.slots)));
    count_inside(before, 0, windows, &mut counts)?;
    let before = counts;
    count_inside(from_t, t, windows, &mut counts)?;
    if let Some(k) = jobs.iter().zip(&counts[1..]).position(|(job, &count)| job.lo != count) {
        return Err(Refusal::Count { job: k + 1 });
    }
    if Rules::LANDED.chopped {
        not_chopped(plan)?;
    }
    Ok(before)
}

/// Check 17: no job has more than four rows of adjoining slots.
fn not_chopped(plan: &Plan) -> Result<(), Refusal> {
    let mut runs = [0; JOBS + 1];
    let mut before = 0;
    for &number in plan.row() {
        runs[usize::from(number)] += u16::from(number != before);
        before = number;
    }
    match runs[1..=plan.planned().len()].iter().position(|&runs| runs > 4) {
        Some(k) => Err(Refusal::Chopped { job: k + 1 }),
        None => Ok(()),
    }
}

/// Checks 4 and 5: one pass where both hold, and a second one to name what does not.
fn windows_and_budgets(jobs: &[Job], slots: u16) -> Result<(), Refusal> {
    let window = |job: &Job| job.release < job.deadline && job.deadline <= slots;
    let budget = |job: &Job| 1 <= job.lo && job.lo <= job.hi && job.hi <= slots && (job.is_hi() || job.lo == job.hi);
    if jobs.iter().all(|job| window(job) && budget(job)) {
        return Ok(());
    }
    match jobs.iter().position(|job| !window(job)) {
        Some(k) => Err(Refusal::Window { job: k + 1 }),
        None => Err(Refusal::Budget { job: jobs.iter().position(|job| !budget(job)).map_or(0, |k| k + 1) }),
    }
}

/// Check 6 for the slots from `first` on, counted for 7. A window is a release and a length.
fn count_inside(slots: &[u16], first: u16, windows: &[(u16, u16)], counts: &mut Counts) -> Result<(), Refusal> {
    for (&number, slot) in slots.iter().zip(first..) {
        match windows.get(usize::from(number)) {
            Some(&(release, length)) if slot.wrapping_sub(release) < length => counts[usize::from(number)] += 1,
            _ => return Err(Refusal::Table { slot: usize::from(slot) }),
        }
    }
    Ok(())
}

/// The places of the HI jobs by rising deadline.
fn high_by_deadline<'a>(jobs: &[Job], layout: &Layout, high: &'a mut [u8; JOBS]) -> &'a [u8] {
    let mut count = 0;
    for &k in layout.by_deadline(jobs.len()) {
        high[count] = k;
        count += usize::from(jobs[usize::from(k)].is_hi());
    }
    &high[..count]
}

/// Check 8: for each HI release one running sum over the HI jobs by rising deadline.
fn windows_hold_the_work(jobs: &[Job], high: &[u8]) -> Result<(), Refusal> {
    let mut worst = None;
    for &from in high {
        let from = jobs[usize::from(from)].release;
        let mut sum = 0;
        for &k in high {
            let job = &jobs[usize::from(k)];
            if from <= job.release {
                sum += u32::from(job.hi);
                if sum > u32::from(job.deadline - from) {
                    worst = Some(worst.map_or((from, job.deadline), |found| (from, job.deadline).min(found)));
                    break;
                }
            }
        }
    }
    match worst {
        Some((from, to)) => Err(Refusal::Overload { from, to }),
        None => Ok(()),
    }
}

/// Check 9. A border that is short stays short up to the next end of a HI job, so only the border before a HI job's
/// last table slot is looked at; where it is short, the first such border comes after the last one that was not.
fn table_keeps_the_spare(plan: &Plan, high: &[u8]) -> Result<(), Refusal> {
    let jobs = plan.planned();
    let mut last = [u16::MAX; JOBS + 1];
    for &k in high {
        last[usize::from(k) + 1] = jobs[usize::from(k)].lo - 1;
    }
    let mut counts = [0; JOBS + 1];
    let mut unseen = 0;
    for (border, &number) in plan.row().iter().enumerate() {
        let count = &mut counts[usize::from(number)];
        if *count == last[usize::from(number)] {
            if is_short(jobs, high, &counts, border) {
                return Err(Refusal::Spare { border: first_short(plan, high, unseen) });
            }
            unseen = border + 1;
        }
        counts[usize::from(number)] += 1;
    }
    Ok(())
}

/// Whether the HI jobs that go on need more than the time to some deadline.
fn is_short(jobs: &[Job], high: &[u8], counts: &Counts, border: usize) -> bool {
    let mut due = border as u32;
    high.iter().any(|&k| {
        let (job, count) = (&jobs[usize::from(k)], counts[usize::from(k) + 1]);
        let goes_on = count < job.lo;
        due += if goes_on { u32::from(job.hi - count) } else { 0 };
        goes_on && u32::from(job.deadline) < due
    })
}

/// The first short border from `from` on, where there is one.
fn first_short(plan: &Plan, high: &[u8], from: usize) -> usize {
    let mut counts = [0; JOBS + 1];
    for &number in &plan.row()[..from] {
        counts[usize::from(number)] += 1;
    }
    let mut border = from;
    while !is_short(plan.planned(), high, &counts, border) {
        counts[usize::from(plan.table[border])] += 1;
        border += 1;
    }
    border
}
