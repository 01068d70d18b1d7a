//! Plans by chance: a table that fits its jobs' windows by construction, then larger budgets on top.

use super::Rng;
use crate::model::{analyse, Job, Level, Plan, JOBS, SLOTS};

/// A plan that passes 2 to 7. Most of them pass 8 and 9 too.
pub fn plan(rng: &mut Rng) -> Plan {
    let sizes = sizes(rng);
    let mut plan = if rng.chance(90) { crowded(rng, sizes) } else { spread(rng) };
    raise_budgets(rng, &mut plan);
    plan
}

/// An accepted plan of the largest size, with room for its HI jobs to overrun.
pub fn largest(rng: &mut Rng) -> Plan {
    loop {
        let mut plan = crowded(rng, (SLOTS as u16, JOBS as u16));
        raise_budgets(rng, &mut plan);
        let overruns = plan.planned().iter().filter(|job| job.lo < job.hi).count();
        if analyse(&plan).is_ok() && overruns >= JOBS / 4 {
            return plan;
        }
    }
}

/// HI by this chance, otherwise LO.
fn level(rng: &mut Rng, hi_share: usize) -> Level {
    if rng.chance(hi_share) {
        Level::Hi
    } else {
        Level::Lo
    }
}

/// A plan with one narrow window after the other, gaps between most of them, and sometimes a last job across all.
fn spread(rng: &mut Rng) -> Plan {
    let mut plan = Plan::BLANK;
    plan.jobs = if rng.chance(50) { JOBS as u16 } else { rng.range(1, JOBS as u16) };
    let width = rng.range(3, SLOTS as u16 / plan.jobs.max(16));
    plan.slots = plan.jobs * width;
    let least_gap = rng.range(0, 1);
    for k in 0..plan.jobs {
        let start = k * width;
        let release = start + rng.range(least_gap, width - 2);
        let deadline = rng.range(release + 1, start + width - least_gap);
        plan.table[usize::from(release)] = k + 1;
        plan.job[usize::from(k)] = Job { level: level(rng, 60), release, deadline, lo: 1, hi: 1 };
    }
    if rng.chance(40) {
        let long = &mut plan.job[usize::from(plan.jobs) - 1];
        (long.release, long.deadline) = (rng.range(0, long.release), plan.slots);
        long.level = Level::Hi;
    }
    plan
}

/// Sizes of a plan by chance, often the largest of their kind.
fn sizes(rng: &mut Rng) -> (u16, u16) {
    let (most_slots, most_jobs) = rng.pick(&[(3, 2), (8, 4), (12, 4), (24, 6), (40, 12), (100, 20), (512, 32)]);
    let slots = if rng.chance(30) { most_slots } else { rng.range(1, most_slots) };
    let most_jobs = most_jobs.min(slots);
    (slots, if rng.chance(20) { most_jobs } else { rng.range(1, most_jobs) })
}

/// A plan whose windows lie across each other.
fn crowded(rng: &mut Rng, (slots, jobs): (u16, u16)) -> Plan {
    let mut plan = Plan { slots, jobs, ..Plan::BLANK };
    let hi_share = rng.pick(&[20, 50, 50, 80]);
    let mut free: Vec<u16> = (0..plan.slots).collect();
    for k in 0..usize::from(plan.jobs) {
        let still_to_come = usize::from(plan.jobs) - k - 1;
        let most = free.len() - still_to_come;
        plan.job[k] = place_job(rng, &mut plan, k, &mut free, most);
        plan.job[k].level = level(rng, hi_share);
    }
    plan
}

/// A job of at most `most` slots: a window around a free slot, and some of the free slots in it.
fn place_job(rng: &mut Rng, plan: &mut Plan, k: usize, free: &mut Vec<u16>, most: usize) -> Job {
    let anchor = rng.pick(free);
    let (release, deadline) = window(rng, plan, k, anchor);
    let mut inside: Vec<u16> = free.iter().copied().filter(|slot| (release..deadline).contains(slot)).collect();
    let most = inside.len().min(most);
    let most = if rng.chance(70) { most.min(4) } else { most };
    let lo = 1 + rng.below(most);
    match rng.below(3) {
        0 => inside.reverse(),
        1 => {
            for i in (1..inside.len()).rev() {
                inside.swap(i, rng.below(i + 1));
            }
        }
        _ => (),
    }
    let own = in_runs(&inside, lo, rng.pick(&[1, 4, 4, 4, 4, 4, 4, 4, 4, 4, 4, 4, 4, 5, 5, SLOTS]));
    for &slot in &own {
        plan.table[usize::from(slot)] = k as u16 + 1;
    }
    free.retain(|slot| !own.contains(slot));
    Job { level: Level::Lo, release, deadline, lo: own.len() as u16, hi: own.len() as u16 }
}

/// The first of these slots, at most `count` of them, left out where they would make more than `most` runs.
fn in_runs(slots: &[u16], count: usize, most: usize) -> Vec<u16> {
    let (mut own, mut runs) = (Vec::with_capacity(count), 0);
    for &slot in slots {
        let beside = own.iter().filter(|&&other: &&u16| other.abs_diff(slot) == 1).count();
        if own.len() < count && runs + 1 <= most + beside {
            own.push(slot);
            runs = runs + 1 - beside;
        }
    }
    own
}

/// A window that holds slot `anchor`, often one that shares a border with an earlier job's.
fn window(rng: &mut Rng, plan: &Plan, k: usize, anchor: u16) -> (u16, u16) {
    let reach = rng.pick(&[0, 2, 8, 40, plan.slots]);
    let mut release = anchor - rng.range(0, reach.min(anchor));
    let mut deadline = anchor + 1 + rng.range(0, reach.min(plan.slots - anchor - 1));
    if k > 0 {
        let other = plan.job[rng.below(k)];
        if rng.chance(30) && other.deadline > anchor {
            deadline = other.deadline;
        }
        if rng.chance(20) && other.release <= anchor {
            release = other.release;
        }
    }
    (release, deadline)
}

/// Larger budgets for the HI jobs: none, any, or only such as the analysis accepts; then perhaps one too many.
fn raise_budgets(rng: &mut Rng, plan: &mut Plan) {
    let tries = rng.pick(&[0, 3, 6, 12]) * usize::from(plan.jobs);
    let careful = rng.chance(80);
    for _ in 0..tries {
        let before = plan.clone();
        raise_one(rng, plan);
        if careful && analyse(plan).is_err() {
            *plan = before;
        }
    }
    if rng.chance(35) {
        for _ in 0..rng.pick(&[1, 1, 3]) {
            raise_one(rng, plan);
        }
    }
}

/// A larger hi for one job, if it is a HI job; most often no more than its window holds.
fn raise_one(rng: &mut Rng, plan: &mut Plan) {
    let slots = plan.slots;
    let k = rng.below(usize::from(plan.jobs));
    let job = &mut plan.job[k];
    if job.is_hi() {
        let room = if rng.chance(97) { job.deadline.saturating_sub(job.release) } else { slots };
        job.hi =
            if rng.chance(60) { (job.hi + rng.range(1, 3)).min(room.max(job.hi)) } else { rng.range(job.lo, room) };
    }
}

/// Breaks one rule or several, for each of the refusals 4 to 9.
pub fn spoil(rng: &mut Rng, plan: &mut Plan) {
    for _ in 0..rng.pick(&[1, 1, 1, 2, 4]) {
        let k = rng.below(usize::from(plan.jobs));
        match rng.below(6) {
            0 => spoil_window(rng, plan, k),
            1 => spoil_budget(rng, plan, k),
            2 => spoil_table(rng, plan),
            3 => spoil_count(rng, plan, k),
            4 => plan.job[k].hi = rng.range(plan.job[k].lo, plan.slots.max(plan.job[k].lo)),
            _ => raise_one(rng, plan),
        }
        // A text holds no number above 9999.
        let job = &mut plan.job[k];
        (job.lo, job.hi) = (job.lo.min(9999), job.hi.min(9999));
    }
}

/// For 4: an empty or backward window, or a deadline after N. Sometimes a window that still holds.
fn spoil_window(rng: &mut Rng, plan: &mut Plan, k: usize) {
    let slots = plan.slots;
    let job = &mut plan.job[k];
    match rng.below(6) {
        0 => job.deadline = job.release,
        1 => job.release = job.deadline,
        2 => job.deadline = slots + 1,
        3 => job.release = rng.range(0, slots),
        4 => job.deadline = rng.range(0, slots),
        _ => job.deadline = rng.range(slots, 9999),
    }
}

/// For 5: no slot at all, a smaller budget above the larger, a budget above N, a LO job with two budgets.
fn spoil_budget(rng: &mut Rng, plan: &mut Plan, k: usize) {
    let slots = plan.slots;
    let job = &mut plan.job[k];
    match rng.below(7) {
        0 => job.lo = 0,
        1 => (job.lo, job.hi) = (0, 0),
        2 => job.lo = job.hi + 1,
        3 => job.hi = slots + 1,
        4 => job.hi = rng.range(slots, 9999),
        5 => job.level = Level::Lo,
        _ => job.hi = job.lo + 1,
    }
}

/// For 6: a job that does not exist, or one outside its window.
fn spoil_table(rng: &mut Rng, plan: &mut Plan) {
    let slot = rng.below(usize::from(plan.slots));
    plan.table[slot] = match rng.below(4) {
        0 => plan.jobs + 1,
        1 => rng.range(plan.jobs, 9999),
        _ => rng.range(1, plan.jobs),
    };
}

/// For 7: a slot taken away, a slot added, two slots exchanged, or another count asked for.
fn spoil_count(rng: &mut Rng, plan: &mut Plan, k: usize) {
    let job = plan.job[k];
    let within = usize::from(job.release) + rng.below(usize::from(job.deadline.saturating_sub(job.release)));
    let within = within.min(usize::from(plan.slots) - 1);
    match rng.below(4) {
        0 => plan.table[within] = 0,
        1 => plan.table[within] = k as u16 + 1,
        2 => plan.table.swap(within, rng.below(usize::from(plan.slots))),
        _ => {
            plan.job[k].lo = job.lo + 1;
            plan.job[k].hi = job.hi + 1;
        }
    }
}
