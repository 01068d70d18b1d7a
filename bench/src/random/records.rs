//! Records by chance, for the calls that take a record and not a text: numbers that no text can hold, and
//! runs with an entry changed by hand.

use super::{plans, Rng};
use crate::model::{Entry, Kind, Phase, Plan, Report, Run, Slot, Standing, INTERVALS, JOBS, SLOTS};

/// A plan record: a plan by chance with up to three numbers changed to anything.
pub fn plan_record(rng: &mut Rng) -> Plan {
    let mut plan = plans::plan(rng);
    if rng.chance(40) {
        plans::spoil(rng, &mut plan);
    }
    for _ in 0..rng.pick(&[0, 0, 1, 3]) {
        change_plan(rng, &mut plan);
    }
    plan
}

/// Numbers at the edges of the limits, of four digits and of 16 bits.
fn edge(rng: &mut Rng) -> u16 {
    rng.pick(&[0, 1, 31, 32, 33, 511, 512, 513, 9999, 10000, 32767, 32768, 65535])
}

fn change_plan(rng: &mut Rng, plan: &mut Plan) {
    let number = edge(rng);
    let planned = plan.planned().len().max(1);
    let job = if rng.chance(90) { rng.below(planned) } else { rng.below(JOBS) };
    match rng.below(9) {
        0 => plan.slots = number,
        1 => plan.jobs = number,
        2 => plan.job[job].release = number,
        3 => plan.job[job].deadline = number,
        4 => plan.job[job].lo = number,
        5 => plan.job[job].hi = number,
        6 => (plan.job[job].lo, plan.job[job].hi) = (number, number),
        7 => plan.table[rng.below(plan.row().len())] = number,
        _ => plan.table[rng.below(SLOTS)] = number,
    }
}

/// A run record and a report for it: a run brought forward some way, then up to two entries changed.
pub fn run_record(rng: &mut Rng) -> (Run, Report) {
    let mut run = started(rng);
    for _ in 0..rng.below(usize::from(run.plan.slots) + 1) {
        let kind = fitting(rng, &run);
        let slot = run.t;
        run.step(Report { slot, kind }).expect("a kind that fits");
    }
    let kind = if rng.chance(80) { fitting(rng, &run) } else { rng.pick(&[Kind::End, Kind::More, Kind::None]) };
    let slot = if rng.chance(90) { run.t } else { edge(rng) };
    for _ in 0..rng.pick(&[0, 0, 1, 2]) {
        change_run(rng, &mut run);
    }
    (run, Report { slot, kind })
}

fn started(rng: &mut Rng) -> Run {
    loop {
        if let Ok(run) = Run::start(&plans::plan(rng)) {
            return run;
        }
    }
}

fn fitting(rng: &mut Rng, run: &Run) -> Kind {
    match run.choose().map(|choice| choice.slot) {
        Ok(Slot::Job(_)) if rng.chance(25) => Kind::End,
        Ok(Slot::Job(_)) => Kind::More,
        _ => Kind::None,
    }
}

fn change_run(rng: &mut Rng, run: &mut Run) {
    let planned = run.plan.planned().len().max(1);
    let k = if rng.chance(85) { rng.below(planned) } else { rng.below(JOBS) };
    let place = if rng.chance(50) { rng.below(3) } else { rng.below(INTERVALS) };
    match rng.below(10) {
        0 => run.phase = rng.pick(&[Phase::T, Phase::H]),
        1 => run.t = if rng.chance(50) { edge(rng) } else { rng.range(0, run.plan.slots) },
        2 => run.entry[k].given = if rng.chance(80) { run.entry[k].given ^ 1 } else { edge(rng) },
        3 | 4 => run.entry[k].standing = standing(rng, run.t),
        5 => run.hi[place] += 1,
        6 => run.lo[place] -= 1,
        7 => run.entry[k] = Entry::BLANK,
        8 => change_plan(rng, &mut run.plan),
        _ => run.entry[rng.below(JOBS)].given = edge(rng),
    }
}

fn standing(rng: &mut Rng, t: u16) -> Standing {
    let border = if rng.chance(70) { rng.range(0, t) } else { t.saturating_add(1) };
    rng.pick(&[
        Standing::Waiting,
        Standing::Finished(border),
        Standing::Cut(border),
        Standing::Dropped(border),
        Standing::Missed(border),
    ])
}
