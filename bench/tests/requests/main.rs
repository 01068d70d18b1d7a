//! The requests of document 02, each turned on alone: the pages' sums, and its sentences word for word on random runs.

mod chopped;
mod dead_slot;
mod ends;
mod firm;
mod judge;
mod lost;
mod sheets;

use bench::model::*;
use bench::random::Rng;

fn job(level: Level, release: u16, deadline: u16, lo: u16, hi: u16) -> Job {
    Job { level, release, deadline, lo, hi }
}

fn plan(slots: u16, jobs: &[Job], table: &[u16]) -> Plan {
    let mut plan = Plan::BLANK;
    plan.slots = slots;
    plan.jobs = jobs.len() as u16;
    plan.job[..jobs.len()].copy_from_slice(jobs);
    plan.table[..table.len()].copy_from_slice(table);
    plan
}

fn plan_a() -> Plan {
    plan(8, &[job(Level::Hi, 0, 8, 2, 4), job(Level::Lo, 0, 4, 2, 2)], &[2, 1, 2, 1, 0, 0, 0, 0])
}

fn plan_c() -> Plan {
    plan(8, &[job(Level::Hi, 0, 6, 1, 5), job(Level::Lo, 0, 4, 3, 3)], &[1, 2, 2, 2, 0, 0, 0, 0])
}

/// Reports these kinds for the coming slots; the slots' uses.
fn report(run: &mut Run, kinds: &[Kind]) -> Vec<Slot> {
    let step = |&kind: &Kind| {
        let slot = run.t;
        run.step(Report { slot, kind }).expect("a kind that fits").0
    };
    kinds.iter().map(step).collect()
}

/// A kind by chance that fits the coming slot.
fn fitting(rng: &mut Rng, run: &Run) -> Kind {
    match run.choose().map(|choice| choice.slot) {
        Ok(Slot::Job(_)) if rng.chance(25) => Kind::End,
        Ok(Slot::Job(_)) => Kind::More,
        _ => Kind::None,
    }
}
