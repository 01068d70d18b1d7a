//! The model against sentences of document 01 taken word for word, on random plans and runs. Slow and plain on
//! purpose: the model's own shortcuts (running sums, sorted walks, one layout for a step) are what is tried here.

use bench::model::*;
use bench::random::{input, plan_record, run_record, Rng};

const TIMES: usize = 1000;

/// The intervals of a plan: each distinct deadline ends one, the gaps are empty ones.
fn intervals(plan: &Plan) -> Vec<(i32, i32)> {
    let mut deadlines: Vec<u16> = plan.planned().iter().map(|job| job.deadline).collect();
    deadlines.sort();
    deadlines.dedup();
    let mut all = Vec::new();
    let mut previous = 0;
    for deadline in deadlines {
        let own = plan.planned().iter().filter(|job| job.deadline == deadline);
        let start = previous.max(i32::from(own.map(|job| job.release).min().unwrap()));
        all.push((previous, start));
        all.push((start, i32::from(deadline)));
        previous = i32::from(deadline);
    }
    all.push((previous, i32::from(plan.slots)));
    all.retain(|(start, end)| start < end);
    all
}

/// The spare of interval `k` at border t; `remaining` is what a job, from 0, still needs.
fn spare(plan: &Plan, all: &[(i32, i32)], k: usize, t: i32, remaining: &dyn Fn(usize) -> i32) -> i32 {
    let Some(&(start, end)) = all.get(k) else { return 0 };
    let own = (0..plan.planned().len()).filter(|&j| i32::from(plan.job[j].deadline) == end);
    (end - start.max(t)) - own.map(remaining).sum::<i32>() + spare(plan, all, k + 1, t, remaining).min(0)
}

fn row(plan: &Plan, t: i32, remaining: &dyn Fn(usize) -> i32) -> Row {
    let all = intervals(plan);
    let mut row = [0; INTERVALS];
    for k in 0..all.len() {
        if t < all[k].1 {
            row[k] = spare(plan, &all, k, t, remaining);
        }
    }
    row
}

fn hi_row(run: &Run) -> Row {
    row(&run.plan, run.t.into(), &|j| {
        let (job, entry) = (&run.plan.job[j], &run.entry[j]);
        let counts = job.is_hi() && entry.standing == Standing::Waiting;
        if counts {
            i32::from(job.hi) - i32::from(entry.given)
        } else {
            0
        }
    })
}

fn lo_row(run: &Run) -> Row {
    row(&run.plan, run.t.into(), &|j| {
        let (job, entry) = (&run.plan.job[j], &run.entry[j]);
        let counts = entry.standing == Standing::Waiting;
        if counts {
            (i32::from(job.lo) - i32::from(entry.given)).max(0)
        } else {
            0
        }
    })
}

/// Checks 8 and 9 for a plan that passes 2 to 7.
fn hopeless(plan: &Plan) -> Option<Refusal> {
    let high: Vec<&Job> = plan.planned().iter().filter(|job| job.is_hi()).collect();
    for from in 0..plan.slots {
        for to in from + 1..=plan.slots {
            let named = high.iter().any(|job| job.release == from) && high.iter().any(|job| job.deadline == to);
            let inside = high.iter().filter(|job| job.release >= from && job.deadline <= to);
            if named && inside.map(|job| u32::from(job.hi)).sum::<u32>() > u32::from(to - from) {
                return Some(Refusal::Overload { from, to });
            }
        }
    }
    let all = intervals(plan);
    (0..usize::from(plan.slots)).find_map(|border| {
        let remaining = |j: usize| {
            let before = plan.table[..border].iter().filter(|&&number| usize::from(number) == j + 1).count() as i32;
            let job = &plan.job[j];
            if job.is_hi() && before < i32::from(job.lo) {
                i32::from(job.hi) - before
            } else {
                0
            }
        };
        let t = border as i32;
        let current = all.iter().position(|&(start, end)| start <= t && t < end).unwrap();
        (spare(plan, &all, current, t, &remaining) < 0).then_some(Refusal::Spare { border })
    })
}

/// A plan record small enough for the slow definitions.
fn small_plan(rng: &mut Rng) -> Plan {
    loop {
        let plan = plan_record(rng);
        if plan.slots <= 60 {
            return plan;
        }
    }
}

#[test]
fn hopeless_plans_by_the_words_of_8_and_9() {
    let mut rng = Rng::new(8);
    let mut seen = [0; 32];
    for _ in 0..TIMES {
        let plan = small_plan(&mut rng);
        let answer = analyse(&plan).err();
        seen[answer.map_or(0, |refusal| usize::from(refusal.number()))] += 1;
        if well_formed(&plan).is_ok() {
            assert_eq!(answer, hopeless(&plan), "{plan:?}");
        }
    }
    assert!(seen[2..10].iter().all(|&times| times > 3), "{seen:?}");
}

#[test]
fn intervals_and_rows_of_an_analysis() {
    let mut rng = Rng::new(5);
    for _ in 0..TIMES {
        let plan = small_plan(&mut rng);
        let Ok(analysis) = analyse(&plan) else { continue };
        let found: Vec<_> = analysis.intervals().iter().map(|each| (each.start.into(), each.end.into())).collect();
        assert_eq!(found, intervals(&plan));
        let run = Run::start(&plan).unwrap();
        assert_eq!((analysis.hi, analysis.lo), (hi_row(&run), lo_row(&run)));
    }
}

#[test]
fn coherence_clause_by_clause() {
    let mut rng = Rng::new(10);
    let mut coherent = 0;
    for _ in 0..TIMES {
        let (run, _) = run_record(&mut rng);
        let holds = |j: usize| match (run.entry[j].standing.end(), run.entry[j].given, run.plan.job[j].hi) {
            (None, given, hi) => given < hi,
            (Some(end), given, hi) => given <= hi && end <= run.t,
        };
        let expected = well_formed(&run.plan).is_ok()
            && run.t <= run.plan.slots
            && (0..run.plan.planned().len()).all(holds)
            && run.hi == hi_row(&run)
            && run.lo == lo_row(&run);
        assert_eq!(run.coherent(), expected);
        coherent += usize::from(expected);
    }
    assert!((TIMES / 3..TIMES * 9 / 10).contains(&coherent), "{coherent}");
}

#[test]
fn a_step_from_any_record() {
    let mut rng = Rng::new(11);
    for _ in 0..TIMES {
        let (before, report) = run_record(&mut rng);
        let mut run = before.clone();
        let choice = before.choose();
        match run.step(report) {
            Err(refusal) => {
                assert!(run == before && (10..=13).contains(&refusal.number()));
                assert_eq!(refusal.number() <= 11, choice.is_err());
            }
            Ok((slot, _)) => {
                assert_eq!(choice.unwrap().slot, slot);
                assert!(run.coherent() && run.t == before.t + 1);
                assert_eq!((run.hi, run.lo), (hi_row(&run), lo_row(&run)));
            }
        }
    }
}

#[test]
fn high_jobs_end_in_time() {
    let mut rng = Rng::new(3);
    for _ in 0..TIMES {
        let Ok(mut run) = Run::start(&plan_record(&mut rng)) else { continue };
        let overrun = rng.chance(80);
        while let Ok(choice) = run.choose() {
            let kind = match choice.slot {
                Slot::Idle => Kind::None,
                Slot::Job(_) if rng.chance(if overrun { 10 } else { 40 }) => Kind::End,
                Slot::Job(_) => Kind::More,
            };
            let slot = run.t;
            run.step(Report { slot, kind }).unwrap();
            for (job, entry) in run.plan.planned().iter().zip(run.entry) {
                assert!(!(job.deadline <= run.t && entry.standing == Standing::Waiting), "{:?}", run.plan);
            }
        }
        assert_eq!(run.t, run.plan.slots);
    }
}

#[test]
fn texts_round_trip() {
    let mut rng = Rng::new(1);
    for _ in 0..TIMES {
        let plan = plan_record(&mut rng);
        let mut out = vec![7; 8 * 1024];
        let Ok(length) = write_plan(&plan, &mut out) else {
            assert!(out.iter().all(|&byte| byte == 7));
            continue;
        };
        assert_eq!(read_plan(&out[..length]).as_ref(), Ok(&plan));
        assert!(out[length..].iter().all(|&byte| byte == 7));
        let mut short = vec![7; length - 1];
        assert_eq!(write_plan(&plan, &mut short), Err(Refusal::Room { needed: length }));
        assert!(short.iter().all(|&byte| byte == 7));
        let text = input(&mut rng).check;
        if let Ok(plan) = read_plan(&text) {
            let length = write_plan(&plan, &mut out).unwrap();
            assert_eq!(out[..length], text);
        }
    }
}
