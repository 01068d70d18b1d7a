//! K4: the tight deadline is named.

use super::*;
use bench::random::{plan_record, plan_text, run_record};

const RULES: Rules = Rules { ends: true, ..Rules::BASE };

fn check(plan: &Plan) -> String {
    String::from_utf8(check_output_by(RULES, &plan_text(plan))).unwrap()
}

#[test]
fn the_sums_with_two_more_fields() {
    assert_eq!(check(&plan_a()), "interval=0,4,4,2,4,4\ninterval=4,8,0,2,8,8\nanswer=0\n");
    let jobs = [job(Level::Hi, 5, 8, 1, 1), job(Level::Hi, 0, 12, 10, 10)];
    let borrowing = plan(12, &jobs, &[2, 2, 2, 2, 2, 1, 2, 2, 2, 2, 2, 0]);
    let expected = "interval=0,5,1,1,12,12\ninterval=5,8,-4,-4,12,12\ninterval=8,12,-6,-6,12,12\nanswer=0\n";
    assert_eq!(check(&borrowing), expected);
    let plan_b = |hi| plan(4, &[job(Level::Lo, 0, 2, 2, 2), job(Level::Hi, 0, 4, 1, hi)], &[1, 1, 2, 0]);
    assert_eq!(check(&plan_b(3)), "refused=9,2,4\n");
    assert_eq!(check(&plan_b(4)), "refused=9,1,4\n");
}

#[test]
fn step_lines_with_two_more_fields() {
    let kinds = ["more", "more", "end", "more", "more", "end", "none", "none"];
    let mut input = plan_text(&plan_a());
    for (slot, kind) in kinds.iter().enumerate() {
        input.extend(format!("report={slot},{kind}\n").bytes());
    }
    let expected = "step=0,2,T,4,2,4,4\nstep=1,1,T,3,2,4,4\nstep=2,2,T,2,1,4,4\nstep=3,1,T,1,1,4,4\n\
                    step=4,1,H,2,4,8,8\nstep=5,1,H,2,3,8,8\nstep=6,0,T,2,2,8,8\nstep=7,0,T,1,1,8,8\n\
                    job=1,F,4\njob=2,F,2\n";
    assert_eq!(String::from_utf8(run_output_by(RULES, &input)).unwrap(), expected);
}

/// The least end from interval k on at which the time to it, less the work of the intervals up to it, is this spare.
fn least_end(run: &Run, intervals: &[Interval], k: usize, spare: i32, needs: &dyn Fn(&Job, &Entry) -> i32) -> u16 {
    let from = intervals[k].start.max(run.t);
    let equals = |e: u16| {
        let due = run.jobs().filter(|(_, job, _)| intervals[k].start < job.deadline && job.deadline <= e);
        let work: i32 = due.filter(|(_, _, entry)| entry.is_live()).map(|(_, job, entry)| needs(job, entry)).sum();
        i32::from(e - from) - work == spare
    };
    intervals[k..].iter().map(|interval| interval.end).find(|&e| equals(e)).expect("an end that makes the spare")
}

#[test]
fn each_end_by_its_words() {
    let mut rng = Rng::new(40);
    let mut borrowed = 0;
    for _ in 0..2000 {
        let (mut run, _) = run_record(&mut rng);
        if well_formed_by(Rules::BASE, &run.plan).is_err() || run.t > run.plan.slots {
            continue;
        }
        let over = |(_, job, entry): (usize, &Job, &Entry)| entry.is_live() && job.hi <= entry.given;
        if run.jobs().any(over) {
            continue;
        }
        run.rules = RULES;
        let layout = Layout::of(&run.plan);
        run.refresh(&layout);
        let high = |job: &Job, entry: &Entry| if job.is_hi() { i32::from(job.hi - entry.given) } else { 0 };
        let low = |job: &Job, entry: &Entry| i32::from(job.lo.saturating_sub(entry.given));
        let intervals = layout.intervals();
        for k in 0..INTERVALS {
            let mut expected = (0, 0);
            if k < intervals.len() && run.t < intervals[k].end {
                expected.0 = least_end(&run, intervals, k, run.hi[k], &high);
                expected.1 = least_end(&run, intervals, k, run.lo[k], &low);
                borrowed += usize::from(expected.0 != intervals[k].end);
            }
            assert_eq!((run.hi_end[k], run.lo_end[k]), expected);
        }
    }
    assert!(borrowed > 100, "{borrowed}");
}

#[test]
fn coherence_compares_them() {
    let mut run = Run::start_by(RULES, &plan_a()).unwrap();
    assert!(run.coherent());
    run.lo_end[1] = 7;
    assert!(!run.coherent());
}

#[test]
fn the_second_place_of_9_is_a_hi_deadline() {
    let mut rng = Rng::new(49);
    let mut seen = 0;
    for _ in 0..2000 {
        let plan = plan_record(&mut rng);
        match (analyse_by(Rules::BASE, &plan), analyse_by(RULES, &plan)) {
            (Err(Refusal::Spare { border }), Err(Refusal::SpareBy { border: same, end })) => {
                assert_eq!(border, same);
                assert!(plan.planned().iter().any(|job| job.is_hi() && job.deadline == end));
                seen += 1;
            }
            (base, other) => assert_eq!(base.err(), other.err()),
        }
    }
    assert!(seen > 30, "{seen}");
}
