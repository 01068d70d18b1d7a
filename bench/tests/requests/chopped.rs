//! K3: no chopped jobs.

use super::*;
use bench::random::{plan_record, run_record};

const RULES: Rules = Rules { chopped: true, ..Rules::BASE };

fn answer(plan: &Plan) -> Option<Refusal> {
    analyse_by(RULES, plan).err()
}

/// A LO job over the whole plan with these slots, and where it is accepted without the rule.
fn one_job(slots: u16, at: &[u16]) -> Plan {
    let mut plan = plan(slots, &[job(Level::Lo, 0, slots, at.len() as u16, at.len() as u16)], &[]);
    for &slot in at {
        plan.table[usize::from(slot)] = 1;
    }
    assert!(analyse_by(Rules::BASE, &plan).is_ok());
    plan
}

#[test]
fn four_runs_are_accepted_and_five_are_not() {
    assert_eq!(answer(&one_job(9, &[0, 2, 4, 6])), None);
    assert_eq!(answer(&one_job(9, &[0, 1, 3, 5, 7, 8])), None);
    assert_eq!(answer(&one_job(9, &[0, 2, 4, 6, 8])), Some(Refusal::Chopped { job: 1 }));
    assert_eq!(Refusal::Chopped { job: 1 }.number(), 17);
}

#[test]
fn the_last_slot_and_the_first_do_not_adjoin() {
    assert_eq!(answer(&one_job(8, &[0, 2, 4, 5, 7])), None);
    assert_eq!(answer(&one_job(10, &[0, 2, 4, 6, 9])), Some(Refusal::Chopped { job: 1 }));
}

#[test]
fn after_7_and_before_8() {
    let chopped = job(Level::Lo, 0, 12, 5, 5);
    let table = [1, 0, 1, 0, 1, 0, 1, 0, 1, 0, 2, 0];
    let with = |second| plan(12, &[chopped, second], &table);
    assert_eq!(answer(&with(job(Level::Lo, 10, 12, 2, 2))), Some(Refusal::Count { job: 2 }));
    assert_eq!(answer(&with(job(Level::Hi, 10, 12, 1, 5))), Some(Refusal::Chopped { job: 1 }));
    let overfull = plan(12, &[job(Level::Hi, 10, 12, 1, 5)], &[0, 0, 0, 0, 0, 0, 0, 0, 0, 0, 1, 0]);
    assert_eq!(answer(&overfull), Some(Refusal::Overload { from: 10, to: 12 }));
}

/// The longest rows of a job's adjoining slots, slot by slot from the words.
fn rows(plan: &Plan, number: u16) -> usize {
    let of = |slot: usize| plan.row().get(slot) == Some(&number);
    (0..plan.row().len()).filter(|&slot| of(slot) && !of(slot + 1)).count()
}

#[test]
fn given_exactly_when_a_job_has_more_than_four() {
    let mut rng = Rng::new(17);
    let (mut seen, mut others) = (0, 0);
    for _ in 0..6000 {
        let plan = plan_record(&mut rng);
        if well_formed_by(Rules::BASE, &plan).is_err() {
            assert_eq!(answer(&plan), analyse_by(Rules::BASE, &plan).err());
            continue;
        }
        match (1..=plan.jobs).find(|&number| rows(&plan, number) > 4) {
            Some(number) => {
                assert_eq!(answer(&plan), Some(Refusal::Chopped { job: number.into() }));
                seen += 1;
            }
            None => {
                assert_eq!(answer(&plan), analyse_by(Rules::BASE, &plan).err());
                others += 1;
            }
        }
    }
    assert!(seen > 40 && others > 1500, "{seen} {others}");
}

/// A run of this plan by the base rules, one step on; it is coherent without the rule.
fn one_step_on(plan: &Plan) -> Run {
    let mut run = Run::start_by(Rules::BASE, plan).expect("accepted without the rule");
    run.step(Report { slot: 0, kind: Kind::More }).expect("slot 0 is the job's");
    assert!(run.coherent());
    run
}

#[test]
fn coherence_includes_it() {
    let mut four = one_step_on(&one_job(9, &[0, 2, 4, 6]));
    four.rules = RULES;
    assert!(four.coherent());
    let mut five = one_step_on(&one_job(9, &[0, 2, 4, 6, 8]));
    five.rules = RULES;
    assert!(!five.coherent());
    let mut rng = Rng::new(18);
    for _ in 0..500 {
        let (mut run, _) = run_record(&mut rng);
        run.rules = Rules::BASE;
        let base = run.coherent();
        run.rules = RULES;
        assert_eq!(run.coherent(), base && (1..=run.plan.jobs).all(|number| rows(&run.plan, number) <= 4));
    }
}
