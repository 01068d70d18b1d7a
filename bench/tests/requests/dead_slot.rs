//! K2: the dead slot goes to a LO job.

use super::*;
use bench::random::run_record;

const RULES: Rules = Rules { dead_slot: true, ..Rules::BASE };

/// Plan C up to border 3.
fn at_slot_3(rules: Rules) -> Run {
    let mut run = Run::start_by(rules, &plan_c()).unwrap();
    let jobs = report(&mut run, &[Kind::More, Kind::More, Kind::End]);
    assert_eq!(jobs, [Slot::Job(1), Slot::Job(2), Slot::Job(1)]);
    run
}

#[test]
fn plan_c_slot_3_goes_to_job_2() {
    let mut run = at_slot_3(RULES);
    let answer = run.step(Report { slot: 3, kind: Kind::More });
    assert_eq!(answer, Ok((Slot::Job(2), (1, -1))));
    assert_eq!(run.entry[1], Entry { standing: Standing::Dropped(4), given: 2, ..Entry::BLANK });
    assert_eq!(run.phase, Phase::T);
}

#[test]
fn unless_it_reported_its_end() {
    let mut run = at_slot_3(RULES);
    assert_eq!(report(&mut run, &[Kind::End]), [Slot::Job(2)]);
    assert_eq!(run.entry[1], Entry { standing: Standing::Finished(4), given: 2, ..Entry::BLANK });
}

#[test]
fn without_the_request_the_slot_idles() {
    assert_eq!(report(&mut at_slot_3(Rules::BASE), &[Kind::None]), [Slot::Idle]);
}

#[test]
fn nothing_else_changes() {
    let mut rng = Rng::new(2);
    let mut changed = 0;
    for _ in 0..4000 {
        let (mut run, _) = run_record(&mut rng);
        run.rules = Rules::BASE;
        let base = run.choose();
        run.rules = RULES;
        let choice = run.choose();
        let Ok(before) = base else {
            assert_eq!(choice, base);
            continue;
        };
        let (hi, lo) = run.current_spares(&Layout::of(&run.plan));
        let is_high = |k: usize| before.ready >> k & 1 == 1 && run.plan.job[k].is_hi();
        let dead = run.phase == Phase::H && hi > 0 && lo < 0 && !(0..JOBS).any(is_high);
        let ready = (0..JOBS).filter(|k| before.ready >> k & 1 == 1);
        let earliest = ready.min_by_key(|&k| (run.plan.job[k].deadline, k)).map(|k| Slot::Job(k as u16 + 1));
        let slot = if dead { earliest.unwrap_or(Slot::Idle) } else { before.slot };
        assert_eq!(choice, Ok(Choice { slot, ..before }));
        changed += usize::from(slot != before.slot);
    }
    assert!(changed > 2, "{changed}");
}
