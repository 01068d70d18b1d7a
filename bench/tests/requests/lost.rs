//! K6: slots lost to the watchdog.

use super::*;
use bench::random::{plan_record, run_record};

const RULES: Rules = Rules { missed: true, ..Rules::BASE };

#[test]
fn plan_a_can_lose_four_slots_and_no_more() {
    let mut run = Run::start_by(RULES, &plan_a()).unwrap();
    assert_eq!(run.clone().lose(5), Ok(false));
    assert_eq!(run.lose(4), Ok(true));
    assert_eq!((run.t, run.phase), (4, Phase::H));
    assert_eq!(run.entry[1], Entry { standing: Standing::Dropped(4), given: 0, ..Entry::BLANK });
    assert!(run.coherent());
    assert_eq!(report(&mut run, &[Kind::More; 4]), [Slot::Job(1); 4]);
    assert_eq!(run.entry[0].standing, Standing::Cut(8));
}

#[test]
fn a_missed_job_stands_with_the_new_border() {
    let mut run = Run::start_by(RULES, &plan(6, &[job(Level::Hi, 0, 2, 1, 1)], &[1, 0, 0, 0, 0, 0])).unwrap();
    assert_eq!(run.lose(4), Ok(false));
    assert_eq!(run.entry[0].standing, Standing::Missed(4));
    // Nothing is live, so the table is back at once; the no stays.
    assert_eq!(run.phase, Phase::T);
    assert_eq!(run.lose(1), Ok(false));
    assert_eq!(run.lose(1), Ok(false));
    assert_eq!((run.t, run.coherent()), (6, true));
    assert_eq!(run.lose(1), Err(Refusal::Over { t: 6 }));
}

#[test]
fn the_table_can_be_back_at_once() {
    let mut run = Run::start_by(RULES, &plan(4, &[job(Level::Lo, 2, 4, 1, 1)], &[0, 0, 1, 0])).unwrap();
    assert_eq!(run.lose(2), Ok(true));
    assert_eq!((run.t, run.phase), (2, Phase::T));
}

#[test]
fn refusals_in_their_order() {
    let mut run = Run::start_by(RULES, &plan_a()).unwrap();
    let before = run.clone();
    for count in [0, 9, 9999, u16::MAX] {
        assert_eq!(run.lose(count), Err(Refusal::Loss { t: 0 }));
        assert_eq!(run.lose_at(3, count), Err(Refusal::Loss { t: 0 }));
    }
    assert_eq!(run.lose_at(3, 1), Err(Refusal::WrongSlot { t: 0 }));
    assert_eq!(run, before);
    assert_eq!((Refusal::Loss { t: 5 }.number(), Refusal::Loss { t: 5 }.places()), (18, (5, None)));
    run.hi[0] += 1;
    assert_eq!(run.lose(0), Err(Refusal::Incoherent));
}

/// N = 2; HI 0, 1, 1, 2; table 1 0. 8 refuses it, so the record is made by hand.
#[test]
fn a_job_missed_with_its_very_slot_is_no_overrun() {
    let mut run = Run { rules: RULES, plan: plan(2, &[job(Level::Hi, 0, 1, 1, 2)], &[1, 0]), ..Run::BLANK };
    (run.hi[0], run.lo[0]) = (-1, 0);
    (run.hi[1], run.lo[1]) = (1, 1);
    assert!(run.coherent());
    report(&mut run, &[Kind::More]);
    assert_eq!((run.entry[0].standing, run.phase), (Standing::Missed(1), Phase::T));
}

/// For every stretch from a border a to a border b: the rest of the live HI jobs inside fits.
fn fits(run: &Run) -> bool {
    (run.t..run.plan.slots).all(|from| {
        (from + 1..=run.plan.slots).all(|to| {
            let inside = run.jobs().filter(|(_, job, entry)| {
                job.is_hi()
                    && entry.standing == Standing::Waiting
                    && job.release.max(run.t) >= from
                    && job.deadline <= to
            });
            inside.map(|(_, job, entry)| i32::from(job.hi - entry.given)).sum::<i32>() <= i32::from(to - from)
        })
    })
}

fn missed(run: &Run) -> bool {
    run.jobs().any(|(_, job, entry)| job.is_hi() && matches!(entry.standing, Standing::Missed(_)))
}

#[test]
fn yes_is_exact_on_any_record() {
    let mut rng = Rng::new(6);
    let mut seen = [0; 2];
    for _ in 0..2000 {
        let (mut run, _) = run_record(&mut rng);
        run.rules = RULES;
        let count = rng.range(0, 4);
        let before = run.clone();
        match run.lose(count) {
            Err(refusal) => {
                let over = before.t == before.plan.slots;
                let out = count == 0 || u32::from(before.plan.slots) < u32::from(before.t) + u32::from(count);
                let expected = match (before.coherent(), over) {
                    (false, _) => 10,
                    (true, true) => 11,
                    _ => 18,
                };
                assert!(refusal.number() == expected && (expected < 18 || out) && run == before);
            }
            Ok(yes) => {
                assert!(run.coherent() && run.t == before.t + count);
                assert_eq!(run.plan, before.plan);
                if run.plan.slots <= 60 {
                    assert_eq!(yes, !missed(&run) && fits(&run), "{:?}", run.plan);
                    seen[usize::from(yes)] += 1;
                }
            }
        }
    }
    assert!(seen[0] > 25 && seen[1] > 150, "{seen:?}");
}

#[test]
fn demand_3_in_runs_whose_calls_answered_yes() {
    let mut rng = Rng::new(61);
    let (mut yes, mut no) = (0, 0);
    for _ in 0..1000 {
        let Ok(mut run) = Run::start_by(RULES, &plan_record(&mut rng)) else { continue };
        let mut all_yes = true;
        while run.t < run.plan.slots {
            if rng.chance(10) {
                let count = rng.range(1, 3).min(run.plan.slots - run.t);
                let answer = run.lose(count).unwrap();
                let current = Layout::of(&run.plan).past(run.t);
                if all_yes {
                    // On such runs yes is a current HI spare of 0 or above; it reads as 0 at N.
                    let spare = if run.t == run.plan.slots { 0 } else { run.hi[current] };
                    assert_eq!(answer, !missed(&run) && spare >= 0);
                }
                all_yes &= answer;
                (yes, no) = (yes + usize::from(answer), no + usize::from(!answer));
                continue;
            }
            let kind = fitting(&mut rng, &run);
            report(&mut run, &[kind]);
            assert!(!(all_yes && missed(&run)), "{:?}", run.plan);
            assert!(run.jobs().all(|(_, job, entry)| run.t < job.deadline || entry.standing != Standing::Waiting));
        }
    }
    assert!(yes > 200 && no > 50, "{yes} {no}");
}
