//! K7: firm requests in a running plan.

use super::*;
use bench::random::plan_record;

/// N = 3; HI 0, 3, 1, 1; table 1 0 0; the run at border 1 after its end.
fn three_slots() -> Run {
    let mut run = Run::start_by(Rules::BASE, &plan(3, &[job(Level::Hi, 0, 3, 1, 1)], &[1, 0, 0])).unwrap();
    report(&mut run, &[Kind::End]);
    run
}

#[test]
fn a_number_is_given_out_again() {
    let mut run = three_slots();
    assert_eq!(run.ask(1, 3), Ok(2));
    assert_eq!(run.plan.row(), [1, 2, 0]);
    assert_eq!(report(&mut run, &[Kind::End]), [Slot::Job(2)]);
    assert_eq!(run.ask(1, 3), Ok(2));
    // The number's older slot is idle again, and its record begins anew.
    assert_eq!(run.plan.row(), [1, 0, 2]);
    assert_eq!(run.entry[1], Entry { standing: Standing::Waiting, given: 0, origin: Origin::Firm });
    assert_eq!((run.plan.job[1], run.plan.jobs), (job(Level::Lo, 2, 3, 1, 1), 2));
    assert!(run.coherent());
}

#[test]
fn who_has_ended_decides_what_is_open() {
    let mut run = three_slots();
    assert_eq!(run.ask(2, 3), Ok(2));
    let mut other = run.clone();
    report(&mut run, &[Kind::End]);
    // Number 2 has a table slot to come, so it is not free yet: the slot goes to number 3.
    assert_eq!(run.ask(1, 3), Ok(3));
    assert_eq!(run.plan.row(), [1, 2, 3]);
    assert!(run.coherent());
    report(&mut other, &[Kind::More]);
    assert_eq!(other.ask(1, 3), Err(Refusal::TooFew { open: 0 }));
}

#[test]
fn refusals_in_their_order() {
    let mut run = three_slots();
    let before = run.clone();
    for (count, deadline) in [(0, 3), (1, 1), (1, 0), (1, 4), (0, 9999)] {
        assert_eq!(run.ask(count, deadline), Err(Refusal::Request { t: 1 }));
    }
    assert_eq!(run.ask(3, 3), Err(Refusal::TooFew { open: 2 }));
    assert_eq!(run.ask_at(2, 3, 3), Err(Refusal::TooFew { open: 2 }));
    assert_eq!(run.ask_at(2, 1, 3), Err(Refusal::WrongSlot { t: 1 }));
    assert_eq!(run, before);
    report(&mut run, &[Kind::None, Kind::None]);
    assert_eq!(run.ask(0, 9), Err(Refusal::Over { t: 3 }));
    run.entry[0].given = 2;
    assert_eq!(run.ask(0, 9), Err(Refusal::Incoherent));
    let full = plan(40, &[job(Level::Lo, 0, 40, 1, 1); 32], &(1..=32).collect::<Vec<u16>>());
    let mut run = Run::start_by(Rules::BASE, &full).unwrap();
    assert_eq!(run.ask(0, 40), Err(Refusal::Request { t: 0 }));
    assert_eq!(run.ask(9999, 40), Err(Refusal::NoNumber { t: 0 }));
    let numbers =
        [(Refusal::Request { t: 7 }, 19, 7), (Refusal::NoNumber { t: 7 }, 20, 7), (Refusal::TooFew { open: 5 }, 21, 5)];
    for (refusal, number, place) in numbers {
        assert_eq!((refusal.number(), refusal.places()), (number, (place, None)));
    }
}

#[test]
fn slots_of_ended_planned_jobs_are_not_open() {
    let mut run = Run::start_by(Rules::BASE, &plan(4, &[job(Level::Lo, 0, 4, 2, 2)], &[1, 1, 0, 0])).unwrap();
    report(&mut run, &[Kind::End]);
    assert_eq!(run.ask(3, 4), Err(Refusal::TooFew { open: 2 }));
    assert_eq!(run.ask(2, 4), Ok(2));
    assert_eq!(run.plan.row(), [1, 1, 2, 2]);
}

#[test]
fn coherence_of_firm_jobs() {
    let mut run = three_slots();
    run.ask(2, 3).unwrap();
    assert!(run.coherent());
    // A live firm job is owed its table slots; an ended one is not.
    let mut short = run.clone();
    short.plan.table[2] = 0;
    assert!(!short.coherent());
    report(&mut run, &[Kind::End]);
    run.plan.table[2] = 0;
    assert!(run.coherent());
    // Planned ones come first.
    run.entry[1].origin = Origin::Planned;
    run.plan.table[2] = 2;
    assert!(run.coherent());
    run.entry[0].origin = Origin::Firm;
    assert!(!run.coherent());
    run.entry[1].origin = Origin::Firm;
    assert!(run.coherent());
}

#[test]
fn check_17_passes_firm_jobs_over() {
    let rules = Rules { chopped: true, ..Rules::BASE };
    let table = [1, 0, 1, 0, 1, 0, 1, 0, 2, 0, 2, 0];
    let jobs = [job(Level::Lo, 0, 12, 4, 4), job(Level::Hi, 0, 12, 2, 2)];
    let mut run = Run::start_by(rules, &plan(12, &jobs, &table)).unwrap();
    assert_eq!(run.ask(5, 12), Ok(3));
    assert_eq!(run.plan.row(), [1, 3, 1, 3, 1, 3, 1, 3, 2, 3, 2, 0]);
    assert!(run.coherent());
    run.entry[2].origin = Origin::Planned;
    assert!(!run.coherent());
}

/// A granted request: its job's place, count, release and deadline.
struct Granted {
    k: usize,
    count: u16,
    release: u16,
    deadline: u16,
}

/// The answer to a request in the words of the page.
fn expected(run: &Run, count: u16, deadline: u16) -> Result<u16, Refusal> {
    let t = run.t;
    if t == run.plan.slots {
        return Err(Refusal::Over { t });
    }
    if count == 0 || deadline <= t || deadline > run.plan.slots {
        return Err(Refusal::Request { t });
    }
    let ended = |number: u16| run.entry[usize::from(number) - 1].standing != Standing::Waiting;
    let firm = |number: u16| run.entry[usize::from(number) - 1].origin == Origin::Firm;
    let later = |number: u16| (t..run.plan.slots).any(|slot| run.plan.table[usize::from(slot)] == number);
    let free = |&number: &u16| number > run.plan.jobs || firm(number) && ended(number) && !later(number);
    let number = (1..=32).find(free).ok_or(Refusal::NoNumber { t })?;
    let open = |&slot: &u16| {
        let number = run.plan.table[usize::from(slot)];
        number == 0 || firm(number) && ended(number)
    };
    let open = (t..deadline).filter(open).count();
    if open < count.into() {
        return Err(Refusal::TooFew { open });
    }
    Ok(number)
}

/// A request by chance, held to the page's words; whether it was granted.
fn ask(rng: &mut Rng, run: &mut Run) -> Option<Granted> {
    let count = rng.range(0, 4);
    let deadline = rng.range(run.t, run.plan.slots + 1).min(run.t + 12);
    let before = run.clone();
    let answer = run.ask(count, deadline);
    assert_eq!(answer, expected(&before, count, deadline));
    let Ok(number) = answer else {
        assert_eq!(*run, before);
        return None;
    };
    assert!(run.coherent() && run.t == before.t && run.phase == before.phase);
    assert_eq!(run.plan.jobs, before.plan.jobs.max(number));
    let k = usize::from(number) - 1;
    assert_eq!(run.plan.job[k], job(Level::Lo, run.t, deadline, count, count));
    let mut left = count;
    for slot in 0..run.plan.slots {
        let (was, is) = (before.plan.table[usize::from(slot)], run.plan.table[usize::from(slot)]);
        let ended = |number: u16| {
            let entry = before.entry[usize::from(number) - 1];
            entry.origin == Origin::Firm && entry.standing != Standing::Waiting
        };
        let taken = slot >= run.t && left > 0 && (was == 0 || ended(was));
        left -= u16::from(taken);
        assert_eq!(
            is,
            if taken {
                number
            } else if was == number {
                0
            } else {
                was
            }
        );
    }
    assert_eq!(left, 0);
    Some(Granted { k, count, release: run.t, deadline })
}

/// Demand 3 for the LO job of a yes, when its deadline has come: where slot d - 1 was run in phase T it has finished in
/// time or had its slots.
fn kept(run: &Run, granted: &Granted, last_phase: Phase) {
    if run.t != granted.deadline || last_phase == Phase::H {
        return;
    }
    let entry = &run.entry[granted.k];
    let again = run.plan.job[granted.k].release != granted.release;
    let finished = matches!(entry.standing, Standing::Finished(end) if end <= granted.deadline);
    assert!(again || finished || entry.given == granted.count, "{:?}", run.plan);
}

#[test]
fn requests_in_random_runs() {
    let mut rng = Rng::new(7);
    let (mut yes, mut again, mut high) = (0, 0, 0);
    for _ in 0..800 {
        let plan = plan_record(&mut rng);
        let Ok(mut run) = Run::start_by(Rules::BASE, &plan) else { continue };
        let mut granted: Vec<Granted> = Vec::new();
        while run.t < plan.slots {
            if rng.chance(30) {
                let used = run.plan.jobs;
                if let Some(one) = ask(&mut rng, &mut run) {
                    yes += 1;
                    again += usize::from(one.k < usize::from(used));
                    granted.push(one);
                }
            }
            let phase = run.phase;
            high += usize::from(phase == Phase::H);
            let kind = fitting(&mut rng, &run);
            report(&mut run, &[kind]);
            granted.iter().for_each(|one| kept(&run, one, phase));
            for (_, job, entry) in run.jobs() {
                assert!(!(job.deadline <= run.t && entry.standing == Standing::Waiting), "{:?}", run.plan);
            }
            // The approved plan is still there: its jobs, its slots, and firm jobs only where it idles.
            assert_eq!(run.plan.planned()[..plan.planned().len()], *plan.planned());
            for (&now, &then) in run.plan.row().iter().zip(plan.row()) {
                assert!(now == then || then == 0 && now > plan.jobs);
            }
        }
        assert_eq!(run.ask(1, plan.slots), Err(Refusal::Over { t: plan.slots }));
    }
    assert!(yes > 500 && again > 100 && high > 150, "{yes} {again} {high}");
}
