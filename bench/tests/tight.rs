//! The tight model answers as the plain one does: on random texts, plan records and runs' records.

use bench::model::{self, Plan, Run, INTERVALS};
use bench::random::{input, plan_record, run_record, Rng};
use bench::runtime::{kind_byte, Model, Runtime, Tight, ROOM};
use bench::tight::{acceptance, intervals::Layout, run, text};

const TIMES: usize = 800;

/// What a call leaves in a buffer of this room, and its answer.
fn left(room: usize, call: impl FnOnce(&mut [u8]) -> usize) -> (usize, Vec<u8>) {
    let mut out = vec![7; room];
    (call(&mut out), out)
}

#[test]
fn the_calls_on_texts() {
    let mut rng = Rng::new(21);
    for _ in 0..TIMES {
        let input = input(&mut rng);
        let text = &input.check[..];
        assert_eq!(left(ROOM, |out| Tight.check(text, out)), left(ROOM, |out| Model.check(text, out)));
        for room in [ROOM, model::run_output(&input.run).len(), model::run_output(&input.run).len() - 1] {
            assert_eq!(left(room, |out| Tight.run(&input.run, out)), left(room, |out| Model.run(&input.run, out)));
        }
        for room in [ROOM, text.len(), text.len().saturating_sub(1)] {
            assert_eq!(left(room, |out| Tight.write(text, out)), left(room, |out| Model.write(text, out)));
        }
        assert_eq!(Tight.read(text), Model.read(text));
        assert_eq!(Tight.analyse(text), Model.analyse(text));
        let kinds: Vec<u8> = (0..rng.below(9)).map(|_| rng.below(3) as u8).collect();
        assert_eq!(Tight.walk(text, &kinds), Model.walk(text, &kinds));
    }
}

#[test]
fn a_text_read_and_a_record_written() {
    let mut rng = Rng::new(22);
    for _ in 0..TIMES {
        let text = input(&mut rng).check;
        let mut plan = Plan::BLANK;
        match model::read_plan(&text) {
            Ok(read) => {
                assert_eq!(text::read_plan(&text, &mut plan), Ok(()));
                assert!(plan == read);
            }
            Err(refusal) => assert_eq!(text::read_plan(&text, &mut plan), Err(refusal)),
        }
        let record = plan_record(&mut rng);
        let (mut ours, mut theirs) = (vec![7; ROOM], vec![7; ROOM]);
        assert_eq!(text::write_plan(&record, &mut ours), model::write_plan(&record, &mut theirs));
        assert!(ours == theirs);
    }
}

#[test]
fn the_analysis_of_any_record() {
    let mut rng = Rng::new(23);
    let mut seen = [0; 32];
    for _ in 0..2 * TIMES {
        let plan = plan_record(&mut rng);
        let mut layout = Layout::EMPTY;
        let (mut hi, mut lo) = ([0; INTERVALS], [0; INTERVALS]);
        let answer = acceptance::analyse(&plan, &mut layout, &mut hi, &mut lo);
        seen[answer.map_or_else(|refusal| usize::from(refusal.number()), |()| 0)] += 1;
        match model::analyse(&plan) {
            Err(refusal) => assert_eq!(answer, Err(refusal)),
            Ok(analysis) => {
                let found: Vec<_> = (0..layout.count()).map(|k| layout.interval(k)).collect();
                let plain: Vec<_> = analysis.intervals().iter().map(|each| (each.start, each.end)).collect();
                assert_eq!((answer, found, hi, lo), (Ok(()), plain, analysis.hi, analysis.lo));
            }
        }
    }
    assert!(seen[0] > TIMES / 4 && seen[2..10].iter().all(|&times| times > 8), "{seen:?}");
}

#[test]
fn a_step_from_any_record() {
    let mut rng = Rng::new(24);
    let mut seen = [0; 32];
    for _ in 0..2 * TIMES {
        let (before, report) = run_record(&mut rng);
        let (mut plain, mut tight) = (before.clone(), before);
        let answer = plain.step(report);
        assert_eq!(run::step(&mut tight, report), answer, "{report:?}");
        assert!(plain == tight);
        seen[answer.map_or_else(|refusal| usize::from(refusal.number()), |_| 0)] += 1;
    }
    assert!(seen[0] > TIMES / 4 && seen[10..14].iter().all(|&times| times > 8), "{seen:?}");
}

#[test]
fn whole_runs() {
    let mut rng = Rng::new(25);
    for _ in 0..TIMES / 10 {
        let plan = plan_record(&mut rng);
        let Ok(mut plain) = Run::start(&plan) else { continue };
        let mut tight = Run { plan: plan.clone(), ..Run::BLANK };
        assert_eq!(run::start(&mut tight), Ok(()));
        let kinds = bench::random::whole_run(&mut rng, &plan);
        for (slot, kind) in (0..).zip(kinds) {
            assert!(kind_byte(kind) < 3 && plain == tight);
            let report = model::Report { slot, kind };
            assert_eq!(run::step(&mut tight, report), plain.step(report));
        }
    }
}
