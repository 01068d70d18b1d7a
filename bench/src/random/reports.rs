//! Report lines: most follow the run as the model has it, some leave it at a border, some never fit. Lost slots and
//! firm requests stand among them where the rules have such lines.

use super::Rng;
use crate::model::{Kind, Plan, Report, Rules, Run, Slot};

/// A report's line.
pub fn line(slot: u16, kind: Kind) -> String {
    let word = match kind {
        Kind::End => "end",
        Kind::More => "more",
        Kind::None => "none",
    };
    format!("report={slot},{word}\n")
}

/// How the jobs of one run behave.
#[derive(Clone, Copy)]
enum Manner {
    /// Each ends with its smaller budget.
    AsPlanned,
    /// HI jobs go on up to their larger budget and are sometimes cut.
    Overrunning,
    /// Many end before their smaller budget.
    Early,
    /// Ends by this chance in each slot.
    Wild(usize),
}

/// The report lines for a plan; for a refused one, lines that might have been.
pub fn reports(rules: Rules, rng: &mut Rng, plan: &Plan) -> Vec<u8> {
    let Ok(run) = Run::start_by(rules, plan) else {
        return (0..rng.range(0, 3)).map(|slot| line(slot, any_kind(rng))).collect::<String>().into_bytes();
    };
    let manner = rng.pick(&[
        Manner::AsPlanned,
        Manner::Overrunning,
        Manner::Overrunning,
        Manner::Early,
        Manner::Wild(5),
        Manner::Wild(30),
    ]);
    let leaves = rng.chance(35);
    let last = if rng.chance(if leaves { 20 } else { 80 }) { plan.slots } else { rng.range(0, plan.slots) };
    let calling = rules.calls && rng.chance(60);
    let (mut text, run) = if calling { follow_calling(rng, run, manner, last) } else { lines(rng, run, manner, last) };
    if leaves {
        let bad_call = rules.calls && rng.chance(40);
        text.push_str(&if bad_call { bad_call_line(rng, &run) } else { leave(rng, &run) });
        for slot in 0..rng.range(0, 2) {
            text.push_str(&line(run.t + slot, any_kind(rng)));
        }
    }
    text.into_bytes()
}

/// Kinds that carry a run of an accepted plan to its end, the HI jobs overrunning.
pub fn whole_run(rng: &mut Rng, plan: &Plan) -> Vec<Kind> {
    let run = Run::start(plan).expect("an accepted plan");
    follow(rng, run, Manner::Overrunning, plan.slots).0
}

/// The report lines of a run up to border `last`, and the run there.
fn lines(rng: &mut Rng, run: Run, manner: Manner, last: u16) -> (String, Run) {
    let (kinds, run) = follow(rng, run, manner, last);
    ((0..).zip(kinds).map(|(slot, kind)| line(slot, kind)).collect(), run)
}

/// The same with lost slots and firm requests among the reports.
fn follow_calling(rng: &mut Rng, mut run: Run, manner: Manner, last: u16) -> (String, Run) {
    let mut text = String::new();
    let often = rng.pick(&[2, 10, 30]);
    while run.t < last {
        let t = run.t;
        if !rng.chance(often) {
            let kind = right_kind(rng, &run, manner);
            run.step(Report { slot: t, kind }).expect("a kind that fits the choice");
            text.push_str(&line(t, kind));
        } else if rng.chance(25) {
            let count = rng.range(1, 3).min(last - t);
            run.lose(count).expect("slots that are still to come");
            text.push_str(&format!("lost={t},{count}\n"));
        } else {
            let (count, deadline) = (rng.range(1, 3), rng.range(t + 1, run.plan.slots));
            if run.ask(count, deadline).is_ok() {
                text.push_str(&format!("ask={t},{count},{deadline}\n"));
            }
        }
    }
    (text, run)
}

/// A lost call or a request that is refused, or may be: by the form, by its numbers or by its slot.
fn bad_call_line(rng: &mut Rng, run: &Run) -> String {
    let (t, slots) = (run.t, run.plan.slots);
    let slot = if rng.chance(30) { rng.range(0, slots) } else { t };
    match rng.below(9) {
        0 => format!("lost={slot},0\n"),
        1 => format!("lost={slot},{}\n", slots - t + rng.range(0, 2)),
        2 => format!("lost={slot},{}\n", rng.range(1, 9999)),
        3 => format!("ask={slot},0,{slots}\n"),
        4 => format!("ask={slot},1,{}\n", rng.pick(&[0, t, slots + 1, slots])),
        5 | 6 => format!("ask={slot},{},{}\n", rng.range(1, slots), rng.range(t.min(slots - 1) + 1, slots)),
        7 => format!("ask={slot},{}\n", rng.range(1, 9)),
        _ => format!("lost={slot}\n"),
    }
}

fn any_kind(rng: &mut Rng) -> Kind {
    rng.pick(&[Kind::End, Kind::More, Kind::None])
}

/// The kinds of a run up to border `last`, and the run there.
fn follow(rng: &mut Rng, mut run: Run, manner: Manner, last: u16) -> (Vec<Kind>, Run) {
    let mut kinds = Vec::new();
    while run.t < last {
        let report = Report { slot: run.t, kind: right_kind(rng, &run, manner) };
        run.step(report).expect("a kind that fits the choice");
        kinds.push(report.kind);
    }
    (kinds, run)
}

/// A kind that fits the coming slot.
fn right_kind(rng: &mut Rng, run: &Run, manner: Manner) -> Kind {
    let Ok(Slot::Job(number)) = run.choose().map(|choice| choice.slot) else { return Kind::None };
    let k = usize::from(number) - 1;
    let (job, given) = (&run.plan.job[k], run.entry[k].given + 1);
    let ends = match manner {
        Manner::AsPlanned => given >= job.lo,
        Manner::Overrunning => given >= job.lo && rng.chance(if given == job.hi { 60 } else { 15 }),
        Manner::Early => given >= job.lo || rng.chance(40),
        Manner::Wild(percent) => rng.chance(percent),
    };
    if ends {
        Kind::End
    } else {
        Kind::More
    }
}

/// A line that does not fit the run at its border, or not for certain.
fn leave(rng: &mut Rng, run: &Run) -> String {
    let t = run.t;
    let word = rng.pick(&["end", "more", "none"]);
    let right = line(t, right_kind(rng, run, Manner::Wild(50)));
    match rng.below(13) {
        0 => line(t + 1, any_kind(rng)),
        1 => line(t.saturating_sub(1), any_kind(rng)),
        2 => line(rng.range(0, 9999), any_kind(rng)),
        3 | 4 | 11 => line(t, any_kind(rng)),
        5 => right.trim_end().to_string(),
        6 => right[..rng.below(right.len())].to_string(),
        7 => format!("report=0{t},{word}\n"),
        8 => format!("report={},{word}\n", 10000 + rng.below(90000)),
        9 => bad_line(rng, t),
        10 => format!("{right}report={},{word}", t + 1),
        _ => right,
    }
}

fn bad_line(rng: &mut Rng, t: u16) -> String {
    match rng.below(10) {
        0 => "\n".to_string(),
        1 => format!("report={t}\n"),
        2 => format!("report={t},\n"),
        3 => "report=,end\n".to_string(),
        4 => format!("report={t},END\n"),
        5 => format!("report={t},end,end\n"),
        6 => format!("report={t}, end\n"),
        7 => format!("report=-{t},end\n"),
        8 => format!("report={t},more\r\n"),
        _ => format!("slot={t}\n"),
    }
}
