//! What the two programs print, written straight into a lent output that has room for it.

use super::acceptance::analyse;
use super::intervals::Layout;
use super::run::{start, step};
use super::text::{read_plan, read_prefix, Lines, Out};
use crate::model::{Phase, Plan, Refusal, Run, Slot, Standing, INTERVALS, JOBS, SLOTS};

/// Room for every output of the two programs: a line for each slot and each job, then a refusal.
pub const EVERY_OUTPUT: usize = SLOTS * 28 + JOBS * 13 + 32;

/// The check program.
pub fn check_output(input: &[u8], out: &mut [u8]) -> usize {
    let mut out = Out::new(out);
    let mut plan = Plan::BLANK;
    let mut layout = Layout::EMPTY;
    let (mut hi, mut lo) = ([0; INTERVALS], [0; INTERVALS]);
    match read_plan(input, &mut plan).and_then(|()| analyse(&plan, &mut layout, &mut hi, &mut lo)) {
        Ok(()) => {
            for k in 0..layout.count() {
                let (start, end) = layout.interval(k);
                out.bytes(b"interval=");
                out.number(start.into());
                out.byte(b',');
                out.number(end.into());
                out.byte(b',');
                out.signed(hi[k]);
                out.byte(b',');
                out.signed(lo[k]);
                out.byte(b'\n');
            }
            out.bytes(b"answer=0\n");
        }
        Err(refusal) => print_refusal(&mut out, refusal),
    }
    out.length()
}

/// The run program.
pub fn run_output(input: &[u8], out: &mut [u8]) -> usize {
    let mut out = Out::new(out);
    if let Err(refusal) = run_reports(input, &mut out) {
        print_refusal(&mut out, refusal);
    }
    out.length()
}

fn run_reports(input: &[u8], out: &mut Out) -> Result<(), Refusal> {
    let mut run = Run::BLANK;
    let mut lines = Lines::new(input);
    read_prefix(&mut lines, &mut run.plan)?;
    start(&mut run)?;
    while !lines.at_end() {
        let report = lines.report()?;
        let phase = run.phase;
        let (slot, spares) = step(&mut run, report)?;
        print_step(out, report.slot, slot, phase, spares);
    }
    print_jobs(out, &run);
    Ok(())
}

fn print_step(out: &mut Out, t: u16, slot: Slot, phase: Phase, (hi, lo): (i32, i32)) {
    let job = match slot {
        Slot::Job(number) => number,
        Slot::Idle => 0,
    };
    out.bytes(b"step=");
    out.number(t.into());
    out.byte(b',');
    out.number(job.into());
    out.bytes(if phase == Phase::T { b",T," } else { b",H," });
    out.signed(hi);
    out.byte(b',');
    out.signed(lo);
    out.byte(b'\n');
}

fn print_jobs(out: &mut Out, run: &Run) {
    for (number, entry) in (1..).zip(&run.entry[..run.plan.planned().len()]) {
        out.bytes(b"job=");
        out.number(number);
        out.bytes(match entry.standing {
            Standing::Waiting => b",W,",
            Standing::Finished(_) => b",F,",
            Standing::Cut(_) => b",C,",
            Standing::Dropped(_) => b",D,",
            Standing::Missed(_) => b",M,",
        });
        out.number(entry.given.into());
        out.byte(b'\n');
    }
}

fn print_refusal(out: &mut Out, refusal: Refusal) {
    let (place, second) = refusal.places();
    out.bytes(b"refused=");
    out.number(refusal.number().into());
    for place in std::iter::once(place).chain(second) {
        out.byte(b',');
        out.number(place as u32);
    }
    out.byte(b'\n');
}
