//! What the programs print for a whole standard input: check, run, and the judge of another maker's log (K8).

use std::io::Write;

use super::acceptance::{analyse_by, Analysis};
use super::plan::Refusal;
use super::rules::Rules;
use super::run::{Kind, Phase, Report, Run, Slot, Standing};
use super::text::{number, read_plan, read_prefix, Lines};

/// A line into memory, which cannot fail.
macro_rules! print_line {
    ($out:expr, $($what:tt)*) => {
        writeln!($out, $($what)*).expect("writing to memory")
    };
}

/// The check program: the intervals with their spares at border 0, or the plan's refusal.
pub fn check_output(input: &[u8]) -> Vec<u8> {
    check_output_by(Rules::LANDED, input)
}

pub fn check_output_by(rules: Rules, input: &[u8]) -> Vec<u8> {
    let mut out = Vec::new();
    match read_plan(input).and_then(|plan| analyse_by(rules, &plan)) {
        Ok(analysis) => print_analysis(&mut out, rules, &analysis),
        Err(refusal) => print_refusal(&mut out, refusal),
    }
    out
}

/// The run program: one line for each accepted report, then the jobs' standings or a refusal.
pub fn run_output(input: &[u8]) -> Vec<u8> {
    run_output_by(Rules::LANDED, input)
}

pub fn run_output_by(rules: Rules, input: &[u8]) -> Vec<u8> {
    let mut out = Vec::new();
    if let Err(refusal) = run_lines(rules, input, &mut out) {
        print_refusal(&mut out, refusal);
    }
    out
}

fn run_lines(rules: Rules, input: &[u8], out: &mut Vec<u8>) -> Result<(), Refusal> {
    let mut lines = Lines::new(input);
    let plan = read_prefix(&mut lines)?;
    let mut run = Run::start_by(rules, &plan)?;
    while !lines.at_end() {
        if rules.calls && lines.next_is(b"lost=") {
            lost_line(&mut lines, &mut run, out)?;
        } else if rules.calls && lines.next_is(b"ask=") {
            ask_line(&mut lines, &mut run, out)?;
        } else {
            report_line(&mut lines, &mut run, out)?;
        }
    }
    print_jobs(out, &run);
    Ok(())
}

fn report_line(lines: &mut Lines, run: &mut Run, out: &mut Vec<u8>) -> Result<(), Refusal> {
    let report = lines.value(b"report=", report)?;
    let (phase, ends) = (run.phase, run.current_ends());
    let (slot, spares) = run.step(report)?;
    print_step(out, report.slot, slot, phase, spares, run.rules.ends.then_some(ends));
    Ok(())
}

/// K8: `lost=slot,count`.
fn lost_line(lines: &mut Lines, run: &mut Run, out: &mut Vec<u8>) -> Result<(), Refusal> {
    let [slot, count] = lines.value(b"lost=", numbers)?;
    let answer = if run.lose_at(slot, count)? { "yes" } else { "no" };
    print_line!(out, "lost={slot},{answer}");
    Ok(())
}

/// K8: `ask=slot,count,deadline`.
fn ask_line(lines: &mut Lines, run: &mut Run, out: &mut Vec<u8>) -> Result<(), Refusal> {
    let [slot, count, deadline] = lines.value(b"ask=", numbers)?;
    let job = run.ask_at(slot, count, deadline)?;
    print_line!(out, "took={slot},{job}");
    Ok(())
}

/// K8: what the judge prints for a plan, its reports and calls, a line `log=` and another maker's log of them.
pub fn judge_output(input: &[u8]) -> Vec<u8> {
    judge_output_by(Rules::LANDED, input)
}

pub fn judge_output_by(rules: Rules, input: &[u8]) -> Vec<u8> {
    let mut out = Vec::new();
    match parted(input) {
        None => {
            let line = input.iter().filter(|&&byte| byte == b'\n').count() + 1;
            print_refusal(&mut out, Refusal::Form { line });
        }
        Some((ours, his)) => print_verdict(&mut out, &run_output_by(rules, ours), his),
    }
    out
}

/// What stands before the first line that is just `log=`, and what stands after it.
fn parted(input: &[u8]) -> Option<(&[u8], &[u8])> {
    let mut at = 0;
    for line in input.split_inclusive(|&byte| byte == b'\n') {
        if line == b"log=\n" {
            return Some((&input[..at], &input[at + line.len()..]));
        }
        at += line.len();
    }
    None
}

/// His log against the right one: the first of his lines that is not the right one or is missing, then the right one.
fn print_verdict(out: &mut Vec<u8>, right: &[u8], his: &[u8]) {
    if right == his {
        print_line!(out, "agrees");
        return;
    }
    let [mut right, mut his] = [right, his].map(|log| log.split_inclusive(|&byte| byte == b'\n'));
    let mut line = 1;
    loop {
        match (right.next(), his.next()) {
            (ours, theirs) if ours != theirs => {
                print_line!(out, "differs={line}");
                out.extend_from_slice(ours.unwrap_or(b"\n"));
                return;
            }
            _ => line += 1,
        }
    }
}

/// Numbers with a comma between each two.
fn numbers<const COUNT: usize>(value: &[u8]) -> Option<[u16; COUNT]> {
    let numbers: Option<Vec<u16>> = value.split(|&byte| byte == b',').map(number).collect();
    numbers?.try_into().ok()
}

/// `slot,kind`.
fn report(value: &[u8]) -> Option<Report> {
    let comma = value.iter().position(|&byte| byte == b',')?;
    let kind = match &value[comma + 1..] {
        b"end" => Kind::End,
        b"more" => Kind::More,
        b"none" => Kind::None,
        _ => return None,
    };
    Some(Report { slot: number(&value[..comma])?, kind })
}

fn print_analysis(out: &mut Vec<u8>, rules: Rules, analysis: &Analysis) {
    for (k, interval) in analysis.intervals().iter().enumerate() {
        let ends = rules.ends.then_some((analysis.hi_end[k], analysis.lo_end[k]));
        let (hi, lo, ends) = (analysis.hi[k], analysis.lo[k], shown(ends));
        print_line!(out, "interval={},{},{hi},{lo}{ends}", interval.start, interval.end);
    }
    print_line!(out, "answer=0");
}

pub fn print_refusal(out: &mut Vec<u8>, refusal: Refusal) {
    let number = refusal.number();
    match refusal.places() {
        (place, None) => print_line!(out, "refused={number},{place}"),
        (place, Some(second)) => print_line!(out, "refused={number},{place},{second}"),
    }
}

/// K4: two more fields.
fn shown(ends: Option<(u16, u16)>) -> String {
    ends.map_or(String::new(), |(hi, lo)| format!(",{hi},{lo}"))
}

fn print_step(out: &mut Vec<u8>, t: u16, slot: Slot, phase: Phase, (hi, lo): (i32, i32), ends: Option<(u16, u16)>) {
    let job = match slot {
        Slot::Job(number) => number,
        Slot::Idle => 0,
    };
    print_line!(out, "step={t},{job},{phase:?},{hi},{lo}{}", shown(ends));
}

fn print_jobs(out: &mut Vec<u8>, run: &Run) {
    for (k, entry) in run.entry[..run.plan.planned().len()].iter().enumerate() {
        let letter = match entry.standing {
            Standing::Waiting => 'W',
            Standing::Finished(_) => 'F',
            Standing::Cut(_) => 'C',
            Standing::Dropped(_) => 'D',
            Standing::Missed(_) => 'M',
        };
        print_line!(out, "job={},{letter},{}", k + 1, entry.given);
    }
}
