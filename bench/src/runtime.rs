//! What can be asked of a runtime from outside, on texts alone; the product, the plain model and the tight one answer.

use std::hint::black_box;

use crate::model::{self, analyse, read_plan, write_plan, Kind, Plan, Report, Run, INTERVALS};
use crate::tight;

/// The calls of INTERFACE.md. Each works on the caller's text and buffer and keeps nothing between calls.
pub trait Runtime {
    /// The check program's output for this input, at the start of `out`; its length.
    fn check(&self, text: &[u8], out: &mut [u8]) -> usize;
    /// The run program's output for this input, at the start of `out`; its length, 0 where it does not fit.
    fn run(&self, text: &[u8], out: &mut [u8]) -> usize;
    /// Reads a plan; the answer's number.
    fn read(&self, text: &[u8]) -> u16;
    /// Reads a plan and writes it again; the bytes written, 0 for a refusal.
    fn write(&self, text: &[u8], out: &mut [u8]) -> usize;
    /// Reads a plan and analyses it; the answer's number.
    fn analyse(&self, text: &[u8]) -> u16;
    /// Reads a plan, starts it and steps it by one kind for each slot; the number of the last answer.
    fn walk(&self, text: &[u8], kinds: &[u8]) -> u16;
}

/// Room for every output of the programs, and for every text of a plan.
pub const ROOM: usize = 64 * 1024;

/// A kind as the byte that `walk` takes.
pub fn kind_byte(kind: Kind) -> u8 {
    match kind {
        Kind::None => 0,
        Kind::End => 1,
        Kind::More => 2,
    }
}

fn kind_of(byte: u8) -> Kind {
    match byte {
        0 => Kind::None,
        1 => Kind::End,
        _ => Kind::More,
    }
}

/// The plain implementation in this crate: what the product's answers are compared with.
pub struct Model;

impl Model {
    fn walk_from(text: &[u8], kinds: &[u8]) -> Result<(), model::Refusal> {
        let mut run = Run::start(&read_plan(text)?)?;
        for &kind in kinds {
            let slot = run.t;
            run.step(Report { slot, kind: kind_of(kind) })?;
        }
        Ok(())
    }
}

fn copied(output: Vec<u8>, out: &mut [u8]) -> usize {
    out[..output.len()].copy_from_slice(&output);
    output.len()
}

fn number<T>(answer: Result<T, model::Refusal>) -> u16 {
    answer.map_or_else(model::Refusal::number, |_| 0)
}

impl Runtime for Model {
    fn check(&self, text: &[u8], out: &mut [u8]) -> usize {
        copied(model::check_output(text), out)
    }

    fn run(&self, text: &[u8], out: &mut [u8]) -> usize {
        let output = model::run_output(text);
        if out.len() < output.len() {
            return 0;
        }
        copied(output, out)
    }

    fn read(&self, text: &[u8]) -> u16 {
        number(black_box(read_plan(text)))
    }

    fn write(&self, text: &[u8], out: &mut [u8]) -> usize {
        read_plan(text).and_then(|plan| write_plan(&plan, out)).unwrap_or(0)
    }

    fn analyse(&self, text: &[u8]) -> u16 {
        number(black_box(read_plan(text).and_then(|plan| analyse(&plan))))
    }

    fn walk(&self, text: &[u8], kinds: &[u8]) -> u16 {
        number(Model::walk_from(text, kinds))
    }
}

/// The implementation in this crate that is written for speed: what the product's times are measured against.
pub struct Tight;

impl Tight {
    fn walk_from(text: &[u8], kinds: &[u8]) -> Result<(), model::Refusal> {
        let mut run = Run::BLANK;
        tight::text::read_plan(text, &mut run.plan)?;
        tight::run::start(&mut run)?;
        for &kind in kinds {
            let slot = run.t;
            tight::run::step(&mut run, Report { slot, kind: kind_of(kind) })?;
        }
        black_box(&run);
        Ok(())
    }
}

/// Straight into `out` where every output fits, otherwise by way of a buffer; 0 where this one does not fit.
fn printed(program: fn(&[u8], &mut [u8]) -> usize, text: &[u8], out: &mut [u8]) -> usize {
    if tight::programs::EVERY_OUTPUT <= out.len() {
        return program(text, out);
    }
    let mut whole = [0; tight::programs::EVERY_OUTPUT];
    let length = program(text, &mut whole);
    if out.len() < length {
        return 0;
    }
    out[..length].copy_from_slice(&whole[..length]);
    length
}

impl Runtime for Tight {
    fn check(&self, text: &[u8], out: &mut [u8]) -> usize {
        printed(tight::programs::check_output, text, out)
    }

    fn run(&self, text: &[u8], out: &mut [u8]) -> usize {
        printed(tight::programs::run_output, text, out)
    }

    fn read(&self, text: &[u8]) -> u16 {
        let mut plan = Plan::BLANK;
        let answer = tight::text::read_plan(text, &mut plan);
        black_box(&plan);
        number(answer)
    }

    fn write(&self, text: &[u8], out: &mut [u8]) -> usize {
        let mut plan = Plan::BLANK;
        tight::text::read_plan(text, &mut plan).and_then(|()| tight::text::write_plan(&plan, out)).unwrap_or(0)
    }

    fn analyse(&self, text: &[u8]) -> u16 {
        let mut plan = Plan::BLANK;
        let mut layout = tight::intervals::Layout::EMPTY;
        let (mut hi, mut lo) = ([0; INTERVALS], [0; INTERVALS]);
        let answer = tight::text::read_plan(text, &mut plan)
            .and_then(|()| tight::acceptance::analyse(&plan, &mut layout, &mut hi, &mut lo));
        black_box((&plan, &layout, &hi, &lo));
        number(answer)
    }

    fn walk(&self, text: &[u8], kinds: &[u8]) -> u16 {
        number(Tight::walk_from(text, kinds))
    }
}
