//! The plan text and the report lines: key, digits and LF of a line in one pass; the writer in one pass where there is
//! room for every text.

use crate::model::{self, Job, Kind, Level, Plan, Refusal, Report, JOBS, SLOTS};

/// The largest number a text can hold.
const LARGEST: u16 = 9999;

/// Room for the text of every plan: its two limits, five lines for each job, a line for each slot.
const LONGEST: usize = 11 + 10 + JOBS * (9 + 13 + 14 + 8 + 8) + SLOTS * 10;

/// The caller's text, where the next line starts, and that line's number.
pub struct Lines<'a> {
    text: &'a [u8],
    at: usize,
    line: usize,
}

impl<'a> Lines<'a> {
    pub fn new(text: &'a [u8]) -> Self {
        Lines { text, at: 0, line: 1 }
    }

    pub fn at_end(&self) -> bool {
        self.at == self.text.len()
    }

    fn bad(&self) -> Refusal {
        Refusal::Form { line: self.line }
    }

    /// What follows `key` at the place, if the line begins with it.
    #[inline(always)]
    fn after(&self, key: &[u8]) -> Option<&'a [u8]> {
        self.text[self.at..].strip_prefix(key)
    }

    /// Moves past a line in order: its key and the `used` bytes after it.
    #[inline(always)]
    fn pass(&mut self, key: &[u8], used: usize) {
        self.at += key.len() + used;
        self.line += 1;
    }

    /// The number of a line.
    #[inline(always)]
    fn number(&mut self, key: &[u8]) -> Result<u16, Refusal> {
        let Some((number, used)) = self.after(key).and_then(|rest| number_to(rest, b'\n')) else {
            return Err(self.bad());
        };
        self.pass(key, used);
        Ok(number)
    }

    fn level(&mut self) -> Result<Level, Refusal> {
        let level = match self.after(b"level=") {
            Some([b'H', b'I', b'\n', ..]) => Level::Hi,
            Some([b'L', b'O', b'\n', ..]) => Level::Lo,
            _ => return Err(self.bad()),
        };
        self.pass(b"level=", 3);
        Ok(level)
    }

    /// The report of a line.
    pub fn report(&mut self) -> Result<Report, Refusal> {
        let Some((slot, kind, used)) = self.after(b"report=").and_then(report) else {
            return Err(self.bad());
        };
        self.pass(b"report=", used);
        Ok(Report { slot, kind })
    }
}

fn report(rest: &[u8]) -> Option<(u16, Kind, usize)> {
    let (slot, used) = number_to(rest, b',')?;
    match rest[used..] {
        [b'e', b'n', b'd', b'\n', ..] => Some((slot, Kind::End, used + 4)),
        [b'm', b'o', b'r', b'e', b'\n', ..] => Some((slot, Kind::More, used + 5)),
        [b'n', b'o', b'n', b'e', b'\n', ..] => Some((slot, Kind::None, used + 5)),
        _ => None,
    }
}

/// A number of 1 to 4 digits with no leading zero that `close` ends, and the bytes up to and with `close`.
#[inline(always)]
fn number_to(rest: &[u8], close: u8) -> Option<(u16, usize)> {
    let first = u16::from(rest.first()?.wrapping_sub(b'0'));
    if first > 9 {
        return None;
    }
    let most = if first == 0 { 1 } else { 4 };
    let mut number = first;
    for (i, &byte) in rest.iter().enumerate().skip(1).take(most) {
        if byte == close {
            return Some((number, i + 1));
        }
        let digit = u16::from(byte.wrapping_sub(b'0'));
        if digit > 9 || i == 4 {
            return None;
        }
        number = number * 10 + digit;
    }
    None
}

/// Reads the plan that the whole text is into a blank plan.
pub fn read_plan(text: &[u8], plan: &mut Plan) -> Result<(), Refusal> {
    let mut lines = Lines::new(text);
    read_prefix(&mut lines, plan)?;
    if lines.at_end() {
        Ok(())
    } else {
        Err(lines.bad())
    }
}

/// Reads the plan at the start of a text into a blank plan; `lines` is left at the line after it.
pub fn read_prefix(lines: &mut Lines, plan: &mut Plan) -> Result<(), Refusal> {
    plan.slots = lines.number(b"slots=")?;
    if !(1..=SLOTS).contains(&usize::from(plan.slots)) {
        return Err(Refusal::SlotLimit);
    }
    plan.jobs = lines.number(b"jobs=")?;
    if !(1..=JOBS).contains(&usize::from(plan.jobs)) {
        return Err(Refusal::JobLimit);
    }
    for job in &mut plan.job[..usize::from(plan.jobs)] {
        job.level = lines.level()?;
        job.release = lines.number(b"release=")?;
        job.deadline = lines.number(b"deadline=")?;
        job.lo = lines.number(b"lo=")?;
        job.hi = lines.number(b"hi=")?;
    }
    for slot in &mut plan.table[..usize::from(plan.slots)] {
        *slot = lines.number(b"slot=")?;
    }
    Ok(())
}

/// Writes the plan's text; what the plain writer refuses, or has to measure first, is left to it.
pub fn write_plan(plan: &Plan, out: &mut [u8]) -> Result<usize, Refusal> {
    let limits = (1..=SLOTS).contains(&usize::from(plan.slots)) && (1..=JOBS).contains(&usize::from(plan.jobs));
    let fits = |job: &Job| job.release.max(job.deadline).max(job.lo).max(job.hi) <= LARGEST;
    let numbers = plan.planned().iter().all(fits) && plan.row().iter().copied().fold(0, u16::max) <= LARGEST;
    if !limits || !numbers || out.len() < LONGEST {
        return model::write_plan(plan, out);
    }
    let mut out = Out::new(out);
    out.line(b"slots=", plan.slots);
    out.line(b"jobs=", plan.jobs);
    for job in plan.planned() {
        out.bytes(if job.is_hi() { b"level=HI\n" } else { b"level=LO\n" });
        out.line(b"release=", job.release);
        out.line(b"deadline=", job.deadline);
        out.line(b"lo=", job.lo);
        out.line(b"hi=", job.hi);
    }
    for &slot in plan.row() {
        out.line(b"slot=", slot);
    }
    Ok(out.length())
}

/// A lent output with room for all that comes, and the place in it.
pub struct Out<'a> {
    out: &'a mut [u8],
    at: usize,
}

impl<'a> Out<'a> {
    pub fn new(out: &'a mut [u8]) -> Self {
        Out { out, at: 0 }
    }

    pub fn length(&self) -> usize {
        self.at
    }

    #[inline(always)]
    pub fn bytes(&mut self, bytes: &[u8]) {
        self.out[self.at..self.at + bytes.len()].copy_from_slice(bytes);
        self.at += bytes.len();
    }

    pub fn byte(&mut self, byte: u8) {
        self.out[self.at] = byte;
        self.at += 1;
    }

    #[inline(always)]
    fn line(&mut self, key: &[u8], number: u16) {
        self.bytes(key);
        self.number(number.into());
        self.byte(b'\n');
    }

    pub fn number(&mut self, number: u32) {
        let length = match number {
            0..=9 => 1,
            10..=99 => 2,
            100..=999 => 3,
            1000..=9999 => 4,
            _ => number.ilog10() as usize + 1,
        };
        let mut rest = number;
        for place in self.out[self.at..self.at + length].iter_mut().rev() {
            *place = b'0' + (rest % 10) as u8;
            rest /= 10;
        }
        self.at += length;
    }

    pub fn signed(&mut self, number: i32) {
        if number < 0 {
            self.byte(b'-');
        }
        self.number(number.unsigned_abs());
    }
}
