//! The plan text: a reader that stops at the first bad line, and a writer into a lent buffer.

use super::plan::{Job, Level, Plan, Refusal, JOBS, SLOTS};

/// The largest number a text can hold.
const LARGEST: u16 = 9999;

/// The caller's text, where the next line starts, and that line's number.
pub struct Lines<'a> {
    text: &'a [u8],
    at: usize,
    line: usize,
}

impl<'a> Lines<'a> {
    pub fn new(text: &'a [u8]) -> Self {
        Lines { text, at: 0, line: 1 }
    }

    pub fn at_end(&self) -> bool {
        self.at == self.text.len()
    }

    /// Whether the next line begins with `key`.
    pub fn next_is(&self, key: &[u8]) -> bool {
        self.text[self.at..].starts_with(key)
    }

    /// The refusal of the line that stands next.
    pub fn bad(&self) -> Refusal {
        Refusal::Form { line: self.line }
    }

    /// What stands between `key` and the LF of the next line, made into a value by `parse`.
    /// The place moves on only when the line is in order.
    pub fn value<T>(&mut self, key: &[u8], parse: impl FnOnce(&'a [u8]) -> Option<T>) -> Result<T, Refusal> {
        let rest = &self.text[self.at..];
        let length = rest.iter().position(|&byte| byte == b'\n').ok_or(self.bad())?;
        let value = rest[..length].strip_prefix(key).and_then(parse).ok_or(self.bad())?;
        self.at += length + 1;
        self.line += 1;
        Ok(value)
    }
}

/// A number of 1 to 4 digits with no leading zero.
pub fn number(value: &[u8]) -> Option<u16> {
    match value {
        [] | [b'0', _, ..] | [_, _, _, _, _, ..] => None,
        digits => {
            digits.iter().try_fold(0, |sum, digit| digit.is_ascii_digit().then(|| sum * 10 + u16::from(digit - b'0')))
        }
    }
}

pub fn level(value: &[u8]) -> Option<Level> {
    match value {
        b"HI" => Some(Level::Hi),
        b"LO" => Some(Level::Lo),
        _ => None,
    }
}

/// The plan that the whole text is.
pub fn read_plan(text: &[u8]) -> Result<Plan, Refusal> {
    let mut lines = Lines::new(text);
    let plan = read_prefix(&mut lines)?;
    if lines.at_end() {
        Ok(plan)
    } else {
        Err(lines.bad())
    }
}

/// The plan at the start of a text; `lines` is left at the line after it.
pub fn read_prefix(lines: &mut Lines) -> Result<Plan, Refusal> {
    let mut plan = Plan::BLANK;
    plan.slots = lines.value(b"slots=", number)?;
    if !(1..=SLOTS).contains(&usize::from(plan.slots)) {
        return Err(Refusal::SlotLimit);
    }
    plan.jobs = lines.value(b"jobs=", number)?;
    if !(1..=JOBS).contains(&usize::from(plan.jobs)) {
        return Err(Refusal::JobLimit);
    }
    for job in &mut plan.job[..usize::from(plan.jobs)] {
        *job = Job {
            level: lines.value(b"level=", level)?,
            release: lines.value(b"release=", number)?,
            deadline: lines.value(b"deadline=", number)?,
            lo: lines.value(b"lo=", number)?,
            hi: lines.value(b"hi=", number)?,
        };
    }
    for slot in &mut plan.table[..usize::from(plan.slots)] {
        *slot = lines.value(b"slot=", number)?;
    }
    Ok(plan)
}

/// One line to write: a whole one, or a key and its number.
pub enum Line {
    Whole(&'static [u8]),
    Number(&'static [u8], u16),
}

impl Line {
    pub fn level(level: Level) -> Line {
        Line::Whole(if level == Level::Hi { b"level=HI\n" } else { b"level=LO\n" })
    }
}

/// Takes a text's lines one after the other, up to the first that it refuses.
pub type Take<'a> = dyn FnMut(Line) -> Result<(), Refusal> + 'a;

/// Hands the plan's lines in order to `take`.
fn each_line(plan: &Plan, take: &mut Take) -> Result<(), Refusal> {
    take(Line::Number(b"slots=", plan.slots))?;
    take(Line::Number(b"jobs=", plan.jobs))?;
    for job in plan.planned() {
        take(Line::level(job.level))?;
        take(Line::Number(b"release=", job.release))?;
        take(Line::Number(b"deadline=", job.deadline))?;
        take(Line::Number(b"lo=", job.lo))?;
        take(Line::Number(b"hi=", job.hi))?;
    }
    plan.row().iter().try_for_each(|&slot| take(Line::Number(b"slot=", slot)))
}

/// Writes the plan's text at the start of `out` and answers its length. A refusal writes nothing.
pub fn write_plan(plan: &Plan, out: &mut [u8]) -> Result<usize, Refusal> {
    if !(1..=SLOTS).contains(&usize::from(plan.slots)) {
        return Err(Refusal::SlotLimit);
    }
    if !(1..=JOBS).contains(&usize::from(plan.jobs)) {
        return Err(Refusal::JobLimit);
    }
    write_lines(|take| each_line(plan, take), out)
}

/// Writes the lines that `each` hands over at the start of `out`. A refusal writes nothing.
pub fn write_lines(each: impl Fn(&mut Take) -> Result<(), Refusal>, out: &mut [u8]) -> Result<usize, Refusal> {
    let needed = text_length(&each)?;
    if out.len() < needed {
        return Err(Refusal::Room { needed });
    }
    let mut at = 0;
    each(&mut |line| {
        match line {
            Line::Whole(bytes) => put(out, &mut at, bytes),
            Line::Number(key, number) => {
                put(out, &mut at, key);
                put_number(out, &mut at, number);
                put(out, &mut at, b"\n");
            }
        }
        Ok(())
    })?;
    Ok(at)
}

/// The length of a text, or the line of the first number that no text can hold.
fn text_length(each: impl Fn(&mut Take) -> Result<(), Refusal>) -> Result<usize, Refusal> {
    let mut length = 0;
    let mut line_number = 0;
    each(&mut |line| {
        line_number += 1;
        length += match line {
            Line::Whole(bytes) => bytes.len(),
            Line::Number(_, number) if number > LARGEST => return Err(Refusal::Form { line: line_number }),
            Line::Number(key, number) => key.len() + digits(number) + 1,
        };
        Ok(())
    })?;
    Ok(length)
}

fn digits(number: u16) -> usize {
    match number {
        0..=9 => 1,
        10..=99 => 2,
        100..=999 => 3,
        _ => 4,
    }
}

fn put(out: &mut [u8], at: &mut usize, bytes: &[u8]) {
    out[*at..*at + bytes.len()].copy_from_slice(bytes);
    *at += bytes.len();
}

fn put_number(out: &mut [u8], at: &mut usize, number: u16) {
    let mut rest = number;
    let length = digits(number);
    for place in out[*at..*at + length].iter_mut().rev() {
        *place = b'0' + (rest % 10) as u8;
        rest /= 10;
    }
    *at += length;
}
