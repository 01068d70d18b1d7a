//! K1: task sheets. A sheet names periodic tasks and a table; its expansion is the plan with a job for every release.

use super::plan::{Job, Level, Plan, Refusal, JOBS, SLOTS};
use super::programs::print_refusal;
use super::text::{level, number, write_lines, write_plan, Line, Lines, Take};

/// The most tasks a sheet has.
pub const TASKS: usize = 32;

#[derive(Clone, Copy, Debug, PartialEq, Eq)]
pub struct Task {
    pub level: Level,
    pub offset: u16,
    pub period: u16,
    pub within: u16,
    pub lo: u16,
    pub hi: u16,
}

impl Task {
    pub const BLANK: Task = Task { level: Level::Lo, offset: 0, period: 0, within: 0, lo: 0, hi: 0 };

    /// `within` is at least 1, the first deadline lies in the period, and the period divides N.
    fn holds(&self, slots: u16) -> bool {
        let first_deadline = u32::from(self.offset) + u32::from(self.within);
        self.within >= 1 && first_deadline <= u32::from(self.period) && slots.is_multiple_of(self.period)
    }

    /// The releases offset + k * period below N, for a task in order.
    fn releases(&self, slots: u16) -> impl Iterator<Item = u16> {
        (self.offset..slots).step_by(self.period.into())
    }
}

/// N, the tasks and the table. Any record of these numbers is a `Sheet`.
#[derive(Clone, Debug, PartialEq)]
pub struct Sheet {
    pub slots: u16,
    pub tasks: u16,
    pub task: [Task; TASKS],
    pub table: [u16; SLOTS],
}

impl Sheet {
    pub const BLANK: Sheet = Sheet { slots: 0, tasks: 0, task: [Task::BLANK; TASKS], table: [0; SLOTS] };

    /// The first tasks, as many as the sheet has.
    pub fn planned(&self) -> &[Task] {
        &self.task[..usize::from(self.tasks).min(TASKS)]
    }

    fn check_limits(&self) -> Result<(), Refusal> {
        if !(1..=SLOTS).contains(&usize::from(self.slots)) {
            return Err(Refusal::SlotLimit);
        }
        if !(1..=TASKS).contains(&usize::from(self.tasks)) {
            return Err(Refusal::JobLimit);
        }
        Ok(())
    }
}

/// The sheet that the whole text is.
pub fn read_sheet(text: &[u8]) -> Result<Sheet, Refusal> {
    let mut lines = Lines::new(text);
    let mut sheet = Sheet { tasks: 1, ..Sheet::BLANK };
    sheet.slots = lines.value(b"slots=", number)?;
    sheet.check_limits()?;
    sheet.tasks = lines.value(b"tasks=", number)?;
    sheet.check_limits()?;
    for task in &mut sheet.task[..usize::from(sheet.tasks)] {
        *task = Task {
            level: lines.value(b"level=", level)?,
            offset: lines.value(b"offset=", number)?,
            period: lines.value(b"period=", number)?,
            within: lines.value(b"within=", number)?,
            lo: lines.value(b"lo=", number)?,
            hi: lines.value(b"hi=", number)?,
        };
    }
    for slot in &mut sheet.table[..usize::from(sheet.slots)] {
        *slot = lines.value(b"slot=", number)?;
    }
    if lines.at_end() {
        Ok(sheet)
    } else {
        Err(lines.bad())
    }
}

fn each_line(sheet: &Sheet, take: &mut Take) -> Result<(), Refusal> {
    take(Line::Number(b"slots=", sheet.slots))?;
    take(Line::Number(b"tasks=", sheet.tasks))?;
    for task in sheet.planned() {
        take(Line::level(task.level))?;
        take(Line::Number(b"offset=", task.offset))?;
        take(Line::Number(b"period=", task.period))?;
        take(Line::Number(b"within=", task.within))?;
        take(Line::Number(b"lo=", task.lo))?;
        take(Line::Number(b"hi=", task.hi))?;
    }
    sheet.table[..usize::from(sheet.slots)].iter().try_for_each(|&slot| take(Line::Number(b"slot=", slot)))
}

/// Writes the sheet's text at the start of `out` and answers its length: 2, 3, 1, 14. A refusal writes nothing.
pub fn write_sheet(sheet: &Sheet, out: &mut [u8]) -> Result<usize, Refusal> {
    sheet.check_limits()?;
    write_lines(|take| each_line(sheet, take), out)
}

/// The plan of a sheet: a job for every release, numbered by task, then by release; or 2, 3, 15 or 16.
pub fn expand(sheet: &Sheet) -> Result<Plan, Refusal> {
    sheet.check_limits()?;
    let tasks = sheet.planned();
    if let Some(k) = tasks.iter().position(|task| !task.holds(sheet.slots)) {
        return Err(Refusal::Task { task: k + 1 });
    }
    let jobs: Vec<Job> = tasks.iter().flat_map(|task| jobs_of(task, sheet.slots)).collect();
    if jobs.len() > JOBS {
        return Err(Refusal::TooMany { jobs: jobs.len() });
    }
    let mut plan = Plan { slots: sheet.slots, jobs: jobs.len() as u16, ..Plan::BLANK };
    plan.job[..jobs.len()].copy_from_slice(&jobs);
    let slots = usize::from(sheet.slots);
    plan.table[..slots].copy_from_slice(&sheet.table[..slots]);
    Ok(plan)
}

fn jobs_of(task: &Task, slots: u16) -> impl Iterator<Item = Job> {
    let Task { level, within, lo, hi, .. } = *task;
    task.releases(slots).map(move |release| Job { level, release, deadline: release + within, lo, hi })
}

/// What `expand_sheet` prints: the plan's text, or one `refused` line.
pub fn expand_output(input: &[u8]) -> Vec<u8> {
    let mut out = vec![0; 8 * 1024];
    match read_sheet(input).and_then(|sheet| write_plan(&expand(&sheet)?, &mut out)) {
        Ok(length) => out.truncate(length),
        Err(refusal) => {
            out.clear();
            print_refusal(&mut out, refusal);
        }
    }
    out
}
