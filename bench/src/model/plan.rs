//! The plan record and the refusals with their numbers and places. The checks stand in `acceptance`.

/// The most slots a plan has.
pub const SLOTS: usize = 512;
/// The most jobs a plan has.
pub const JOBS: usize = 32;

/// How much a job matters. HI comes before LO where deadlines are equal.
#[derive(Clone, Copy, Debug, PartialEq, Eq, PartialOrd, Ord)]
pub enum Level {
    Hi,
    Lo,
}

/// A job's window and its budgets, in slots.
#[derive(Clone, Copy, Debug, PartialEq, Eq)]
pub struct Job {
    pub level: Level,
    pub release: u16,
    pub deadline: u16,
    pub lo: u16,
    pub hi: u16,
}

impl Job {
    pub const BLANK: Job = Job { level: Level::Lo, release: 0, deadline: 0, lo: 0, hi: 0 };

    pub fn is_hi(&self) -> bool {
        self.level == Level::Hi
    }
}

/// N, n, the jobs and the table. `table[t]` is the number of slot t's job, from 1, or 0 for idle.
/// Any record of these numbers is a `Plan`; `acceptance` says which of them are plans to run.
#[derive(Clone, Debug)]
pub struct Plan {
    pub slots: u16,
    pub jobs: u16,
    pub job: [Job; JOBS],
    pub table: [u16; SLOTS],
}

impl Plan {
    pub const BLANK: Plan = Plan { slots: 0, jobs: 0, job: [Job::BLANK; JOBS], table: [0; SLOTS] };

    /// The first n jobs. A record that names more than there are has them all.
    pub fn planned(&self) -> &[Job] {
        &self.job[..usize::from(self.jobs).min(JOBS)]
    }

    /// The first N entries of the table.
    pub fn row(&self) -> &[u16] {
        &self.table[..usize::from(self.slots).min(SLOTS)]
    }
}

/// Plans are equal when N, n, the first n jobs and the first N slots agree.
impl PartialEq for Plan {
    fn eq(&self, other: &Plan) -> bool {
        self.slots == other.slots
            && self.jobs == other.jobs
            && self.planned() == other.planned()
            && self.row() == other.row()
    }
}

/// The refusals, each with its place or places. `SpareBy` is `Spare` with the HI deadline that makes it (K4).
#[derive(Clone, Copy, Debug, PartialEq, Eq)]
pub enum Refusal {
    Form { line: usize },
    SlotLimit,
    JobLimit,
    Window { job: usize },
    Budget { job: usize },
    Table { slot: usize },
    Count { job: usize },
    Overload { from: u16, to: u16 },
    Spare { border: usize },
    SpareBy { border: usize, end: u16 },
    Incoherent,
    Over { t: u16 },
    WrongSlot { t: u16 },
    WrongKind { t: u16 },
    Room { needed: usize },
    Task { task: usize },
    TooMany { jobs: usize },
    Chopped { job: usize },
    Loss { t: u16 },
    Request { t: u16 },
    NoNumber { t: u16 },
    TooFew { open: usize },
}

impl Refusal {
    /// The number in document 01's table, or in document 02.
    pub fn number(self) -> u16 {
        match self {
            Refusal::Form { .. } => 1,
            Refusal::SlotLimit => 2,
            Refusal::JobLimit => 3,
            Refusal::Window { .. } => 4,
            Refusal::Budget { .. } => 5,
            Refusal::Table { .. } => 6,
            Refusal::Count { .. } => 7,
            Refusal::Overload { .. } => 8,
            Refusal::Spare { .. } | Refusal::SpareBy { .. } => 9,
            Refusal::Incoherent => 10,
            Refusal::Over { .. } => 11,
            Refusal::WrongSlot { .. } => 12,
            Refusal::WrongKind { .. } => 13,
            Refusal::Room { .. } => 14,
            Refusal::Task { .. } => 15,
            Refusal::TooMany { .. } => 16,
            Refusal::Chopped { .. } => 17,
            Refusal::Loss { .. } => 18,
            Refusal::Request { .. } => 19,
            Refusal::NoNumber { .. } => 20,
            Refusal::TooFew { .. } => 21,
        }
    }

    /// The place; 8 has a second one, 9 too once it names its deadline.
    pub fn places(self) -> (usize, Option<usize>) {
        match self {
            Refusal::Form { line } => (line, None),
            Refusal::SlotLimit => (1, None),
            Refusal::JobLimit => (2, None),
            Refusal::Window { job } | Refusal::Budget { job } => (job, None),
            Refusal::Count { job } | Refusal::Chopped { job } => (job, None),
            Refusal::Table { slot } => (slot, None),
            Refusal::Overload { from, to } => (usize::from(from), Some(usize::from(to))),
            Refusal::Spare { border } => (border, None),
            Refusal::SpareBy { border, end } => (border, Some(usize::from(end))),
            Refusal::Incoherent => (0, None),
            Refusal::Over { t } | Refusal::WrongSlot { t } | Refusal::WrongKind { t } => (usize::from(t), None),
            Refusal::Room { needed } => (needed, None),
            Refusal::Loss { t } | Refusal::Request { t } | Refusal::NoNumber { t } => (usize::from(t), None),
            Refusal::TooFew { open } => (open, None),
            Refusal::Task { task } => (task, None),
            Refusal::TooMany { jobs } => (jobs, None),
        }
    }
}
