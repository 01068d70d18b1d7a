//! The intervals of a plan and the spares at a border, worked out afresh.

use super::plan::{Plan, JOBS};
use super::rules::Rules;

/// The most intervals a plan has: one for each job's deadline, one gap before each, one after the last.
pub const INTERVALS: usize = 2 * JOBS + 1;

/// One spare, or one sum of work, for each interval.
pub type Row = [i32; INTERVALS];

/// Beside each spare the end that makes it.
pub type Ends = [u16; INTERVALS];

#[derive(Clone, Copy, Debug, Default, PartialEq, Eq)]
pub struct Interval {
    pub start: u16,
    pub end: u16,
}

/// The intervals in order and the interval that each job belongs to.
#[derive(Clone, Debug)]
pub struct Layout {
    interval: [Interval; INTERVALS],
    count: usize,
    home: [u8; JOBS],
}

impl Layout {
    /// The layout of a plan whose limits (2, 3) and windows (4) are in order.
    pub fn of(plan: &Plan) -> Layout {
        let mut layout = Layout { interval: [Interval::default(); INTERVALS], count: 0, home: [0; JOBS] };
        let jobs = plan.planned();
        let mut by_deadline: [u8; JOBS] = std::array::from_fn(|k| k as u8);
        let by_deadline = &mut by_deadline[..jobs.len()];
        by_deadline.sort_unstable_by_key(|&k| jobs[usize::from(k)].deadline);
        let deadline = |k: &u8| jobs[usize::from(*k)].deadline;
        let mut border = 0;
        for members in by_deadline.chunk_by(|j, k| deadline(j) == deadline(k)) {
            let end = deadline(&members[0]);
            let release = members.iter().map(|&k| jobs[usize::from(k)].release).min().unwrap_or(0);
            layout.fill_to(border, release);
            for &k in members {
                layout.home[usize::from(k)] = layout.count as u8;
            }
            layout.push(border.max(release), end);
            border = end;
        }
        layout.fill_to(border, plan.slots);
        layout
    }

    /// An empty interval from `border` to `start`, if there is a gap.
    fn fill_to(&mut self, border: u16, start: u16) {
        if border < start {
            self.push(border, start);
        }
    }

    fn push(&mut self, start: u16, end: u16) {
        self.interval[self.count] = Interval { start, end };
        self.count += 1;
    }

    pub fn intervals(&self) -> &[Interval] {
        &self.interval[..self.count]
    }

    /// How many intervals lie before border t; so also the current interval's index while t < N.
    pub fn past(&self, t: u16) -> usize {
        self.intervals().partition_point(|interval| interval.end <= t)
    }

    /// The index of the interval that job k, from 0, belongs to.
    pub fn home(&self, k: usize) -> usize {
        usize::from(self.home[k])
    }

    /// The spares at border t, given what each interval's jobs still need. Past intervals and places
    /// beyond the last have 0.
    pub fn spares(&self, t: u16, needed: &Row) -> Row {
        let mut row = [0; INTERVALS];
        self.walk(t, needed, |k, spare, _| row[k] = spare);
        row
    }

    /// K4: beside each of these spares the least end at which the time to it, less the work due by it, equals the
    /// spare. All 0 where the rules have none.
    pub fn ends(&self, rules: Rules, t: u16, needed: &Row) -> Ends {
        let mut ends = [0; INTERVALS];
        if rules.ends {
            self.walk(t, needed, |k, _, end| ends[k] = end);
        }
        ends
    }

    /// The current interval's spare alone.
    pub fn current_spare(&self, t: u16, needed: &Row) -> i32 {
        self.walk(t, needed, |_, _, _| ())
    }

    /// Hands each interval's spare and the end that makes it, from the last back to the current one, to `take`; answers
    /// the last spare. A next spare below 0 is what makes this one, so its end is this one's too.
    fn walk(&self, t: u16, needed: &Row, mut take: impl FnMut(usize, i32, u16)) -> i32 {
        let (mut next, mut end) = (0, 0);
        for (k, interval) in self.intervals().iter().enumerate().rev() {
            if interval.end <= t {
                break;
            }
            end = if next < 0 { end } else { interval.end };
            next = i32::from(interval.end - interval.start.max(t)) - needed[k] + next.min(0);
            take(k, next, end);
        }
        next
    }
}
