//! Intervals by sorting one key for each job, and both spare rows in one walk.

use crate::model::{Job, Row, INTERVALS, JOBS};

/// The intervals in order, the interval of each job, and the jobs by rising deadline.
pub struct Layout {
    start: [u16; INTERVALS],
    end: [u16; INTERVALS],
    count: usize,
    home: [u8; JOBS],
    by_deadline: [u8; JOBS],
}

/// What the jobs of each interval still need, and after the walk the spares: HI and LO.
pub struct Rows {
    pub hi: Row,
    pub lo: Row,
}

impl Rows {
    pub const NONE: Rows = Rows { hi: [0; INTERVALS], lo: [0; INTERVALS] };
}

impl Layout {
    pub const EMPTY: Layout =
        Layout { start: [0; INTERVALS], end: [0; INTERVALS], count: 0, home: [0; JOBS], by_deadline: [0; JOBS] };

    /// Lays out the jobs of a plan whose limits and windows are in order, so that a key holds deadline and release
    /// of at most 512 and a place below 32. The first key of a deadline has its least release.
    pub fn lay(&mut self, jobs: &[Job], slots: u16) {
        let mut keys = [0u32; JOBS];
        let keys = &mut keys[..jobs.len()];
        for (k, (key, job)) in keys.iter_mut().zip(jobs).enumerate() {
            *key = u32::from(job.deadline) << 15 | u32::from(job.release) << 5 | k as u32;
        }
        keys.sort_unstable();
        self.count = 0;
        let mut border = 0;
        for (place, &key) in keys.iter().enumerate() {
            let (deadline, release, k) = ((key >> 15) as u16, (key >> 5 & 1023) as u16, (key & 31) as usize);
            if deadline != border {
                self.push_gap(border, release);
                self.push(border.max(release), deadline);
                border = deadline;
            }
            self.home[k] = self.count as u8 - 1;
            self.by_deadline[place] = k as u8;
        }
        self.push_gap(border, slots);
    }

    fn push_gap(&mut self, start: u16, end: u16) {
        if start < end {
            self.push(start, end);
        }
    }

    fn push(&mut self, start: u16, end: u16) {
        (self.start[self.count], self.end[self.count]) = (start, end);
        self.count += 1;
    }

    pub fn count(&self) -> usize {
        self.count
    }

    /// Start and end of an interval.
    pub fn interval(&self, k: usize) -> (u16, u16) {
        (self.start[k], self.end[k])
    }

    /// The places, from 0, of the first `jobs` jobs by rising deadline.
    pub fn by_deadline(&self, jobs: usize) -> &[u8] {
        &self.by_deadline[..jobs]
    }

    pub fn home(&self, k: usize) -> usize {
        usize::from(self.home[k])
    }

    /// How many intervals lie before border t: the current one's place while t < N.
    pub fn past(&self, t: u16) -> usize {
        self.end[..self.count].iter().take_while(|&&end| end <= t).count()
    }

    /// The spares at border t from what each interval's jobs still need; past intervals, and places beyond the last,
    /// have 0.
    pub fn spares(&self, t: u16, needed: &Rows, hi: &mut Row, lo: &mut Row) {
        let past = self.past(t);
        hi[..past].fill(0);
        lo[..past].fill(0);
        hi[self.count..].fill(0);
        lo[self.count..].fill(0);
        self.walk(past, t, needed, |k, high, low| {
            (hi[k], lo[k]) = (high, low);
            true
        });
    }

    /// Whether two rows are the spares at border t; compared where they are worked out.
    pub fn are_spares(&self, t: u16, needed: &Rows, hi: &Row, lo: &Row) -> bool {
        let past = self.past(t);
        let none = |row: &[i32]| row.iter().all(|&spare| spare == 0);
        none(&hi[..past])
            && none(&lo[..past])
            && none(&hi[self.count..])
            && none(&lo[self.count..])
            && self.walk(past, t, needed, |k, high, low| hi[k] == high && lo[k] == low)
    }

    /// Hands the spares to `take` from the last interval back to the first that is not past, while it answers true.
    fn walk(&self, past: usize, t: u16, needed: &Rows, mut take: impl FnMut(usize, i32, i32) -> bool) -> bool {
        let (mut high, mut low) = (0, 0);
        for k in (past..self.count).rev() {
            let time = i32::from(self.end[k] - self.start[k].max(t));
            high = time - needed.hi[k] + high.min(0);
            low = time - needed.lo[k] + low.min(0);
            if !take(k, high, low) {
                return false;
            }
        }
        true
    }
}
