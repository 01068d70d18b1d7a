//! Inputs by chance, from a seed: plans of all sizes, near-valid plans, damaged texts, and reports that
//! follow the run or leave it. The model steers what is made, so that every answer comes up often; what
//! the answers are worth is decided by comparing, not here.

mod mix;
mod plans;
mod records;
mod reports;
mod texts;

pub use mix::Mix;
pub use plans::largest;
pub use records::{plan_record, run_record};
pub use reports::{line as report_line, whole_run};

use crate::model::{write_plan, Plan, Rules};

/// A small generator (SplitMix64): the same seed gives the same inputs on every machine.
pub struct Rng(u64);

impl Rng {
    pub fn new(seed: u64) -> Rng {
        Rng(seed)
    }

    fn next(&mut self) -> u64 {
        self.0 = self.0.wrapping_add(0x9e37_79b9_7f4a_7c15);
        let mut mixed = self.0;
        mixed = (mixed ^ mixed >> 30).wrapping_mul(0xbf58_476d_1ce4_e5b9);
        mixed = (mixed ^ mixed >> 27).wrapping_mul(0x94d0_49bb_1331_11eb);
        mixed ^ mixed >> 31
    }

    /// A number from 0 to `bound` - 1; 0 where `bound` is 0.
    pub fn below(&mut self, bound: usize) -> usize {
        (self.next() % bound.max(1) as u64) as usize
    }

    /// A number from `least` to `most`.
    pub fn range(&mut self, least: u16, most: u16) -> u16 {
        least + self.below(usize::from(most.saturating_sub(least)) + 1) as u16
    }

    /// True `percent` times in a hundred.
    pub fn chance(&mut self, percent: usize) -> bool {
        self.below(100) < percent
    }

    /// One of several.
    pub fn pick<T: Copy>(&mut self, several: &[T]) -> T {
        several[self.below(several.len())]
    }
}

/// One input for each program.
pub struct Input {
    pub check: Vec<u8>,
    pub run: Vec<u8>,
}

/// The next input, by the rules that the product has.
pub fn input(rng: &mut Rng) -> Input {
    input_by(Rules::LANDED, rng)
}

/// The next input, its reports steered by these rules.
pub fn input_by(rules: Rules, rng: &mut Rng) -> Input {
    let mut plan = plans::plan(rng);
    if rng.chance(30) {
        plans::spoil(rng, &mut plan);
    }
    let mut check = plan_text(&plan);
    if rng.chance(6) {
        texts::spoil_limits(rng, &mut check);
    }
    let mut run = check.clone();
    run.extend(reports::reports(rules, rng, &plan));
    if rng.chance(3) {
        check.clone_from(&run);
    }
    if rng.chance(15) {
        texts::damage(rng, &mut check);
    }
    if rng.chance(10) {
        texts::damage(rng, &mut run);
    }
    Input { check, run }
}

/// The text of a plan whose limits hold and whose numbers have at most four digits.
pub fn plan_text(plan: &Plan) -> Vec<u8> {
    let mut text = vec![0; 8 * 1024];
    let length = write_plan(plan, &mut text).expect("a plan that has a text");
    text.truncate(length);
    text
}
