//! Document 01 in plain Rust, written from its text alone: what the proved runtime is compared with. The requests of
//! document 02 stand in it behind the switches of `Rules`. It shares no code and no definition with the proved crates.

pub mod acceptance;
pub mod firm;
pub mod intervals;
pub mod lost;
pub mod plan;
pub mod programs;
pub mod rules;
pub mod run;
pub mod sheet;
pub mod text;

pub use acceptance::{analyse, analyse_by, well_formed, well_formed_by, Analysis};
pub use intervals::{Ends, Interval, Layout, Row, INTERVALS};
pub use plan::{Job, Level, Plan, Refusal, JOBS, SLOTS};
pub use programs::{check_output, check_output_by, judge_output, judge_output_by, run_output, run_output_by};
pub use rules::Rules;
pub use run::{Choice, Entry, Kind, Origin, Phase, Report, Run, Slot, Standing};
pub use sheet::{expand, expand_output, read_sheet, write_sheet, Sheet, Task};
pub use text::{read_plan, read_prefix, write_plan};
