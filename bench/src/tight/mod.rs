//! Document 01 again, written for speed: what the product's times are measured against. It answers as `model` does
//! (tests/tight.rs) and works on the same records, which go by reference: a line is split in one pass, check 8 is a
//! running sum, check 9 looks only where a border can be the first to fail, a step scans the table once.
//! Nothing is kept between calls and no check is left out: each step tests the whole record, as the rules ask.

pub mod acceptance;
pub mod intervals;
pub mod programs;
pub mod run;
pub mod text;
