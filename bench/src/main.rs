//! The harness: the model's own answers, the random comparison and the speed table.

use std::io::{Read, Write};
use std::path::{Path, PathBuf};
use std::process::ExitCode;

use bench::compare::{self, Programs};
use bench::model::{check_output, expand_output, judge_output, run_output};
use bench::pieces;
use bench::random::{input, Mix, Rng};
use bench::speed;

const USAGE: &str = "bench check                the model's check output for standard input
bench run                  the model's run output for standard input
bench expand               the model's plan text for a task sheet on standard input
bench judge                the model's verdict on a plan, its reports and a log on standard input
bench mix SEED COUNT       what COUNT random inputs are made of
bench compare SEED COUNT   the linked product against the model (feature `product`)
bench programs SEED COUNT  the built check_plan and run_plan against the model, then 300 runs in pieces
bench pieces SEED COUNT    the built run_plan against the model, its input in pieces
bench speed                the product's times beside the tight model's (feature `product`)
bench largest              the speed table's largest plan
bench largest-run          the same with its reports, an input of the run program
bench copies               how often the product copies memory (feature `copies`)";

fn main() -> ExitCode {
    let words: Vec<String> = std::env::args().skip(1).collect();
    let words: Vec<&str> = words.iter().map(String::as_str).collect();
    match words[..] {
        ["check"] => filter(check_output),
        ["run"] => filter(run_output),
        ["expand"] => filter(expand_output),
        ["judge"] => filter(judge_output),
        ["mix", seed, count] => with_numbers(seed, count, mix),
        ["compare", seed, count] => with_numbers(seed, count, product::compare),
        ["programs", seed, count] => with_numbers(seed, count, programs),
        ["pieces", seed, count] => with_numbers(seed, count, pieces),
        ["speed"] => product::speed(),
        ["largest"] => shown(&speed::cases()[0].text),
        ["largest-run"] => shown(&speed::cases()[0].input),
        ["copies"] => product::copies(),
        _ => usage(),
    }
}

fn usage() -> ExitCode {
    eprintln!("{USAGE}");
    ExitCode::from(2)
}

fn with_numbers(seed: &str, count: &str, mode: fn(u64, usize) -> ExitCode) -> ExitCode {
    match (seed.parse(), count.parse()) {
        (Ok(seed), Ok(count)) => mode(seed, count),
        _ => usage(),
    }
}

fn success(same: bool) -> ExitCode {
    if same {
        ExitCode::SUCCESS
    } else {
        ExitCode::FAILURE
    }
}

/// Standard input through one of the model's programs.
fn filter(program: fn(&[u8]) -> Vec<u8>) -> ExitCode {
    let mut text = Vec::new();
    std::io::stdin().read_to_end(&mut text).expect("standard input");
    shown(&program(&text))
}

fn shown(text: &[u8]) -> ExitCode {
    std::io::stdout().write_all(text).expect("standard output");
    ExitCode::SUCCESS
}

fn mix(seed: u64, count: usize) -> ExitCode {
    let mut rng = Rng::new(seed);
    let mut mix = Mix::default();
    for _ in 0..count {
        let input = input(&mut rng);
        mix.count(&check_output(&input.check), &run_output(&input.run));
    }
    print!("{mix}");
    success(mix.is_enough())
}

/// How many runs `programs` feeds in pieces.
const IN_PIECES: usize = 300;

/// Where a built program is: crates/NAME/out/NAME of this repository, or NAME in the folder PROGRAMS_DIR.
fn built(name: &str) -> PathBuf {
    let crates = Path::new(env!("CARGO_MANIFEST_DIR")).join("../crates");
    let folder = std::env::var_os("PROGRAMS_DIR").map_or(crates.join(name).join("out"), PathBuf::from);
    folder.join(name)
}

fn programs(seed: u64, count: usize) -> ExitCode {
    let mut programs = Programs { check: built("check_plan"), run: built("run_plan") };
    success(compare::compare(&mut programs, seed, count) && pieces::pieces(&programs.run, seed, IN_PIECES))
}

fn pieces(seed: u64, count: usize) -> ExitCode {
    success(pieces::pieces(&built("run_plan"), seed, count))
}

#[cfg(feature = "product")]
mod product {
    use super::{success, ExitCode};
    use bench::compare::{self, Linked};
    use bench::product::Product;
    use bench::runtime::Tight;

    pub fn compare(seed: u64, count: usize) -> ExitCode {
        success(compare::compare(&mut Linked::new(&Product), seed, count))
    }

    pub fn speed() -> ExitCode {
        bench::speed::speed(&Product, &Tight);
        ExitCode::SUCCESS
    }

    #[cfg(feature = "copies")]
    pub fn copies() -> ExitCode {
        bench::copies::copies(&Product);
        ExitCode::SUCCESS
    }

    #[cfg(not(feature = "copies"))]
    pub fn copies() -> ExitCode {
        eprintln!("built without the count of copies: cargo run --release --features copies");
        ExitCode::from(2)
    }
}

/// Without the product only the model is there.
#[cfg(not(feature = "product"))]
mod product {
    use super::ExitCode;

    pub fn compare(_seed: u64, _count: usize) -> ExitCode {
        missing()
    }

    pub fn speed() -> ExitCode {
        missing()
    }

    pub fn copies() -> ExitCode {
        missing()
    }

    fn missing() -> ExitCode {
        eprintln!("built without the product: cargo run --release --features product");
        ExitCode::from(2)
    }
}
