//! The random comparison: every input through the model and through the other side, stopped at a difference.

use std::io::Write;
use std::path::{Path, PathBuf};
use std::process::{Command, Stdio};

use crate::model::{check_output, run_output, Kind};
use crate::random::{input, Input, Mix, Rng};
use crate::runtime::{kind_byte, Model, Runtime, ROOM};

/// The side that is compared with the model: outputs of the two programs.
pub trait Printed {
    fn check(&mut self, text: &[u8]) -> Vec<u8>;
    fn run(&mut self, text: &[u8]) -> Vec<u8>;
    /// What else the side can be asked about an input; the call that it answered wrong.
    fn further(&mut self, _input: &Input) -> Option<&'static str> {
        None
    }
}

/// What a lent buffer is filled with, to see what a call leaves as it was.
const MARK: u8 = 0xee;

/// A runtime in this process, its outputs taken from a buffer.
pub struct Linked<'a, R> {
    runtime: &'a R,
    room: Vec<u8>,
}

impl<'a, R: Runtime> Linked<'a, R> {
    pub fn new(runtime: &'a R) -> Self {
        Linked { runtime, room: vec![0; ROOM] }
    }
}

impl<R: Runtime> Printed for Linked<'_, R> {
    fn check(&mut self, text: &[u8]) -> Vec<u8> {
        let length = self.runtime.check(text, &mut self.room);
        self.room[..length].to_vec()
    }

    fn run(&mut self, text: &[u8]) -> Vec<u8> {
        let length = self.runtime.run(text, &mut self.room);
        self.room[..length].to_vec()
    }

    /// The calls that the speed table is made of: reader, writer, analysis, start and steps; and a run without room.
    fn further(&mut self, input: &Input) -> Option<&'static str> {
        let text = &input.check[..];
        let kinds = kinds(&input.run);
        let (mut ours, mut theirs) = (vec![MARK; text.len() + 1], vec![MARK; text.len() + 1]);
        let written = self.runtime.write(text, &mut theirs) == Model.write(text, &mut ours) && ours == theirs;
        let mut short = vec![MARK; run_output(&input.run).len() - 1];
        let left = self.runtime.run(&input.run, &mut short) == 0 && short.iter().all(|&byte| byte == MARK);
        let calls = [
            ("read", self.runtime.read(text) == Model.read(text)),
            ("write", written),
            ("analyse", self.runtime.analyse(text) == Model.analyse(text)),
            ("walk", self.runtime.walk(text, &kinds) == Model.walk(text, &kinds)),
            ("run without room", left),
        ];
        calls.into_iter().find(|(_, same)| !same).map(|(call, _)| call)
    }
}

/// The kinds of an input's report lines, right or wrong ones, as `walk` takes them.
fn kinds(run: &[u8]) -> Vec<u8> {
    let lines = run.split(|&byte| byte == b'\n').filter(|line| line.starts_with(b"report="));
    let kind = |line: &[u8]| match line {
        [.., b'n', b'd'] => kind_byte(Kind::End),
        [.., b'r', b'e'] => kind_byte(Kind::More),
        _ => kind_byte(Kind::None),
    };
    lines.map(kind).collect()
}

/// The two built programs, started once for each input.
pub struct Programs {
    pub check: PathBuf,
    pub run: PathBuf,
}

/// What the program prints for this input.
fn printed(program: &Path, text: &[u8]) -> Vec<u8> {
    let mut child =
        Command::new(program).stdin(Stdio::piped()).stdout(Stdio::piped()).spawn().expect("a built program");
    // A program may stop reading at a refusal; what it prints fits the pipe, so neither side waits.
    let _ = child.stdin.take().expect("its standard input").write_all(text);
    child.wait_with_output().expect("its output").stdout
}

impl Printed for Programs {
    fn check(&mut self, text: &[u8]) -> Vec<u8> {
        printed(&self.check, text)
    }

    fn run(&mut self, text: &[u8]) -> Vec<u8> {
        printed(&self.run, text)
    }
}

/// Compares on `count` inputs. False, after printing the input, at the first difference, and where a case came too
/// rarely.
pub fn compare(side: &mut impl Printed, seed: u64, count: usize) -> bool {
    let mut rng = Rng::new(seed);
    let mut mix = Mix::default();
    for index in 0..count {
        let input = input(&mut rng);
        let (check, run) = (check_output(&input.check), run_output(&input.run));
        let same = same(index, "check", &input.check, &check, &side.check(&input.check))
            && same(index, "run", &input.run, &run, &side.run(&input.run));
        if !same {
            return false;
        }
        if let Some(call) = side.further(&input) {
            println!("input {index}: {call} differs\n{}", shown(&input.check));
            return false;
        }
        mix.count(&check, &run);
    }
    println!("{mix}{count} compared, 0 differ");
    mix.is_enough()
}

/// Whether two outputs are the same; prints the input and both where they differ.
pub fn same(index: usize, program: &str, input: &[u8], model: &[u8], other: &[u8]) -> bool {
    if model != other {
        println!("input {index}: the {program} outputs differ\n-- input\n{}", shown(input));
        println!("-- model\n{}\n-- other\n{}", shown(model), shown(other));
    }
    model == other
}

/// Bytes with their lines kept and what is not plain text escaped.
fn shown(bytes: &[u8]) -> String {
    let lines: Vec<String> = bytes.split(|&byte| byte == b'\n').map(|line| line.escape_ascii().to_string()).collect();
    lines.join("\n")
}
