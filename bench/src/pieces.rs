//! The run program fed in pieces, as a line from a machine brings its input: byte by byte, line by line, cut anywhere,
//! with waits between some. What it prints must not depend on the cuts.

use std::io::Write;
use std::os::fd::AsRawFd;
use std::path::Path;
use std::process::{ChildStdin, Command, Stdio};
use std::thread::sleep;
use std::time::{Duration, Instant};

use crate::compare::same;
use crate::model::run_output;
use crate::random::{input, Rng};

/// How an input is cut.
#[derive(Clone, Copy, Debug)]
enum Cut {
    Bytes,
    Lines,
    /// Into parts of up to so many bytes.
    Anywhere(usize),
    /// Into two.
    Once,
}

const CUTS: [Cut; 5] = [Cut::Bytes, Cut::Lines, Cut::Anywhere(12), Cut::Anywhere(700), Cut::Once];

impl Cut {
    fn pieces<'a>(self, rng: &mut Rng, text: &'a [u8]) -> Vec<&'a [u8]> {
        match self {
            Cut::Bytes => text.chunks(1).collect(),
            Cut::Lines => text.split_inclusive(|&byte| byte == b'\n').collect(),
            Cut::Once => <[&[u8]; 2]>::from(text.split_at(rng.below(text.len()))).to_vec(),
            Cut::Anywhere(most) => {
                let (mut pieces, mut rest) = (Vec::new(), text);
                while !rest.is_empty() {
                    let (piece, after) = rest.split_at((1 + rng.below(most)).min(rest.len()));
                    pieces.push(piece);
                    rest = after;
                }
                pieces
            }
        }
    }
}

/// About so many pieces of an input are sent only after the program has read all before them.
const WAITS: usize = 40;
/// How long the program is waited for: it may have stopped and read no more.
const PATIENCE: Duration = Duration::from_millis(50);

/// The request that asks how many bytes a pipe holds.
#[cfg(target_os = "linux")]
const FIONREAD: std::ffi::c_ulong = 0x541b;

extern "C" {
    fn ioctl(file: i32, request: std::ffi::c_ulong, ...) -> i32;
}

/// How many bytes the program has not read yet.
fn unread(pipe: &ChildStdin) -> i32 {
    let mut bytes: i32 = 0;
    // The request writes one number to the place it is handed, which lives through the call.
    match unsafe { ioctl(pipe.as_raw_fd(), FIONREAD, &mut bytes as *mut i32) } {
        0 => bytes,
        _ => -1,
    }
}

/// Waits until the program has read all that was sent; false when it does not.
fn is_read(pipe: &ChildStdin) -> bool {
    let start = Instant::now();
    while start.elapsed() < PATIENCE {
        if unread(pipe) == 0 {
            return true;
        }
        sleep(Duration::from_micros(20));
    }
    false
}

/// What the program prints for these pieces, and how many of them it read before the next was sent.
fn fed(program: &Path, pieces: &[&[u8]], rng: &mut Rng) -> (Vec<u8>, usize) {
    let mut child =
        Command::new(program).stdin(Stdio::piped()).stdout(Stdio::piped()).spawn().expect("a built program");
    let mut pipe = child.stdin.take().expect("its standard input");
    let mut alone = 0;
    for piece in pieces {
        // A program that has refused a line reads no more.
        if pipe.write_all(piece).is_err() {
            break;
        }
        if rng.below(pieces.len()) < WAITS {
            alone += usize::from(is_read(&pipe));
            if rng.chance(10) {
                sleep(Duration::from_micros(rng.below(1000) as u64));
            }
        }
    }
    drop(pipe);
    (child.wait_with_output().expect("its output").stdout, alone)
}

/// A random input of the run program; few of them without a step.
fn run_input(rng: &mut Rng) -> (Vec<u8>, Vec<u8>) {
    loop {
        let text = input(rng).run;
        let output = run_output(&text);
        if output.starts_with(b"step=") || rng.chance(10) {
            return (text, output);
        }
    }
}

/// Feeds `count` inputs in pieces to the run program. False, after printing the input, at the first whose
/// output is not the model's, and where too few pieces were read by themselves to tell anything.
pub fn pieces(program: &Path, seed: u64, count: usize) -> bool {
    let mut rng = Rng::new(seed);
    let (mut sent, mut alone, mut reports) = (0, 0, 0);
    for index in 0..count {
        let cut = CUTS[index % CUTS.len()];
        let (text, model) = run_input(&mut rng);
        let pieces = cut.pieces(&mut rng, &text);
        let (printed, read) = fed(program, &pieces, &mut rng);
        if !same(index, &format!("run, in pieces ({cut:?}),"), &text, &model, &printed) {
            return false;
        }
        sent += pieces.len();
        alone += read;
        reports += model.split(|&byte| byte == b'\n').filter(|line| line.starts_with(b"step=")).count();
    }
    println!(
        "{count} inputs in {sent} pieces, {alone} read before the next was sent, {reports} accepted reports, 0 differ"
    );
    alone >= count
}
