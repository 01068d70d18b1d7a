//! The speed table: the product beside the tight model in one process, every call of both sides in turn in each round,
//! the middle of many rounds. Time is the processor's for this thread, so that other work on the machine counts less.
//!
//! The calls of the interface start from a text. What a layer costs is the difference of two calls: writing is
//! `write` less `read`, starting is `walk` with no kinds less `read`, a step is the rest of `walk` by its steps.

use std::hint::black_box;
use std::time::Duration;

use crate::model::{read_plan, Kind};
use crate::random::{largest, plan_text, report_line, whole_run, Rng};
use crate::runtime::{kind_byte, Runtime, ROOM};

/// Rounds; odd, so that there is a middle one.
const ROUNDS: usize = 301;
/// How long one sample takes at least.
const SAMPLE: Duration = Duration::from_micros(200);

/// A plan's text, the kinds of a whole run, and the same as an input of the run program.
pub struct Case {
    pub name: &'static str,
    pub text: Vec<u8>,
    pub kinds: Vec<u8>,
    pub input: Vec<u8>,
}

impl Case {
    fn new(name: &'static str, text: Vec<u8>, kinds: &[Kind]) -> Case {
        let mut input = text.clone();
        for (slot, &kind) in (0..).zip(kinds) {
            input.extend(report_line(slot, kind).bytes());
        }
        Case { name, text, kinds: kinds.iter().copied().map(kind_byte).collect(), input }
    }
}

/// A plan of the largest size and plan A, each with a whole run in which the HI jobs overrun.
pub fn cases() -> [Case; 2] {
    let mut rng = Rng::new(1);
    let small = include_bytes!("../../examples/plan_a.plan");
    let small_kinds = whole_run(&mut rng, &read_plan(small).expect("plan A"));
    let large = largest(&mut rng);
    let large_kinds = whole_run(&mut rng, &large);
    [
        Case::new("N = 512, n = 32", plan_text(&large), &large_kinds),
        Case::new("plan A, N = 8, n = 2", small.to_vec(), &small_kinds),
    ]
}

/// The calls that are timed.
#[derive(Clone, Copy)]
enum Call {
    Read,
    Write,
    Analyse,
    Start,
    Walk,
    Check,
    Run,
}

impl Call {
    const ALL: [Call; 7] = [Call::Read, Call::Write, Call::Analyse, Call::Start, Call::Walk, Call::Check, Call::Run];

    fn once(self, side: &dyn Runtime, case: &Case, out: &mut [u8]) -> usize {
        let text = black_box(&case.text[..]);
        match self {
            Call::Read => side.read(text).into(),
            Call::Write => side.write(text, out),
            Call::Analyse => side.analyse(text).into(),
            Call::Start => side.walk(text, &[]).into(),
            Call::Walk => side.walk(text, black_box(&case.kinds)).into(),
            Call::Check => side.check(text, out),
            Call::Run => side.run(black_box(&case.input), out),
        }
    }
}

/// One side's nanoseconds for each call, in the order of `Call::ALL`.
type Times = [f64; Call::ALL.len()];

/// A row: its name, its time from a side's calls and the number of steps, and the ratio aimed at for each case.
struct Row {
    name: &'static str,
    time: fn(&dyn Fn(Call) -> f64, f64) -> f64,
    aims: [Option<f64>; 2],
}

const fn row(name: &'static str, time: fn(&dyn Fn(Call) -> f64, f64) -> f64, aims: [Option<f64>; 2]) -> Row {
    Row { name, time, aims }
}

/// The rows that set the product beside the tight model.
const ROWS: [Row; 9] = [
    row("read", |of, _| of(Call::Read), [Some(1.4), Some(1.5)]),
    row("write", |of, _| of(Call::Write) - of(Call::Read), [None, None]),
    row("analysis", |of, _| of(Call::Analyse) - of(Call::Read), [None, None]),
    row("read + analysis", |of, _| of(Call::Analyse), [Some(1.0), Some(1.6)]),
    row("start", |of, _| of(Call::Start) - of(Call::Read), [None, None]),
    row("read + start + all steps", |of, _| of(Call::Walk), [Some(0.65), Some(2.1)]),
    row("step", |of, steps| (of(Call::Walk) - of(Call::Start)) / steps, [None, None]),
    row("check program's output", |of, _| of(Call::Check), [None, None]),
    row("run program's output", |of, _| of(Call::Run), [None, None]),
];

/// What the product's run program may cost, as a multiple of its walk over the same steps.
const RUN_BY_WALK: f64 = 1.5;

/// Prints the table for the largest plan and for plan A.
pub fn speed(product: &dyn Runtime, model: &dyn Runtime) {
    let cases = cases();
    let times = [0, 1].map(|i| medians([product, model], &cases[i]));
    println!("| product / tight model | {} | aim | {} | aim |\n|---|---|---|---|---|", cases[0].name, cases[1].name);
    for row in &ROWS {
        let cell = |i: usize| {
            let [product, model] = times[i].each_ref().map(|times| row_time(row, times, &cases[i]));
            shown(product, model, row.aims[i])
        };
        println!("| {} | {} | {} |", row.name, cell(0), cell(1));
    }
    let cell = |i: usize| shown(of(&times[i][0], Call::Run), of(&times[i][0], Call::Walk), Some(RUN_BY_WALK));
    println!("| product: run program's output / read + start + all steps | {} | {} |", cell(0), cell(1));
}

fn row_time(row: &Row, times: &Times, case: &Case) -> f64 {
    (row.time)(&|call| of(times, call), case.kinds.len() as f64)
}

fn of(times: &Times, call: Call) -> f64 {
    times[call as usize]
}

/// Two times, their ratio, and the aim with whether it is met.
fn shown(first: f64, second: f64, aim: Option<f64>) -> String {
    let ratio = first / second;
    let aim = aim.map_or("-".to_string(), |aim| format!("{aim:.2} {}", if ratio <= aim { "met" } else { "missed" }));
    format!("{:.2} / {:.2} us = {ratio:.2} | {aim}", first / 1e3, second / 1e3)
}

/// Seconds and nanoseconds, as C has them.
#[repr(C)]
struct TimeSpec {
    seconds: i64,
    nanoseconds: i64,
}

/// The clock of the calling thread's processor time.
#[cfg(target_os = "linux")]
const THREAD_TIME: i32 = 3;

extern "C" {
    fn clock_gettime(clock: i32, time: *mut TimeSpec) -> i32;
}

/// The processor time that this thread has had.
fn processor_time() -> Duration {
    let mut time = TimeSpec { seconds: 0, nanoseconds: 0 };
    // The call writes one record to the place it is handed, which lives through the call.
    let answer = unsafe { clock_gettime(THREAD_TIME, &mut time) };
    assert_eq!(answer, 0, "a clock of the thread's time");
    Duration::new(time.seconds as u64, time.nanoseconds as u32)
}

/// The middle of many rounds for each call of the two sides, in nanoseconds a call.
fn medians(sides: [&dyn Runtime; 2], case: &Case) -> [Times; 2] {
    let mut out = vec![0; ROOM];
    let mut time = |side: &dyn Runtime, call: Call, calls: u32| {
        let start = processor_time();
        for _ in 0..calls {
            black_box(call.once(side, case, &mut out));
        }
        processor_time() - start
    };
    let calls = sides.map(|side| {
        Call::ALL.map(|call| {
            time(side, call, 1);
            (SAMPLE.as_nanos() / time(side, call, 1).as_nanos().max(1) + 1) as u32
        })
    });
    let mut samples = sides.map(|_| Call::ALL.map(|_| Vec::with_capacity(ROUNDS)));
    for _ in 0..ROUNDS {
        for call in Call::ALL {
            for i in 0..sides.len() {
                samples[i][call as usize].push(time(sides[i], call, calls[i][call as usize]));
            }
        }
    }
    [0, 1].map(|i| {
        Call::ALL.map(|call| {
            let samples = &mut samples[i][call as usize];
            samples.sort_unstable();
            samples[ROUNDS / 2].as_nanos() as f64 / f64::from(calls[i][call as usize])
        })
    })
}
