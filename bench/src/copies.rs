//! How often the linked product copies memory, and how many bytes. The linker sends every call of `memcpy` and
//! `memmove` here (build.rs); copies that the compiler makes without a call, of a few words each, are not seen.

use std::sync::atomic::{AtomicUsize, Ordering::Relaxed};

use crate::runtime::{Runtime, ROOM};
use crate::speed::{cases, Case};

static CALLS: AtomicUsize = AtomicUsize::new(0);
static BYTES: AtomicUsize = AtomicUsize::new(0);

/// The most copies in a step of plan A that are aimed at.
const AIM: f64 = 20.0;

extern "C" {
    fn __real_memcpy(to: *mut u8, from: *const u8, length: usize) -> *mut u8;
    fn __real_memmove(to: *mut u8, from: *const u8, length: usize) -> *mut u8;
}

fn count(length: usize) {
    CALLS.fetch_add(1, Relaxed);
    BYTES.fetch_add(length, Relaxed);
}

/// # Safety
/// As `memcpy`.
#[no_mangle]
pub unsafe extern "C" fn __wrap_memcpy(to: *mut u8, from: *const u8, length: usize) -> *mut u8 {
    count(length);
    __real_memcpy(to, from, length)
}

/// # Safety
/// As `memmove`.
#[no_mangle]
pub unsafe extern "C" fn __wrap_memmove(to: *mut u8, from: *const u8, length: usize) -> *mut u8 {
    count(length);
    __real_memmove(to, from, length)
}

/// Copies and bytes of one call.
fn counted(call: impl FnOnce() -> usize) -> [f64; 2] {
    let before = [&CALLS, &BYTES].map(|count| count.load(Relaxed));
    std::hint::black_box(call());
    let after = [&CALLS, &BYTES].map(|count| count.load(Relaxed));
    [0, 1].map(|i| (after[i] - before[i]) as f64)
}

/// Prints the product's copies for each call on the largest plan and on plan A, and for a step of each.
pub fn copies(product: &dyn Runtime) {
    let cases = cases();
    let counts = cases.each_ref().map(|case| rows(product, case));
    println!("| copies, bytes | {} | {} |\n|---|---|---|", cases[0].name, cases[1].name);
    for (large, small) in counts[0].iter().zip(&counts[1]) {
        let cell = |[calls, bytes]: [f64; 2]| format!("{calls:.1}, {bytes:.0}");
        println!("| {} | {} | {} |", large.0, cell(large.1), cell(small.1));
    }
    let step = counts[1].iter().find(|(name, _)| *name == STEP).map_or(0.0, |(_, [calls, _])| *calls);
    println!("a step of plan A: {step:.1} copies, aim {AIM}: {}", if step <= AIM { "met" } else { "missed" });
}

const STEP: &str = "step";

fn rows(product: &dyn Runtime, case: &Case) -> Vec<(&'static str, [f64; 2])> {
    let mut out = vec![0; ROOM];
    let steps = case.kinds.len() as f64;
    let start = counted(|| product.walk(&case.text, &[]).into());
    let walk = counted(|| product.walk(&case.text, &case.kinds).into());
    let run = counted(|| product.run(&case.input, &mut out));
    vec![
        ("read", counted(|| product.read(&case.text).into())),
        ("read + analysis", counted(|| product.analyse(&case.text).into())),
        ("read + start", start),
        (STEP, [0, 1].map(|i| (walk[i] - start[i]) / steps)),
        ("check program's output", counted(|| product.check(&case.text, &mut out))),
        ("run program's output, by its reports", run.map(|count| count / steps)),
    ]
}
