//! The count of what a comparison has seen fails where a case is missing.

use bench::model::{check_output, run_output};
use bench::random::{input, Mix, Rng};

/// The count of 1,000 inputs that `next` makes.
fn counted(mut next: impl FnMut(&mut Rng) -> bench::random::Input) -> Mix {
    let mut rng = Rng::new(4);
    let mut mix = Mix::default();
    for _ in 0..1000 {
        let input = next(&mut rng);
        mix.count(&check_output(&input.check), &run_output(&input.run));
    }
    mix
}

#[test]
fn all_inputs_are_enough() {
    assert!(counted(input).is_enough());
}

#[test]
fn without_refusal_7_they_are_not() {
    let mix = counted(|rng| loop {
        let input = input(rng);
        if !check_output(&input.check).starts_with(b"refused=7") {
            return input;
        }
    });
    assert!(!mix.is_enough());
    let shown = mix.to_string();
    assert!(shown.lines().any(|line| line.starts_with("check answered 7") && line.ends_with("too few")), "{shown}");
}
