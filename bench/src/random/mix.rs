//! What a lot of inputs was made of, counted from the printed answers, and whether every case came often enough.

use std::fmt;

/// What is counted of an input's two outputs.
enum What {
    /// The check program's answer, 0 or the refusal's number.
    Check(usize),
    /// The run program's answer, 0 where it refuses nothing.
    Run(usize),
    /// Something else, and how often it stands in the outputs.
    Other(&'static str, fn(&Printed) -> usize),
}

/// The cases that the comparison has to see, each with the least times in every 1,000 inputs, about half of what
/// comes. A rule that is new has its case here and nowhere else. No text leads to an incoherent record: 10 is counted
/// to show that it stays away.
const CASES: [(What, usize); 44] = [
    (What::Check(0), 250),
    (What::Check(1), 90),
    (What::Check(2), 5),
    (What::Check(3), 10),
    (What::Check(4), 25),
    (What::Check(5), 30),
    (What::Check(6), 18),
    (What::Check(7), 10),
    (What::Check(8), 33),
    (What::Check(9), 20),
    (What::Check(17), 9),
    (What::Run(0), 180),
    (What::Run(1), 90),
    (What::Run(2), 5),
    (What::Run(3), 10),
    (What::Run(4), 30),
    (What::Run(5), 33),
    (What::Run(6), 20),
    (What::Run(7), 11),
    (What::Run(8), 37),
    (What::Run(9), 22),
    (What::Run(10), 0),
    (What::Run(11), 19),
    (What::Run(12), 23),
    (What::Run(13), 8),
    (What::Run(17), 10),
    (What::Other("intervals", |printed| printed.intervals().count()), 2500),
    (
        What::Other("plans with a spare below 0", |printed| printed.intervals().any(|line| line.contains('-')).into()),
        95,
    ),
    (What::Other("plans with 65 intervals", |printed| (printed.intervals().count() == 65).into()), 4),
    (What::Other("plans of 512 slots", |printed| printed.intervals().any(|line| line.contains(",512,")).into()), 9),
    (What::Other("runs of 32 jobs", |printed| (printed.jobs().count() == 32).into()), 13),
    (What::Other("steps in T", |printed| printed.steps(|step| !step.high)), 15000),
    (What::Other("steps in H", |printed| printed.steps(|step| step.high)), 900),
    (What::Other("idle slots in T", |printed| printed.steps(|step| !step.high && step.idle)), 12000),
    (What::Other("idle slots in H", |printed| printed.steps(|step| step.high && step.idle)), 20),
    (What::Other("slots in H with HI spare above 0, LO below 0", |printed| printed.steps(Step::is_dead)), 60),
    (
        What::Other("slots in H with HI spare 0 or below", |printed| printed.steps(|step| step.high && step.hi <= 0)),
        240,
    ),
    (What::Other("overruns", |printed| printed.turns(false)), 130),
    (What::Other("returns to T", |printed| printed.turns(true)), 120),
    (What::Other("runs with a second overrun", |printed| (printed.turns(false) >= 2).into()), 20),
    (What::Other("jobs waiting", |printed| printed.standing("W")), 130),
    (What::Other("jobs finished", |printed| printed.standing("F")), 800),
    (What::Other("jobs cut", |printed| printed.standing("C")), 450),
    (What::Other("jobs dropped", |printed| printed.standing("D")), 20),
];

/// What a step line says of its slot.
struct Step {
    idle: bool,
    high: bool,
    hi: i32,
    lo: i32,
}

impl Step {
    /// Phase H, time for HI work to spare, none for LO work.
    fn is_dead(&self) -> bool {
        self.high && self.hi > 0 && self.lo < 0
    }
}

/// The two outputs of one input.
struct Printed<'a> {
    check: &'a str,
    run: &'a str,
    step: Vec<Step>,
}

/// The fields of the lines with this key.
fn fields<'a>(output: &'a str, key: &'a str) -> impl Iterator<Item = Vec<&'a str>> {
    output.lines().filter_map(move |line| Some(line.strip_prefix(key)?.split(',').collect()))
}

/// The number of the refusal that an output ends in, 0 where it ends in none.
fn refused(output: &str) -> usize {
    let last = fields(output.lines().last().unwrap_or(""), "refused=").next();
    last.and_then(|fields| fields[0].parse().ok()).unwrap_or(0)
}

impl<'a> Printed<'a> {
    fn new(check: &'a str, run: &'a str) -> Self {
        let number = |field: &str| field.parse().unwrap_or(0);
        let step = |fields: Vec<&str>| Step {
            idle: fields[1] == "0",
            high: fields[2] == "H",
            hi: number(fields[3]),
            lo: number(fields[4]),
        };
        Printed { check, run, step: fields(run, "step=").map(step).collect() }
    }

    fn intervals(&self) -> impl Iterator<Item = &str> {
        self.check.lines().filter_map(|line| line.strip_prefix("interval="))
    }

    fn jobs(&self) -> impl Iterator<Item = Vec<&str>> {
        fields(self.run, "job=")
    }

    fn standing(&self, letter: &str) -> usize {
        self.jobs().filter(|fields| fields[1] == letter).count()
    }

    fn steps(&self, counts: impl Fn(&Step) -> bool) -> usize {
        self.step.iter().filter(|step| counts(step)).count()
    }

    /// How often the phase turns from this one to the other between two step lines.
    fn turns(&self, from_high: bool) -> usize {
        self.step.windows(2).filter(|pair| pair[0].high == from_high && pair[1].high != from_high).count()
    }

    fn times(&self, what: &What) -> usize {
        match what {
            What::Check(number) => usize::from(refused(self.check) == *number),
            What::Run(number) => usize::from(refused(self.run) == *number),
            What::Other(_, times) => times(self),
        }
    }
}

/// How often each case was seen.
pub struct Mix {
    inputs: usize,
    seen: [usize; CASES.len()],
}

impl Default for Mix {
    fn default() -> Self {
        Mix { inputs: 0, seen: [0; CASES.len()] }
    }
}

impl Mix {
    /// Counts one input by what the two programs print for it.
    pub fn count(&mut self, check: &[u8], run: &[u8]) {
        let (check, run) = (String::from_utf8_lossy(check), String::from_utf8_lossy(run));
        let printed = Printed::new(&check, &run);
        self.inputs += 1;
        for (seen, (what, _)) in self.seen.iter_mut().zip(&CASES) {
            *seen += printed.times(what);
        }
    }

    /// Whether each case came at least as often as its floor asks.
    pub fn is_enough(&self) -> bool {
        self.rows().all(|(_, seen, floor)| floor <= seen)
    }

    /// The cases with how often they were seen and should have been.
    fn rows(&self) -> impl Iterator<Item = (&What, usize, usize)> {
        CASES.iter().zip(self.seen).map(|((what, floor), seen)| (what, seen, floor * (self.inputs / 1000)))
    }
}

impl fmt::Display for What {
    fn fmt(&self, f: &mut fmt::Formatter) -> fmt::Result {
        match self {
            What::Check(number) => write!(f, "check answered {number}"),
            What::Run(number) => write!(f, "run answered {number}"),
            What::Other(name, _) => write!(f, "{name}"),
        }
    }
}

impl fmt::Display for Mix {
    fn fmt(&self, f: &mut fmt::Formatter) -> fmt::Result {
        writeln!(f, "{:46} {:>9} {:>9}", format!("{} inputs", self.inputs), "seen", "floor")?;
        for (what, seen, floor) in self.rows() {
            let short = if seen < floor { "  too few" } else { "" };
            writeln!(f, "{:46} {seen:>9} {floor:>9}{short}", what.to_string())?;
        }
        Ok(())
    }
}
