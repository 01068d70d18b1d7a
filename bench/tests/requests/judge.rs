//! K8: lost slots and firm requests among the reports, and the judge of another maker's log.

use super::*;
use bench::random::{input, input_by, plan_text};

const RULES: Rules = Rules { missed: true, calls: true, ..Rules::BASE };

/// N = 3; HI 0, 3, 1, 1; table 1 0 0; then these lines.
fn three_slots(lines: &str) -> Vec<u8> {
    let mut text = plan_text(&plan(3, &[job(Level::Hi, 0, 3, 1, 1)], &[1, 0, 0]));
    text.extend(lines.bytes());
    text
}

fn run(input: &[u8]) -> String {
    String::from_utf8(run_output_by(RULES, input)).unwrap()
}

fn judged(input: &[u8], log: &str) -> String {
    let whole = [input, b"log=\n", log.as_bytes()].concat();
    String::from_utf8(judge_output_by(RULES, &whole)).unwrap()
}

#[test]
fn requests_among_the_reports() {
    let lines = "report=0,end\nask=1,2,3\nreport=1,end\nask=2,1,3\nreport=2,end\n";
    let expected = "step=0,1,T,2,2\ntook=1,2\nstep=1,2,T,2,0\ntook=2,3\nstep=2,3,T,1,0\n\
                    job=1,F,1\njob=2,F,1\njob=3,F,1\n";
    assert_eq!(run(&three_slots(lines)), expected);
    let lines = "report=0,end\nask=1,2,3\nreport=1,more\nask=2,1,3\n";
    assert_eq!(run(&three_slots(lines)), "step=0,1,T,2,2\ntook=1,2\nstep=1,2,T,2,0\nrefused=21,0\n");
}

#[test]
fn lost_slots_among_the_reports() {
    assert_eq!(run(&three_slots("lost=0,2\nreport=2,end\n")), "lost=0,yes\nstep=2,1,H,0,0\njob=1,F,1\n");
    assert_eq!(run(&three_slots("lost=0,3\n")), "lost=0,no\njob=1,M,0\n");
}

#[test]
fn another_slot_is_12_after_18_to_21() {
    for (line, refusal) in [
        ("lost=1,1\n", "refused=12,0\n"),
        ("lost=1,0\n", "refused=18,0\n"),
        ("lost=1,4\n", "refused=18,0\n"),
        ("ask=1,1,3\n", "refused=12,0\n"),
        ("ask=1,0,3\n", "refused=19,0\n"),
        ("ask=1,3,3\n", "refused=21,2\n"),
        ("lost=3\n", "refused=1,11\n"),
        ("lost=0,01\n", "refused=1,11\n"),
        ("lost=0,1", "refused=1,11\n"),
        ("lost=0,1,1\n", "refused=1,11\n"),
        ("ask=0,1\n", "refused=1,11\n"),
        ("ask=0,1,3,\n", "refused=1,11\n"),
        ("asks=0,1,3\n", "refused=1,11\n"),
    ] {
        assert_eq!(run(&three_slots(line)), refusal, "{line}");
    }
    assert_eq!(run_output_by(Rules::BASE, &three_slots("lost=0,1\n")), b"refused=1,11\n");
}

#[test]
fn the_judge() {
    let input = three_slots("report=0,end\nask=1,1,3\n");
    let right = "step=0,1,T,2,2\ntook=1,2\njob=1,F,1\njob=2,W,0\n";
    assert_eq!(run(&input), right);
    assert_eq!(judged(&input, right), "agrees\n");
    assert_eq!(judged(&input, &right.replace("took=1,2", "took=1,3")), "differs=2\ntook=1,2\n");
    assert_eq!(judged(&input, "step=0,1,T,2,2\ntook=1,2\njob=1,F,1\n"), "differs=4\njob=2,W,0\n");
    assert_eq!(judged(&input, right.trim_end()), "differs=4\njob=2,W,0\n");
    assert_eq!(judged(&input, ""), "differs=1\nstep=0,1,T,2,2\n");
    for extra in ["job=3,W,0\n", "\n", "log=\n", "x"] {
        assert_eq!(judged(&input, &format!("{right}{extra}")), "differs=5\n\n");
    }
    let refused = three_slots("report=1,end\n");
    assert_eq!(judged(&refused, "refused=12,0\n"), "agrees\n");
    assert_eq!(judged(b"", "refused=1,1\n"), "agrees\n");
}

#[test]
fn without_a_line_log() {
    let refused = |text: &[u8]| String::from_utf8(judge_output_by(RULES, text)).unwrap();
    assert_eq!(refused(b""), "refused=1,1\n");
    assert_eq!(refused(b"slots=3\nlog="), "refused=1,2\n");
    assert_eq!(refused(b"slots=3\nlog=1\n log=\n"), "refused=1,4\n");
    assert_eq!(refused(b"log=\nrefused=1,1\n"), "agrees\n");
}

#[test]
fn it_accepts_exactly_what_the_run_program_prints() {
    let mut rng = Rng::new(80);
    for _ in 0..600 {
        let mut text = input(&mut rng).run;
        if text.last().is_some_and(|&byte| byte != b'\n') {
            text.push(b'\n');
        }
        let right = run(&text);
        assert_eq!(judged(&text, &right), "agrees\n");
        let mut bytes = right.clone().into_bytes();
        let at = rng.below(bytes.len());
        bytes[at] = if bytes[at] == b'7' { b'8' } else { b'7' };
        let line = right[..at].matches('\n').count();
        let lines: Vec<&str> = right.lines().collect();
        let expected = format!("differs={}\n{}\n", line + 1, lines[line]);
        assert_eq!(judged(&text, &String::from_utf8(bytes).unwrap()), expected);
    }
}

#[test]
fn random_inputs_have_calls_and_their_refusals() {
    let mut rng = Rng::new(88);
    let (mut refused, mut took, mut lost) = ([0; 32], 0, [0; 2]);
    for _ in 0..4000 {
        let output = run(&input_by(RULES, &mut rng).run);
        took += output.matches("took=").count();
        lost[0] += output.lines().filter(|line| line.starts_with("lost=") && line.ends_with("no")).count();
        lost[1] += output.lines().filter(|line| line.starts_with("lost=") && line.ends_with("yes")).count();
        if let Some((_, rest)) = output.split_once("refused=") {
            let number: usize = rest.split(',').next().unwrap().parse().unwrap();
            refused[number] += 1;
        }
    }
    let seen = [1, 11, 12, 13, 18, 19, 21].iter().all(|&number: &usize| refused[number] > 10) && refused[20] > 0;
    assert!(seen && took > 1000 && lost[0] > 100 && lost[1] > 100, "{refused:?} {took} {lost:?}");
}
