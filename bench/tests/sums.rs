//! The sums of document 01, run against the model. Plan A's whole output is compared byte for byte.

use bench::model::*;

fn job(level: Level, release: u16, deadline: u16, lo: u16, hi: u16) -> Job {
    Job { level, release, deadline, lo, hi }
}

fn plan(slots: u16, jobs: &[Job], table: &[u16]) -> Plan {
    let mut plan = Plan::BLANK;
    plan.slots = slots;
    plan.jobs = jobs.len() as u16;
    plan.job[..jobs.len()].copy_from_slice(jobs);
    plan.table[..table.len()].copy_from_slice(table);
    plan
}

fn plan_a() -> Plan {
    plan(8, &[job(Level::Hi, 0, 8, 2, 4), job(Level::Lo, 0, 4, 2, 2)], &[2, 1, 2, 1, 0, 0, 0, 0])
}

fn plan_b(hi: u16) -> Plan {
    plan(4, &[job(Level::Lo, 0, 2, 2, 2), job(Level::Hi, 0, 4, 1, hi)], &[1, 1, 2, 0])
}

fn plan_c() -> Plan {
    plan(8, &[job(Level::Hi, 0, 6, 1, 5), job(Level::Lo, 0, 4, 3, 3)], &[1, 2, 2, 2, 0, 0, 0, 0])
}

fn text(plan: &Plan) -> Vec<u8> {
    let mut out = vec![0; 16 * 1024];
    let length = write_plan(plan, &mut out).expect("a plan to write");
    out.truncate(length);
    out
}

fn check(plan: &Plan) -> String {
    String::from_utf8(check_output(&text(plan))).unwrap()
}

/// The run program's output for kinds reported from slot 0 on.
fn run(plan: &Plan, kinds: &[&str]) -> String {
    let mut input = text(plan);
    for (slot, kind) in kinds.iter().enumerate() {
        input.extend(format!("report={slot},{kind}\n").bytes());
    }
    String::from_utf8(run_output(&input)).unwrap()
}

/// A run brought forward by kinds from slot 0 on.
fn run_after(plan: &Plan, kinds: &[Kind]) -> Run {
    let mut run = Run::start(plan).unwrap();
    for (slot, &kind) in (0..).zip(kinds) {
        run.step(Report { slot, kind }).unwrap();
    }
    run
}

#[test]
fn plan_a_whole_output() {
    let kinds = ["more", "more", "end", "more", "more", "end", "none", "none"];
    let expected = "step=0,2,T,4,2\nstep=1,1,T,3,2\nstep=2,2,T,2,1\nstep=3,1,T,1,1\nstep=4,1,H,2,4\n\
                    step=5,1,H,2,3\nstep=6,0,T,2,2\nstep=7,0,T,1,1\njob=1,F,4\njob=2,F,2\n";
    assert_eq!(run(&plan_a(), &kinds), expected);
}

#[test]
fn plan_a_intervals_and_spares() {
    assert_eq!(check(&plan_a()), "interval=0,4,4,2\ninterval=4,8,0,2\nanswer=0\n");
}

#[test]
fn plan_a_after_the_low_job() {
    let run = run_after(&plan_a(), &[Kind::More]);
    assert_eq!((run.hi[0], run.lo[0]), (3, 2));
}

#[test]
fn plan_b_by_its_larger_budget() {
    assert!(check(&plan_b(2)).ends_with("answer=0\n"));
    assert_eq!(check(&plan_b(3)), "refused=9,2\n");
    assert_eq!(check(&plan_b(4)), "refused=9,1\n");
}

#[test]
fn plan_b_4_has_spare_0_at_border_0() {
    let hopeless = plan_b(4);
    let layout = Layout::of(&hopeless);
    let mut needed = [0; INTERVALS];
    needed[layout.home(1)] = 4;
    assert_eq!(layout.current_spare(0, &needed), 0);
}

#[test]
fn overfull_window() {
    let with = |hi| plan(8, &[job(Level::Hi, 2, 4, 1, hi)], &[0, 0, 1, 0, 0, 0, 0, 0]);
    assert_eq!(check(&with(3)), "refused=8,2,4\n");
    assert!(check(&with(2)).ends_with("answer=0\n"));
}

#[test]
fn borrowing_reaches_back() {
    let jobs = [job(Level::Hi, 5, 8, 1, 1), job(Level::Hi, 0, 12, 10, 10)];
    let plan = plan(12, &jobs, &[2, 2, 2, 2, 2, 1, 2, 2, 2, 2, 2, 0]);
    assert_eq!(check(&plan), "interval=0,5,1,1\ninterval=5,8,-4,-4\ninterval=8,12,-6,-6\nanswer=0\n");
}

#[test]
fn plan_c_idles_then_drops() {
    assert!(check(&plan_c()).starts_with("interval=0,4,1,1\n"));
    let output = run(&plan_c(), &["more", "more", "end", "none"]);
    let expected = "step=0,1,T,1,1\nstep=1,2,H,1,0\nstep=2,1,H,0,0\nstep=3,0,H,1,-1\njob=1,F,2\njob=2,D,1\n";
    assert_eq!(output, expected);
    let run = run_after(&plan_c(), &[Kind::More, Kind::More, Kind::End, Kind::None]);
    assert_eq!((run.t, run.phase), (4, Phase::T));
    assert_eq!(run.entry[1], Entry { standing: Standing::Dropped(4), given: 1, ..Entry::BLANK });
}

#[test]
fn plan_a_early_end() {
    let mut run = Run::start(&plan_a()).unwrap();
    let kinds = [Kind::End, Kind::More, Kind::More];
    let jobs: Vec<Slot> = (0..).zip(kinds).map(|(slot, kind)| run.step(Report { slot, kind }).unwrap().0).collect();
    assert_eq!(jobs, [Slot::Job(2), Slot::Job(1), Slot::Job(1)]);
    assert_eq!((run.t, run.phase), (3, Phase::H));
}

#[test]
fn limits_of_the_text() {
    let full = text(&plan(512, &[job(Level::Lo, 0, 1, 1, 1)], &[1]));
    assert!(read_plan(&full).is_ok());
    let larger = [b"slots=513\n", &full["slots=512\n".len()..], b"slot=0\n"].concat();
    assert_eq!(read_plan(&larger), Err(Refusal::SlotLimit));
    let many = plan(32, &[job(Level::Lo, 0, 32, 1, 1); 32], &(1..=32).collect::<Vec<u16>>());
    assert_eq!(read_plan(&text(&many)), Ok(many));
    assert_eq!(read_plan(b"slots=32\njobs=33\n"), Err(Refusal::JobLimit));
    assert_eq!(read_plan(b"slots=08\njobs=1\n"), Err(Refusal::Form { line: 1 }));
    assert_eq!(read_plan(b""), Err(Refusal::Form { line: 1 }));
}

#[test]
fn wrong_slot_then_the_right_one() {
    let mut run = run_after(&plan_a(), &[Kind::More]);
    let before = run.clone();
    let wrong = Report { slot: 2, kind: Kind::More };
    assert_eq!(run.step(wrong), Err(Refusal::WrongSlot { t: 1 }));
    assert_eq!(run, before);
    assert!(run.step(Report { slot: 1, kind: Kind::More }).is_ok());
}

#[test]
fn refusals_of_the_reader() {
    let good = text(&plan_a());
    assert_eq!(read_plan(&good), Ok(plan_a()));
    let refused = |text: &[u8]| read_plan(text).unwrap_err();
    assert_eq!(refused(b"slots=513"), Refusal::Form { line: 1 });
    assert_eq!(refused(b"slots=513\nrubbish"), Refusal::SlotLimit);
    assert_eq!(refused(b"slots=0\n"), Refusal::SlotLimit);
    assert_eq!(refused(b"slots=8\njobs=33\nrubbish"), Refusal::JobLimit);
    assert_eq!(refused(b"slots=8\njobs=0\n"), Refusal::JobLimit);
    assert_eq!(refused(b"slots=8\r\n"), Refusal::Form { line: 1 });
    assert_eq!(refused(b"slots=00008\n"), Refusal::Form { line: 1 });
    assert_eq!(refused(b"slots=\n"), Refusal::Form { line: 1 });
    assert_eq!(refused(&[&good[..], b"x"].concat()), Refusal::Form { line: 21 });
    assert_eq!(refused(&good[..good.len() - 1]), Refusal::Form { line: 20 });
}

#[test]
fn refusals_of_the_writer() {
    let room = |plan: &Plan, room: usize| write_plan(plan, &mut vec![0; room]);
    let needed = text(&plan_a()).len();
    assert_eq!(room(&plan_a(), needed), Ok(needed));
    assert_eq!(room(&plan_a(), needed - 1), Err(Refusal::Room { needed }));
    assert_eq!(room(&Plan::BLANK, 0), Err(Refusal::SlotLimit));
    let mut large = plan_a();
    large.job[1].hi = 10000;
    assert_eq!(room(&large, 0), Err(Refusal::Form { line: 12 }));
    large.job[0].deadline = 10000;
    assert_eq!(room(&large, 0), Err(Refusal::Form { line: 5 }));
    let mut late = plan_a();
    late.table[7] = 10000;
    assert_eq!(room(&late, 0), Err(Refusal::Form { line: 20 }));
}

#[test]
fn refusals_of_the_run() {
    let a = plan_a();
    let mut over = run_after(&plan_b(2), &[Kind::More, Kind::More, Kind::End, Kind::None]);
    assert_eq!(over.step(Report { slot: 0, kind: Kind::None }), Err(Refusal::Over { t: 4 }));
    assert_eq!(over.choose(), Err(Refusal::Over { t: 4 }));
    let mut first = Run::start(&a).unwrap();
    assert_eq!(first.step(Report { slot: 0, kind: Kind::None }), Err(Refusal::WrongKind { t: 0 }));
    first.hi[64] = 1;
    assert_eq!(first.step(Report { slot: 0, kind: Kind::End }), Err(Refusal::Incoherent));
    assert_eq!(Run::BLANK.choose(), Err(Refusal::Incoherent));
    assert_eq!(Run::start(&plan_b(3)), Err(Refusal::Spare { border: 2 }));
}

#[test]
fn refusals_of_report_lines() {
    let with = |reports: &str| {
        let input = [&text(&plan_a())[..], reports.as_bytes()].concat();
        String::from_utf8(run_output(&input)).unwrap()
    };
    assert_eq!(with(""), "job=1,W,0\njob=2,W,0\n");
    assert_eq!(with("report=0,more"), "refused=1,21\n");
    assert_eq!(with("report=00,more\n"), "refused=1,21\n");
    assert_eq!(with("report=9999,more\n"), "refused=12,0\n");
    assert_eq!(with("report=0,none\n"), "refused=13,0\n");
    assert_eq!(with("report=0,more\nreport=1,more\n\n"), "step=0,2,T,4,2\nstep=1,1,T,3,2\nrefused=1,23\n");
}
