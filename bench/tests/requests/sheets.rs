//! K1: task sheets.

use super::*;
use bench::random::plan_text;

fn task(level: Level, offset: u16, period: u16, within: u16, lo: u16, hi: u16) -> Task {
    Task { level, offset, period, within, lo, hi }
}

fn sheet(slots: u16, tasks: &[Task], table: &[u16]) -> Sheet {
    let mut sheet = Sheet { slots, tasks: tasks.len() as u16, ..Sheet::BLANK };
    sheet.task[..tasks.len()].copy_from_slice(tasks);
    sheet.table[..table.len()].copy_from_slice(table);
    sheet
}

/// Two HI releases and one LO one.
fn small() -> Sheet {
    let tasks = [task(Level::Hi, 0, 4, 3, 1, 2), task(Level::Lo, 1, 8, 5, 2, 2)];
    sheet(8, &tasks, &[1, 3, 3, 0, 2, 0, 0, 0])
}

fn text(sheet: &Sheet) -> Vec<u8> {
    let mut out = vec![7; 16 * 1024];
    let length = write_sheet(sheet, &mut out).expect("a sheet to write");
    assert!(out[length..].iter().all(|&byte| byte == 7));
    out.truncate(length);
    out
}

const SMALL: &str = "slots=8\ntasks=2\nlevel=HI\noffset=0\nperiod=4\nwithin=3\nlo=1\nhi=2\nlevel=LO\noffset=1\n\
                     period=8\nwithin=5\nlo=2\nhi=2\nslot=1\nslot=3\nslot=3\nslot=0\nslot=2\nslot=0\nslot=0\nslot=0\n";

#[test]
fn a_sheet_and_its_plan() {
    assert_eq!(text(&small()), SMALL.as_bytes());
    assert_eq!(read_sheet(SMALL.as_bytes()), Ok(small()));
    let jobs = [job(Level::Hi, 0, 3, 1, 2), job(Level::Hi, 4, 7, 1, 2), job(Level::Lo, 1, 6, 2, 2)];
    let expected = plan(8, &jobs, &[1, 3, 3, 0, 2, 0, 0, 0]);
    assert_eq!(expand(&small()), Ok(expected.clone()));
    assert_eq!(expand_output(SMALL.as_bytes()), plan_text(&expected));
}

#[test]
fn refusals_of_the_reader() {
    for (from, to, refusal) in [
        ("slots=8\n", "slots=513\n", "refused=2,1\n"),
        ("slots=8\n", "slots=08\n", "refused=1,1\n"),
        ("tasks=2\n", "tasks=0\n", "refused=3,2\n"),
        ("tasks=2\n", "tasks=33\n", "refused=3,2\n"),
        ("tasks=2\n", "jobs=2\n", "refused=1,2\n"),
        ("offset=0\n", "release=0\n", "refused=1,4\n"),
        ("within=3\n", "within=\n", "refused=1,6\n"),
        ("slot=2\n", "slot=2\r\n", "refused=1,19\n"),
    ] {
        let output = expand_output(SMALL.replacen(from, to, 1).as_bytes());
        assert_eq!(String::from_utf8(output).unwrap(), refusal, "{to}");
    }
    for (longer, line) in [("x", 23), ("\n", 23), ("slot=0\n", 23)] {
        assert_eq!(read_sheet(format!("{SMALL}{longer}").as_bytes()), Err(Refusal::Form { line }));
    }
    for length in 0..SMALL.len() {
        let cut = &SMALL[..length];
        assert_eq!(read_sheet(cut.as_bytes()), Err(Refusal::Form { line: cut.matches('\n').count() + 1 }));
    }
}

#[test]
fn refusals_of_the_expansion_in_their_order() {
    let good = task(Level::Lo, 0, 4, 4, 1, 1);
    let answer = |slots, tasks: &[Task]| expand(&sheet(slots, tasks, &[])).err();
    assert_eq!(answer(8, &[good]), None);
    assert_eq!(answer(513, &[]), Some(Refusal::SlotLimit));
    assert_eq!(answer(8, &[]), Some(Refusal::JobLimit));
    for bad in [
        Task { within: 0, ..good },
        Task { offset: 1, ..good },
        Task { offset: 65535, within: 65535, ..good },
        Task { period: 3, within: 1, ..good },
        Task { period: 16, ..good },
        Task { period: 0, ..good },
        Task { period: 0, within: 0, ..good },
    ] {
        assert_eq!(answer(8, &[good, bad, bad]), Some(Refusal::Task { task: 2 }));
    }
    // Budgets are judged on the plan, job by job.
    assert_eq!(answer(8, &[Task { lo: 0, hi: 9999, ..good }]), None);
    let dense = task(Level::Lo, 0, 1, 1, 1, 1);
    assert_eq!(answer(32, &[dense]), None);
    assert_eq!(answer(33, &[dense]), Some(Refusal::TooMany { jobs: 33 }));
    assert_eq!(answer(512, &[dense; 32]), Some(Refusal::TooMany { jobs: 16384 }));
    assert_eq!(answer(33, &[dense, Task { within: 0, ..dense }]), Some(Refusal::Task { task: 2 }));
    assert_eq!((Refusal::Task { task: 3 }.number(), Refusal::TooMany { jobs: 40 }.number()), (15, 16));
}

/// A sheet by chance, most of them in order.
fn by_chance(rng: &mut Rng) -> Sheet {
    let slots = rng.pick(&[1, 4, 6, 12, 24, 30, 60, 512]);
    let mut sheet = Sheet { slots, tasks: rng.range(1, 6), ..Sheet::BLANK };
    let divisors: Vec<u16> = (1..=slots).filter(|period| slots.is_multiple_of(*period)).collect();
    for task in &mut sheet.task[..usize::from(sheet.tasks)] {
        let period = if rng.chance(95) { rng.pick(&divisors) } else { rng.range(0, slots + 1) };
        let within = rng.range(1, period.max(1));
        let latest = period.saturating_sub(within) + u16::from(rng.chance(5));
        let offset = rng.range(0, latest);
        let lo = rng.range(0, 3);
        *task = Task { level: rng.pick(&[Level::Hi, Level::Lo]), offset, period, within, lo, hi: lo + rng.range(0, 2) };
    }
    for slot in &mut sheet.table[..usize::from(slots)] {
        *slot = rng.range(0, 9);
    }
    sheet
}

#[test]
fn the_jobs_are_the_releases_and_no_others() {
    let mut rng = Rng::new(15);
    let mut seen = [0; 3];
    for _ in 0..3000 {
        let sheet = by_chance(&mut rng);
        assert_eq!(read_sheet(&text(&sheet)), Ok(sheet.clone()));
        let (slots, tasks) = (u32::from(sheet.slots), sheet.planned());
        let bad = |task: &Task| {
            let [offset, period, within] = [task.offset, task.period, task.within].map(u32::from);
            within == 0 || offset + within > period || (1..=slots).all(|times| times * period != slots)
        };
        // Every number below N that is an offset and some periods, task by task.
        let releases = |task: &Task| {
            let at = |k: u32| u32::from(task.offset) + k * u32::from(task.period);
            let is_release = |release: &u16| (0..=slots).any(|k| at(k) == u32::from(*release));
            (0..sheet.slots).filter(is_release).collect::<Vec<u16>>()
        };
        match expand(&sheet) {
            Err(Refusal::Task { task }) => {
                assert_eq!(tasks.iter().position(bad), Some(task - 1));
                seen[0] += 1;
            }
            Err(refusal) => {
                let count = tasks.iter().map(|task| releases(task).len()).sum();
                assert!(!tasks.iter().any(bad) && count > 32 && refusal == Refusal::TooMany { jobs: count });
                seen[1] += 1;
            }
            Ok(plan) => {
                let all = tasks.iter().flat_map(|task| releases(task).into_iter().map(move |release| (task, release)));
                let jobs: Vec<Job> = all
                    .map(|(task, release)| job(task.level, release, release + task.within, task.lo, task.hi))
                    .collect();
                assert!(!tasks.iter().any(bad) && plan.planned() == jobs && plan.slots == sheet.slots);
                assert_eq!(plan.table, sheet.table);
                assert!(plan.planned().iter().all(|job| job.release < job.deadline && job.deadline <= plan.slots));
                assert_eq!(expand_output(&text(&sheet)), plan_text(&plan));
                seen[2] += 1;
            }
        }
    }
    assert!(seen.iter().all(|&times| times > 200), "{seen:?}");
}

#[test]
fn the_writer_checks_2_3_1_14() {
    let mut out = [7; 8];
    let mut bad = small();
    assert_eq!(write_sheet(&bad, &mut out), Err(Refusal::Room { needed: SMALL.len() }));
    bad.task[1].period = 10000;
    assert_eq!(write_sheet(&bad, &mut out), Err(Refusal::Form { line: 11 }));
    bad.tasks = 33;
    assert_eq!(write_sheet(&bad, &mut out), Err(Refusal::JobLimit));
    bad.slots = 0;
    assert_eq!(write_sheet(&bad, &mut out), Err(Refusal::SlotLimit));
    assert_eq!(out, [7; 8]);
}
