//! The worked examples, by their schedules: the bytes, the ends and the reports are those of the program.
//!
//! `NAME.expected` has the outputs. The reports are compared where CILVM_REPORTS names a folder with a file NAME.reports, as `tools/try_hosts`
//! writes it from `cilvm trace`.

use cilvm::{
    Ack, End, Event, Fault, Gc, Limits, Machine, Refused, Report, Schedule, Step, ThreadStatus,
};
use std::fs;
use std::path::{Path, PathBuf};

fn folder() -> PathBuf {
    Path::new(env!("CARGO_MANIFEST_DIR")).join("../../crates/conformance/data/examples")
}

fn fault_name(fault: Fault) -> String {
    match fault {
        Fault::TooManyThreads => "System.OutOfMemoryException".to_string(),
        Fault::SynchronizationLock | Fault::ThreadState => {
            format!("System.Threading.{fault:?}Exception")
        }
        _ => format!("System.{fault:?}Exception"),
    }
}

fn end_name(end: End) -> String {
    match end {
        End::Done => "done".to_string(),
        End::Budget => "budget".to_string(),
        End::Fault(fault) => fault_name(fault),
    }
}

/// What a trace calls a report.
fn report_name(report: Report) -> String {
    match report {
        Report::Step(Step::Ran) => "ran".to_string(),
        Report::Step(Step::Blocked) => "blocked".to_string(),
        Report::Step(Step::Ended(end)) => end_name(end),
        Report::Step(Step::Absent) | Report::Ack(Ack::Absent) => "absent".to_string(),
        Report::Ack(Ack::Acked) => "acked".to_string(),
        Report::Ack(Ack::NothingPosted) => "nothing-posted".to_string(),
        Report::Gc(Gc::Worked) => "worked".to_string(),
        Report::Gc(Gc::Waiting) => "waiting".to_string(),
        Report::Gc(Gc::CycleDone) => "cycle-done".to_string(),
    }
}

/// The limits that the command in the third line of an example names.
fn limits_of(source: &str) -> Limits {
    let words: Vec<&str> = source.lines().nth(2).unwrap_or("").split(' ').collect();
    let value = |name: &str| {
        words
            .iter()
            .position(|it| *it == name)
            .map(|at| words[at + 1].parse().unwrap())
    };
    let mut limits = Limits::default();
    limits.words = value("--words").unwrap_or(limits.words);
    limits.max_words = value("--max-words").unwrap_or(limits.words);
    limits.budget = value("--budget").unwrap_or(limits.budget);
    limits
}

/// Both outputs of the program and its status, as a file of expectations has them.
fn outcome(machine: &Machine) -> String {
    let mut text = String::from_utf8(machine.printed()).unwrap() + "--- err\n";
    let mut early = false;
    for thread in 0..cilvm::MOST_THREADS {
        let stands = match machine.status(thread) {
            ThreadStatus::NeverStarted => continue,
            ThreadStatus::Live => "live".to_string(),
            ThreadStatus::Ended(end) => {
                early |= end != End::Done;
                end_name(end)
            }
        };
        text += &format!("thread {thread}: {stands}\n");
    }
    let status = if machine.live() > 0 {
        4
    } else if early {
        3
    } else {
        0
    };
    text + &format!("--- status {status}\n")
}

fn try_example(path: &Path) {
    let source = fs::read_to_string(path).unwrap();
    let schedule = fs::read_to_string(path.with_extension("schedule")).unwrap();
    let expected = fs::read_to_string(path.with_extension("expected")).unwrap();
    let mut machine = Machine::open(source.as_bytes(), limits_of(&source)).unwrap();
    let events: Vec<Event> = Schedule::parse(&schedule).unwrap().collect();
    let reports: Vec<String> = events
        .iter()
        .map(|it| report_name(machine.act(*it).unwrap()))
        .collect();
    assert_eq!(outcome(&machine), expected, "{path:?}");
    let mut other = Machine::open(source.as_bytes(), limits_of(&source)).unwrap();
    assert_eq!(
        other.run(schedule.as_bytes()),
        Ok((events.len() as u64, None))
    );
    assert_eq!(outcome(&other), expected, "{path:?}");
    if let Ok(folder) = std::env::var("CILVM_REPORTS") {
        let file = Path::new(&folder)
            .join(path.file_stem().unwrap())
            .with_extension("reports");
        assert_eq!(
            reports.join("\n") + "\n",
            fs::read_to_string(file).unwrap(),
            "{path:?}"
        );
    }
}

#[test]
fn examples_by_their_schedules() {
    let mut count = 0;
    for entry in fs::read_dir(folder()).unwrap() {
        let path = entry.unwrap().path();
        if path.extension().is_some_and(|it| it == "il") {
            try_example(&path);
            count += 1;
        }
    }
    assert!(count >= 10, "only {count} examples");
}

#[test]
fn schedulers_run_a_program_to_its_end() {
    let source = fs::read(folder().join("threads.il")).unwrap();
    let limits = Limits::default();
    let mut machine = Machine::open(&source, limits).unwrap();
    machine.drive(cilvm::RoundRobin::with_collector(3)).unwrap();
    assert_eq!(machine.printed(), b"42\n");
    for seed in 0..20 {
        let mut machine = Machine::open(&source, limits).unwrap();
        machine.drive(cilvm::Random::new(seed, 3)).unwrap();
        assert_eq!(machine.printed(), b"42\n");
    }
}

#[test]
fn schedulers_have_as_many_threads_as_a_program_may() {
    let steps: Vec<Event> = cilvm::RoundRobin::new(255).take(32).collect();
    assert_eq!(steps[15], Event::Step(15));
    assert_eq!(steps[16], Event::Step(0));
    let mut round = cilvm::RoundRobin::with_collector(255);
    assert_eq!(round.nth(32), Some(Event::Gc));
    assert_eq!(round.next(), Some(Event::Step(0)));
}

#[test]
fn refusals_have_a_number_and_a_text() {
    let Err(Refused::Number(number, text)) = Machine::open(b"x", Limits::default()) else {
        panic!()
    };
    assert_eq!(number, 103);
    assert!(text.starts_with("source:1:1: "), "{text}");
    let source = fs::read(folder().join("add.il")).unwrap();
    let narrow = Limits {
        words: 1,
        ..Limits::default()
    };
    assert!(matches!(
        Machine::open(&source, narrow),
        Err(Refused::Number(401, _))
    ));
    let mut machine = Machine::open(&source, Limits::default()).unwrap();
    assert!(matches!(machine.run(b"s0 x"), Err(Refused::Number(501, _))));
    assert_eq!(machine.steps(0, 100), (5, Ok(Step::Ended(End::Done))));
    assert_eq!(machine.step(0), Ok(Step::Absent));
}

#[test]
fn no_event_is_done_once_more_is_printed_than_may_be() {
    let source = fs::read(folder().join("add.il")).unwrap();
    let limits = Limits {
        printed: 1,
        ..Limits::default()
    };
    let mut machine = Machine::open(&source, limits).unwrap();
    assert_eq!(machine.run(b"s0*5"), Ok((4, Some(cilvm::NotDone::Full))));
    assert_eq!(machine.step(0), Err(cilvm::NotDone::Full));
    assert_eq!(machine.status(0), ThreadStatus::Live);
}

#[test]
fn machines_are_sent_to_threads() {
    let source = fs::read(folder().join("loop.il")).unwrap();
    let machines: Vec<Machine> = (0..8)
        .map(|_| Machine::open(&source, Limits::default()).unwrap())
        .collect();
    let threads: Vec<_> = machines
        .into_iter()
        .map(|mut it| std::thread::spawn(move || (it.steps(0, 1000), it.printed())))
        .collect();
    for it in threads {
        assert_eq!(
            it.join().unwrap(),
            ((113, Ok(Step::Ended(End::Done))), b"55\n".to_vec())
        );
    }
}
