//! The baseline of `src/main.rt.txt`: the same replay on a machine in plain Rust, `plain_machine.rs`, under a `Mutex` of Rust's library. An
//! event takes the lock, does the step, adds an entry to the history, which is stored as runs of equal entries, and releases the lock. It
//! prints the same lines. It does not count the workers' events: the proved machine has these counts only in its proofs.

// The replay doesn't use all instructions.
#![allow(dead_code)]

use std::sync::Mutex;
use std::time::{Duration, Instant};

include!("../../plain_machine.rs");

const LIMITS: Limits = Limits {
    words: 65_536,
    budget: 1_000_000,
    depth: 64,
};

const EVENTS: usize = 1_000_000;

const RUNS: usize = 20;

// ---- a machine under a lock

#[derive(Clone, Copy, Debug, PartialEq, Eq)]
struct Entry {
    worker: u8,
    event: Event,
    report: Report,
}

/// An entry, and how many times in a row it was added, at most 65,535 times.
struct Run {
    entry: Entry,
    times: u16,
}

#[derive(Default)]
struct History {
    runs: Vec<Run>,
}

impl History {
    fn add(&mut self, entry: Entry) {
        match self.runs.last_mut() {
            Some(run) if run.entry == entry && run.times < u16::MAX => run.times += 1,
            _ => self.runs.push(Run { entry, times: 1 }),
        }
    }
}

/// A worker's right to act.
struct Ticket {
    worker: u8,
}

struct World {
    machine: Machine,
    history: History,
}

impl World {
    fn perform(&mut self, ticket: &mut Ticket, event: Event) -> Report {
        let report = self.machine.step(event);
        self.history.add(Entry {
            worker: ticket.worker,
            event,
            report,
        });
        report
    }
}

struct Shared {
    world: Mutex<World>,
}

impl Shared {
    /// A machine under a lock, and the ticket of its one worker.
    fn new(machine: Machine) -> (Shared, Ticket) {
        let history = History::default();
        let world = Mutex::new(World { machine, history });
        (Shared { world }, Ticket { worker: 0 })
    }

    /// Takes the lock, does an event for the ticket's worker, releases the lock, and returns the report and the ticket.
    fn act(&self, mut ticket: Ticket, event: Event) -> (Report, Ticket) {
        let mut world = self.world.lock().unwrap();
        let report = world.perform(&mut ticket, event);
        (report, ticket)
    }

    fn finish(self, _ticket: Ticket) -> World {
        self.world.into_inner().unwrap()
    }
}

/// Does the events in order, taking the lock for each of them, and returns the machine and the history.
#[inline(never)]
fn run_alone(machine: Machine, events: &[Event]) -> World {
    let (shared, mut ticket) = Shared::new(machine);
    for event in events {
        let (_report, next) = shared.act(ticket, *event);
        ticket = next;
    }
    shared.finish(ticket)
}

// ---- the replay

#[rustfmt::skip]
fn endless() -> Vec<Method> {
    let main = vec![
        LoadLocal(1), LoadLocal(0), Binary(BinaryOperation::Add), StoreLocal(1),
        LoadLocal(0), LoadInt32(1), Binary(BinaryOperation::Add), StoreLocal(0),
        Branch(0),
    ];
    methods(vec![ValueKind::Int32; 2], main, Vec::new())
}

/// Does the events on a new machine, and returns how long they took, and the final world.
fn do_events(events: &[Event]) -> (Duration, World) {
    let machine = Machine::new(endless(), LIMITS);
    let start = Instant::now();
    let world = run_alone(machine, events);
    (start.elapsed(), world)
}

/// Makes a machine and the events, does these, and returns how long all that took, and the final world.
fn do_whole() -> (Duration, World) {
    let start = Instant::now();
    let machine = Machine::new(endless(), LIMITS);
    let events = vec![Event::Step(0); EVENTS];
    let world = run_alone(machine, &events);
    (start.elapsed(), world)
}

/// The least time of some runs, and the final world of the last one.
fn best_of(run: impl Fn() -> (Duration, World)) -> (Duration, World) {
    let (mut best, mut last) = run();
    for _ in 1..RUNS {
        let (time, world) = run();
        best = best.min(time);
        last = world;
    }
    (best, last)
}

fn print_figure(name: &str, figure: f64, unit: &str, world: &World) {
    let runs = world.history.runs.len();
    let end = world.machine.end_name();
    println!("{name}: {figure:.2} {unit} ({EVENTS} events, {runs} runs in the history, {end})");
}

fn main() {
    let events = vec![Event::Step(0); EVENTS];
    let (time, world) = best_of(|| do_events(&events));
    let speed = EVENTS as f64 / 1e6 / time.as_secs_f64();
    print_figure("events", speed, "million events a second", &world);
    let (time, world) = best_of(do_whole);
    let milliseconds = time.as_secs_f64() * 1000.0;
    print_figure("whole replay", milliseconds, "milliseconds", &world);
}
