//! The baseline of `src/main.rt.txt`: the same five programs, written as resolved instructions, on a machine in plain Rust,
//! `plain_machine.rs`. It has the same number of machines and runs, measures by the same clock, and prints the same lines.

// The five programs don't use all instructions.
#![allow(dead_code)]

include!("../../plain_machine.rs");

const LIMITS: Limits = Limits {
    words: 1_048_576,
    budget: 1_000_000,
    depth: 64,
};

// ---- the five programs

/// The number of the method after `Main`.
const OTHER: u32 = 3;

/// The constructor of a class that extends `System.Object`, which only calls the constructor of that.
fn constructor() -> Method {
    Method {
        arguments: 1,
        locals: Vec::new(),
        has_value: false,
        action: None,
        operations: vec![LoadArgument(0), Call(OBJECT), Return],
    }
}

/// `newobj` of a class with two fields.
fn new_pair() -> Operation {
    NewObject {
        class: 5,
        slots: 2,
        method: OTHER,
    }
}

fn load(slot: u32) -> Operation {
    LoadField {
        slot,
        kind: ValueKind::Int32,
    }
}

#[rustfmt::skip]
fn numbers() -> Vec<Method> {
    let main = vec![
        LoadLocal(1), LoadLocal(0), Binary(BinaryOperation::Add), StoreLocal(1),
        LoadLocal(0), LoadInt32(1), Binary(BinaryOperation::Add), StoreLocal(0),
        LoadLocal(0), LoadInt32(83_000), Compare(Comparison::Less), BranchTrue(0),
        LoadLocal(1), Call(WRITE), Return,
    ];
    methods(vec![ValueKind::Int32; 2], main, Vec::new())
}

#[rustfmt::skip]
fn calls() -> Vec<Method> {
    let main = vec![
        LoadLocal(0), Call(OTHER), StoreLocal(0),
        LoadLocal(0), LoadInt32(99_000), BranchCompare(BranchComparison::Less, 0),
        LoadLocal(0), Call(WRITE), Return,
    ];
    let next = Method {
        arguments: 1,
        locals: Vec::new(),
        has_value: true,
        action: None,
        operations: vec![LoadArgument(0), LoadInt32(1), Binary(BinaryOperation::Add), Return],
    };
    methods(vec![ValueKind::Int32], main, vec![next])
}

#[rustfmt::skip]
fn fields() -> Vec<Method> {
    let main = vec![
        new_pair(), StoreLocal(0),
        LoadLocal(0), LoadLocal(0), load(0), LoadInt32(1), Binary(BinaryOperation::Add), StoreField { slot: 0 },
        LoadLocal(0), LoadLocal(0), load(1), LoadLocal(0), load(0), Binary(BinaryOperation::Add), StoreField { slot: 1 },
        LoadLocal(0), load(0), LoadInt32(58_000), BranchCompare(BranchComparison::Less, 2),
        LoadLocal(0), load(1), Call(WRITE), Return,
    ];
    methods(vec![ValueKind::Ref], main, vec![constructor()])
}

#[rustfmt::skip]
fn elements() -> Vec<Method> {
    let main = vec![
        LoadInt32(1000), NewArray(ElementType::Int32), StoreLocal(0),
        LoadInt32(0), StoreLocal(1),
        LoadLocal(0), LoadLocal(1), LoadLocal(0), LoadLocal(1), LoadElement(ValueKind::Int32),
        LoadLocal(1), Binary(BinaryOperation::Add), StoreElement,
        LoadLocal(1), LoadInt32(1), Binary(BinaryOperation::Add), StoreLocal(1),
        LoadLocal(1), LoadInt32(1000), BranchCompare(BranchComparison::Less, 5),
        LoadLocal(2), LoadInt32(1), Binary(BinaryOperation::Add), StoreLocal(2),
        LoadLocal(2), LoadInt32(66), BranchCompare(BranchComparison::Less, 3),
        LoadLocal(0), LoadInt32(999), LoadElement(ValueKind::Int32), Call(WRITE), Return,
    ];
    let locals = vec![ValueKind::Ref, ValueKind::Int32, ValueKind::Int32];
    methods(locals, main, Vec::new())
}

#[rustfmt::skip]
fn births() -> Vec<Method> {
    let main = vec![
        new_pair(), StoreLocal(0),
        LoadInt32(4), NewArray(ElementType::Int32), StoreLocal(1),
        Branch(0),
    ];
    methods(vec![ValueKind::Ref; 2], main, vec![constructor()])
}

// ---- times

const RUNS: usize = 5;

const MACHINES: u32 = 10;

#[repr(C)]
struct Timespec {
    seconds: i64,
    nanoseconds: i64,
}

/// The clock of the processor time of this process, on Linux.
const PROCESS_CLOCK: i32 = 2;

unsafe extern "C" {
    fn clock_gettime(clock: i32, time: *mut Timespec) -> i32;
}

fn processor_nanoseconds() -> i64 {
    let mut time = Timespec {
        seconds: 0,
        nanoseconds: 0,
    };
    let status = unsafe { clock_gettime(PROCESS_CLOCK, &mut time) };
    assert_eq!(status, 0);
    time.seconds * 1_000_000_000 + time.nanoseconds
}

/// Steps thread 0 until it ends, and returns the number of events.
#[inline(never)]
fn finish(machine: &mut Machine) -> u32 {
    for events in 0..LIMITS.budget {
        if machine.step(Event::Step(0)) != Report::Ran {
            return events + 1;
        }
    }
    LIMITS.budget
}

/// The nanoseconds of the events of a run, the number of events of one machine, and the last machine.
fn run(program: fn() -> Vec<Method>) -> (i64, u32, Machine) {
    let mut nanoseconds = 0;
    let mut events = 0;
    let mut last = Machine::new(program(), LIMITS);
    for _ in 0..MACHINES {
        last = Machine::new(program(), LIMITS);
        let start = processor_nanoseconds();
        events = finish(&mut last);
        nanoseconds += processor_nanoseconds() - start;
    }
    (nanoseconds, events, last)
}

fn measure(name: &str, program: fn() -> Vec<Method>) {
    let mut runs: Vec<_> = (0..RUNS).map(|_| run(program)).collect();
    runs.sort_by_key(|run| run.0);
    let (nanoseconds, events, machine) = &runs[RUNS / 2];
    let events_of_run = f64::from(*events) * f64::from(MACHINES);
    let speed = events_of_run * 1000.0 / *nanoseconds as f64;
    let printed = String::from_utf8_lossy(&machine.console);
    println!(
        "{name}: {speed:.2} million events a second ({events} events, {} words, {}, printed {printed:?})",
        machine.heap.used,
        machine.end_name(),
    );
}

fn main() {
    measure("numbers", numbers);
    measure("calls", calls);
    measure("fields", fields);
    measure("elements", elements);
    measure("births", births);
}
