//! The baseline of `src/main.rt.txt`: the same cycles and stores by a collector in plain Rust, `plain_collector.rs`, with programs written
//! as resolved instructions. It runs the same number of machines, measures by the same clock, and prints the same lines.

// The programs don't use all instructions.
#![allow(dead_code)]

include!("../../plain_machine.rs");
include!("../../plain_collector.rs");

const WORDS: usize = 65_536;

const LEAST_WORDS: usize = 64;

const STORE_STEPS: u32 = 900_000;

const RUNS: usize = 5;

const PHASES: [Phase; 8] = [
    Phase::Idle,
    Phase::Mark,
    Phase::Allocate,
    Phase::Copy,
    Phase::PreFlip,
    Phase::HeapFlip,
    Phase::ThreadFlip,
    Phase::Reclaim,
];

/// A program, the words of its heap, and the number of steps after which thread 0 is in its last loop.
struct Kernel {
    name: &'static str,
    program: fn() -> Program,
    words: usize,
    first_steps: u32,
}

/// A kernel whose cycles are timed, and how many of them in a row.
struct CycleKernel {
    kernel: Kernel,
    count: u32,
}

const LIST_CYCLES: CycleKernel = CycleKernel {
    kernel: Kernel {
        name: "list",
        program: list,
        words: WORDS,
        first_steps: 210_000,
    },
    count: 20,
};

const ARRAY_CYCLES: [CycleKernel; 2] = [
    CycleKernel {
        kernel: Kernel {
            name: "array in 64 words",
            program: array,
            words: LEAST_WORDS,
            first_steps: 20,
        },
        count: 20_000,
    },
    CycleKernel {
        kernel: Kernel {
            name: "array in 65536 words",
            program: array,
            words: WORDS,
            first_steps: 20,
        },
        count: 1_000,
    },
];

/// The kernels whose stores are timed.
const STORE_KERNELS: [Kernel; 2] = [
    Kernel {
        name: "references",
        program: references,
        words: WORDS,
        first_steps: 20,
    },
    Kernel {
        name: "integers",
        program: integers,
        words: WORDS,
        first_steps: 20,
    },
];

// ---- the programs

/// The number of the constructor, which is after `Main`.
const CONSTRUCTOR: u32 = 3;

/// A program of `Main`, one class, and its constructor, which only calls that of `System.Object`.
fn program(locals: Vec<ValueKind>, main: Vec<Operation>, references: Vec<bool>) -> Program {
    let constructor = Method {
        arguments: 1,
        locals: Vec::new(),
        has_value: false,
        action: None,
        operations: vec![LoadArgument(0), Call(OBJECT), Return],
    };
    let class = Class {
        is_assignable_to: vec![true],
        references,
    };
    Program {
        methods: methods(locals, main, vec![constructor]),
        classes: vec![class],
    }
}

fn new_node(slots: u32) -> Operation {
    NewObject {
        class: 0,
        slots,
        method: CONSTRUCTOR,
    }
}

#[rustfmt::skip]
fn list() -> Program {
    let main = vec![
        new_node(2), StoreLocal(1),
        LoadLocal(1), LoadLocal(0), StoreField { slot: 0 },
        LoadLocal(1), LoadLocal(2), StoreField { slot: 1 },
        LoadLocal(1), StoreLocal(0),
        LoadLocal(2), LoadInt32(1), Binary(BinaryOperation::Add), StoreLocal(2),
        LoadLocal(2), LoadInt32(10_000), BranchCompare(BranchComparison::Less, 0),
        Branch(17),
    ];
    let locals = vec![ValueKind::Ref, ValueKind::Ref, ValueKind::Int32];
    program(locals, main, vec![true, false])
}

#[rustfmt::skip]
fn array() -> Program {
    let main = vec![
        LoadInt32(4), NewArray(ElementType::Int32), StoreLocal(0),
        Branch(3),
    ];
    program(vec![ValueKind::Ref], main, Vec::new())
}

#[rustfmt::skip]
fn references() -> Program {
    let main = vec![
        LoadInt32(4), NewArray(ElementType::Class(0)), StoreLocal(0),
        new_node(0), StoreLocal(1),
        LoadLocal(0), LoadInt32(0), LoadLocal(1), StoreElementReference,
        LoadLocal(0), LoadInt32(1), LoadLocal(1), StoreElementReference,
        LoadLocal(0), LoadInt32(2), LoadLocal(1), StoreElementReference,
        LoadLocal(0), LoadInt32(3), LoadLocal(1), StoreElementReference,
        Branch(5),
    ];
    program(vec![ValueKind::Ref; 2], main, Vec::new())
}

#[rustfmt::skip]
fn integers() -> Program {
    let main = vec![
        new_node(2), StoreLocal(0),
        LoadLocal(0), LoadLocal(1), StoreField { slot: 0 },
        LoadLocal(0), LoadLocal(1), StoreField { slot: 1 },
        LoadLocal(0), LoadLocal(1), StoreField { slot: 0 },
        LoadLocal(0), LoadLocal(1), StoreField { slot: 1 },
        Branch(2),
    ];
    program(vec![ValueKind::Ref, ValueKind::Int32], main, vec![false; 2])
}

// ---- runs

#[repr(C)]
struct Timespec {
    seconds: i64,
    nanoseconds: i64,
}

/// The clock of the processor time of this process, on Linux.
const PROCESS_CLOCK: i32 = 2;

unsafe extern "C" {
    fn clock_gettime(clock: i32, time: *mut Timespec) -> i32;
}

fn processor_nanoseconds() -> i64 {
    let mut time = Timespec {
        seconds: 0,
        nanoseconds: 0,
    };
    let status = unsafe { clock_gettime(PROCESS_CLOCK, &mut time) };
    assert_eq!(status, 0);
    time.seconds * 1_000_000_000 + time.nanoseconds
}

/// Steps thread 0 this number of times, and returns the number of steps before it ended.
#[inline(never)]
fn run(machine: &mut CollectedMachine, steps: u32) -> u32 {
    for ran in 0..steps {
        if machine.step(Event::Step(0)) != Report::Ran {
            return ran;
        }
    }
    steps
}

/// A machine whose thread is in its last loop.
fn looping_machine(kernel: &Kernel) -> CollectedMachine {
    let limits = Limits {
        words: kernel.words,
        budget: 1_000_000,
        depth: 64,
    };
    let mut machine = CollectedMachine::new((kernel.program)(), limits);
    run(&mut machine, kernel.first_steps);
    machine
}

/// The event after one with this report.
fn next_event(report: Report) -> Event {
    match report {
        Report::Waiting => Event::Ack(0),
        _ => Event::Gc,
    }
}

/// Does a cycle, and returns the number of its events.
#[inline(never)]
fn collect(machine: &mut CollectedMachine) -> u64 {
    let mut event = Event::Gc;
    let mut events = 1;
    loop {
        match machine.step(event) {
            Report::CycleDone => return events,
            report => event = next_event(report),
        }
        events += 1;
    }
}

/// Continues a cycle until thread 0 has acknowledged a phase, and returns the number of events.
fn reach(machine: &mut CollectedMachine, phase: Phase) -> u64 {
    let mut event = Event::Gc;
    let mut events = 0;
    while machine.phase_of(0) != Some(phase) {
        event = next_event(machine.step(event));
        events += 1;
    }
    events
}

/// The rate of a count in these nanoseconds, for a unit of time that is also given in nanoseconds.
fn rate(count: u64, unit: f64, nanoseconds: i64) -> f64 {
    count as f64 * unit / nanoseconds as f64
}

// ---- cycles

/// The nanoseconds of the cycles of a new machine, their events, and the words that they copied to the new space.
fn time_cycles(cycles: &CycleKernel) -> (i64, u64, u64) {
    let mut machine = looping_machine(&cycles.kernel);
    let mut events = 0;
    let mut words = 0;
    let start = processor_nanoseconds();
    for _ in 0..cycles.count {
        events += collect(&mut machine);
        words += machine.spaces.used().0 as u64;
    }
    (processor_nanoseconds() - start, events, words)
}

/// The median of some runs of these cycles.
fn measure_cycles(cycles: &CycleKernel) -> (i64, u64, u64) {
    let mut runs: Vec<_> = (0..RUNS).map(|_| time_cycles(cycles)).collect();
    runs.sort();
    runs[RUNS / 2]
}

fn print_cycles(cycles: &CycleKernel, (nanoseconds, events, words): (i64, u64, u64)) {
    let CycleKernel { kernel, count } = cycles;
    let speed = rate(u64::from(*count), 1e9, nanoseconds);
    println!(
        "{}, cycles: {speed:.0} cycles a second ({count} cycles, {events} events, {words} words)",
        kernel.name
    );
}

fn measure_list() {
    let done = measure_cycles(&LIST_CYCLES);
    let (nanoseconds, events, words) = done;
    let CycleKernel { kernel, count } = &LIST_CYCLES;
    let name = kernel.name;
    let speed = rate(events, 1000.0, nanoseconds);
    println!(
        "{name}, events: {speed:.2} million events a second ({events} events in {count} cycles)"
    );
    let speed = rate(words, 1000.0, nanoseconds);
    println!("{name}, words: {speed:.2} million words a second ({words} words in {count} cycles)");
    print_cycles(&LIST_CYCLES, done);
}

// ---- stores

/// The nanoseconds of the steps of a new machine whose thread is in this phase, the number of steps, the events before them, and the used
/// words of both spaces at their start.
fn time_stores(kernel: &Kernel, phase: Phase) -> (i64, u32, u64, (usize, usize)) {
    let mut machine = looping_machine(kernel);
    let before = reach(&mut machine, phase);
    let used = machine.spaces.used();
    let start = processor_nanoseconds();
    let steps = run(&mut machine, STORE_STEPS);
    (processor_nanoseconds() - start, steps, before, used)
}

fn measure_stores(kernel: &Kernel, phase: Phase) {
    let mut runs: Vec<_> = (0..RUNS).map(|_| time_stores(kernel, phase)).collect();
    runs.sort();
    let (nanoseconds, steps, before, (old, new)) = runs[RUNS / 2];
    let speed = rate(u64::from(steps), 1000.0, nanoseconds);
    println!(
        "{} in {phase:?}: {speed:.2} million events a second ({steps} events after {before} of a cycle, {old} and {new} words)",
        kernel.name
    );
}

fn main() {
    measure_list();
    for cycles in &ARRAY_CYCLES {
        print_cycles(cycles, measure_cycles(cycles));
    }
    for kernel in &STORE_KERNELS {
        for phase in PHASES {
            measure_stores(kernel, phase);
        }
    }
}
