// A machine in plain Rust, of the same design as the proved one but without proofs: the baseline for its speed. Each `baseline.rs` includes
// this file, so that everything is one module, which the compiler optimizes as a whole.
//
// It has resolved instructions, values of four kinds, the values of all frames of a thread in one list with a record for each frame,
// objects of three header words and their slots in one list of words, and a budget that each step is charged to. `Machine::step` does one
// event and returns its report. Instructions access objects only through `Objects`: `plain_collector.rs` has a machine with a collected heap.

use std::io::Write;

use Operation::*;

include!("plain_instructions.rs");

// ---- values and objects

#[derive(Clone, Copy, Debug, PartialEq, Eq)]
struct Address(u32);

const NULL: Address = Address(0);

impl Address {
    /// The index of its first word in the heap.
    fn offset(self) -> usize {
        self.0 as usize - 1
    }
}

#[derive(Clone, Copy, Debug, PartialEq, Eq)]
enum Value {
    Int32(i32),
    Int64(i64),
    Native(i64),
    Ref(Address),
}

#[derive(Clone, Copy, Debug, PartialEq, Eq)]
enum ValueKind {
    Int32,
    Int64,
    Ref,
}

impl Value {
    fn zero(kind: ValueKind) -> Value {
        Value::of_word(kind, 0)
    }

    fn word(self) -> u64 {
        match self {
            Value::Int32(number) => u64::from(number as u32),
            Value::Int64(number) | Value::Native(number) => number as u64,
            Value::Ref(address) => u64::from(address.0),
        }
    }

    fn of_word(kind: ValueKind, word: u64) -> Value {
        match kind {
            ValueKind::Int32 => Value::Int32(word as i32),
            ValueKind::Int64 => Value::Int64(word as i64),
            ValueKind::Ref => Value::Ref(Address(word as u32)),
        }
    }

    fn reference(self) -> Address {
        match self {
            Value::Ref(address) => address,
            _ => unreachable!(),
        }
    }

    fn index(self) -> i64 {
        match self {
            Value::Int32(number) => i64::from(number),
            Value::Native(number) => number,
            _ => unreachable!(),
        }
    }

    fn is_set(self) -> bool {
        match self {
            Value::Int32(number) => number != 0,
            Value::Int64(number) => number != 0,
            Value::Ref(address) => address != NULL,
            Value::Native(_) => unreachable!(),
        }
    }
}

/// The element type of an array. A class is given by its number.
#[derive(Clone, Copy, Debug, PartialEq, Eq)]
enum ElementType {
    Int32,
    Int64,
    Class(u16),
}

impl ElementType {
    fn number(self) -> u64 {
        match self {
            ElementType::Int32 => 0,
            ElementType::Int64 => 1,
            ElementType::Class(class) => 4 + u64::from(class),
        }
    }

    fn from_number(number: u64) -> ElementType {
        match number {
            0 => ElementType::Int32,
            1 => ElementType::Int64,
            _ => ElementType::Class((number - 4) as u16),
        }
    }
}

#[derive(Clone, Copy, Debug, PartialEq, Eq)]
enum Kind {
    Instance(u16),
    Array(ElementType),
}

impl Kind {
    fn header(self, slots: u32) -> u64 {
        let number = match self {
            Kind::Instance(class) => u64::from(class),
            Kind::Array(element) => 65_536 + 256 * element.number(),
        };
        u64::from(slots) + (number << 32)
    }

    fn from_header(header: u64) -> Kind {
        let number = header >> 32;
        if number < 65_536 {
            Kind::Instance(number as u16)
        } else {
            Kind::Array(ElementType::from_number((number - 65_536) / 256))
        }
    }
}

/// The number of words before an object's slots: its kind and size, its mark and other copy for the collector, and its monitor.
const HEADER_WORDS: usize = 3;

/// The operations of instructions on objects.
trait Objects {
    fn birth(&mut self, kind: Kind, slots: u32) -> Option<Address>;

    fn kind(&self, object: Address) -> Kind;

    fn slots(&self, object: Address) -> u32;

    fn slot(&self, object: Address, index: u32) -> u64;

    fn store(&mut self, object: Address, index: u32, value: Value);

    fn store_static(&mut self, statics: &mut [Value], number: u32, value: Value);

    fn are_same(&self, first: Address, second: Address) -> bool;
}

struct Heap {
    words: Vec<u64>,
    used: usize,
}

impl Heap {
    /// An empty heap of this number of words. It writes each word, so that the system maps no page later.
    fn new(words: usize) -> Heap {
        let mut words = vec![1; words];
        words.fill(0);
        Heap { words, used: 0 }
    }
}

impl Objects for Heap {
    fn birth(&mut self, kind: Kind, slots: u32) -> Option<Address> {
        let size = HEADER_WORDS + slots as usize;
        if self.words.len() - self.used < size {
            return None;
        }
        let offset = self.used;
        self.words[offset] = kind.header(slots);
        self.used += size;
        Some(Address(offset as u32 + 1))
    }

    fn kind(&self, object: Address) -> Kind {
        Kind::from_header(self.words[object.offset()])
    }

    fn slots(&self, object: Address) -> u32 {
        self.words[object.offset()] as u32
    }

    fn slot(&self, object: Address, index: u32) -> u64 {
        self.words[object.offset() + HEADER_WORDS + index as usize]
    }

    fn store(&mut self, object: Address, index: u32, value: Value) {
        self.words[object.offset() + HEADER_WORDS + index as usize] = value.word();
    }

    fn store_static(&mut self, statics: &mut [Value], number: u32, value: Value) {
        statics[number as usize] = value;
    }

    fn are_same(&self, first: Address, second: Address) -> bool {
        first == second
    }
}

// ---- programs

#[derive(Clone, Copy, Debug)]
enum BinaryOperation {
    Add,
    Subtract,
    Multiply,
    AddOverflow,
    SubtractOverflow,
    MultiplyOverflow,
    Divide,
    Remainder,
    And,
    Or,
    ExclusiveOr,
}

#[derive(Clone, Copy, Debug)]
enum UnaryOperation {
    Negate,
    Complement,
}

#[derive(Clone, Copy, Debug)]
enum ShiftOperation {
    Left,
    Right,
    RightUnsigned,
}

#[derive(Clone, Copy, Debug)]
enum Comparison {
    Equal,
    Greater,
    Less,
}

#[derive(Clone, Copy, Debug)]
enum BranchComparison {
    Equal,
    NotEqual,
    GreaterOrEqual,
    Greater,
    LessOrEqual,
    Less,
}

/// Resolved instructions: slots and numbers of methods instead of names. Casts, virtual calls and strings are not supported.
#[derive(Debug)]
enum Operation {
    NoOperation,
    LoadInt32(i32),
    LoadInt64(i64),
    LoadNull,
    LoadArgument(u16),
    StoreArgument(u16),
    LoadLocal(u16),
    StoreLocal(u16),
    Duplicate,
    Pop,
    Binary(BinaryOperation),
    Unary(UnaryOperation),
    Shift(ShiftOperation),
    Compare(Comparison),
    ConvertInt32,
    ConvertInt64,
    Branch(u32),
    BranchTrue(u32),
    BranchFalse(u32),
    BranchCompare(BranchComparison, u32),
    Switch(Box<[u32]>),
    LoadField { slot: u32, kind: ValueKind },
    StoreField { slot: u32 },
    LoadStaticField(u32),
    StoreStaticField(u32),
    NewArray(ElementType),
    LoadLength,
    LoadElement(ValueKind),
    StoreElement,
    StoreElementReference,
    Call(u32),
    NewObject { class: u16, slots: u32, method: u32 },
    Return,
}

#[derive(Clone, Copy, Debug)]
enum Action {
    Construct,
    Write,
}

struct Method {
    arguments: usize,
    locals: Vec<ValueKind>,
    has_value: bool,
    action: Option<Action>,
    operations: Vec<Operation>,
}

/// A class: for each class whether this one is assignable to it, and for each slot of its objects whether it holds a reference.
struct Class {
    is_assignable_to: Vec<bool>,
    references: Vec<bool>,
}

struct Program {
    methods: Vec<Method>,
    classes: Vec<Class>,
}

// ---- frames and threads

#[derive(Clone, Copy, Debug, PartialEq, Eq)]
enum Fault {
    NullReference,
    IndexOutOfRange,
    ArrayTypeMismatch,
    DivideByZero,
    Arithmetic,
    Overflow,
    OutOfMemory,
    StackOverflow,
}

#[derive(Clone, Copy, Debug, PartialEq, Eq)]
enum End {
    Done,
    Budget,
    Fault(Fault),
}

/// The outcome of an instruction for its thread. None of these instructions blocks.
#[derive(Clone, Copy, Debug, PartialEq, Eq)]
enum Effect {
    Continues,
    Returns,
    Raises(Fault),
}

#[derive(Clone, Copy, Debug, PartialEq, Eq)]
enum Event {
    Step(u8),
    Ack(u8),
    Gc,
}

#[derive(Clone, Copy, Debug, PartialEq, Eq)]
enum Report {
    Ran,
    Ended(End),
    Absent,
    Acked,
    NothingPosted,
    Worked,
    Waiting,
    CycleDone,
}

/// Where the values of a frame begin in the list of all values. Beside them its method, the pc of the next instruction, and the object
/// to push at the end of a constructor.
#[derive(Clone, Copy, Debug)]
struct Activation {
    method: u32,
    pc: u32,
    constructed: Option<Address>,
    arguments: usize,
    locals: usize,
    stack: usize,
}

struct Frames {
    values: Vec<Value>,
    running: Activation,
    below: Vec<Activation>,
    depth: usize,
}

/// The most values of a frame: 16 arguments, 64 locals, 64 on the stack, and one more.
const FRAME_ROOM: usize = 145;

impl Frames {
    fn new(depth: usize, method: u32, locals: &[ValueKind]) -> Frames {
        let mut values = Vec::with_capacity(depth * FRAME_ROOM);
        values.extend(locals.iter().map(|kind| Value::zero(*kind)));
        let running = Activation {
            method,
            pc: 0,
            constructed: None,
            arguments: 0,
            locals: 0,
            stack: values.len(),
        };
        Frames {
            values,
            running,
            below: Vec::with_capacity(depth - 1),
            depth,
        }
    }

    fn push(&mut self, value: Value) {
        self.values.push(value);
    }

    fn pop(&mut self) -> Value {
        debug_assert!(self.values.len() > self.running.stack);
        self.values.pop().unwrap()
    }

    fn argument(&mut self, index: u16) -> &mut Value {
        &mut self.values[self.running.arguments + usize::from(index)]
    }

    fn local(&mut self, index: u16) -> &mut Value {
        &mut self.values[self.running.locals + usize::from(index)]
    }

    fn is_full(&self) -> bool {
        self.below.len() + 1 == self.depth
    }

    fn push_frame(&mut self, number: u32, method: &Method, constructed: Option<Address>) {
        let locals = self.values.len();
        let arguments = locals - method.arguments;
        let zeros = method.locals.iter().map(|kind| Value::zero(*kind));
        self.values.extend(zeros);
        self.below.push(self.running);
        self.running = Activation {
            method: number,
            pc: 0,
            constructed,
            arguments,
            locals,
            stack: self.values.len(),
        };
    }

    fn pop_frame(&mut self) {
        self.values.truncate(self.running.arguments);
        self.running = self.below.pop().unwrap();
    }

    fn advance(&mut self) -> Effect {
        self.running.pc += 1;
        Effect::Continues
    }

    fn jump(&mut self, pc: u32) -> Effect {
        self.running.pc = pc;
        Effect::Continues
    }

    fn branch_if(&mut self, holds: bool, pc: u32) -> Effect {
        if holds { self.jump(pc) } else { self.advance() }
    }

    fn push_and_advance(&mut self, value: Value) -> Effect {
        self.push(value);
        self.advance()
    }

    fn push_and_advance_result(&mut self, result: Result<Value, Fault>) -> Effect {
        match result {
            Ok(value) => self.push_and_advance(value),
            Err(fault) => Effect::Raises(fault),
        }
    }
}

enum ThreadStatus {
    Live(Frames),
    Ended(End),
}

struct Thread {
    thread_status: ThreadStatus,
    steps_left: u32,
}

impl Thread {
    /// Charges a step to the budget, and returns its report by the outcome of its instruction.
    fn charge_step(&mut self, effect: Effect) -> Report {
        self.steps_left = self.steps_left.saturating_sub(1);
        let end = match effect {
            Effect::Returns => End::Done,
            Effect::Raises(fault) => End::Fault(fault),
            Effect::Continues if self.steps_left == 0 => End::Budget,
            Effect::Continues => return Report::Ran,
        };
        self.thread_status = ThreadStatus::Ended(end);
        Report::Ended(end)
    }
}

// ---- machines

/// The limits of a run: the words of the heap, the most steps of a thread, and its most frames.
#[derive(Clone, Copy, Debug)]
struct Limits {
    words: usize,
    budget: u32,
    depth: usize,
}

struct Machine {
    program: Program,
    threads: Vec<Thread>,
    heap: Heap,
    statics: Vec<Value>,
    console: Vec<u8>,
}

impl Machine {
    fn new(methods: Vec<Method>, limits: Limits) -> Machine {
        let frames = Frames::new(limits.depth, MAIN, &methods[MAIN as usize].locals);
        Machine {
            program: Program {
                methods,
                classes: Vec::new(),
            },
            threads: vec![Thread {
                thread_status: ThreadStatus::Live(frames),
                steps_left: limits.budget,
            }],
            heap: Heap::new(limits.words),
            statics: Vec::new(),
            console: Vec::new(),
        }
    }

    /// Does an event, and returns its report.
    fn step(&mut self, event: Event) -> Report {
        match event {
            Event::Step(number) => self.step_thread(number),
            Event::Ack(number) => match self.threads.get(usize::from(number)) {
                Some(thread) if matches!(thread.thread_status, ThreadStatus::Live(_)) => {
                    Report::NothingPosted
                }
                _ => Report::Absent,
            },
            Event::Gc => Report::Waiting,
        }
    }

    fn step_thread(&mut self, number: u8) -> Report {
        let Some(thread) = self.threads.get_mut(usize::from(number)) else {
            return Report::Absent;
        };
        let ThreadStatus::Live(frames) = &mut thread.thread_status else {
            return Report::Absent;
        };
        let effect = execute(
            &self.program,
            frames,
            &mut self.heap,
            &mut self.statics,
            &mut self.console,
        );
        thread.charge_step(effect)
    }

    fn end_name(&self) -> &'static str {
        match self.threads[0].thread_status {
            ThreadStatus::Live(_) => "live",
            ThreadStatus::Ended(End::Done) => "done",
            ThreadStatus::Ended(End::Budget) => "budget",
            ThreadStatus::Ended(End::Fault(_)) => "fault",
        }
    }
}

// ---- methods

/// The number of the constructor of `System.Object`.
const OBJECT: u32 = 0;

/// The number of `System.Console::WriteLine`.
const WRITE: u32 = 1;

/// The number of `Main`.
const MAIN: u32 = 2;

fn built_in(action: Action) -> Method {
    Method {
        arguments: 1,
        locals: Vec::new(),
        has_value: false,
        action: Some(action),
        operations: Vec::new(),
    }
}

/// The built-in methods, then `Main`, and then the others.
fn methods(locals: Vec<ValueKind>, main: Vec<Operation>, others: Vec<Method>) -> Vec<Method> {
    let main = Method {
        arguments: 0,
        locals,
        has_value: false,
        action: None,
        operations: main,
    };
    let mut methods = vec![built_in(Action::Construct), built_in(Action::Write), main];
    methods.extend(others);
    methods
}
