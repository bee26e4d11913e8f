// The instructions of `plain_machine.rs`, which includes this file.

macro_rules! division_result {
    ($x:expr, $y:expr, $least:expr, $result:expr) => {
        if $y == 0 {
            Err(Fault::DivideByZero)
        } else if $x == $least && $y == -1 {
            Err(Fault::Arithmetic)
        } else {
            Ok($result)
        }
    };
}

macro_rules! binary_result {
    ($operation:expr, $x:expr, $y:expr, $least:expr) => {
        match $operation {
            BinaryOperation::Add => Ok($x.wrapping_add($y)),
            BinaryOperation::Subtract => Ok($x.wrapping_sub($y)),
            BinaryOperation::Multiply => Ok($x.wrapping_mul($y)),
            BinaryOperation::AddOverflow => $x.checked_add($y).ok_or(Fault::Overflow),
            BinaryOperation::SubtractOverflow => $x.checked_sub($y).ok_or(Fault::Overflow),
            BinaryOperation::MultiplyOverflow => $x.checked_mul($y).ok_or(Fault::Overflow),
            BinaryOperation::Divide => division_result!($x, $y, $least, $x / $y),
            BinaryOperation::Remainder => division_result!($x, $y, $least, $x % $y),
            BinaryOperation::And => Ok($x & $y),
            BinaryOperation::Or => Ok($x | $y),
            BinaryOperation::ExclusiveOr => Ok($x ^ $y),
        }
    };
}

fn binary(frames: &mut Frames, operation: BinaryOperation) -> Effect {
    let second = frames.pop();
    let first = frames.pop();
    let result = match (first, second) {
        (Value::Int32(x), Value::Int32(y)) => {
            binary_result!(operation, x, y, i32::MIN).map(Value::Int32)
        }
        (Value::Int64(x), Value::Int64(y)) => {
            binary_result!(operation, x, y, i64::MIN).map(Value::Int64)
        }
        _ => unreachable!(),
    };
    frames.push_and_advance_result(result)
}

fn unary(frames: &mut Frames, operation: UnaryOperation) -> Effect {
    let result = match (operation, frames.pop()) {
        (UnaryOperation::Negate, Value::Int32(x)) => Value::Int32(x.wrapping_neg()),
        (UnaryOperation::Negate, Value::Int64(x)) => Value::Int64(x.wrapping_neg()),
        (UnaryOperation::Complement, Value::Int32(x)) => Value::Int32(!x),
        (UnaryOperation::Complement, Value::Int64(x)) => Value::Int64(!x),
        _ => unreachable!(),
    };
    frames.push_and_advance(result)
}

macro_rules! shift_result {
    ($operation:expr, $x:expr, $amount:expr, $unsigned:ty) => {
        match $operation {
            ShiftOperation::Left => $x.wrapping_shl($amount as u32),
            ShiftOperation::Right => $x.wrapping_shr($amount as u32),
            ShiftOperation::RightUnsigned => ($x as $unsigned).wrapping_shr($amount as u32) as _,
        }
    };
}

fn shift(frames: &mut Frames, operation: ShiftOperation) -> Effect {
    let amount = frames.pop();
    let result = match (frames.pop(), amount) {
        (Value::Int32(x), Value::Int32(y)) => Value::Int32(shift_result!(operation, x, y, u32)),
        (Value::Int64(x), Value::Int32(y)) => Value::Int64(shift_result!(operation, x, y, u64)),
        _ => unreachable!(),
    };
    frames.push_and_advance(result)
}

fn comparison_holds<T: Ord>(operation: Comparison, x: T, y: T) -> bool {
    match operation {
        Comparison::Equal => x == y,
        Comparison::Greater => x > y,
        Comparison::Less => x < y,
    }
}

/// References are compared for equality only.
fn compare(frames: &mut Frames, heap: &impl Objects, operation: Comparison) -> Effect {
    let second = frames.pop();
    let first = frames.pop();
    let holds = match (first, second) {
        (Value::Int32(x), Value::Int32(y)) => comparison_holds(operation, x, y),
        (Value::Int64(x), Value::Int64(y)) => comparison_holds(operation, x, y),
        (Value::Ref(x), Value::Ref(y)) => heap.are_same(x, y),
        _ => unreachable!(),
    };
    frames.push_and_advance(Value::Int32(i32::from(holds)))
}

fn is_taken<T: Ord>(operation: BranchComparison, x: T, y: T) -> bool {
    match operation {
        BranchComparison::Equal => x == y,
        BranchComparison::NotEqual => x != y,
        BranchComparison::GreaterOrEqual => x >= y,
        BranchComparison::Greater => x > y,
        BranchComparison::LessOrEqual => x <= y,
        BranchComparison::Less => x < y,
    }
}

fn branch_compare(
    frames: &mut Frames,
    heap: &impl Objects,
    operation: BranchComparison,
    pc: u32,
) -> Effect {
    let second = frames.pop();
    let first = frames.pop();
    let holds = match (first, second) {
        (Value::Int32(x), Value::Int32(y)) => is_taken(operation, x, y),
        (Value::Int64(x), Value::Int64(y)) => is_taken(operation, x, y),
        (Value::Ref(x), Value::Ref(y)) => is_taken(operation, heap.are_same(x, y), true),
        _ => unreachable!(),
    };
    frames.branch_if(holds, pc)
}

fn switch(frames: &mut Frames, targets: &[u32]) -> Effect {
    match frames.pop() {
        Value::Int32(number) => match targets.get(number as u32 as usize) {
            Some(pc) => frames.jump(*pc),
            None => frames.advance(),
        },
        _ => unreachable!(),
    }
}

fn convert_32(value: Value) -> Value {
    match value {
        Value::Int32(x) => Value::Int32(x),
        Value::Int64(x) | Value::Native(x) => Value::Int32(x as i32),
        Value::Ref(_) => unreachable!(),
    }
}

fn convert_64(value: Value) -> Value {
    match value {
        Value::Int32(x) => Value::Int64(i64::from(x)),
        Value::Int64(x) | Value::Native(x) => Value::Int64(x),
        Value::Ref(_) => unreachable!(),
    }
}

fn load_field(frames: &mut Frames, heap: &impl Objects, slot: u32, kind: ValueKind) -> Effect {
    let object = frames.pop().reference();
    if object == NULL {
        return Effect::Raises(Fault::NullReference);
    }
    frames.push_and_advance(Value::of_word(kind, heap.slot(object, slot)))
}

fn store_field(frames: &mut Frames, heap: &mut impl Objects, slot: u32) -> Effect {
    let value = frames.pop();
    let object = frames.pop().reference();
    if object == NULL {
        return Effect::Raises(Fault::NullReference);
    }
    heap.store(object, slot, value);
    frames.advance()
}

fn load_length(frames: &mut Frames, heap: &impl Objects) -> Effect {
    let array = frames.pop().reference();
    if array == NULL {
        return Effect::Raises(Fault::NullReference);
    }
    frames.push_and_advance(Value::Native(i64::from(heap.slots(array))))
}

/// The slot of an element, or the fault if there is none.
fn element_slot(heap: &impl Objects, array: Address, index: Value) -> Result<u32, Fault> {
    if array == NULL {
        return Err(Fault::NullReference);
    }
    let index = index.index();
    if 0 <= index && index < i64::from(heap.slots(array)) {
        Ok(index as u32)
    } else {
        Err(Fault::IndexOutOfRange)
    }
}

fn load_element(frames: &mut Frames, heap: &impl Objects, kind: ValueKind) -> Effect {
    let index = frames.pop();
    let array = frames.pop().reference();
    match element_slot(heap, array, index) {
        Ok(slot) => frames.push_and_advance(Value::of_word(kind, heap.slot(array, slot))),
        Err(fault) => Effect::Raises(fault),
    }
}

fn store_element(frames: &mut Frames, heap: &mut impl Objects) -> Effect {
    let value = frames.pop();
    let index = frames.pop();
    let array = frames.pop().reference();
    match element_slot(heap, array, index) {
        Ok(slot) => {
            heap.store(array, slot, value);
            frames.advance()
        }
        Err(fault) => Effect::Raises(fault),
    }
}

/// Whether an object may be an element of an array. False for arrays in arrays, which the measured programs don't have.
fn is_storable(classes: &[Class], heap: &impl Objects, object: Address, array: Address) -> bool {
    if object == NULL {
        return true;
    }
    match (heap.kind(object), heap.kind(array)) {
        (Kind::Instance(from), Kind::Array(ElementType::Class(to))) => {
            classes[usize::from(from)].is_assignable_to[usize::from(to)]
        }
        _ => false,
    }
}

fn store_element_reference(
    classes: &[Class],
    frames: &mut Frames,
    heap: &mut impl Objects,
) -> Effect {
    let value = frames.pop();
    let index = frames.pop();
    let array = frames.pop().reference();
    match element_slot(heap, array, index) {
        Ok(slot) if is_storable(classes, heap, value.reference(), array) => {
            heap.store(array, slot, value);
            frames.advance()
        }
        Ok(_) => Effect::Raises(Fault::ArrayTypeMismatch),
        Err(fault) => Effect::Raises(fault),
    }
}

fn new_array(frames: &mut Frames, heap: &mut impl Objects, element: ElementType) -> Effect {
    let length = frames.pop().index();
    if length < 0 {
        return Effect::Raises(Fault::Overflow);
    }
    let array = match u32::try_from(length) {
        Ok(length) => heap.birth(Kind::Array(element), length),
        Err(_) => None,
    };
    match array {
        Some(array) => frames.push_and_advance(Value::Ref(array)),
        None => Effect::Raises(Fault::OutOfMemory),
    }
}

fn write(frames: &mut Frames, console: &mut Vec<u8>) -> Effect {
    match frames.pop() {
        Value::Int32(number) => writeln!(console, "{number}").unwrap(),
        Value::Int64(number) => writeln!(console, "{number}").unwrap(),
        _ => unreachable!(),
    }
    frames.advance()
}

fn call(methods: &[Method], number: u32, frames: &mut Frames, console: &mut Vec<u8>) -> Effect {
    let method = &methods[number as usize];
    match method.action {
        Some(Action::Construct) => {
            frames.pop();
            frames.advance()
        }
        Some(Action::Write) => write(frames, console),
        None => {
            if frames.is_full() {
                return Effect::Raises(Fault::StackOverflow);
            }
            frames.running.pc += 1;
            frames.push_frame(number, method, None);
            Effect::Continues
        }
    }
}

fn new_object(
    methods: &[Method],
    (class, slots, number): (u16, u32, u32),
    frames: &mut Frames,
    heap: &mut impl Objects,
) -> Effect {
    let method = &methods[number as usize];
    let is_built_in = method.action.is_some();
    if !is_built_in && frames.is_full() {
        return Effect::Raises(Fault::StackOverflow);
    }
    let Some(object) = heap.birth(Kind::Instance(class), slots) else {
        return Effect::Raises(Fault::OutOfMemory);
    };
    if is_built_in {
        return frames.push_and_advance(Value::Ref(object));
    }
    let arguments = frames.values.len() + 1 - method.arguments;
    frames.values.insert(arguments, Value::Ref(object));
    frames.running.pc += 1;
    frames.push_frame(number, method, Some(object));
    Effect::Continues
}

fn return_from(methods: &[Method], frames: &mut Frames) -> Effect {
    let value = match frames.running.constructed {
        Some(object) => Some(Value::Ref(object)),
        None if methods[frames.running.method as usize].has_value => Some(frames.pop()),
        None => None,
    };
    if frames.below.is_empty() {
        return Effect::Returns;
    }
    frames.pop_frame();
    if let Some(value) = value {
        frames.push(value);
    }
    Effect::Continues
}

fn load_local(frames: &mut Frames, index: u16) -> Effect {
    let value = *frames.local(index);
    frames.push_and_advance(value)
}

fn store_local(frames: &mut Frames, index: u16) -> Effect {
    let value = frames.pop();
    *frames.local(index) = value;
    frames.advance()
}

fn load_argument(frames: &mut Frames, index: u16) -> Effect {
    let value = *frames.argument(index);
    frames.push_and_advance(value)
}

fn store_argument(frames: &mut Frames, index: u16) -> Effect {
    let value = frames.pop();
    *frames.argument(index) = value;
    frames.advance()
}

fn duplicate(frames: &mut Frames) -> Effect {
    let value = frames.pop();
    frames.push(value);
    frames.push_and_advance(value)
}

fn store_static(
    frames: &mut Frames,
    heap: &mut impl Objects,
    statics: &mut [Value],
    number: u32,
) -> Effect {
    let value = frames.pop();
    heap.store_static(statics, number, value);
    frames.advance()
}

/// Executes the instruction at the pc of the running frame.
fn execute(
    program: &Program,
    frames: &mut Frames,
    heap: &mut impl Objects,
    statics: &mut [Value],
    console: &mut Vec<u8>,
) -> Effect {
    let methods = &program.methods;
    let running = &frames.running;
    match &methods[running.method as usize].operations[running.pc as usize] {
        NoOperation => frames.advance(),
        LoadInt32(number) => frames.push_and_advance(Value::Int32(*number)),
        LoadInt64(number) => frames.push_and_advance(Value::Int64(*number)),
        LoadNull => frames.push_and_advance(Value::Ref(NULL)),
        LoadArgument(index) => load_argument(frames, *index),
        StoreArgument(index) => store_argument(frames, *index),
        LoadLocal(index) => load_local(frames, *index),
        StoreLocal(index) => store_local(frames, *index),
        Duplicate => duplicate(frames),
        Pop => {
            frames.pop();
            frames.advance()
        }
        Binary(operation) => binary(frames, *operation),
        Unary(operation) => unary(frames, *operation),
        Shift(operation) => shift(frames, *operation),
        Compare(operation) => compare(frames, heap, *operation),
        ConvertInt32 => {
            let value = frames.pop();
            frames.push_and_advance(convert_32(value))
        }
        ConvertInt64 => {
            let value = frames.pop();
            frames.push_and_advance(convert_64(value))
        }
        Branch(pc) => frames.jump(*pc),
        BranchTrue(pc) => {
            let holds = frames.pop().is_set();
            frames.branch_if(holds, *pc)
        }
        BranchFalse(pc) => {
            let holds = !frames.pop().is_set();
            frames.branch_if(holds, *pc)
        }
        BranchCompare(operation, pc) => branch_compare(frames, heap, *operation, *pc),
        Switch(targets) => switch(frames, targets),
        LoadField { slot, kind } => load_field(frames, heap, *slot, *kind),
        StoreField { slot } => store_field(frames, heap, *slot),
        LoadStaticField(number) => frames.push_and_advance(statics[*number as usize]),
        StoreStaticField(number) => store_static(frames, heap, statics, *number),
        NewArray(element) => new_array(frames, heap, *element),
        LoadLength => load_length(frames, heap),
        LoadElement(kind) => load_element(frames, heap, *kind),
        StoreElement => store_element(frames, heap),
        StoreElementReference => store_element_reference(&program.classes, frames, heap),
        Call(number) => call(methods, *number, frames, console),
        NewObject {
            class,
            slots,
            method,
        } => new_object(methods, (*class, *slots, *method), frames, heap),
        Return => return_from(methods, frames),
    }
}
