// The heap of `plain_collector.rs`, which includes this file: two blocks of words during a cycle, and the barriers of each phase.

// ---- phases

#[derive(Clone, Copy, Debug, PartialEq, Eq)]
enum Phase {
    Idle,
    Mark,
    Allocate,
    Copy,
    PreFlip,
    HeapFlip,
    ThreadFlip,
    Reclaim,
}

// ---- two blocks

/// The most words of a block.
const MOST_WORDS: u32 = 1_048_576;

/// The addresses of the first objects of the two blocks.
const STARTS: [u32; 2] = [1, 1 + MOST_WORDS];

/// The header word with the mark and the other copy, and the one with the monitor.
const COPIES_WORD: usize = 1;

const MONITOR_WORD: usize = 2;

/// Whether an object is marked, and the address of its other copy.
#[derive(Clone, Copy, Debug, Default)]
struct Copies {
    is_marked: bool,
    other: Option<Address>,
}

impl Copies {
    fn word(self) -> u64 {
        let other = self.other.map_or(0, |address| address.0);
        u64::from(self.is_marked) | u64::from(other) << 1
    }

    fn from_word(word: u64) -> Copies {
        let other = Address((word >> 1) as u32);
        Copies {
            is_marked: word & 1 == 1,
            other: (other != NULL).then_some(other),
        }
    }
}

/// The objects of one block, in the order of their births.
struct Space {
    words: Vec<u64>,
    used: usize,
    start: u32,
}

impl Space {
    fn new(words: usize, start: u32) -> Space {
        Space {
            words: vec![0; words],
            used: 0,
            start,
        }
    }

    fn spans(&self, object: Address) -> bool {
        object.0.wrapping_sub(self.start) < MOST_WORDS
    }

    fn offset(&self, object: Address) -> usize {
        (object.0 - self.start) as usize
    }

    fn room(&self) -> usize {
        self.words.len() - self.used
    }

    fn append(&mut self, header: u64, copies: Copies) -> Address {
        let offset = self.used;
        self.words[offset] = header;
        self.words[offset + COPIES_WORD] = copies.word();
        self.used += HEADER_WORDS + header as u32 as usize;
        Address(self.start + offset as u32)
    }

    /// The object at an offset. None after the last one.
    fn at(&self, offset: usize) -> Option<Address> {
        (offset < self.used).then_some(Address(self.start + offset as u32))
    }

    fn header(&self, object: Address) -> u64 {
        self.words[self.offset(object)]
    }

    fn slots(&self, object: Address) -> u32 {
        self.header(object) as u32
    }

    fn size(&self, object: Address) -> usize {
        HEADER_WORDS + self.slots(object) as usize
    }

    fn copies(&self, object: Address) -> Copies {
        Copies::from_word(self.words[self.offset(object) + COPIES_WORD])
    }

    fn set_copies(&mut self, object: Address, copies: Copies) {
        let offset = self.offset(object);
        self.words[offset + COPIES_WORD] = copies.word();
    }

    fn monitor(&self, object: Address) -> u64 {
        self.words[self.offset(object) + MONITOR_WORD]
    }

    fn set_monitor(&mut self, object: Address, monitor: u64) {
        let offset = self.offset(object);
        self.words[offset + MONITOR_WORD] = monitor;
    }

    fn slot(&self, object: Address, index: u32) -> u64 {
        self.words[self.offset(object) + HEADER_WORDS + index as usize]
    }

    fn set_slot(&mut self, object: Address, index: u32, word: u64) {
        let offset = self.offset(object);
        self.words[offset + HEADER_WORDS + index as usize] = word;
    }
}

/// The new block and the grey list of an open cycle. The first `scanned` objects of the list are black.
struct Cycle {
    new: Space,
    grey: Vec<Address>,
    scanned: usize,
    has_marked: bool,
}

/// The objects of one block, or of two while a cycle is open.
struct Spaces {
    old: Space,
    cycle: Option<Cycle>,
}

impl Spaces {
    /// It writes each word of the block, so that the system maps no page later.
    fn new(words: usize) -> Spaces {
        let mut old = Space::new(words, STARTS[0]);
        old.words.fill(1);
        old.words.fill(0);
        Spaces { old, cycle: None }
    }

    fn cycle(&mut self) -> &mut Cycle {
        self.cycle.as_mut().unwrap()
    }

    fn space(&self, object: Address) -> &Space {
        match &self.cycle {
            Some(cycle) if !self.old.spans(object) => &cycle.new,
            _ => &self.old,
        }
    }

    fn space_mut(&mut self, object: Address) -> &mut Space {
        match &mut self.cycle {
            Some(cycle) if !self.old.spans(object) => &mut cycle.new,
            _ => &mut self.old,
        }
    }

    fn used(&self) -> (usize, usize) {
        let new = self.cycle.as_ref().map_or(0, |cycle| cycle.new.used);
        (self.old.used, new)
    }

    fn forward(&self, address: Address) -> Address {
        if self.old.spans(address) {
            self.old.copies(address).other.unwrap_or(address)
        } else {
            address
        }
    }

    #[inline(always)]
    fn forward_value(&self, value: Value) -> Value {
        match value {
            Value::Ref(address) => Value::Ref(self.forward(address)),
            _ => value,
        }
    }

    /// Marks an old object that isn't marked, and puts it on the grey list.
    fn mark(&mut self, address: Address) {
        if !self.old.spans(address) {
            return;
        }
        let copies = self.old.copies(address);
        if copies.is_marked {
            return;
        }
        let cycle = self.cycle.as_mut().unwrap();
        let is_marked = true;
        self.old.set_copies(
            address,
            Copies {
                is_marked,
                ..copies
            },
        );
        cycle.grey.push(address);
        cycle.has_marked = true;
    }

    #[inline(always)]
    fn mark_value(&mut self, value: Value) {
        if let Value::Ref(address) = value {
            self.mark(address);
        }
    }

    /// Stores a word to the slot of an object's old copy, and another to that of its new copy.
    fn set_both(&mut self, object: Address, index: u32, old: u64, new: u64) {
        let (first, second) = if self.old.spans(object) {
            (old, new)
        } else {
            (new, old)
        };
        let space = self.space_mut(object);
        space.set_slot(object, index, first);
        if let Some(other) = space.copies(object).other {
            self.space_mut(other).set_slot(other, index, second);
        }
    }
}

// ---- barriers

/// The heap for a thread that has acknowledged this phase.
struct Mutator<'h> {
    spaces: &'h mut Spaces,
    phase: Phase,
}

impl Mutator<'_> {
    fn birth_in_both(&mut self, header: u64) -> Option<Address> {
        let size = HEADER_WORDS + header as u32 as usize;
        let old = &mut self.spaces.old;
        let new = &mut self.spaces.cycle.as_mut().unwrap().new;
        if old.room().min(new.room()) < size {
            return None;
        }
        let copy = Address(new.start + new.used as u32);
        let is_marked = true;
        let other = Some(copy);
        let object = old.append(header, Copies { is_marked, other });
        let other = Some(object);
        new.append(header, Copies { is_marked, other });
        Some(object)
    }
}

impl Objects for Mutator<'_> {
    fn birth(&mut self, kind: Kind, slots: u32) -> Option<Address> {
        let header = kind.header(slots);
        let size = HEADER_WORDS + slots as usize;
        let space = match self.phase {
            Phase::Idle | Phase::Mark => &mut self.spaces.old,
            Phase::Allocate | Phase::Copy | Phase::PreFlip | Phase::HeapFlip => {
                return self.birth_in_both(header);
            }
            Phase::ThreadFlip | Phase::Reclaim => match &mut self.spaces.cycle {
                Some(cycle) => &mut cycle.new,
                None => &mut self.spaces.old,
            },
        };
        if space.room() < size {
            return None;
        }
        let is_marked = self.phase == Phase::Mark;
        let other = None;
        let object = space.append(header, Copies { is_marked, other });
        if is_marked {
            self.spaces.cycle().grey.push(object);
        }
        Some(object)
    }

    fn kind(&self, object: Address) -> Kind {
        Kind::from_header(self.spaces.space(object).header(object))
    }

    fn slots(&self, object: Address) -> u32 {
        self.spaces.space(object).slots(object)
    }

    fn slot(&self, object: Address, index: u32) -> u64 {
        self.spaces.space(object).slot(object, index)
    }

    #[inline(always)]
    fn store(&mut self, object: Address, index: u32, value: Value) {
        let word = value.word();
        match self.phase {
            Phase::Idle | Phase::Allocate | Phase::Reclaim => {
                self.spaces.space_mut(object).set_slot(object, index, word);
            }
            Phase::Mark => {
                self.spaces.mark_value(value);
                self.spaces.space_mut(object).set_slot(object, index, word);
            }
            Phase::Copy | Phase::PreFlip | Phase::HeapFlip => {
                let forwarded = self.spaces.forward_value(value).word();
                self.spaces.set_both(object, index, word, forwarded);
            }
            Phase::ThreadFlip => self.spaces.set_both(object, index, word, word),
        }
    }

    fn store_static(&mut self, statics: &mut [Value], number: u32, value: Value) {
        statics[number as usize] = match self.phase {
            Phase::Mark => {
                self.spaces.mark_value(value);
                value
            }
            Phase::PreFlip | Phase::HeapFlip => self.spaces.forward_value(value),
            _ => value,
        };
    }

    fn are_same(&self, first: Address, second: Address) -> bool {
        match self.phase {
            Phase::Copy | Phase::PreFlip | Phase::HeapFlip => {
                self.spaces.forward(first) == self.spaces.forward(second)
            }
            _ => first == second,
        }
    }
}
