// A machine in plain Rust whose heap is collected while its threads run, of the same design as the proved one but without proofs. It needs
// `plain_machine.rs`, which a `baseline.rs` includes before it.
//
// It has a heap of two blocks of words during a cycle, objects whose second header word has the mark and the other copy, a grey list
// that is allocated at its full length when a cycle opens, and barriers by the phase that a thread has acknowledged. `CollectedMachine::step`
// does one event: a step of a thread, an acknowledgement, or one small step of the collector.

include!("plain_spaces.rs");

/// The phase that a live thread has acknowledged, and whether it has answered the posted round.
#[derive(Clone, Copy, Debug)]
struct Seat {
    phase: Phase,
    answered: bool,
}

/// The most failed checks of one word: after them it is copied in one event.
const MOST_FAILED_CHECKS: u32 = 3;

#[derive(Clone, Copy, Debug, Default)]
enum Stage {
    #[default]
    Begins,
    Loaded,
    Stored,
}

/// An attempt to copy a word by a load, a store and a check.
#[derive(Clone, Copy, Debug, Default)]
struct Attempt {
    stage: Stage,
    loaded: u64,
    failed_checks: u32,
}

/// How far the collector is with the work of the posted phase.
#[derive(Clone, Copy, Debug, Default)]
struct Progress {
    scanned_statics: bool,
    scanned_slots: u32,
    /// The offset of the next object, in words.
    cursor: usize,
    copied_words: u32,
    attempt: Attempt,
    flipped_statics: usize,
}

/// A machine whose heap is collected.
struct CollectedMachine {
    program: Program,
    threads: Vec<Thread>,
    seats: Vec<Option<Seat>>,
    posted: Phase,
    has_round: bool,
    progress: Progress,
    spaces: Spaces,
    statics: Vec<Value>,
    console: Vec<u8>,
    /// The block of zeros and the empty grey list of the previous cycle.
    spare: Option<(Vec<u64>, Vec<Address>)>,
}

fn holds_reference(classes: &[Class], kind: Kind, slot: u32) -> bool {
    match kind {
        Kind::Instance(class) => classes[usize::from(class)].references[slot as usize],
        Kind::Array(element) => matches!(element, ElementType::Class(_)),
    }
}

impl CollectedMachine {
    fn new(program: Program, limits: Limits) -> CollectedMachine {
        let locals = &program.methods[MAIN as usize].locals;
        let frames = Frames::new(limits.depth, MAIN, locals);
        CollectedMachine {
            program,
            threads: vec![Thread {
                thread_status: ThreadStatus::Live(frames),
                steps_left: limits.budget,
            }],
            seats: vec![Some(Seat {
                phase: Phase::Idle,
                answered: false,
            })],
            posted: Phase::Idle,
            has_round: false,
            progress: Progress::default(),
            spaces: Spaces::new(limits.words),
            statics: Vec::new(),
            console: Vec::new(),
            spare: None,
        }
    }

    /// The phase that a thread has acknowledged. None where it isn't live.
    fn phase_of(&self, number: u8) -> Option<Phase> {
        self.seats.get(usize::from(number))?.map(|seat| seat.phase)
    }

    /// Does an event, and returns its report. It is inlined, as `Machine::step` is, so that a loop of events has no calls of it.
    #[inline(always)]
    fn step(&mut self, event: Event) -> Report {
        match event {
            Event::Step(number) => self.step_thread(number),
            Event::Ack(number) => self.acknowledge(number),
            Event::Gc => self.collect(),
        }
    }

    fn step_thread(&mut self, number: u8) -> Report {
        let number = usize::from(number);
        let Some(thread) = self.threads.get_mut(number) else {
            return Report::Absent;
        };
        let (ThreadStatus::Live(frames), Some(seat)) =
            (&mut thread.thread_status, self.seats[number])
        else {
            return Report::Absent;
        };
        let mut mutator = Mutator {
            spaces: &mut self.spaces,
            phase: seat.phase,
        };
        let effect = execute(
            &self.program,
            frames,
            &mut mutator,
            &mut self.statics,
            &mut self.console,
        );
        let report = thread.charge_step(effect);
        if let Report::Ended(_) = report {
            self.seats[number] = None;
        }
        report
    }

    fn acknowledge(&mut self, number: u8) -> Report {
        let number = usize::from(number);
        let Some(Some(seat)) = self.seats.get_mut(number) else {
            return Report::Absent;
        };
        let ThreadStatus::Live(frames) = &mut self.threads[number].thread_status else {
            return Report::Absent;
        };
        if seat.phase != self.posted {
            seat.phase = self.posted;
            if self.posted == Phase::ThreadFlip {
                flip_frames(&self.spaces, frames);
            }
            return Report::Acked;
        }
        if !self.has_round || seat.answered {
            return Report::NothingPosted;
        }
        seat.answered = true;
        if self.posted == Phase::Mark {
            mark_frames(&mut self.spaces, frames);
        }
        Report::Acked
    }

    /// Does one step of the posted phase, or posts the next one.
    fn collect(&mut self) -> Report {
        let posted = self.posted;
        if !self.live_seats().all(|seat| seat.phase == posted) {
            return Report::Waiting;
        }
        match posted {
            Phase::Idle => self.open_cycle(),
            Phase::Mark => self.mark_step(),
            Phase::Allocate => self.shell_step(),
            Phase::Copy => self.copy_step(),
            Phase::PreFlip => self.post(Phase::HeapFlip),
            Phase::HeapFlip => self.flip_static_step(),
            Phase::ThreadFlip => self.post(Phase::Reclaim),
            Phase::Reclaim => self.clear_step(),
        }
    }

    fn live_seats(&self) -> impl Iterator<Item = &Seat> {
        self.seats.iter().flatten()
    }

    fn post(&mut self, phase: Phase) -> Report {
        self.posted = phase;
        self.progress = Progress::default();
        Report::Worked
    }

    fn reset_answers(&mut self) {
        for seat in self.seats.iter_mut().flatten() {
            seat.answered = false;
        }
    }

    fn open_cycle(&mut self) -> Report {
        let start = STARTS[0] + STARTS[1] - self.spaces.old.start;
        let words = self.spaces.old.words.len();
        let (block, grey) = self
            .spare
            .take()
            .unwrap_or_else(|| (vec![0; words], Vec::with_capacity(words / HEADER_WORDS)));
        self.spaces.cycle = Some(Cycle {
            new: Space {
                words: block,
                used: 0,
                start,
            },
            grey,
            scanned: 0,
            has_marked: false,
        });
        self.has_round = false;
        self.reset_answers();
        self.post(Phase::Mark)
    }

    fn mark_step(&mut self) -> Report {
        if !self.progress.scanned_statics {
            for value in &self.statics {
                self.spaces.mark_value(*value);
            }
            self.progress.scanned_statics = true;
            return Report::Worked;
        }
        let cycle = self.spaces.cycle();
        match cycle.grey.get(cycle.scanned).copied() {
            Some(object) => self.scan(object),
            None => self.end_round(),
        }
    }

    /// Scans the next slot of the oldest grey object. After its last slot the object is taken off the list.
    fn scan(&mut self, object: Address) -> Report {
        let header = self.spaces.old.header(object);
        let slot = self.progress.scanned_slots;
        if slot == header as u32 {
            self.spaces.cycle().scanned += 1;
            self.progress.scanned_slots = 0;
            return Report::Worked;
        }
        if holds_reference(&self.program.classes, Kind::from_header(header), slot) {
            let address = Address(self.spaces.old.slot(object, slot) as u32);
            self.spaces.mark(address);
        }
        self.progress.scanned_slots += 1;
        Report::Worked
    }

    /// No object is grey: marking is closed, a round waits for its answers, or the next one is posted.
    fn end_round(&mut self) -> Report {
        if self.has_round {
            if !self.live_seats().all(|seat| seat.answered) {
                return Report::Waiting;
            }
            if !self.spaces.cycle().has_marked {
                return self.post(Phase::Allocate);
            }
        }
        self.has_round = true;
        self.reset_answers();
        self.spaces.cycle().has_marked = false;
        Report::Worked
    }

    /// Makes the shell of the next old object if it is marked and has none.
    fn shell_step(&mut self) -> Report {
        let Spaces { old, cycle } = &mut self.spaces;
        let Some(object) = old.at(self.progress.cursor) else {
            return self.post(Phase::Copy);
        };
        let header = old.header(object);
        let copies = old.copies(object);
        self.progress.cursor += HEADER_WORDS + header as u32 as usize;
        if copies.is_marked && copies.other.is_none() {
            let shell = Copies {
                is_marked: false,
                other: Some(object),
            };
            let copy = cycle.as_mut().unwrap().new.append(header, shell);
            let other = Some(copy);
            old.set_copies(object, Copies { other, ..copies });
        }
        Report::Worked
    }

    /// One step of copying the next word of an object with two copies, its monitor first and then its slots: a load, a store or a check.
    fn copy_step(&mut self) -> Report {
        let old = &self.spaces.old;
        let mut offset = self.progress.cursor;
        let (object, copy) = loop {
            let Some(object) = old.at(offset) else {
                return self.post(Phase::PreFlip);
            };
            if let Some(copy) = old.copies(object).other {
                break (object, copy);
            }
            offset += old.size(object);
        };
        let header = old.header(object);
        let word = self.progress.copied_words;
        let attempt = self.progress.attempt;
        self.progress.cursor = offset;
        match attempt.stage {
            Stage::Begins => {
                let loaded = load_word(old, object, word);
                if attempt.failed_checks < MOST_FAILED_CHECKS {
                    self.progress.attempt.stage = Stage::Loaded;
                    self.progress.attempt.loaded = loaded;
                } else {
                    self.store_word(header, copy, word, loaded);
                    self.pass_word(offset, header);
                }
            }
            Stage::Loaded => {
                self.store_word(header, copy, word, attempt.loaded);
                self.progress.attempt.stage = Stage::Stored;
            }
            Stage::Stored if load_word(old, object, word) == attempt.loaded => {
                self.pass_word(offset, header);
            }
            Stage::Stored => {
                self.progress.attempt = Attempt {
                    failed_checks: attempt.failed_checks + 1,
                    ..Attempt::default()
                };
            }
        }
        Report::Worked
    }

    /// Stores a loaded word to the new copy, a reference as its forward.
    fn store_word(&mut self, header: u64, copy: Address, word: u32, loaded: u64) {
        if word == 0 {
            self.spaces.cycle().new.set_monitor(copy, loaded);
            return;
        }
        let slot = word - 1;
        let mut value = loaded;
        if holds_reference(&self.program.classes, Kind::from_header(header), slot) {
            value = u64::from(self.spaces.forward(Address(value as u32)).0);
        }
        self.spaces.cycle().new.set_slot(copy, slot, value);
    }

    /// Advances to the next word of the object, or past the object after its last word.
    fn pass_word(&mut self, offset: usize, header: u64) {
        let word = self.progress.copied_words;
        self.progress.attempt = Attempt::default();
        if word == header as u32 {
            self.progress.cursor = offset + HEADER_WORDS + word as usize;
            self.progress.copied_words = 0;
        } else {
            self.progress.copied_words = word + 1;
        }
    }

    fn flip_static_step(&mut self) -> Report {
        let Some(value) = self.statics.get_mut(self.progress.flipped_statics) else {
            return self.post(Phase::ThreadFlip);
        };
        *value = self.spaces.forward_value(*value);
        self.progress.flipped_statics += 1;
        Report::Worked
    }

    /// Clears the mark and the other copy of the next new object that has either. After the last one the old block is cleared and kept.
    fn clear_step(&mut self) -> Report {
        let new = &mut self.spaces.cycle.as_mut().unwrap().new;
        let mut offset = self.progress.cursor;
        while let Some(object) = new.at(offset) {
            offset += new.size(object);
            let copies = new.copies(object);
            if copies.is_marked || copies.other.is_some() {
                new.set_copies(object, Copies::default());
                self.progress.cursor = offset;
                return Report::Worked;
            }
        }
        let mut cycle = self.spaces.cycle.take().unwrap();
        let mut old = std::mem::replace(&mut self.spaces.old, cycle.new);
        old.words[..old.used].fill(0);
        cycle.grey.clear();
        self.spare = Some((old.words, cycle.grey));
        self.post(Phase::Idle);
        Report::CycleDone
    }
}

// ---- words

/// Word 0 of an object is its monitor, and word n + 1 its slot n.
fn load_word(space: &Space, object: Address, word: u32) -> u64 {
    if word == 0 {
        space.monitor(object)
    } else {
        space.slot(object, word - 1)
    }
}

// ---- the frames of a thread

fn mark_frames(spaces: &mut Spaces, frames: &Frames) {
    for value in &frames.values {
        spaces.mark_value(*value);
    }
    for activation in frames.below.iter().chain([&frames.running]) {
        if let Some(object) = activation.constructed {
            spaces.mark(object);
        }
    }
}

fn flip_frames(spaces: &Spaces, frames: &mut Frames) {
    for value in &mut frames.values {
        *value = spaces.forward_value(*value);
    }
    for activation in frames.below.iter_mut().chain([&mut frames.running]) {
        activation.constructed = activation.constructed.map(|object| spaces.forward(object));
    }
}
