//! Events, and who chooses them.

use std::fmt;

/// The threads that a program may start in all, the first one counted.
pub const MOST_THREADS: u8 = 16;

/// An event of the machine, as a schedule writes it.
#[derive(Clone, Copy, Debug, PartialEq, Eq, Hash)]
pub enum Event {
    /// A step of a thread: `s0`.
    Step(u8),
    /// A thread acknowledges what the collector has posted: `a0`.
    Ack(u8),
    /// An event of the collector: `g`.
    Gc,
}

/// As a schedule writes it.
impl fmt::Display for Event {
    fn fmt(&self, f: &mut fmt::Formatter<'_>) -> fmt::Result {
        match self {
            Event::Step(thread) => write!(f, "s{thread}"),
            Event::Ack(thread) => write!(f, "a{thread}"),
            Event::Gc => f.write_str("g"),
        }
    }
}

/// A step of each thread in turn, from 0 on, without end. With a collector, an acknowledgement of each thread and an event of the collector
/// follow in each round.
#[derive(Clone, Debug)]
pub struct RoundRobin {
    threads: u8,
    collects: bool,
    position: u8,
}

impl RoundRobin {
    /// Steps of this number of threads, from 1 to `MOST_THREADS`.
    pub fn new(threads: u8) -> RoundRobin {
        RoundRobin {
            threads: threads.clamp(1, MOST_THREADS),
            collects: false,
            position: 0,
        }
    }

    /// The same with a collector.
    pub fn with_collector(threads: u8) -> RoundRobin {
        RoundRobin {
            collects: true,
            ..RoundRobin::new(threads)
        }
    }
}

impl Iterator for RoundRobin {
    type Item = Event;

    fn next(&mut self) -> Option<Event> {
        let (position, threads) = (self.position, self.threads);
        let round = if self.collects {
            2 * threads + 1
        } else {
            threads
        };
        self.position = (position + 1) % round;
        Some(match position {
            _ if position < threads => Event::Step(position),
            _ if position < 2 * threads => Event::Ack(position - threads),
            _ => Event::Gc,
        })
    }
}

/// Steps of threads, acknowledgements and events of the collector by a generator of numbers (SplitMix64), without end: the same seed gives the
/// same events everywhere.
#[derive(Clone, Debug)]
pub struct Random {
    state: u64,
    threads: u64,
}

impl Random {
    /// By a seed, of the threads below this number, from 1 to `MOST_THREADS`.
    pub fn new(seed: u64, threads: u8) -> Random {
        Random {
            state: seed,
            threads: u64::from(threads.clamp(1, MOST_THREADS)),
        }
    }

    fn number(&mut self) -> u64 {
        self.state = self.state.wrapping_add(0x9e37_79b9_7f4a_7c15);
        let mut it = self.state;
        it = (it ^ (it >> 30)).wrapping_mul(0xbf58_476d_1ce4_e5b9);
        it = (it ^ (it >> 27)).wrapping_mul(0x94d0_49bb_1331_11eb);
        it ^ (it >> 31)
    }
}

impl Iterator for Random {
    type Item = Event;

    fn next(&mut self) -> Option<Event> {
        let number = self.number();
        let thread = ((number >> 8) % self.threads) as u8;
        Some(match number % 8 {
            0 => Event::Gc,
            1 => Event::Ack(thread),
            _ => Event::Step(thread),
        })
    }
}

/// The events of a schedule's text, one after the other.
#[derive(Clone, Debug, PartialEq, Eq)]
pub struct Schedule {
    items: Vec<(Event, u32)>,
    position: usize,
    times: u32,
}

/// A word of a text that is no item of a schedule.
#[derive(Clone, Debug, PartialEq, Eq)]
pub struct BadItem(pub String);

impl fmt::Display for BadItem {
    fn fmt(&self, f: &mut fmt::Formatter<'_>) -> fmt::Result {
        write!(
            f,
            "`{}` is no item: an item is g, sN or aN, alone or with *COUNT after it",
            self.0
        )
    }
}

impl std::error::Error for BadItem {}

/// The number that digits write, without a leading zero.
fn number(digits: &str) -> Option<u32> {
    let is_number = digits.bytes().all(|it| it.is_ascii_digit())
        && (digits.len() == 1 || !digits.starts_with('0'));
    if is_number {
        digits.parse().ok()
    } else {
        None
    }
}

fn thread(digits: &str) -> Option<u8> {
    number(digits)
        .and_then(|it| u8::try_from(it).ok())
        .filter(|it| *it < MOST_THREADS)
}

fn event(name: &str) -> Option<Event> {
    match name.split_at_checked(1)? {
        ("g", "") => Some(Event::Gc),
        ("s", digits) => thread(digits).map(Event::Step),
        ("a", digits) => thread(digits).map(Event::Ack),
        _ => None,
    }
}

fn item(word: &str) -> Option<(Event, u32)> {
    match word.split_once('*') {
        None => Some((event(word)?, 1)),
        Some((name, count)) => Some((event(name)?, number(count).filter(|it| *it > 0)?)),
    }
}

impl Schedule {
    /// The events of a text such as `s0*5 a0 g`. `Machine::run` takes the text itself, and says where and why it is refused.
    pub fn parse(text: &str) -> Result<Schedule, BadItem> {
        let words = text
            .split([' ', '\t', '\r', '\n'])
            .filter(|it| !it.is_empty());
        let items = words
            .map(|it| item(it).ok_or_else(|| BadItem(it.to_string())))
            .collect::<Result<_, _>>()?;
        Ok(Schedule {
            items,
            position: 0,
            times: 0,
        })
    }
}

impl Iterator for Schedule {
    type Item = Event;

    fn next(&mut self) -> Option<Event> {
        let (event, count) = *self.items.get(self.position)?;
        self.times += 1;
        if self.times == count {
            self.position += 1;
            self.times = 0;
        }
        Some(event)
    }
}
