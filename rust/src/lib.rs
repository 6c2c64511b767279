//! The proved price-corridor engine inside a Rust process, event by event.
//!
//! ```
//! use sundewcup::{Event, Place, Refusal, Session};
//!
//! let input = std::fs::read(concat!(env!("CARGO_MANIFEST_DIR"), "/../examples/starred"))?;
//! let (table, events) = input.split_at(88);
//! let mut session = Session::open(table)?;
//! let mut shifts = Vec::new();
//! for bytes in events.chunks(20) {
//!     shifts.extend(session.bytes(bytes)?.shifts().map(|shift| shift.second));
//! }
//! assert_eq!(shifts, [70, 160]);
//! assert_eq!(session.place(7, 1151)?, Place::Above);
//! assert_eq!(session.limits(7)?.upper, 1150);
//! assert_eq!(session.place(8, 1000), Err(Refusal::UnknownId));
//! assert_eq!(session.event(Event::Tick { time: 0 }).unwrap_err(), Refusal::BeforeClock);
//! # Ok::<(), Box<dyn std::error::Error>>(())
//! ```
//!
//! What is proved and what a host must not do is in docs/HOSTS.md. Safe Rust cannot break it: a [`Session`] hands out a copy of its
//! numbers, and takes none back that it does not find sound.

mod library;
mod refusal;

pub use refusal::{Fault, Field, Refusal, RefusedEvent, RefusedTable};

use std::error::Error;
use std::fmt;

/// What a host tells the engine. Prices are in whole minimum steps, times in seconds from session start.
#[derive(Clone, Copy, Debug, PartialEq, Eq)]
pub enum Event {
    Tick { time: u32 },
    Quote { time: u32, id: u32, bid: Option<i32>, ask: Option<i32> },
}

impl Event {
    /// The 20 bytes of the event: time, id, flags, bid, ask, the lowest byte of each first.
    ///
    /// ```
    /// use sundewcup::Event;
    /// let bytes = Event::Quote { time: 10, id: 7, bid: Some(1046), ask: None }.to_bytes();
    /// assert_eq!(bytes, [10, 0, 0, 0, 7, 0, 0, 0, 1, 0, 0, 0, 22, 4, 0, 0, 0, 0, 0, 0]);
    /// ```
    pub fn to_bytes(self) -> [u8; 20] {
        let fields = match self {
            Event::Tick { time } => [time, 0, 4, 0, 0],
            Event::Quote { time, id, bid, ask } => {
                let flags = u32::from(bid.is_some()) + 2 * u32::from(ask.is_some());
                [time, id, flags, bid.unwrap_or(0) as u32, ask.unwrap_or(0) as u32]
            }
        };
        let mut bytes = [0; 20];
        for (place, field) in bytes.chunks_exact_mut(4).zip(fields) {
            place.copy_from_slice(&field.to_le_bytes());
        }
        bytes
    }
}

#[derive(Clone, Copy, Debug, PartialEq, Eq)]
pub enum Side {
    Up,
    Down,
}

/// A shift: the second at which its hold fell due, its side, and the contract that called for it.
#[derive(Clone, Copy, Debug, PartialEq, Eq)]
pub struct Shift {
    pub second: u32,
    pub side: Side,
    pub id: u32,
}

impl Shift {
    fn of(row: &[i64]) -> Shift {
        Shift { second: small(row[1]), side: if row[2] == 0 { Side::Up } else { Side::Down }, id: small(row[3]) }
    }
}

/// The answer to an accepted event: its shifts, in the order in which they were made.
#[derive(Clone, Debug)]
pub struct Answer {
    rows: [i64; library::SHIFT_NUMBERS],
    made: usize,
}

impl Answer {
    pub fn shifts(&self) -> impl Iterator<Item = Shift> + '_ {
        self.rows.chunks_exact(6).take(self.made).map(Shift::of)
    }
}

/// Where an order price lies. Both limits count as inside.
#[derive(Clone, Copy, Debug, PartialEq, Eq)]
pub enum Place {
    Below,
    Inside,
    Above,
}

/// The limits of a contract; `frozen` where the lower one stands at one step and no shift down moves it.
#[derive(Clone, Copy, Debug, PartialEq, Eq)]
pub struct Limits {
    pub lower: i64,
    pub upper: i64,
    pub frozen: bool,
}

/// A hold: since when a line presses, and when it falls due.
#[derive(Clone, Copy, Debug, PartialEq, Eq)]
pub struct Hold {
    pub start: u32,
    pub due: u32,
}

/// A lower and an upper bound.
#[derive(Clone, Copy, Debug, PartialEq, Eq)]
pub struct Bounds {
    pub lower: i64,
    pub upper: i64,
}

/// All that stands on a contract's line. `market` has the bounds of levels 1 to 3.
#[derive(Clone, Copy, Debug, PartialEq, Eq)]
pub struct Report {
    pub limits: Limits,
    pub interest: Bounds,
    pub centre: i64,
    pub market: [Bounds; 3],
    pub up: Option<Hold>,
    pub down: Option<Hold>,
    pub bid: Option<i64>,
    pub ask: Option<i64>,
    pub shifts_left: u32,
    pub clock: u32,
}

impl Report {
    fn of(out: &[i64; library::REPORT_NUMBERS]) -> Report {
        let bounds = |at: usize| Bounds { lower: out[at], upper: out[at + 1] };
        let hold = |at: usize| (out[at] != 0).then(|| Hold { start: small(out[at + 1]), due: small(out[at + 2]) });
        let price = |at: usize| (out[at] != 0).then_some(out[at + 1]);
        Report {
            limits: Limits { lower: out[0], upper: out[1], frozen: out[2] != 0 },
            interest: bounds(3),
            centre: out[5],
            market: [bounds(6), bounds(8), bounds(10)],
            up: hold(12),
            down: hold(15),
            bid: price(18),
            ask: price(20),
            shifts_left: small(out[22]),
            clock: small(out[23]),
        }
    }
}

/// Numbers that are no session, or a damaged one.
#[derive(Clone, Copy, Debug, PartialEq, Eq)]
pub struct Damaged;

impl fmt::Display for Damaged {
    fn fmt(&self, f: &mut fmt::Formatter<'_>) -> fmt::Result {
        f.write_str("the numbers are no session, or a damaged one")
    }
}

impl Error for Damaged {}

/// A session. A clone is a snapshot that goes on by itself.
#[derive(Clone, PartialEq, Eq)]
pub struct Session {
    numbers: Box<[u64; library::SESSION_NUMBERS]>,
}

const ANOTHER_LIBRARY: &str = "another library than this package was written for";

/// Memory of another size than the linked library's would be read and written past its end. A library from before the field of a refusal
/// would name none, and no place of a refused event: it is found out here, and not on the morning of a bad table.
fn demand_same_library() {
    assert_eq!(library::session_numbers(), library::SESSION_NUMBERS, "{ANOTHER_LIBRARY}");
    assert_eq!(library::open(&mut [0; library::SESSION_NUMBERS], &[]), (1, 0, 0), "{ANOTHER_LIBRARY}");
}

/// A number that is no refusal's must not pass for an answer.
fn demand_accepted(number: i64, field: i64) -> Result<(), Refusal> {
    match number {
        0 => Ok(()),
        _ => Err(Refusal::of(number, field).expect(ANOTHER_LIBRARY)),
    }
}

impl Session {
    /// Opens a session from the bytes of a morning table.
    ///
    /// ```
    /// let refused = sundewcup::Session::open(&[]).unwrap_err();
    /// assert_eq!(refused.to_string(), "header: the table's length is not what its header says (refusal 1)");
    /// ```
    pub fn open(table: &[u8]) -> Result<Session, RefusedTable> {
        demand_same_library();
        let mut numbers = Box::new([0; library::SESSION_NUMBERS]);
        let (number, line, field) = library::open(&mut numbers, table);
        match demand_accepted(number, field) {
            Ok(()) => Ok(Session { numbers }),
            Err(refusal) => Err(RefusedTable::of(refusal, small(line), table)),
        }
    }

    /// A snapshot, for another process to take over by [`Session::from_numbers`].
    pub fn numbers(&self) -> [u64; library::SESSION_NUMBERS] {
        *self.numbers
    }

    /// The session of a snapshot. Numbers that were changed on the way are refused, unless they are another sound session.
    ///
    /// ```
    /// # let input = std::fs::read(concat!(env!("CARGO_MANIFEST_DIR"), "/../examples/starred"))?;
    /// use sundewcup::{Damaged, Session};
    /// let session = Session::open(&input[..88])?;
    /// let mut numbers = session.numbers();
    /// assert_eq!(Session::from_numbers(numbers), Ok(session));
    /// numbers[0] = 0;
    /// assert_eq!(Session::from_numbers(numbers), Err(Damaged));
    /// # Ok::<(), Box<dyn std::error::Error>>(())
    /// ```
    pub fn from_numbers(numbers: [u64; library::SESSION_NUMBERS]) -> Result<Session, Damaged> {
        demand_same_library();
        match library::check(&numbers) {
            0 => Ok(Session { numbers: Box::new(numbers) }),
            _ => Err(Damaged),
        }
    }

    /// One event. A refusal changes nothing.
    pub fn event(&mut self, event: Event) -> Result<Answer, Refusal> {
        self.bytes(&event.to_bytes())
    }

    /// One event as it comes from the wire; bytes that are no event are refused.
    pub fn bytes(&mut self, event: &[u8]) -> Result<Answer, Refusal> {
        let mut rows = [0; library::SHIFT_NUMBERS];
        let (number, made) = library::event(&mut self.numbers, event, &mut rows);
        demand_accepted(number, 0)?;
        Ok(Answer { rows, made })
    }

    /// A buffer of events, 20 bytes each, as if each were handed over in turn: the shifts and the refusals, in their order. A refusal
    /// says which event of this buffer it was, counted from 1; each buffer counts anew.
    ///
    /// ```
    /// # let input = std::fs::read(concat!(env!("CARGO_MANIFEST_DIR"), "/../examples/starred"))?;
    /// use sundewcup::{Event, Refusal, RefusedEvent, Session};
    /// let mut session = Session::open(&input[..88])?;
    /// let events = [30, 20, 40].map(|time| Event::Tick { time }.to_bytes()).concat();
    /// let refused = RefusedEvent { refusal: Refusal::BeforeClock, event: 2 };
    /// assert_eq!(session.feed(&events), [Err(refused)]);
    /// assert_eq!(refused.to_string(), "event 2: the event's time is before the clock (refusal 11)");
    /// # Ok::<(), Box<dyn std::error::Error>>(())
    /// ```
    pub fn feed(&mut self, events: &[u8]) -> Vec<Result<Shift, RefusedEvent>> {
        let mut out = vec![0; 6 * (events.len().div_ceil(20) + 16)];
        let written = library::feed(&mut self.numbers, events, &mut out);
        out[..written].chunks_exact(6).map(told).collect()
    }

    /// Where an order price of a contract lies, as of the last event's second.
    pub fn place(&self, id: u32, price: i64) -> Result<Place, Refusal> {
        match library::place(&self.numbers, id, price) {
            -1 => Ok(Place::Below),
            0 => Ok(Place::Inside),
            1 => Ok(Place::Above),
            _ => Err(Refusal::UnknownId),
        }
    }

    /// The limits of a contract, as of the last event's second.
    pub fn limits(&self, id: u32) -> Result<Limits, Refusal> {
        let mut out = [0; 3];
        demand_accepted(library::limits(&self.numbers, id, &mut out), 0)?;
        Ok(Limits { lower: out[0], upper: out[1], frozen: out[2] != 0 })
    }

    /// All that stands on a contract's line, as of the last event's second.
    pub fn report(&self, id: u32) -> Result<Report, Refusal> {
        let mut out = [0; library::REPORT_NUMBERS];
        demand_accepted(library::report(&self.numbers, id, &mut out), 0)?;
        Ok(Report::of(&out))
    }
}

impl fmt::Debug for Session {
    fn fmt(&self, f: &mut fmt::Formatter<'_>) -> fmt::Result {
        f.write_str("Session")
    }
}

fn told(row: &[i64]) -> Result<Shift, RefusedEvent> {
    match row[0] {
        1 => Ok(Shift::of(row)),
        _ => Err(RefusedEvent { refusal: Refusal::of(row[1], 0).expect(ANOTHER_LIBRARY), event: row[2] as usize }),
    }
}

/// Seconds, ids and lines are numbers of 32 bits.
fn small(number: i64) -> u32 {
    u32::try_from(number).expect("a number of 32 bits")
}

#[cfg(test)]
mod tests;
