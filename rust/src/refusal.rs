//! Why a table or an event is refused, and what a refused table has in the field at fault. The engine names number, line and field; the value and
//! its range are read off the table here, for a person to see.

use crate::Bounds;
use std::error::Error;
use std::fmt;

/// A field of a contract's line in the table. The id is not among them, since it has a refusal of its own.
#[derive(Clone, Copy, Debug, PartialEq, Eq, Hash)]
#[repr(u8)]
pub enum Field {
    Price = 1,
    Spot,
    Least,
    Rate1,
    Rate2,
    Rate3,
    Width,
    Days,
    Flags = 10,
}

impl Field {
    pub(crate) const ALL: [Field; 9] = [
        Field::Price,
        Field::Spot,
        Field::Least,
        Field::Rate1,
        Field::Rate2,
        Field::Rate3,
        Field::Width,
        Field::Days,
        Field::Flags,
    ];

    /// Its place in the line, 1 to 10 without 9, which is the id's.
    pub fn place(self) -> u8 {
        self as u8
    }

    fn of(place: i64) -> Option<Field> {
        Field::ALL.into_iter().find(|field| i64::from(field.place()) == place)
    }

    /// The value that stands in a contract's bytes.
    fn value(self, contract: &[u8]) -> i64 {
        let value = word(contract, 4 * usize::from(self.place() - 1));
        match self {
            Field::Price | Field::Spot => i64::from(value as i32),
            _ => i64::from(value),
        }
    }

    /// From where to where it may be, beside the contract's other fields. The rate before a later one is in its own range, since the
    /// engine names the first field at fault.
    fn range(self, contract: &[u8]) -> Bounds {
        let (lower, upper) = match self {
            Field::Price if Field::Flags.value(contract) % 2 == 0 => (1, 100_000_000),
            Field::Price | Field::Spot => (-100_000_000, 100_000_000),
            Field::Least => (1, 100_000_000),
            Field::Rate1 => (1, 1_000_000),
            Field::Rate2 => (Field::Rate1.value(contract), 1_000_000),
            Field::Rate3 => (Field::Rate2.value(contract), 1_000_000),
            Field::Width => (0, 1_000_000),
            Field::Days => (0, 3_650),
            Field::Flags => (0, 3),
        };
        Bounds { lower, upper }
    }
}

impl fmt::Display for Field {
    fn fmt(&self, f: &mut fmt::Formatter<'_>) -> fmt::Result {
        f.write_str(match self {
            Field::Price => "settlement price",
            Field::Spot => "spot",
            Field::Least => "least price",
            Field::Rate1 => "rate of level 1",
            Field::Rate2 => "rate of level 2",
            Field::Rate3 => "rate of level 3",
            Field::Width => "width share",
            Field::Days => "days left",
            Field::Flags => "flags",
        })
    }
}

/// Why something is refused, by the numbers of the method.
#[derive(Clone, Copy, Debug, PartialEq, Eq, Hash)]
pub enum Refusal {
    Length,
    Edition,
    Header,
    Key,
    Field { field: Field },
    Id,
    Exponent,
    HalfMove,
    Corridor,
    AfterEnd,
    BeforeClock,
    Malformed,
    UnknownId,
    Crossed,
    AbsentNotZero,
    PriceOutOfRange,
}

impl Refusal {
    /// The number of the refusal, 1 to 16.
    pub fn number(self) -> u8 {
        match self {
            Refusal::Length => 1,
            Refusal::Edition => 2,
            Refusal::Header => 3,
            Refusal::Key => 4,
            Refusal::Field { .. } => 5,
            Refusal::Id => 6,
            Refusal::Exponent => 7,
            Refusal::HalfMove => 8,
            Refusal::Corridor => 9,
            Refusal::AfterEnd => 10,
            Refusal::BeforeClock => 11,
            Refusal::Malformed => 12,
            Refusal::UnknownId => 13,
            Refusal::Crossed => 14,
            Refusal::AbsentNotZero => 15,
            Refusal::PriceOutOfRange => 16,
        }
    }

    /// The refusal of a number, and of a field's place where the number is 5.
    pub(crate) fn of(number: i64, field: i64) -> Option<Refusal> {
        Some(match number {
            1 => Refusal::Length,
            2 => Refusal::Edition,
            3 => Refusal::Header,
            4 => Refusal::Key,
            5 => Refusal::Field { field: Field::of(field)? },
            6 => Refusal::Id,
            7 => Refusal::Exponent,
            8 => Refusal::HalfMove,
            9 => Refusal::Corridor,
            10 => Refusal::AfterEnd,
            11 => Refusal::BeforeClock,
            12 => Refusal::Malformed,
            13 => Refusal::UnknownId,
            14 => Refusal::Crossed,
            15 => Refusal::AbsentNotZero,
            16 => Refusal::PriceOutOfRange,
            _ => return None,
        })
    }
}

impl fmt::Display for Refusal {
    fn fmt(&self, f: &mut fmt::Formatter<'_>) -> fmt::Result {
        f.write_str(match self {
            Refusal::Length => "the table's length is not what its header says",
            Refusal::Edition => "the table's edition is not known",
            Refusal::Header => "a field of the table's header is out of range",
            Refusal::Key => "a growth key is out of range or out of order",
            Refusal::Field { field } => return write!(f, "a field of a contract is out of range: {field}"),
            Refusal::Id => "a contract's id is 0 or used on an earlier line",
            Refusal::Exponent => "a contract's exponent is beyond its cap",
            Refusal::HalfMove => "a contract's half-move is 0",
            Refusal::Corridor => "a contract's limits lie beyond its interest bounds",
            Refusal::AfterEnd => "the event's time is after session end",
            Refusal::BeforeClock => "the event's time is before the clock",
            Refusal::Malformed => "the bytes are no event",
            Refusal::UnknownId => "no contract has this id",
            Refusal::Crossed => "the quote's bid is above its ask",
            Refusal::AbsentNotZero => "an absent price of the quote is not 0",
            Refusal::PriceOutOfRange => "a price of the quote is out of range",
        })
    }
}

impl Error for Refusal {}

/// What stands in a field at fault, and the lowest and the highest value that may stand there.
#[derive(Clone, Copy, Debug, PartialEq, Eq)]
pub struct Fault {
    pub value: i64,
    pub range: Bounds,
}

/// A table that was refused, with the line at fault: counted from 1, 0 for the header. Where the refusal names a field, `fault` says
/// what stands in it.
///
/// ```
/// use sundewcup::{Bounds, Fault, Field, Refusal, Session};
///
/// let input = std::fs::read(concat!(env!("CARGO_MANIFEST_DIR"), "/../examples/starred"))?;
/// let mut table = input[..88].to_vec();
/// table[72..76].copy_from_slice(&1_200_000u32.to_le_bytes());
/// let refused = Session::open(&table).unwrap_err();
/// assert_eq!(refused.to_string(), "line 1, width share: 1,200,000 is not within 0 to 1,000,000 (refusal 5)");
/// assert_eq!(refused.refusal, Refusal::Field { field: Field::Width });
/// assert_eq!(refused.fault, Some(Fault { value: 1_200_000, range: Bounds { lower: 0, upper: 1_000_000 } }));
/// # Ok::<(), std::io::Error>(())
/// ```
#[derive(Clone, Copy, Debug, PartialEq, Eq)]
pub struct RefusedTable {
    pub refusal: Refusal,
    pub line: u32,
    pub fault: Option<Fault>,
}

impl RefusedTable {
    /// A field is named only where the table is as long as its header says, so that the line lies in it. Contracts have 40 bytes, and
    /// stand behind the header, of 40 too, and the keys, of 8.
    pub(crate) fn of(refusal: Refusal, line: u32, table: &[u8]) -> RefusedTable {
        let fault = match refusal {
            Refusal::Field { field } => {
                let contract = &table[40 + 8 * word(table, 12) as usize + 40 * (line as usize - 1)..];
                Some(Fault { value: field.value(contract), range: field.range(contract) })
            }
            _ => None,
        };
        RefusedTable { refusal, line, fault }
    }
}

impl fmt::Display for RefusedTable {
    fn fmt(&self, f: &mut fmt::Formatter<'_>) -> fmt::Result {
        match (self.line, self.refusal, self.fault) {
            (line, Refusal::Field { field }, Some(Fault { value, range: Bounds { lower, upper } })) => {
                let [value, lower, upper] = [value, lower, upper].map(grouped);
                write!(f, "line {line}, {field}: {value} is not within {lower} to {upper}")?;
            }
            (0, refusal, _) => write!(f, "header: {refusal}")?,
            (line, refusal, _) => write!(f, "line {line}: {refusal}")?,
        }
        write!(f, " (refusal {})", self.refusal.number())
    }
}

impl Error for RefusedTable {}

/// An event of a buffer that was refused, and which one of that buffer it was: counted from 1, with those that were accepted.
#[derive(Clone, Copy, Debug, PartialEq, Eq)]
pub struct RefusedEvent {
    pub refusal: Refusal,
    pub event: usize,
}

impl fmt::Display for RefusedEvent {
    fn fmt(&self, f: &mut fmt::Formatter<'_>) -> fmt::Result {
        write!(f, "event {}: {} (refusal {})", self.event, self.refusal, self.refusal.number())
    }
}

impl Error for RefusedEvent {}

/// The field of four bytes from there on, the lowest first.
pub(crate) fn word(bytes: &[u8], at: usize) -> u32 {
    u32::from_le_bytes(bytes[at..at + 4].try_into().expect("four bytes"))
}

/// A number as people read it, with a comma before each three digits.
pub(crate) fn grouped(number: i64) -> String {
    match number / 1_000 {
        0 => number.to_string(),
        thousands => format!("{},{:03}", grouped(thousands), (number % 1_000).abs()),
    }
}
