//! The binding's own tests, on the proved engine.

use super::*;
use crate::refusal::{grouped, word};

#[test]
fn numbers_are_the_papers() {
    let refusals = [
        Refusal::Length,
        Refusal::Edition,
        Refusal::Header,
        Refusal::Key,
        Refusal::Field { field: Field::Width },
        Refusal::Id,
        Refusal::Exponent,
        Refusal::HalfMove,
        Refusal::Corridor,
        Refusal::AfterEnd,
        Refusal::BeforeClock,
        Refusal::Malformed,
        Refusal::UnknownId,
        Refusal::Crossed,
        Refusal::AbsentNotZero,
        Refusal::PriceOutOfRange,
    ];
    for (refusal, number) in refusals.into_iter().zip(1..=16) {
        assert_eq!(refusal.number(), number);
        assert_eq!(Refusal::of(i64::from(number), 7), Some(refusal));
    }
    for number in [-1, 0, 17, 99] {
        assert_eq!(Refusal::of(number, 7), None);
    }
}

#[test]
fn places_are_the_papers() {
    for (field, place) in Field::ALL.into_iter().zip([1, 2, 3, 4, 5, 6, 7, 8, 10]) {
        assert_eq!(field.place(), place);
        assert_eq!(Refusal::of(5, i64::from(place)), Some(Refusal::Field { field }));
    }
    for place in [-1, 0, 9, 11] {
        assert_eq!(Refusal::of(5, place), None);
    }
    assert_eq!(Refusal::Field { field: Field::Days }.to_string(), "a field of a contract is out of range: days left");
}

#[test]
#[should_panic(expected = "another library")]
fn a_number_that_is_no_refusal_is_not_accepted() {
    let _ = demand_accepted(17, 0);
}

#[test]
#[should_panic(expected = "another library")]
fn a_field_that_is_not_named_is_not_accepted() {
    let _ = demand_accepted(5, 0);
}

#[test]
fn numbers_are_grouped_by_three_digits() {
    let texts = [0, 7, -12, 999, -999, 1000, -100_000, 1_000_000, i64::MIN].map(grouped);
    assert_eq!(texts[..5], ["0", "7", "-12", "999", "-999"]);
    assert_eq!(texts[5..], ["1,000", "-100,000", "1,000,000", "-9,223,372,036,854,775,808"]);
}

fn example(name: &str) -> Vec<u8> {
    std::fs::read(format!("{}/../examples/{name}", env!("CARGO_MANIFEST_DIR"))).expect("an example")
}

/// The header's counts say where the table ends.
fn parts(input: &[u8]) -> (&[u8], &[u8]) {
    input.split_at(40 + 40 * word(input, 4) as usize + 8 * word(input, 12) as usize)
}

/// Values of a contract's fields, each behind its field's place.
type Values = [(u8, i64)];

/// The table of examples/second, its second contract with other values. A negative one is put in as 32-bit two's complement.
fn second_with(values: &Values) -> Vec<u8> {
    let mut table = parts(&example("second")).0.to_vec();
    for &(place, value) in values {
        let at = 96 + 4 * usize::from(place - 1);
        table[at..at + 4].copy_from_slice(&(value as u32).to_le_bytes());
    }
    table
}

/// The second contract has price 30, rates 100,000, 200,000 and 300,000, and flags 2, so that bit 0 is clear.
#[test]
fn a_refused_field_is_named_with_its_value_and_its_range() {
    use Field::*;
    let cases: [(&Values, Field, i64, &str); 24] = [
        (&[(1, 0)], Price, 0, "settlement price: 0 is not within 1 to 100,000,000"),
        (&[(1, -1_500)], Price, -1_500, "settlement price: -1,500 is not within 1 to 100,000,000"),
        (&[(1, 100_000_001)], Price, 100_000_001, "settlement price: 100,000,001 is not within 1 to 100,000,000"),
        (&[(1, -1), (10, 4)], Price, -1, "settlement price: -1 is not within 1 to 100,000,000"),
        (
            &[(1, -100_000_001), (10, 3)],
            Price,
            -100_000_001,
            "settlement price: -100,000,001 is not within -100,000,000 to 100,000,000",
        ),
        (
            &[(1, 100_000_001), (10, 5)],
            Price,
            100_000_001,
            "settlement price: 100,000,001 is not within -100,000,000 to 100,000,000",
        ),
        (&[(2, 100_000_001)], Spot, 100_000_001, "spot: 100,000,001 is not within -100,000,000 to 100,000,000"),
        (&[(2, -100_000_001)], Spot, -100_000_001, "spot: -100,000,001 is not within -100,000,000 to 100,000,000"),
        (&[(3, 0)], Least, 0, "least price: 0 is not within 1 to 100,000,000"),
        (&[(3, -1)], Least, 4_294_967_295, "least price: 4,294,967,295 is not within 1 to 100,000,000"),
        (&[(4, 0)], Rate1, 0, "rate of level 1: 0 is not within 1 to 1,000,000"),
        (&[(4, 1_000_001)], Rate1, 1_000_001, "rate of level 1: 1,000,001 is not within 1 to 1,000,000"),
        (&[(4, 300_000)], Rate2, 200_000, "rate of level 2: 200,000 is not within 300,000 to 1,000,000"),
        (&[(5, 0)], Rate2, 0, "rate of level 2: 0 is not within 100,000 to 1,000,000"),
        (&[(5, 1_000_001)], Rate2, 1_000_001, "rate of level 2: 1,000,001 is not within 100,000 to 1,000,000"),
        (&[(5, 300_001)], Rate3, 300_000, "rate of level 3: 300,000 is not within 300,001 to 1,000,000"),
        (&[(6, 199_999)], Rate3, 199_999, "rate of level 3: 199,999 is not within 200,000 to 1,000,000"),
        (&[(6, 1_000_001)], Rate3, 1_000_001, "rate of level 3: 1,000,001 is not within 200,000 to 1,000,000"),
        (&[(7, 1_200_000)], Width, 1_200_000, "width share: 1,200,000 is not within 0 to 1,000,000"),
        (&[(7, -1)], Width, 4_294_967_295, "width share: 4,294,967,295 is not within 0 to 1,000,000"),
        (&[(8, 3_651)], Days, 3_651, "days left: 3,651 is not within 0 to 3,650"),
        (&[(10, 4)], Flags, 4, "flags: 4 is not within 0 to 3"),
        (&[(10, 5)], Flags, 5, "flags: 5 is not within 0 to 3"),
        (
            &[(7, 1_000_001), (8, 3_651), (9, 0)],
            Width,
            1_000_001,
            "width share: 1,000,001 is not within 0 to 1,000,000",
        ),
    ];
    for (values, field, value, message) in cases {
        let refused = Session::open(&second_with(values)).unwrap_err();
        let Some(Fault { value: found, range }) = refused.fault else { panic!("no fault: {refused}") };
        assert_eq!((refused.refusal, refused.line, found), (Refusal::Field { field }, 2, value));
        assert_eq!(refused.to_string(), format!("line 2, {message} (refusal 5)"));
        // The engine knows the same range: it finds no fault in either end of it, and one in the next value beyond.
        let at_fault = |value| {
            let table = second_with(&[values, &[(field.place(), value)]].concat());
            Session::open(&table).is_err_and(|refused| refused.refusal == Refusal::Field { field })
        };
        assert!(!at_fault(range.lower) && !at_fault(range.upper), "{message}");
        assert!(at_fault(range.lower - 1) && at_fault(range.upper + 1), "{message}");
    }
}

#[test]
fn a_field_that_depends_on_another_passes_beside_it() {
    let all: [&Values; 5] = [&[(1, 1)], &[(1, 0), (10, 3)], &[(1, -1), (10, 3)], &[(5, 100_000)], &[(6, 200_000)]];
    for values in all {
        assert!(Session::open(&second_with(values)).is_ok(), "{values:?}");
    }
}

#[test]
fn a_refused_field_is_read_from_its_own_line() {
    let input = example("starred");
    let (start, contract) = parts(&input).0.split_at(48);
    let mut table = start.to_vec();
    table[4] = 20;
    for id in 1..=20 {
        table.extend(contract);
        let at = table.len() - 8;
        table[at] = id;
    }
    let width = 48 + 40 * 18 + 24;
    table[width..width + 4].copy_from_slice(&1_200_000u32.to_le_bytes());
    let refused = Session::open(&table).unwrap_err();
    assert_eq!(refused.to_string(), "line 19, width share: 1,200,000 is not within 0 to 1,000,000 (refusal 5)");
}

#[test]
fn another_refusal_has_no_fault() {
    for (values, message) in [
        (&[(9, 21)][..], "line 2: a contract's id is 0 or used on an earlier line (refusal 6)"),
        (&[(2, 1), (4, 1)], "line 2: a contract's half-move is 0 (refusal 8)"),
    ] {
        let refused = Session::open(&second_with(values)).unwrap_err();
        assert_eq!(refused.to_string(), message);
        assert_eq!(refused.fault, None);
    }
}

#[test]
fn events_one_by_one_are_the_buffer() {
    for name in ["starred", "second"] {
        let input = example(name);
        let (table, events) = parts(&input);
        let mut one = Session::open(table).expect("a good table");
        let mut other = one.clone();
        let mut answers = Vec::new();
        for (bytes, event) in events.chunks(20).zip(1..) {
            match one.bytes(bytes) {
                Ok(answer) => answers.extend(answer.shifts().map(Ok)),
                Err(refusal) => answers.push(Err(RefusedEvent { refusal, event })),
            }
        }
        assert_eq!(answers, other.feed(events));
        assert_eq!(one, other);
    }
}

#[test]
fn a_refusal_in_a_buffer_says_which_event_it_was() {
    let mut session = Session::open(parts(&example("starred")).0).expect("a good table");
    let quote = |time, id, bid, ask| Event::Quote { time, id, bid, ask }.to_bytes();
    let tick = |time| Event::Tick { time }.to_bytes();
    let events = [
        quote(10, 7, Some(1046), None),
        quote(20, 8, Some(1046), None),
        tick(70),
        tick(69),
        quote(80, 7, Some(1001), Some(1000)),
        quote(90, 7, None, None),
        tick(1001),
    ];
    let refused = |refusal, event| Err(RefusedEvent { refusal, event });
    let told = [
        refused(Refusal::UnknownId, 2),
        Ok(Shift { second: 70, side: Side::Up, id: 7 }),
        refused(Refusal::BeforeClock, 4),
        refused(Refusal::Crossed, 5),
        refused(Refusal::AfterEnd, 7),
        refused(Refusal::Malformed, 8),
    ];
    assert_eq!(session.feed(&[&events.concat()[..], &[0; 19]].concat()), told);
    assert_eq!(session.feed(&tick(89)), [refused(Refusal::BeforeClock, 1)]);
}

#[test]
fn a_quote_is_refused_for_an_absent_price_and_for_its_range() {
    let mut session = Session::open(parts(&example("starred")).0).expect("a good table");
    let quote = |bid, ask| Event::Quote { time: 1, id: 7, bid, ask };
    for (bid, ask) in [(None, Some(2_000_000_001)), (Some(-2_000_000_001), None), (Some(i32::MAX), Some(0))] {
        assert_eq!(session.event(quote(bid, ask)).unwrap_err(), Refusal::PriceOutOfRange);
    }
    assert!(session.event(quote(Some(-2_000_000_000), Some(2_000_000_000))).is_ok());
    // An absent price comes first where both are wrong.
    for (event, at) in [(quote(None, Some(1000)), 12), (quote(None, None), 16), (quote(Some(i32::MAX), None), 16)] {
        let mut bytes = event.to_bytes();
        bytes[at] = 1;
        assert_eq!(session.bytes(&bytes).unwrap_err(), Refusal::AbsentNotZero);
    }
    let mut tick = Event::Tick { time: 1 }.to_bytes();
    tick[12] = 1;
    assert_eq!(session.bytes(&tick).unwrap_err(), Refusal::Malformed);
}

#[test]
fn a_report_says_what_the_other_questions_say() {
    let input = example("starred");
    let (table, events) = parts(&input);
    let mut session = Session::open(table).expect("a good table");
    session.feed(events);
    let report = session.report(7).expect("a known contract");
    assert_eq!(report.limits, session.limits(7).expect("a known contract"));
    assert!(report.interest.lower <= report.limits.lower && report.limits.upper <= report.interest.upper);
    assert_eq!(session.report(8), Err(Refusal::UnknownId));
}

#[test]
fn a_refused_table_opens_no_session() {
    let input = example("starred");
    let session = Session::open(parts(&input).0).expect("a good table");
    let mut numbers = session.numbers();
    assert_eq!(library::open(&mut numbers, &[]), (1, 0, 0));
    assert_eq!(Session::from_numbers(numbers), Err(Damaged));
}

#[test]
fn a_refusal_changes_nothing() {
    let input = example("starred");
    let mut session = Session::open(parts(&input).0).expect("a good table");
    let before = session.clone();
    let crossed = Event::Quote { time: 1, id: 7, bid: Some(1001), ask: Some(1000) };
    assert_eq!(session.event(crossed).unwrap_err(), Refusal::Crossed);
    assert_eq!(session.bytes(&[0; 19]).unwrap_err(), Refusal::Malformed);
    assert_eq!(session, before);
}
