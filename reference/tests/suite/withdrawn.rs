//! Refusal 14 is withdrawn: no 0BH amount ever met it, and without its row the table answers alike.

use reference::{apply_bus_edit, extend, read, walk, write_bus_edit, Outcome, Report};

use crate::kit::{
    bus_message, found, less_real_time, noisy, outcome, read_as, report, reported, with_real_time,
    P,
};
use crate::model;

/// The first two of each are allowed.
const SOURCES: [u8; 4] = [0, 0x10, 21, 0xF7];
const DESTINATIONS: [u8; 4] = [0, 32, 33, 0xF0];

/// Every byte as amount on every byte as bus, with each source and destination, hostile ones first.
fn edits() -> impl Iterator<Item = [u8; 4]> {
    (0..16 << 16).rev().map(|number: u32| {
        let [_, route, bus, amount] = number.to_be_bytes();
        let (source, destination) = (usize::from(route / 4), usize::from(route % 4));
        [bus, SOURCES[source], amount, DESTINATIONS[destination]]
    })
}

/// An amount after this bit is copied into bit 7.
fn extended(amount: u8, bit: u8) -> i8 {
    (amount | amount >> bit << 7).cast_signed()
}

/// Whether it is then outside -64..63.
fn outside(amount: u8, bit: u8) -> bool {
    !(-64..=63).contains(&extended(amount, bit))
}

/// The table's rows for an edit, in order: what each answers where it applies.
fn rows([bus, source, amount, destination]: [u8; 4], bit: u8) -> [Option<Outcome>; 5] {
    let (number, place) = (usize::from(bus), 104 + 3 * usize::from(bus));
    [
        (bus > 9 || amount > 127).then_some(outcome(8, 0)),
        (source > 20).then_some(found(place, source.into())),
        outside(amount, bit).then_some(found(place + 1, extended(amount, bit).into())),
        (destination > 32).then_some(found(place + 2, destination.into())),
        ((source == 0) != (destination == 0)).then_some(outcome(12, number)),
    ]
}

/// What the former table answers, in which 14 comes just after 8.
fn former(edit: [u8; 4], bit: u8) -> Option<Outcome> {
    let [eight, others @ ..] = rows(edit, bit);
    let fourteen = outside(edit[2], bit).then_some(outcome(14, 0));
    [eight, fourteen].into_iter().chain(others).flatten().next()
}

/// A call answers this, and changes the bytes lent to it exactly when it is done.
fn answers(lent: &[u8], expected: Outcome, call: impl FnOnce(&mut [u8]) -> Outcome) {
    let mut after = lent.to_vec();
    assert_eq!(call(&mut after), expected);
    assert_eq!(after != lent, expected.answer == 0);
}

#[test]
fn written_and_applied() {
    let mut good = P;
    good[104..].fill(1);
    let mut wide_amount = good;
    wide_amount[105] = 0x40;
    let patches = [
        (&[][..], outcome(7, 0)),
        (&good[..133], outcome(7, 0)),
        (&[0xFF; 135], outcome(7, 0)),
        (&[0; 134], found(76, 0)),
        (&wide_amount, found(105, 64)),
        (&good, outcome(0, 0)),
    ];
    let mut met = [0; 15];
    for edit @ [bus, source, amount, destination] in edits() {
        let refusal = rows(edit, 6).into_iter().flatten().next();
        assert_eq!(refusal, former(edit, 6), "{edit:?}");
        let write = |out: &mut [u8]| write_bus_edit(bus, source, amount, destination, out);
        answers(&[0xA5; 8], refusal.unwrap_or(outcome(13, 0)), write);
        answers(&[0xA5; 9], refusal.unwrap_or(outcome(0, 9)), write);
        let apply = |patch: &mut [u8]| apply_bus_edit(patch, bus, source, amount, destination);
        for (patch, tested) in patches {
            answers(patch, refusal.unwrap_or(tested), apply);
        }
        met[refusal.map_or(0, |refusal| usize::from(refusal.answer))] += 1;
    }
    let allowed = 10 * 128;
    assert_eq!(met[8], 16 * (256 * 256 - allowed));
    let counts = [0, 11, 12, 14].map(|answer| met[answer]);
    assert_eq!(counts, [2, 12, 2, 0].map(|routes| routes * allowed));
}

/// The report of the message that starts here. No stream below has another of the eleven opcodes.
fn message(stream: &[u8], start: usize) -> Report {
    let mut parts = stream[start + 1..].split(|byte| (0x80..=0xF7).contains(byte));
    let inside = parts.next().unwrap_or_default();
    let end = start + 1 + inside.len();
    let tested = match (stream.get(end), &less_real_time(inside)[..]) {
        (None, _) => outcome(2, 0),
        (Some(0x80..=0xF6), _) => outcome(3, 0),
        (_, &[0x10, 0x06, 0x0B, a, b, c, d]) => former([a, b, c, d], 6).unwrap_or(outcome(0, 0x0B)),
        (_, [0x10, 0x06, 0x0B, ..]) => outcome(7, 0),
        (_, [0x10, 0x06, ..]) => outcome(6, 0),
        (_, [0x10, ..]) => outcome(5, 0),
        _ => outcome(4, 0),
    };
    let end = end + usize::from(stream.get(end) == Some(&0xF7));
    noisy(model::noise(inside), reported(start, end, tested))
}

#[test]
fn read_from_any_place() {
    let mut met = [0; 15];
    for edit in edits() {
        let plain = bus_message(edit);
        let stream = [&[0xF0], &with_real_time(&plain)[..], &plain, &[0xF0]].concat();
        let mut next = report(28, 28, 1, 0);
        for place in (0..=29).rev() {
            if stream.get(place) == Some(&0xF0) {
                next = message(&stream, place);
                let found = read(&stream, place, &mut []);
                assert_eq!(read_as(&found), next);
                met[usize::from(found.answer)] += 1;
            }
            assert_eq!(walk(&stream, place), next, "{edit:?}");
        }
    }
    // Four F0H in each stream, and two more for each among an edit's bytes.
    let among = 4 * 256 * 256 + 2 * 16 * 256;
    assert_eq!(met.iter().sum::<usize>(), 4 * 16 * 256 * 256 + 2 * among);
    assert!((0..15).all(|answer| [1, 9, 10, 13, 14].contains(&answer) == (met[answer] == 0)));
}

#[test]
fn an_extended_amount_is_never_outside() {
    let extended = (0..=127).map(|amount| extend(amount).cast_signed());
    assert!(extended.eq((0..=63).chain(-64..=-1)));
    assert!((0..=127).all(|amount| extend(amount) & 0x7F == amount));
}

#[test]
fn a_sign_from_bit_5_would_have_met_14() {
    let met = edits().filter(|&edit| former(edit, 5) == Some(outcome(14, 0)));
    assert_eq!(met.count(), 16 * 10 * 64);
}
