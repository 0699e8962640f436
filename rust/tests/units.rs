//! The operations, by source document 000 and document 02, and what they do to a unit.

use std::fs;
use std::path::Path;

use matrix1000::{
    chain, incoming, messages, reports, to_vec, Bus, BusEdit, Edit, Error, Kind, Length, Master,
    Message, NotAllowed, Parameter, Patch, Reader, Report, Request, Split, Step, Target, Unit,
};

/// The operations, and how many bytes each has behind its opcode.
const OPERATIONS: [(Kind, u8, usize); 5] = [
    (Kind::Request, 0x04, 2),
    (Kind::GroupMode, 0x07, 2),
    (Kind::SetBank, 0x0A, 1),
    (Kind::UnlockBank, 0x0C, 0),
    (Kind::Store, 0x0E, 3),
];

fn is_operation(kind: Kind) -> bool {
    OPERATIONS.iter().any(|(operation, ..)| *operation == kind)
}

/// What is not allowed of the bytes behind an opcode: the first in their order.
fn refusal(opcode: u8, behind: &[u8]) -> Option<NotAllowed> {
    match (opcode, behind) {
        (0x04, &[1, number]) => (number > 99).then_some(NotAllowed::PatchNumber(number)),
        (0x04, &[0 | 3 | 4, number]) => (number > 0).then_some(NotAllowed::RequestNumber(number)),
        (0x04, &[kind, _]) => Some(NotAllowed::RequestType(kind)),
        (0x07, &[2..=6, id]) => (id > 5).then_some(NotAllowed::UnitNumber(id)),
        (0x07, &[total, _]) => Some(NotAllowed::Total(total)),
        (0x0A, &[bank]) => (bank > 9).then_some(NotAllowed::Bank(bank)),
        (0x0C, &[]) | (0x0E, &[0..=99, 0..=9, 0..=5 | 0x7F]) => None,
        (0x0E, &[0..=99, 0..=9, id]) => Some(NotAllowed::Target(id)),
        (0x0E, &[0..=99, bank, _]) => Some(NotAllowed::Bank(bank)),
        (0x0E, &[number, ..]) => Some(NotAllowed::PatchNumber(number)),
        other => panic!("{other:?}"),
    }
}

/// The same of a message that is put together: the target of a store before its numbers.
fn refusal_in_writing(opcode: u8, behind: &[u8]) -> Option<NotAllowed> {
    match (opcode, behind) {
        (0x0E, &[.., id @ (6..=0x7E | 0x80..)]) => Some(NotAllowed::UnitNumber(id)),
        _ => refusal(opcode, behind),
    }
}

/// The message of the bytes behind an opcode; none where no such message can be put together.
fn message(opcode: u8, behind: &[u8]) -> Option<Message> {
    Some(match (opcode, behind) {
        (0x04, &[0, 0]) => Message::Request(Request::All),
        (0x04, &[1, number]) => Message::Request(Request::Patch(number)),
        (0x04, &[3, 0]) => Message::Request(Request::Master),
        (0x04, &[4, 0]) => Message::Request(Request::EditBuffer),
        (0x07, &[total, id]) => Message::GroupMode { total, id },
        (0x0A, &[bank]) => Message::SetBank(bank),
        (0x0C, &[]) => Message::UnlockBank,
        (0x0E, &[number, bank, id]) => Message::Store {
            number,
            bank,
            to: match id {
                0x7F => Target::Any,
                number => Target::Unit(number),
            },
        },
        _ => return None,
    })
}

/// A message laid out by hand.
fn laid_out(opcode: u8, behind: &[u8]) -> Vec<u8> {
    [&[0xF0, 0x10, 0x06, opcode], behind, &[0xF7]].concat()
}

/// The edges of all ranges.
const EDGES: [u8; 16] = [0, 1, 2, 3, 4, 5, 6, 7, 9, 10, 99, 100, 126, 127, 128, 255];

/// Every value up to a last one in each of so many bytes, with some in the others.
fn values(count: usize, last: u8, others: &[u8]) -> Vec<Vec<u8>> {
    if count == 0 {
        return vec![vec![]];
    }
    let every: Vec<u8> = (0..=last).collect();
    let some: Vec<u8> = others
        .iter()
        .copied()
        .filter(|byte| *byte <= last)
        .collect();
    let rows = |at| {
        let places = (0..count).map(|place| if place == at { &every } else { &some });
        places.fold(vec![vec![]], |rows: Vec<Vec<u8>>, bytes| {
            let longer = |row: &Vec<u8>| {
                let row = row.clone();
                bytes.iter().map(move |byte| [&row[..], &[*byte]].concat())
            };
            rows.iter().flat_map(longer).collect()
        })
    };
    (0..count).flat_map(rows).collect()
}

#[test]
fn every_value_is_written_and_read_back_or_refused() {
    for (kind, opcode, count) in OPERATIONS {
        assert_eq!((kind.opcode(), kind.length()), (opcode, 5 + count));
        assert_eq!(Kind::try_from(opcode), Ok(kind));
        for behind in values(count, 255, &EDGES) {
            let sent = laid_out(opcode, &behind);
            let refused = refusal_in_writing(opcode, &behind).map(Error::NotAllowed);
            let mut out = [0xA5; 9];
            let Some(message) = message(opcode, &behind) else {
                assert!(refused.is_some());
                continue;
            };
            assert_eq!(message.kind(), kind);
            let written = message.write_to_slice(&mut out);
            if let Some(refused) = refused {
                assert_eq!((written, out), (Err(refused), [0xA5; 9]));
                assert_eq!(message.write_to_slice(&mut []), Err(refused));
                assert_eq!(message.to_vec(), Err(refused));
                continue;
            }
            assert_eq!(written, Ok(sent.len()));
            assert_eq!(out[..sent.len()], sent);
            assert!(out[sent.len()..].iter().all(|byte| *byte == 0xA5));
            assert_eq!(message.to_vec(), Ok(sent.clone()));
            let short = message.write_to_slice(&mut out[..sent.len() - 1]);
            assert!(matches!(
                short,
                Err(Error::NoRoom { needed, given, .. })
                    if (needed, given) == (sent.len(), sent.len() - 1)
            ));
        }
        for behind in values(count, 127, &EDGES) {
            let sent = laid_out(opcode, &behind);
            let expected = match refusal(opcode, &behind) {
                None => Ok(message(opcode, &behind).unwrap()),
                Some(refused) => Err(Error::NotAllowed(refused)),
            };
            assert_eq!(Message::read(&sent), expected);
            let report = reports(&sent).next().unwrap();
            assert_eq!(report.kind, expected.map(|_| kind));
        }
    }
}

#[test]
fn requests_and_targets_as_they_are_sent() {
    for behind in values(2, 255, &EDGES) {
        let &[kind, number] = behind.as_slice() else {
            panic!("{behind:?}");
        };
        let request = Request::try_from([kind, number]);
        match refusal(0x04, &behind) {
            None => assert_eq!(request.unwrap().bytes(), [kind, number]),
            Some(refused) => assert_eq!(request, Err(Error::NotAllowed(refused))),
        }
    }
    for id in 0..=255 {
        let target = Target::try_from(id);
        let unit = Target::Unit(id).id();
        match id {
            0..=5 => assert_eq!((target, unit), (Ok(Target::Unit(id)), Ok(id))),
            _ => assert_eq!(unit, Err(Error::NotAllowed(NotAllowed::UnitNumber(id)))),
        }
        if id > 5 && id != 127 {
            assert_eq!(target, Err(Error::NotAllowed(NotAllowed::Target(id))));
        }
    }
    assert_eq!(Target::try_from(127), Ok(Target::Any));
    assert_eq!(Target::Any.id(), Ok(127));

    let shown = [
        Request::All,
        Request::Patch(7),
        Request::Master,
        Request::EditBuffer,
    ];
    assert_eq!(
        shown.map(|request| request.to_string()),
        [
            "all patches and the master parameters",
            "patch 7",
            "the master parameters",
            "the edit buffer"
        ]
    );
    let shown = [Target::Unit(5), Target::Any];
    assert_eq!(
        shown.map(|target| target.to_string()),
        ["unit 5", "any unit"]
    );
}

#[test]
fn other_lengths_and_other_opcodes() {
    for (kind, opcode, count) in OPERATIONS {
        for found in (5..40).filter(|found| *found != 5 + count) {
            let sent = laid_out(opcode, &vec![2; found - 5]);
            let refused = Error::WrongLength(Length::Message { kind, found });
            assert_eq!(Message::read(&sent), Err(refused));
            assert_eq!(Unit::default().step(&sent).unwrap().unit, Unit::default());
        }
    }
    let known = [1, 2, 3, 4, 6, 7, 0x0A, 0x0B, 0x0C, 0x0D, 0x0E];
    for opcode in 0..128 {
        let read = Message::read(&laid_out(opcode, &[])).map(|message| message.kind());
        let expected = match opcode {
            0x0C => Ok(Kind::UnlockBank),
            _ if known.contains(&opcode) => Err(7),
            _ => Err(6),
        };
        assert_eq!(read.map_err(|error| error.number()), expected);
        assert_eq!(Kind::try_from(opcode).is_ok(), known.contains(&opcode));
    }
}

#[test]
fn from_the_cable() {
    for (_, opcode, count) in OPERATIONS {
        // A refusal speaks of bytes that came with earlier feeds.
        for behind in values(count, 127, &[2, 6, 127]).into_iter().step_by(5) {
            let sent = laid_out(opcode, &behind);
            let noisy: Vec<u8> = sent.iter().flat_map(|&byte| [byte, 0xFE]).collect();
            for sent in [sent, noisy[..noisy.len() - 1].to_vec()] {
                let expected = Message::read(&sent);
                for first in 0..sent.len() {
                    let mut reader = Reader::new();
                    reader.feed(&sent[..first]).unwrap();
                    let fed = reader.feed(&sent[first..]).unwrap();
                    let found = fed.found.unwrap();
                    assert_eq!((found.range(), found.message), (0..sent.len(), expected));
                    assert_eq!(reader.packed(), []);
                }
                let found = incoming(sent.as_slice()).next().unwrap().unwrap();
                assert_eq!(found.message, expected);
            }
        }
    }
}

/// Units in every state of lock and group, with banks and numbers inside and outside their ranges.
fn units() -> Vec<Unit> {
    let mut units = Vec::new();
    for bank in [0, 3, 9, 255] {
        for locked in [false, true] {
            let numbers = [0, 1, 2, 3, 4, 5, 6, 127, 255].map(Some);
            for group in numbers.into_iter().chain([None]) {
                units.push(Unit {
                    bank,
                    locked,
                    group,
                });
            }
        }
    }
    units
}

/// Whether a store with an ID is meant for a unit.
fn meant(unit: Unit, id: u8) -> bool {
    match unit.group {
        None => id == 0,
        Some(number) => id == number || id == 0x7F,
    }
}

/// The unit after a message, whether the message is meant for it, and what is sent on.
type After = (Unit, bool, Option<Vec<u8>>);

/// What the bytes behind an opcode are to do to a unit.
fn after(unit: Unit, opcode: u8, behind: &[u8]) -> After {
    if refusal(opcode, behind).is_some() {
        return (unit, false, None);
    }
    match (opcode, behind) {
        (0x07, &[total, id]) => {
            let unit = Unit {
                group: Some(id),
                ..unit
            };
            let next = (id < 5).then(|| laid_out(0x07, &[total, id + 1]));
            (unit, false, next)
        }
        (0x0A, &[bank]) => {
            let unit = Unit {
                bank,
                locked: true,
                ..unit
            };
            (unit, false, None)
        }
        (0x0C, &[]) => {
            let unit = Unit {
                locked: false,
                ..unit
            };
            (unit, false, None)
        }
        (0x0E, &[_, _, id]) => (unit, meant(unit, id), None),
        _ => (unit, false, None),
    }
}

fn told(step: &Step) -> After {
    (step.unit, step.meant, step.sent().map(<[u8]>::to_vec))
}

#[test]
fn what_every_operation_does() {
    for (_, opcode, count) in OPERATIONS {
        for behind in values(count, 127, &[2, 5, 127]) {
            let sent = laid_out(opcode, &behind);
            let report = reports(&sent).next().unwrap();
            for unit in units() {
                let step = unit.step(&sent).unwrap();
                assert_eq!(step.report, report);
                assert_eq!(told(&step), after(unit, opcode, &behind));
                let mut received = unit;
                let next = received.receive(&sent);
                assert_eq!(received, step.unit);
                assert_eq!(next, step.sent().unwrap_or_default());
            }
        }
    }
}

#[test]
fn for_whom_a_store_is() {
    for unit in units() {
        for id in 0..=5 {
            assert_eq!(unit.is_meant_by(Target::Unit(id)), meant(unit, id));
        }
        assert_eq!(unit.is_meant_by(Target::Any), unit.group.is_some());
        // None is sent to a number that no unit has.
        for id in 6..=255 {
            assert!(!unit.is_meant_by(Target::Unit(id)));
        }
    }
}

/// A message of each kind that changes no unit, and refused ones; the last is cut.
fn others() -> Vec<u8> {
    let mut patch = Patch::default();
    patch.set_name("BASS 1  ").unwrap();
    let bus = Bus {
        source: 1,
        amount: -1,
        destination: 1,
    };
    let mut stream = to_vec([
        Message::from((99, patch)),
        Message::from((49, Split::default())),
        Message::from(Master::from([0; 172])),
        Message::from(Request::All),
        Message::from(Edit::new(Parameter::MIX, 31).unwrap()),
        Message::from(BusEdit::new(9, bus).unwrap()),
        Message::EditBuffer(patch),
    ])
    .unwrap();
    let mut damaged = Message::EditBuffer(patch).to_vec().unwrap();
    damaged[273] ^= 1;
    stream.extend(damaged);
    let refused: [&[u8]; 12] = [
        &[0xF0, 0x41, 0x06, 0x0A, 3, 0xF7],
        &[0xF0, 0x10, 0x02, 0x0A, 3, 0xF7],
        &[0xF0, 0x10, 0x06, 0x08, 3, 0xF7],
        &[0xF0, 0x10, 0x06, 0x0A, 0xF7],
        &[0xF0, 0x10, 0x06, 0x0C, 0, 0xF7],
        &[0xF0, 0x10, 0x06, 0x0A, 10, 0xF7],
        &[0xF0, 0x10, 0x06, 0x07, 1, 0, 0xF7],
        &[0xF0, 0x10, 0x06, 0x07, 6, 6, 0xF7],
        &[0xF0, 0x10, 0x06, 0x0E, 0, 0, 6, 0xF7],
        &[0xF0, 0x10, 0x06, 0x0E, 100, 0, 0, 0xF7],
        &[0xF0, 0x10, 0x06, 0x0A, 3, 0x90, 0xF7],
        &[0xF0, 0x10, 0x06, 0x07, 2, 0],
    ];
    stream.extend(refused.concat());
    stream
}

#[test]
fn others_change_nothing() {
    let stream = others();
    assert_eq!(
        reports(&stream)
            .filter(|report| report.kind.is_ok())
            .count(),
        7
    );
    for unit in units() {
        let steps: Vec<Step> = unit.steps(&stream).collect();
        assert_eq!(steps.len(), 20);
        for step in &steps {
            assert_eq!(told(step), (unit, false, None));
        }
        assert!(steps.iter().map(|step| step.report).eq(reports(&stream)));
        for nothing in [&[][..], &[0x41, 0xF7, 0xFE]] {
            assert_eq!(unit.step(nothing), None);
            assert_eq!(unit.steps(nothing).count(), 0);
        }
    }
}

/// What a step comes to, its report with it.
fn all_of(step: &Step) -> (std::ops::Range<usize>, Result<Kind, u8>, After) {
    let Report { kind, .. } = step.report;
    let kind = kind.map_err(|error| error.number());
    (step.report.range(), kind, told(step))
}

#[test]
fn several_messages() {
    let mut stream = vec![0x41];
    stream.extend([0xF0, 0x10, 0x06, 0xFE, 0x0A, 3, 0xF7]);
    stream.extend(laid_out(0x0E, &[7, 3, 0]));
    stream.extend(laid_out(0x0A, &[10]));
    stream.extend(laid_out(0x0C, &[]));
    stream.extend([0x90, 0x40, 0x40]);
    stream.extend(laid_out(0x07, &[3, 1]));
    stream.extend(laid_out(0x0E, &[7, 3, 0]));
    stream.extend(laid_out(0x0E, &[7, 3, 1]));
    stream.extend(laid_out(0x0E, &[7, 3, 0x7F]));
    // The number of a group of two that has no such unit.
    stream.extend(laid_out(0x07, &[2, 5]));

    let unit = |bank, locked, group| Unit {
        bank,
        locked,
        group,
    };
    let next = laid_out(0x07, &[3, 2]);
    let expected = [
        (1..8, Ok(Kind::SetBank), (unit(3, true, None), false, None)),
        (8..16, Ok(Kind::Store), (unit(3, true, None), true, None)),
        (16..22, Err(8), (unit(3, true, None), false, None)),
        (
            22..27,
            Ok(Kind::UnlockBank),
            (unit(3, false, None), false, None),
        ),
        (
            30..37,
            Ok(Kind::GroupMode),
            (unit(3, false, Some(1)), false, Some(next.clone())),
        ),
        (
            37..45,
            Ok(Kind::Store),
            (unit(3, false, Some(1)), false, None),
        ),
        (
            45..53,
            Ok(Kind::Store),
            (unit(3, false, Some(1)), true, None),
        ),
        (
            53..61,
            Ok(Kind::Store),
            (unit(3, false, Some(1)), true, None),
        ),
        (
            61..68,
            Ok(Kind::GroupMode),
            (unit(3, false, Some(5)), false, None),
        ),
    ];
    let mut steps = Unit::default().steps(&stream);
    assert_eq!((steps.unit(), steps.place()), (Unit::default(), 0));
    for (range, kind, after) in expected {
        let step = steps.next().unwrap();
        assert_eq!((steps.unit(), steps.place()), (step.unit, range.end));
        assert_eq!(all_of(&step), (range, kind, after));
    }
    assert_eq!((steps.next(), steps.next()), (None, None));
    assert_eq!(steps.unit(), unit(3, false, Some(5)));
    assert_eq!(
        Unit::default().steps(&stream).next().unwrap().report.noise,
        1
    );

    let mut received = Unit::default();
    assert_eq!(received.receive(&stream), next);
    assert_eq!(received, unit(3, false, Some(5)));
}

/// Streams of the second program's, and one of bytes that often make operations.
fn streams() -> Vec<Vec<u8>> {
    let folder = Path::new(env!("CARGO_MANIFEST_DIR")).join("../reference/vectors");
    let paths = fs::read_dir(folder)
        .unwrap()
        .map(|entry| entry.unwrap().path());
    let vectors = paths.filter(|path| path.extension().is_some_and(|extension| extension == "syx"));
    let mut streams: Vec<_> = vectors.map(|path| fs::read(path).unwrap()).collect();
    assert!(streams.len() > 10, "the vectors are there");

    let mut state = 1_u64;
    let mut number = |bound: u64| {
        state ^= state << 13;
        state ^= state >> 7;
        state ^= state << 17;
        (state >> 33) % bound
    };
    let mut byte = |bound| u8::try_from(number(bound)).unwrap();
    let mut made = Vec::new();
    for _ in 0..5000 {
        let (_, opcode, count) = OPERATIONS[usize::from(byte(5))];
        let behind: Vec<u8> = (0..count).map(|_| byte(8)).collect();
        let mut sent = laid_out(opcode, &behind);
        // Some are damaged.
        let at = usize::from(byte(40));
        if let Some(damaged) = sent.get_mut(at) {
            *damaged = byte(256);
        }
        made.extend(sent);
    }
    streams.push(made);
    streams
}

#[test]
fn steps_and_messages_are_the_same() {
    let mut changed = 0;
    for stream in streams() {
        for unit in units().into_iter().step_by(7) {
            let mut steps = unit.steps(&stream);
            let mut before = unit;
            for found in messages(&stream) {
                let step = steps.next().unwrap();
                let kind = found.message.map(|message| message.kind());
                assert_eq!(
                    (step.report.range(), step.report.kind),
                    (found.range(), kind)
                );
                assert_eq!(step.report.noise, found.noise);
                let expected = match found.message {
                    Ok(message) if is_operation(message.kind()) => {
                        let sent = message.to_vec().unwrap();
                        after(before, sent[3], &sent[4..sent.len() - 1])
                    }
                    _ => (before, false, None),
                };
                assert_eq!(told(&step), expected);
                changed += usize::from(step.unit != before);
                before = step.unit;
            }
            assert_eq!((steps.next(), steps.unit()), (None, before));
        }
    }
    assert!(changed > 1000, "units were changed: {changed}");
}

/// Every choice of starting states among these.
fn starts(total: usize) -> Vec<Vec<Unit>> {
    let states = [
        Unit::default(),
        Unit {
            bank: 9,
            locked: true,
            group: Some(0),
        },
        Unit {
            bank: 3,
            locked: false,
            group: Some(5),
        },
    ];
    let mut all = vec![Vec::new()];
    for _ in 0..total {
        all = all
            .iter()
            .flat_map(|chain| states.map(|state| [&chain[..], &[state]].concat()))
            .collect();
    }
    all
}

#[test]
fn one_message_numbers_a_chain() {
    for total in 2..=6 {
        let message = Message::GroupMode { total, id: 0 }.to_vec().unwrap();
        for start in starts(total.into()) {
            let mut units = start.clone();
            let sent = chain(&mut units, &message);
            for (number, (unit, before)) in (0..).zip(units.iter().zip(&start)) {
                let expected = Unit {
                    group: Some(number),
                    ..*before
                };
                assert_eq!(*unit, expected);
            }
            // What the last one sends on: of six, nothing.
            let behind = match total {
                6 => vec![],
                _ => Message::GroupMode { total, id: total }.to_vec().unwrap(),
            };
            assert_eq!(sent, behind);

            // Step by step it is the same, after one step for each unit.
            let mut arrived = message.clone();
            for (unit, after) in start.iter().zip(&units) {
                let step = unit.step(&arrived).unwrap();
                assert_eq!((step.unit, step.meant), (*after, false));
                arrived = step.sent().unwrap_or_default().to_vec();
            }
            assert_eq!(arrived, behind);
            store_to_each_and_all(&units);

            // Numbered anew it is the same.
            let mut again = units.clone();
            assert_eq!(chain(&mut again, &message), behind);
            assert_eq!(again, units);
        }
    }
}

/// Of a chain that is numbered.
fn store_to_each_and_all(units: &[Unit]) {
    let store = |to| {
        let message = Message::Store {
            number: 99,
            bank: 9,
            to,
        };
        let sent = message.to_vec().unwrap();
        let steps = units.iter().map(|unit| unit.step(&sent).unwrap());
        let meant: Vec<bool> = steps.map(|step| step.meant).collect();
        assert!(units
            .iter()
            .map(|unit| unit.is_meant_by(to))
            .eq(meant.iter().copied()));
        meant
    };
    for number in 0..6 {
        let expected = (0..units.len()).map(|unit| unit == usize::from(number));
        assert_eq!(store(Target::Unit(number)), expected.collect::<Vec<_>>());
    }
    assert_eq!(store(Target::Any), vec![true; units.len()]);
}

#[test]
fn a_chain_of_none_or_of_more_than_the_message_reaches() {
    let message = Message::GroupMode { total: 6, id: 0 }.to_vec().unwrap();
    assert_eq!(chain(&mut [], &message), message);
    let mut units = [Unit::default(); 7];
    assert_eq!(chain(&mut units, &message), []);
    let numbers = units.map(|unit| unit.group);
    assert_eq!(numbers[..6], [0, 1, 2, 3, 4, 5].map(Some));
    assert_eq!(units[6], Unit::default());
    // Only group messages are sent on, each of them.
    let stream = to_vec([
        Message::SetBank(3),
        Message::GroupMode { total: 2, id: 0 },
        Message::GroupMode { total: 2, id: 4 },
    ]);
    let mut units = [Unit::default(); 2];
    let sent = chain(&mut units, &stream.unwrap());
    assert_eq!(
        sent,
        Message::GroupMode { total: 2, id: 2 }.to_vec().unwrap()
    );
    assert_eq!(units.map(|unit| unit.bank), [3, 0]);
    assert_eq!(units.map(|unit| unit.group), [Some(4), Some(5)]);
}

#[test]
fn units_are_shown() {
    let unit = Unit {
        bank: 3,
        locked: true,
        group: Some(2),
    };
    assert_eq!(unit.to_string(), "bank 3, locked, unit 2 of a group");
    let shown = Unit::default().to_string();
    assert_eq!(shown, "bank 0, not locked, group mode off");
}

#[test]
fn the_header_for_c_names_the_same_opcodes_and_lengths() {
    let header = concat!(env!("CARGO_MANIFEST_DIR"), "/../c/matrix.h");
    let header = fs::read_to_string(header).unwrap();
    let (_, listed) = header.split_once("enum matrix_opcode {").unwrap();
    let (listed, _) = listed.split_once("};").unwrap();
    let mut seen = 0;
    for line in listed.trim().lines() {
        let (name, behind) = line.trim().split_once(" = 0x").unwrap();
        let opcode = u8::from_str_radix(&behind[..2], 16).unwrap();
        let kind = Kind::try_from(opcode).unwrap();
        if !is_operation(kind) {
            continue;
        }
        assert!(line.contains(&format!("/* {kind} */")), "{line}");
        let name = name.replace("_OPCODE", "");
        let length = format!("#define {name}_MESSAGE {}\n", kind.length());
        assert!(header.contains(&length), "{length}");
        seen += 1;
    }
    assert_eq!(seen, 5);
}
