//! Document 01's examples at the edges, through the Rust face.

use std::collections::BTreeMap;
use std::io::{self, Write};

use matrix1000::{
    messages, report_at, reports, to_vec, to_writer, Bank, Bus, BusEdit, Edit, Error, Kind, Length,
    Master, Message, NotAllowed, Parameter, Patch, Request, Split, Target,
};

const fn wrong_length(length: Length) -> Error {
    Error::WrongLength(length)
}

const fn not_allowed(what: NotAllowed) -> Error {
    Error::NotAllowed(what)
}

/// The register's number, detail and value of a refusal.
fn refusal<T>(result: Result<T, Error>) -> (u8, usize, i16) {
    let error = result.map(drop).unwrap_err();
    (error.number(), error.detail(), error.value())
}

/// A refusal by 11, with the byte place and the value there.
const fn found(place: usize, value: i16) -> (u8, usize, i16) {
    (11, place, value)
}

fn dump(number: u8, patch: Patch) -> Vec<u8> {
    Message::Patch { number, patch }.to_vec().unwrap()
}

#[test]
fn the_patch_of_zeros() {
    let dump = dump(0, Patch::default());
    let mut expected = vec![0; 275];
    expected[..4].copy_from_slice(&[0xF0, 0x10, 0x06, 0x01]);
    (expected[157], expected[273], expected[274]) = (0x01, 0x01, 0xF7);
    assert_eq!(dump, expected);
}

#[test]
fn a_name() {
    let mut patch = Patch::default();
    patch.set_name("BASS 1  ").unwrap();
    assert_eq!(patch.as_bytes()[..8], [2, 1, 19, 19, 32, 49, 32, 32]);
    assert_eq!(dump(0, patch)[273], 0x3B);
    let refused = |error| Err(error);
    assert_eq!(
        patch.set_name("BASS 1"),
        refused(wrong_length(Length::Name(6)))
    );
    for (name, character) in [("BASs 1  ", 's'), ("B\u{c4}SS 1 ", '\u{c4}')] {
        assert_eq!(
            patch.set_name(name),
            refused(not_allowed(NotAllowed::Character(character)))
        );
    }
    assert_eq!(patch.name(), "BASS 1  ");
}

#[test]
fn a_bus() {
    let mut patch = Patch::default();
    let bus = Bus {
        source: 1,
        amount: -1,
        destination: 1,
    };
    patch.set_bus(0, bus).unwrap();
    assert_eq!(dump(0, patch)[273], 0x02);
    assert_eq!(patch.buses()[0], bus);
    assert_eq!(patch.buses()[1..], [Bus::default(); 9]);
    assert_eq!(patch.bus(10), None);
    let bus_10 = not_allowed(NotAllowed::Bus(10));
    assert_eq!(patch.set_bus(10, bus), Err(bus_10));
    assert_eq!(BusEdit::new(10, bus), Err(bus_10));

    let half = Bus {
        destination: 0,
        ..bus
    };
    assert_eq!(refusal(patch.set_bus(0, half)), (12, 0, 0));
    assert_eq!(refusal(BusEdit::new(0, half)), (12, 0, 0));
    for amount in [-65, 64, 127, -128] {
        let outside = Bus { amount, ..bus };
        let refused = found(105, amount.into());
        assert_eq!(refusal(patch.set_bus(0, outside)), refused);
        assert_eq!(refusal(BusEdit::new(0, outside)), refused);
        assert_eq!(BusEdit::new(10, outside), Err(bus_10));
        let lowest = Bus {
            source: 200,
            ..outside
        };
        assert_eq!(refusal(BusEdit::new(0, lowest)), found(104, 200));
    }
    assert_eq!(patch.bus(0), Some(bus));
}

/// The dump of the zero patch with other bytes from a place on.
fn dump_with(place: usize, bytes: &[u8]) -> Vec<u8> {
    let mut dump = dump(0, Patch::default());
    for (at, byte) in (5 + 2 * place..).step_by(2).zip(bytes) {
        let more = byte.wrapping_sub(dump[at] + 16 * dump[at + 1]);
        (dump[at], dump[at + 1]) = (byte % 16, byte / 16);
        dump[273] = dump[273].wrapping_add(more) % 128;
    }
    dump
}

#[test]
fn what_is_found() {
    let fields = [
        (0, 0x40, 64),
        (9, 0xC0, 192),
        (19, 0xDF, -33),
        (19, 0x20, 32),
        (26, 0xFF, 255),
        (76, 0, 0),
        (86, 0x80, -128),
        (105, 0xBF, -65),
        (132, 0x40, 64),
    ];
    for (place, byte, value) in fields {
        let mut bank = [Patch::default().to_bytes(); 2];
        bank[1][place] = byte;
        assert_eq!(refusal(Patch::try_from(bank[1])), found(place, value));
        let refused = Bank::from_bytes(bank.as_flattened()).unwrap_err();
        let of_bank = refusal::<()>(Err(refused.error));
        assert_eq!((refused.patch, of_bank), (1, found(place, value)));

        let dump = dump_with(place, &[byte]);
        assert_eq!(refusal(Message::read(&dump)), found(place, value));
        let report = reports(&dump).next().unwrap();
        assert_eq!(refusal(report.kind), found(place, value));
        let report = report_at(&dump, 0).unwrap();
        assert_eq!(refusal(report.kind), found(place, value));
    }
}

#[test]
fn a_refused_edit_tells_what_was_asked_for_or_sent() {
    let mut patch = Patch::default();
    // 64 sent as seven bits is C0H stored; 100 is -28, which the field takes.
    let asked = [
        (Parameter::DCO_1_FREQUENCY, 64, found(9, 64)),
        (Parameter::DCO_1_FREQUENCY, 192, found(9, 192)),
        (Parameter::DCO_1_FREQUENCY_BY_LFO_1, 100, found(86, 100)),
        (Parameter::DCO_1_FREQUENCY_BY_LFO_1, -65, found(86, -65)),
        (Parameter::DCO_2_DETUNE, i16::MIN, found(19, i16::MIN)),
    ];
    for (parameter, value, expected) in asked {
        assert_eq!(refusal(Edit::new(parameter, value)), expected);
        assert_eq!(refusal(patch.set(parameter, value)), expected);
    }
    assert_eq!(patch, Patch::default());
    let sent = [0xF0, 0x10, 0x06, 0x06, 0x00, 0x40, 0xF7];
    assert_eq!(refusal(Message::read(&sent)), found(9, 192));
    let amount = Edit::from_bytes(1, 100).unwrap();
    assert_eq!(amount.value(), -28);
    patch.apply(amount);
    assert_eq!(patch.get(Parameter::DCO_1_FREQUENCY_BY_LFO_1), -28);
    assert_eq!(patch.as_bytes()[86], 0xE4);
}

#[test]
fn destinations_are_0_to_32() {
    for (number, destination) in (0..10).flat_map(|bus| (1..=255).map(move |code| (bus, code))) {
        let place = 106 + 3 * usize::from(number);
        let bus = Bus {
            source: 20,
            amount: -64,
            destination,
        };
        let bytes = [0x14, 0xC0, destination];
        let mut patch = Patch::default();
        let set = patch.set_bus(number.into(), bus);
        let edit = BusEdit::new(number, bus);
        let read = Message::try_from(dump_with(place - 2, &bytes).as_slice());
        if destination > 32 {
            let refused = found(place, destination.into());
            assert_eq!(refusal(set), refused);
            assert_eq!(refusal(edit), refused);
            assert_eq!(refusal(read), refused);
            assert_eq!(patch, Patch::default());
        } else {
            assert_eq!(patch.as_bytes()[place - 2..=place], bytes);
            assert_eq!(read, Ok(Message::Patch { number: 0, patch }));
            let mut edited = Patch::default();
            edited.apply_bus(edit.unwrap());
            assert_eq!((set, edited), (Ok(()), patch));
        }
    }
}

#[test]
fn values_of_edits_are_extended() {
    for (value, amount) in [(0x3F, 63), (0x40, -64), (0x7F, -1)] {
        let edit = BusEdit::from_bytes([0, 1, value, 1]).unwrap();
        assert_eq!(edit.bus().amount, amount);
        assert_eq!(BusEdit::new(0, edit.bus()), Ok(edit));
    }
    let vcf = Edit::from_bytes(0x15, 0x7F).unwrap();
    assert_eq!(
        (vcf.parameter(), vcf.value()),
        (Parameter::VCF_FREQUENCY, 127)
    );
    let detune = |value| Edit::from_bytes(0x0C, value).map(Edit::value);
    assert_eq!(detune(0x60), Ok(-32));
    assert_eq!(detune(0x1F), Ok(31));
    assert_eq!(refusal(detune(0x5F)), found(19, -33));
    assert_eq!(refusal(detune(0x20)), found(19, 32));
    assert_eq!(refusal(Edit::from_bytes(0x00, 0x40)), found(9, 192));
    let parameter_39 = not_allowed(NotAllowed::Parameter(39));
    assert_eq!(Edit::from_bytes(39, 0), Err(parameter_39));
    assert_eq!(Edit::try_from([39, 0x80]), Err(parameter_39));
    let value_128 = not_allowed(NotAllowed::Value(128));
    assert_eq!(Edit::from_bytes(0, 0x80), Err(value_128));
    let amount_128 = not_allowed(NotAllowed::Amount(128));
    assert_eq!(BusEdit::try_from([0, 1, 0x80, 1]), Err(amount_128));
}

#[test]
fn lengths_and_numbers() {
    let patch = Patch::default();
    let message = Message::Patch { number: 99, patch };
    let mut out = [0xA5; 276];
    assert!(matches!(
        message.write_to_slice(&mut out[..274]),
        Err(Error::NoRoom {
            needed: 275,
            given: 274,
            ..
        })
    ));
    assert_eq!(out, [0xA5; 276]);
    assert_eq!(message.write_to_slice(&mut out), Ok(275));
    assert_eq!((out[274], out[275]), (0xF7, 0xA5));
    let refused = Message::Patch { number: 100, patch }.write_to_slice(&mut out);
    assert_eq!(refused, Err(not_allowed(NotAllowed::PatchNumber(100))));
    assert_eq!(refusal(Patch::try_from([0; 134])), found(76, 0));
    assert_eq!(
        Patch::try_from(&[0; 133][..]),
        Err(wrong_length(Length::Patch(133)))
    );
    assert_eq!(
        Master::try_from(&[0; 171][..]),
        Err(wrong_length(Length::Master(171)))
    );
}

#[test]
fn every_kind_comes_back_from_its_bytes() {
    let mut patch = Patch::default();
    patch.set_name("PATCH  1").unwrap();
    let bus = Bus {
        source: 20,
        amount: -64,
        destination: 32,
    };
    let mut split = Split::default();
    split.set_name("SPLIT1").unwrap();
    let all = [
        Message::Patch { number: 42, patch },
        Message::Split { number: 42, split },
        Message::Master(Master::from(std::array::from_fn(|index| {
            index.to_le_bytes()[0]
        }))),
        Message::Request(Request::Patch(42)),
        Message::Edit(Edit::new(Parameter::DCO_2_DETUNE, -32).unwrap()),
        Message::GroupMode { total: 6, id: 5 },
        Message::SetBank(9),
        Message::BusEdit(BusEdit::new(9, bus).unwrap()),
        Message::UnlockBank,
        Message::EditBuffer(patch),
        Message::Store {
            number: 42,
            bank: 9,
            to: Target::Any,
        },
    ];
    let mut written = Vec::new();
    let length = to_writer(&mut written, all.iter()).unwrap();
    assert_eq!(length, written.len());
    assert_eq!(to_vec(all).unwrap(), written);
    let mut stream = Vec::new();
    for message in &all {
        let bytes = message.to_vec().unwrap();
        assert_eq!(bytes[3], message.kind().opcode());
        assert_eq!(bytes.len(), message.kind().length());
        assert_eq!(Message::try_from(bytes.as_slice()), Ok(*message));
        stream.push(0xFE);
        stream.extend(bytes);
    }
    let back: Vec<Message> = messages(&stream)
        .map(|found| found.message.unwrap())
        .collect();
    assert_eq!(back, all);
    let kinds: Vec<Kind> = reports(&stream)
        .map(|report| report.kind.unwrap())
        .collect();
    assert_eq!(kinds, all.map(|message| message.kind()));
    // Real time between messages counts nowhere.
    assert!(reports(&stream).all(|report| report.noise == 0));
}

#[test]
fn how_noisy_the_line_was() {
    // In a complete message, an interrupted one and a cut one, and between them.
    let input = [
        0xFE, 0xF0, 0x10, 0x06, 0xFE, 0x06, 0x15, 0x7F, 0xF8, 0xF7, 0xFE, 0xF0, 0xFF, 0x90, 0xFE,
        0xF0, 0xFE,
    ];
    let expected = [
        (1..10, Ok(Kind::Edit), 2),
        (11..13, Err(Error::Interrupted), 1),
        (15..17, Err(Error::Cut), 1),
    ];
    let heard: Vec<_> = reports(&input)
        .map(|report| (report.range(), report.kind, report.noise))
        .collect();
    assert_eq!(heard, expected);
    let read: Vec<_> = messages(&input)
        .map(|found| {
            let kind = found.message.map(|message| message.kind());
            (found.range(), kind, found.noise)
        })
        .collect();
    assert_eq!(read, expected);

    let sent = dump(7, Patch::default());
    let noisy: Vec<u8> = sent.iter().flat_map(|&byte| [byte, 0xFE]).collect();
    let report = report_at(&noisy, 0).unwrap();
    assert_eq!(report.kind, Ok(Kind::Patch));
    assert_eq!((report.range(), report.noise), (0..549, 274));
}

#[test]
fn nothing_is_found_where_nothing_is() {
    for input in [&[][..], &[0x00, 0xF7, 0xFE]] {
        assert_eq!(messages(input).next(), None);
        assert_eq!(reports(input).next(), None);
        assert_eq!(Message::read(input), Err(Error::NoMessage));
    }
}

#[test]
fn banks() {
    let mut named = Patch::default();
    named.set_name("NUMBER 2").unwrap();
    let patches = [Patch::default(), Patch::default(), named];
    let bank = Bank::new(patches).unwrap();
    assert_eq!(bank.iter().collect::<Vec<_>>(), patches);
    assert_eq!(bank.clone().into_iter().collect::<Vec<_>>(), patches);
    assert_eq!(Bank::try_from(patches.to_vec()), Ok(bank.clone()));
    assert_eq!(
        (bank.len(), bank.get(2), bank.get(3)),
        (3, Some(named), None)
    );
    assert_eq!(Bank::try_from(bank.as_bytes()), Ok(bank.clone()));

    let found = messages(&bank.to_vec())
        .map(|found| found.message.unwrap())
        .collect::<Vec<_>>();
    assert_eq!(found, bank.messages().collect::<Vec<_>>());
    assert!(matches!(
        bank.write_to_slice(&mut [0; 3 * 275 - 1]),
        Err(Error::NoRoom {
            needed: 825,
            given: 824,
            ..
        })
    ));
    let mut written = Vec::new();
    assert_eq!(bank.write_to(&mut written).unwrap(), 825);
    assert_eq!(written, bank.to_vec());

    assert!(Bank::default().is_empty());
    assert!(Bank::default().to_vec().is_empty());
    let full = std::iter::repeat_n(named, 100);
    assert_eq!(Bank::new(full.clone()).unwrap().to_vec().len(), 27_500);
    let over = full.chain([named]);
    let over_length = wrong_length(Length::Bank(101 * 134));
    assert_eq!(Bank::new(over), Err(over_length));

    let mut bytes = bank.as_bytes().to_vec();
    bytes[134 + 104] = 1;
    let refused = Bank::from_bytes(&bytes).unwrap_err();
    assert!(matches!(refused.error, Error::HalfUsed { bus: 0, .. }));
    assert_eq!(refused.patch, 1);
    assert_eq!(
        refused.to_string(),
        "patch 1 of the bank: modulation bus 0 is half used: \
         source and destination are both zero or both not"
    );
    let refused = Bank::from_bytes(&bytes[1..]).unwrap_err();
    let length = wrong_length(Length::Bank(3 * 134 - 1));
    assert_eq!((refused.patch, refused.error), (0, length));
}

#[test]
fn numbered_patches_keep_their_numbers() {
    let mut file = to_vec((0..5).map(|number| (number, Patch::default()))).unwrap();
    file[2 * 275 + 100] = 0x10;
    let mut patches = BTreeMap::new();
    for found in messages(&file) {
        match found.message {
            Ok(Message::Patch { number, patch }) => patches.insert(number, patch),
            refused => {
                assert_eq!(refusal(refused), (9, 95, 0));
                continue;
            }
        };
    }
    let numbers = |dumps: &[u8]| -> Vec<u8> { dumps.chunks(275).map(|dump| dump[4]).collect() };
    assert_eq!(numbers(&to_vec(&patches).unwrap()), [0, 1, 3, 4]);
    assert_eq!(to_vec(&patches), to_vec(patches.clone()));
    let good = messages(&file).filter_map(|found| found.message.ok());
    assert_eq!(numbers(&to_vec(good).unwrap()), [0, 1, 3, 4]);
    // A bank numbers them anew.
    let bank = Bank::new(patches.into_values()).unwrap();
    assert_eq!(numbers(&bank.to_vec()), [0, 1, 2, 3]);
}

/// Takes this many bytes and then no more.
struct Full(usize);

impl Write for Full {
    fn write(&mut self, bytes: &[u8]) -> io::Result<usize> {
        let taken = bytes.len().min(self.0);
        self.0 -= taken;
        Ok(taken)
    }

    fn flush(&mut self) -> io::Result<()> {
        Ok(())
    }
}

#[test]
fn what_is_not_written_whole_is_an_error() {
    let patch = Patch::default();
    assert_eq!(to_writer(Full(550), [(1, patch), (2, patch)]).unwrap(), 550);
    let full = to_writer(Full(549), [(1, patch), (2, patch)]).unwrap_err();
    assert_eq!(full.kind(), io::ErrorKind::WriteZero);
    assert!(Bank::new([patch]).unwrap().write_to(Full(274)).is_err());
    let refused = to_writer(Full(9), [(100, patch)]).unwrap_err();
    assert_eq!(refused.kind(), io::ErrorKind::InvalidInput);
    assert_eq!(
        refused.to_string(),
        "patch number 100 is not allowed: 0 to 99"
    );
}
