//! Lists of edits from one patch to another: the shortest, and which are accepted.

use matrix1000::{to_vec, Bus, BusEdit, Edit, Edits, Error, Message, Parameter, Patch, PatchEdit};

const USED: Bus = Bus {
    source: 20,
    amount: -64,
    destination: 32,
};

/// An amount alone: source and destination are both zero.
const UNUSED: Bus = Bus {
    source: 0,
    amount: -1,
    destination: 0,
};

/// The patch of zeros, and one with another detune, filter and two other buses.
fn pair() -> [Patch; 2] {
    let from = Patch::default();
    let mut to = from;
    to.set(Parameter::VCF_FREQUENCY, 127).unwrap();
    to.set(Parameter::DCO_2_DETUNE, -32).unwrap();
    to.set_bus(9, USED).unwrap();
    to.set_bus(0, UNUSED).unwrap();
    [from, to]
}

/// The edits from one of the pair to the other, by rising byte place.
fn between() -> [PatchEdit; 4] {
    [
        Edit::new(Parameter::DCO_2_DETUNE, -32).unwrap().into(),
        Edit::new(Parameter::VCF_FREQUENCY, 127).unwrap().into(),
        BusEdit::new(0, UNUSED).unwrap().into(),
        BusEdit::new(9, USED).unwrap().into(),
    ]
}

const SENT: [u8; 32] = [
    0xF0, 0x10, 0x06, 0x06, 0x0C, 0x60, 0xF7, // detune
    0xF0, 0x10, 0x06, 0x06, 0x15, 0x7F, 0xF7, // filter
    0xF0, 0x10, 0x06, 0x0B, 0x00, 0x00, 0x7F, 0x00, 0xF7, // bus 0
    0xF0, 0x10, 0x06, 0x0B, 0x09, 0x14, 0x40, 0x20, 0xF7, // bus 9
];

/// The patch behind the last edit.
fn edited(mut patch: Patch, edits: impl IntoIterator<Item = PatchEdit>) -> Patch {
    for edit in edits {
        patch.apply(edit);
    }
    patch
}

/// Every field at one end of its range, and every bus.
fn all(end: impl Fn(Parameter) -> i16, bus: Bus) -> Patch {
    let mut patch = Patch::default();
    for parameter in Parameter::all() {
        patch.set(parameter, end(parameter)).unwrap();
    }
    for number in 0..Patch::BUSES {
        patch.set_bus(number, bus).unwrap();
    }
    patch
}

#[test]
fn an_edit_for_each_difference() {
    let [from, to] = pair();
    let edits = from.edits_to(&to).unwrap();
    assert_eq!(edits.as_bytes(), SENT);
    assert_eq!(edits.as_ref(), SENT);
    assert_eq!(edits.clone().collect::<Vec<_>>(), between());
    assert_eq!(to_vec(edits.clone()).unwrap(), SENT);
    assert_eq!(from.check_edits_to(&to, &SENT), Ok(()));
    assert_eq!(edited(from, edits), to);
}

#[test]
fn none_between_equal_patches() {
    for patch in pair() {
        let mut edits = patch.edits_to(&patch.clone()).unwrap();
        assert_eq!((edits.as_bytes(), edits.len()), (&[][..], 0));
        assert_eq!(edits.next(), None);
        assert_eq!(patch.check_edits_to(&patch, &[]), Ok(()));
    }
}

#[test]
fn the_longest_list() {
    let least = all(|parameter| *parameter.range().start(), Bus::default());
    let greatest = all(|parameter| *parameter.range().end(), USED);
    for (from, to) in [(least, greatest), (greatest, least)] {
        let edits = from.edits_to(&to).unwrap();
        assert_eq!((edits.len(), edits.as_bytes().len()), (106, Edits::LONGEST));
        assert_eq!(Edits::LONGEST, 762);
        let places = edits.clone().map(|edit| match edit {
            PatchEdit::Parameter(edit) => edit.parameter().place(),
            PatchEdit::Bus(edit) => 104 + 3 * usize::from(edit.number()),
        });
        assert!(places.eq((8..104).chain((104..134).step_by(3))));
        assert_eq!(from.check_edits_to(&to, edits.as_bytes()), Ok(()));
        assert_eq!(edited(from, edits), to);
    }
}

#[test]
fn one_edit_of_one_field() {
    let [from, patch] = pair();
    for parameter in Parameter::all() {
        for value in parameter.range() {
            let mut to = patch;
            to.set(parameter, value).unwrap();
            let edits = patch.edits_to(&to).unwrap().collect::<Vec<_>>();
            let edit = Edit::new(parameter, value).unwrap();
            if value == patch.get(parameter) {
                assert_eq!(edits, []);
            } else {
                assert_eq!(edits, [PatchEdit::Parameter(edit)]);
            }
            // From elsewhere it is one of several.
            let edits = from.edits_to(&to).unwrap();
            assert_eq!(edited(from, edits), to);
        }
    }
}

#[test]
fn one_edit_of_one_bus() {
    let [from, _] = pair();
    for number in 0..10 {
        for bus in [USED, UNUSED, Bus { amount: 63, ..USED }] {
            let edit = BusEdit::new(number, bus).unwrap();
            let to = edited(from, [edit.into()]);
            let edits = from.edits_to(&to).unwrap();
            assert_eq!(edits.collect::<Vec<_>>(), [PatchEdit::Bus(edit)]);
        }
    }
}

#[test]
fn what_is_left() {
    let [from, to] = pair();
    let mut edits = from.edits_to(&to).unwrap();
    let mut left = &between()[..];
    let mut places = [0, 7, 14, 23, 32].iter();
    while let Some((edit, behind)) = left.split_first() {
        assert_eq!(edits.size_hint(), (left.len(), Some(left.len())));
        assert_eq!(edits.as_bytes(), &SENT[*places.next().unwrap()..]);
        assert_eq!(format!("{edits:?}"), format!("{left:?}"));
        assert_eq!(edits.next(), Some(*edit));
        left = behind;
    }
    assert_eq!((edits.len(), edits.as_bytes()), (0, &[][..]));
    assert_eq!((edits.next(), edits.next()), (None, None));
    assert_eq!((edits.len(), format!("{edits:?}").as_str()), (0, "[]"));
}

#[test]
fn no_edit_reaches_a_name() {
    let [from, mut to] = pair();
    let names = ["_@@@@@@@", "@@@@@@@_", "LEAD [2]"];
    for name in names {
        to.set_name(name).unwrap();
        let refusals = [
            from.edits_to(&to).map(drop),
            from.check_edits_to(&to, &SENT),
            from.check_edits_to(&to, &[0xF0]),
        ];
        for refused in refusals {
            let error = refused.unwrap_err();
            assert_eq!((error.number(), error.detail(), error.value()), (16, 0, 0));
            let Error::OtherName { from, to, .. } = error else {
                panic!("{error:?}");
            };
            assert_eq!((&from[..], &to[..]), (&b"@@@@@@@@"[..], name.as_bytes()));
        }
    }
}

#[test]
fn a_right_list_is_accepted_whoever_made_it() {
    let [from, to] = pair();
    let accepted = |edits: &[PatchEdit]| {
        let list = to_vec(edits.iter().copied()).unwrap();
        from.check_edits_to(&to, &list)
    };
    let mut edits = between();
    edits.reverse();
    assert_eq!(accepted(&edits), Ok(()));
    assert_eq!(accepted(&[edits, edits].concat()), Ok(()));
    // A needless one, which those behind it make up for, and those before it do not.
    let needless = [Edit::new(Parameter::VCF_FREQUENCY, 1).unwrap().into()];
    assert_eq!(accepted(&[&needless, &edits[..]].concat()), Ok(()));
    let refused = Err(Error::NotAccepted);
    assert_eq!(accepted(&[&edits[..], &needless].concat()), refused);
    for number in 0..edits.len() {
        let mut without = edits.to_vec();
        without.remove(number);
        assert_eq!(accepted(&without), refused);
    }
}

#[test]
fn no_other_list_is_accepted() {
    let [from, to] = pair();
    let refused = |list: &[u8]| {
        let error = from.check_edits_to(&to, list).unwrap_err();
        assert_eq!((error.number(), error.detail(), error.value()), (20, 0, 0));
    };
    for place in 0..SENT.len() {
        refused(&SENT[..place]);
        refused(&[&SENT[..place], &SENT[place + 1..]].concat());
    }
    for place in 0..=SENT.len() {
        for byte in [0x00, 0xF7, 0xFE] {
            refused(&[&SENT[..place], &[byte], &SENT[place..]].concat());
        }
    }
    // Not edits as they are allowed, or not edits at all.
    let others = [
        vec![0xF0, 0x10, 0x06, 0x06, 39, 0, 0xF7],
        vec![0xF0, 0x10, 0x06, 0x06, 0, 0x40, 0xF7],
        vec![0xF0, 0x10, 0x06, 0x0B, 9, 20, 0, 0, 0xF7],
        Message::EditBuffer(to).to_vec().unwrap(),
    ];
    for other in others {
        refused(&[&other, &SENT[..]].concat());
        refused(&[&SENT[..], &other].concat());
        refused(&other);
    }
    assert_eq!(to.check_edits_to(&from, &SENT), Err(Error::NotAccepted));
}
