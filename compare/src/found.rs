//! What is found out of range: each place of a patch, below its range and above it, in a patch that is
//! lent, in a bank and in a dump; and each place of a split. All else in these calls is good, so each of
//! them is refused by 11.

use compare::ffi::{Unit, A_CALL, EMPTY};
use reference::kinds::{length, opcode, LAST_SPLIT, MATRIX, OBERHEIM};
use reference::nibbles::{sum, unpack};
use reference::streams::{inputs, Random};
use reference::{outside, outside_split, CableReader, PATCH_LENGTH, SPLIT_LENGTH};

use crate::cable::Deed;
use crate::feeds;
use crate::lent::{Call, Lent};

/// Three bytes at each place of a patch.
pub const EVERYWHERE: usize = 3 * PATCH_LENGTH;

/// Those at each place of 16 splits.
pub const EVERYWHERE_IN_SPLITS: usize = 16 * IN_SPLIT;
const IN_SPLIT: usize = 3 * SPLIT_LENGTH;

type Patch = [u8; PATCH_LENGTH];
type Split = [u8; SPLIT_LENGTH];

/// One of the bytes that are out of range at a place: the least, the greatest, or the one behind the
/// range; any where no byte lies before the range.
fn one(random: &mut Random, outside: &[u8], index: usize) -> u8 {
    let behind = outside.windows(2).find(|pair| pair[1] - pair[0] > 1);
    match index % 3 {
        0 => outside[0],
        1 => outside[outside.len() - 1],
        _ => behind.map_or_else(|| random.pick(outside), |pair| pair[1]),
    }
}

/// A good patch but for one byte.
fn patch(random: &mut Random, index: usize) -> Patch {
    let place = index / 3;
    let mut patch = inputs::good_patch(random);
    patch[place] = one(random, &outside(place as u8), index);
    patch
}

/// A good split but for one byte.
fn split(random: &mut Random, index: usize) -> Split {
    let place = index % IN_SPLIT / 3;
    let mut split = inputs::good_split(random);
    split[place] = one(random, &outside_split(place as u8), index);
    split
}

/// The same between two good ones.
fn three(random: &mut Random, index: usize) -> [Patch; 3] {
    [
        inputs::good_patch(random),
        patch(random, index),
        inputs::good_patch(random),
    ]
}

/// The dump of a patch, out of range or not.
fn dumped(random: &mut Random, patch: &Patch) -> Vec<u8> {
    let opcode = random.pick(&[opcode::SINGLE_PATCH, opcode::EDIT_BUFFER]);
    dump(opcode, 0, patch)
}

/// A dump of packed bytes, out of range or not.
fn dump(opcode: u8, second: u8, packed: &[u8]) -> Vec<u8> {
    let mut data = vec![0; 2 * packed.len()];
    unpack(packed, &mut data);
    [
        &[0xF0, OBERHEIM, MATRIX, opcode, second],
        data.as_slice(),
        &[sum(packed), 0xF7],
    ]
    .concat()
}

/// Lends bytes with an output. The call's own bytes are a parameter and its value, a bus edit and a
/// patch number at once.
fn lent(random: &mut Random, bytes: &[u8]) -> Call {
    Call {
        first: Lent::new(random, bytes),
        second: Lent::filled(random, 3 * length::SINGLE_PATCH),
        room: Lent::filled(random, A_CALL * EMPTY.len()),
        place: 0,
        bytes: [random.byte_within(0..=9), 1, random.byte_within(0..=127), 1],
        unit: Unit::default(),
        third: Lent::filled(random, 0),
        run: None,
    }
}

pub fn in_patch(random: &mut Random, index: usize) -> Call {
    let patch = patch(random, index);
    lent(random, &patch)
}

pub fn in_split(random: &mut Random, index: usize) -> Call {
    let split = split(random, index);
    lent(random, &split)
}

/// In a patch that gets a name.
pub fn in_named(random: &mut Random, index: usize) -> Call {
    Call {
        second: Lent::new(random, b"BASS 1  "),
        ..in_patch(random, index)
    }
}

/// In the second patch of a bank.
pub fn in_bank(random: &mut Random, index: usize) -> Call {
    let patches = three(random, index);
    lent(random, patches.as_flattened())
}

/// In the second dump of a stream, from inside the first.
pub fn in_dump(random: &mut Random, index: usize) -> Call {
    let patches = three(random, index);
    let dumps: Vec<u8> = patches
        .iter()
        .flat_map(|patch| dumped(random, patch))
        .collect();
    Call {
        place: random.within(1..=length::SINGLE_PATCH),
        ..lent(random, &dumps)
    }
}

/// Three splits dumped, the second of them out of range.
fn split_dumps(random: &mut Random, index: usize) -> Vec<u8> {
    let splits = [
        inputs::good_split(random),
        split(random, index),
        inputs::good_split(random),
    ];
    let dumps = splits.iter().flat_map(|split| {
        let number = random.byte_within(0..=LAST_SPLIT);
        dump(opcode::SPLIT, number, split)
    });
    dumps.collect()
}

/// In the second of them, from inside the first.
pub fn in_split_dump(random: &mut Random, index: usize) -> Call {
    let dumps = split_dumps(random, index);
    Call {
        place: random.within(1..=length::SPLIT),
        ..lent(random, &dumps)
    }
}

/// The same straight from the cable: cut anywhere, what is left fed again until all is taken.
pub fn in_split_fed(random: &mut Random, index: usize) -> Call {
    let dumps = split_dumps(random, index);
    let first = random.within(1..=dumps.len());
    let deeds = [first, dumps.len(), dumps.len(), dumps.len()].map(Deed::Feed);
    feeds::lent(random, CableReader::new(), &dumps, deeds.to_vec())
}
