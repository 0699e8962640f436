//! Slipped neighbours, every one on several dumps: a dump of a patch between two others, with two
//! neighbouring bytes exchanged or the two nibbles of a packed byte replaced. And every nibble of several
//! splits replaced by every byte.

use compare::ffi::{Unit, A_CALL, EMPTY};
use reference::streams::damage::{damageable, low_nibble, Damage};
use reference::streams::{inputs, Random};
use reference::{write_edit_buffer, write_patch, write_split, PATCH_LENGTH, SPLIT_LENGTH};

use crate::lent::{Call, Lent};

/// The length of a patch dump, which is where the dump in the middle starts.
const DUMP: usize = 275;

/// Every neighbouring pair among the data and the checksum, equal ones too, of 64 dumps: an eighth
/// of them have a checksum that is a nibble.
pub const EXCHANGES: usize = 64 * NEIGHBOURS;
const NEIGHBOURS: usize = 268;

/// Every pair of values below 80H, those that stand there too, for these packed bytes of two dumps:
/// the first, the one that is never zero, a signed amount, the last destination.
pub const PAIRS: usize = 2 * PACKED.len() * VALUES * VALUES;
const PACKED: [usize; 4] = [0, 76, 105, 133];
const VALUES: usize = 0x80;

/// The length of a split dump, which is where the split in the middle starts.
const SPLIT_DUMP: usize = 43;

/// Every byte in place of every nibble of eight splits, the byte that stands there too.
pub const NIBBLES: usize = 8 * SPLIT_NIBBLES * BYTES;
const SPLIT_NIBBLES: usize = 2 * SPLIT_LENGTH;
const BYTES: usize = 0x100;

/// A dump as it is written: for the edit buffer if its number is odd.
fn dump(number: usize) -> Vec<u8> {
    let mut random = Random::new(number as u64);
    let patch = inputs::good_patch(&mut random);
    let mut out = vec![0; DUMP];
    let outcome = if number % 2 == 1 {
        write_edit_buffer(&patch, &mut out)
    } else {
        write_patch(number as u8, &patch, &mut out)
    };
    assert_eq!(outcome.detail, DUMP);
    out
}

/// A dump, damaged, between the two next.
fn damaged(number: usize, damage: Damage) -> Vec<u8> {
    let mut stream = [dump(number + 1), dump(number), dump(number + 2)].concat();
    damage.apply(&mut stream);
    stream
}

fn exchange(index: usize) -> Vec<u8> {
    let at = damageable(DUMP).start + index % NEIGHBOURS;
    damaged(index / NEIGHBOURS, Damage::Exchange { at })
}

fn pair(index: usize) -> Vec<u8> {
    let bytes = [index % VALUES, index / VALUES % VALUES].map(|value| value as u8);
    let rest = index / (VALUES * VALUES);
    let at = low_nibble(DUMP, PACKED[rest % PACKED.len()]);
    damaged(rest / PACKED.len(), Damage::ReplaceTwo { at, bytes })
}

/// A split as it is written.
fn split(number: usize) -> Vec<u8> {
    let mut random = Random::new(number as u64);
    let split = inputs::good_split(&mut random);
    let mut out = vec![0; SPLIT_DUMP];
    let outcome = write_split(number as u8, &split, &mut out);
    assert_eq!(outcome.detail, SPLIT_DUMP);
    out
}

/// A split with a nibble replaced, between the two next.
fn nibble(index: usize) -> Vec<u8> {
    let number = index / (SPLIT_NIBBLES * BYTES);
    let mut stream = [split(number + 1), split(number), split(number + 2)].concat();
    let at = low_nibble(SPLIT_DUMP, 0) + index / BYTES % SPLIT_NIBBLES;
    let byte = (index % BYTES) as u8;
    Damage::Replace { at, byte }.apply(&mut stream);
    stream
}

/// Reads the split in the middle, or walks to it.
pub fn read_nibble(random: &mut Random, index: usize) -> Call {
    Call {
        place: SPLIT_DUMP,
        ..read(random, &nibble(index))
    }
}

pub fn report_nibble(random: &mut Random, index: usize) -> Call {
    reports(random, &nibble(index))
}

/// Reads the dump in the middle.
fn read(random: &mut Random, stream: &[u8]) -> Call {
    Call {
        first: Lent::new(random, stream),
        second: Lent::filled(random, PATCH_LENGTH),
        room: Lent::filled(random, 0),
        place: DUMP,
        bytes: [0; 4],
        unit: Unit::default(),
        third: Lent::filled(random, 0),
        run: None,
    }
}

/// Asks for all reports.
fn reports(random: &mut Random, stream: &[u8]) -> Call {
    Call {
        room: Lent::filled(random, A_CALL * EMPTY.len()),
        place: 0,
        ..read(random, stream)
    }
}

pub fn read_exchange(random: &mut Random, index: usize) -> Call {
    read(random, &exchange(index))
}

pub fn report_exchange(random: &mut Random, index: usize) -> Call {
    reports(random, &exchange(index))
}

pub fn read_pair(random: &mut Random, index: usize) -> Call {
    read(random, &pair(index))
}

pub fn report_pair(random: &mut Random, index: usize) -> Call {
    reports(random, &pair(index))
}
