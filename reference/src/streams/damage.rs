//! The damages of demand 3, with the slipped neighbours of document 02.

use std::ops::{Range, RangeInclusive};

use super::Random;
use crate::frames::{is_real_time, START};
use crate::kinds::{length, OBERHEIM};

/// One damage to a stream.
#[derive(Clone, Copy, Debug, PartialEq, Eq)]
pub enum Damage {
    /// The byte at a place is replaced.
    Replace {
        /// The place.
        at: usize,
        /// The byte that stands there afterwards.
        byte: u8,
    },
    /// The byte at a place is lost.
    Lose {
        /// The place.
        at: usize,
    },
    /// A byte is added in front of the one at a place.
    Insert {
        /// The place.
        at: usize,
        /// The byte that stands there afterwards.
        byte: u8,
    },
    /// The bytes at a place and the next are exchanged.
    Exchange {
        /// The first of the two places.
        at: usize,
    },
    /// The bytes at a place and the next are replaced, at least one by a different one.
    ReplaceTwo {
        /// The first of the two places.
        at: usize,
        /// The bytes that stand there afterwards.
        bytes: [u8; 2],
    },
}

/// The places of a written patch dump's data and checksum bytes.
#[must_use]
pub const fn damageable(start: usize) -> Range<usize> {
    start + 5..start + length::SINGLE_PATCH - 1
}

/// The place of a packed byte's low nibble in a dump; the high one is the next.
#[must_use]
pub const fn low_nibble(start: usize, packed: usize) -> usize {
    start + 5 + 2 * packed
}

impl Damage {
    /// Does the damage, at places that the stream has.
    pub fn apply(self, stream: &mut Vec<u8>) {
        match self {
            Self::Replace { at, byte } => stream[at] = byte,
            Self::Lose { at } => {
                stream.remove(at);
            }
            Self::Insert { at, byte } => stream.insert(at, byte),
            Self::Exchange { at } => stream.swap(at, at + 1),
            Self::ReplaceTwo { at, bytes } => stream[at..at + 2].copy_from_slice(&bytes),
        }
    }

    /// A damage of any of the five sorts. The first of the places is taken for a low nibble, the
    /// last for the checksum, which is never one of two bytes replaced.
    pub fn any(random: &mut Random, stream: &[u8], places: Range<usize>) -> Self {
        let at = random.within(places.start..=places.end - 1);
        let damage = match random.below(5) {
            0 => Some(Self::replace(random, stream, at)),
            1 => Some(Self::Lose { at }),
            2 => Some(Self::insert(random, at)),
            3 => Self::exchange(random, stream, places),
            _ => Self::replace_two(random, stream, places.start..places.end - 1),
        };
        // There may be no unequal neighbours, or too few places.
        damage.unwrap_or(Self::Lose { at })
    }

    /// A replacement by a different byte: often one bit, often a status byte.
    pub fn replace(random: &mut Random, stream: &[u8], at: usize) -> Self {
        let old = stream[at];
        let byte = match random.below(4) {
            0 => old ^ (1 << random.below(8)),
            1 => random.byte_within(0xF0..=0xFF),
            2 => random.byte_within(0..=15),
            _ => random.byte(),
        };
        let byte = if byte == old { old ^ 0x08 } else { byte };
        Self::Replace { at, byte }
    }

    /// An added byte that isn't real time.
    pub fn insert(random: &mut Random, at: usize) -> Self {
        let byte = match random.below(3) {
            0 => random.byte_within(0xF0..=0xF7),
            1 => random.byte_within(0..=15),
            _ => random.byte_within(0..=0xF7),
        };
        Self::Insert { at, byte }
    }

    /// An exchange of two unequal neighbours, if there are any: often the last of them.
    pub fn exchange(random: &mut Random, stream: &[u8], places: Range<usize>) -> Option<Self> {
        let all: Vec<Self> = Self::every_exchange(stream, places).collect();
        let &last = all.last()?;
        if random.one_in(4) {
            Some(last)
        } else {
            Some(random.pick(&all))
        }
    }

    /// Two neighbouring data bytes replaced, if there are two: mostly the nibbles of one packed
    /// byte, often with the sum kept. The first of the data is a low nibble.
    pub fn replace_two(random: &mut Random, stream: &[u8], data: Range<usize>) -> Option<Self> {
        let last = data.len().checked_sub(2)?;
        let index = random.within(0..=last);
        let index = if random.one_in(4) { index } else { index & !1 };
        let at = data.start + index;
        let old = [stream[at], stream[at + 1]];
        // The high nibble moved by 8.
        let mut moved = old;
        moved[1 - index % 2] ^= 0x08;
        let bytes = match random.below(3) {
            0 => moved,
            _ => two_bytes(random),
        };
        let bytes = if bytes == old { moved } else { bytes };
        Some(Self::ReplaceTwo { at, bytes })
    }

    /// Every byte replaced, lost or added at these places, as demand 3 has it.
    pub fn every(stream: &[u8], places: Range<usize>) -> impl Iterator<Item = Self> + '_ {
        places.flat_map(move |at| {
            let others = (0..=255).filter(move |&byte| byte != stream[at]);
            let replaced = others.map(move |byte| Self::Replace { at, byte });
            let added = (0..=255).filter(|&byte| !is_real_time(byte));
            let inserted = added.map(move |byte| Self::Insert { at, byte });
            replaced.chain(inserted).chain([Self::Lose { at }])
        })
    }

    /// Every exchange of two unequal neighbours that both stand at one of these places. Those of
    /// document 02 are the ones among `damageable(start)`.
    pub fn every_exchange(stream: &[u8], places: Range<usize>) -> impl Iterator<Item = Self> + '_ {
        let pairs = stream[places.clone()].windows(2).zip(places);
        pairs
            .filter(|(pair, _)| pair[0] != pair[1])
            .map(|(_, at)| Self::Exchange { at })
    }

    /// Every pair of values below 80H in place of the bytes at a place and the next, but the pair
    /// that stands there. Those of document 02 are the ones at `low_nibble(start, packed)`.
    pub fn every_pair(stream: &[u8], at: usize) -> impl Iterator<Item = Self> {
        every_two(stream, at, 0..=0x7F)
    }

    /// Every pair of any two values there, but the pair that stands there.
    pub fn every_wide_pair(stream: &[u8], at: usize) -> impl Iterator<Item = Self> {
        every_two(stream, at, 0..=0xFF)
    }
}

/// A header's beginning, or two bytes that are nibbles, other data, status or real time.
fn two_bytes(random: &mut Random) -> [u8; 2] {
    if random.one_in(8) {
        return [START, OBERHEIM];
    }
    std::array::from_fn(|_| match random.below(6) {
        0..=2 => random.byte_within(0..=15),
        3 => random.byte_within(16..=0x7F),
        4 => random.byte_within(0xF0..=0xFF),
        _ => random.byte(),
    })
}

/// Every pair of these values at a place and the next, but the pair that stands there.
fn every_two(stream: &[u8], at: usize, values: RangeInclusive<u8>) -> impl Iterator<Item = Damage> {
    let old = [stream[at], stream[at + 1]];
    let seconds = values.clone();
    values
        .flat_map(move |first| seconds.clone().map(move |second| [first, second]))
        .filter(move |&bytes| bytes != old)
        .map(move |bytes| Damage::ReplaceTwo { at, bytes })
}
