//! Demand 3's claim about a stream with a written dump in it, for one damage; and such streams.

use std::ops::Range;

use reference::streams::damage::{low_nibble, Damage};
use reference::{read, reports, write_edit_buffer, write_patch, Outcome, Reading, Report};

use crate::kit::{
    bass, dump, operation_message, reading_outcome, report, reported, written, SPLIT,
};

/// The number of a patch's data bytes; the checksum stands behind them.
pub const DATA: usize = 268;

/// The lengths of buffers lent for reading.
const LENT: [usize; 6] = [0, 18, 133, 134, 172, 200];

/// Those lent in long runs: one byte too short for a patch, and just long enough.
const FEW: [usize; 2] = [133, 134];

/// A stream with a written dump in it.
pub struct Undamaged {
    pub stream: Vec<u8>,
    pub start: usize,
    pub end: usize,
    before: Vec<Report>,
    after: Vec<Report>,
    lent: &'static [usize],
}

impl Undamaged {
    pub fn new(before: &[u8], dump: &[u8], after: &[u8]) -> Self {
        let stream = [before, dump, after].concat();
        let (start, end) = (before.len(), before.len() + dump.len());
        let (before, rest): (Vec<_>, Vec<_>) =
            reports(&stream).partition(|report| report.start < start);
        // The dump has one report, with answer 0 and no real time.
        let opcode = usize::from(dump[3]);
        assert_eq!(rest[0], report(start, end, 0, opcode));
        let after = rest[1..].to_vec();
        assert!(after.iter().all(|report| report.start >= end));
        Self {
            stream,
            start,
            end,
            before,
            after,
            lent: &LENT,
        }
    }

    /// The numbers of noisy reports before the dump and behind it.
    pub fn noisy(&self) -> [usize; 2] {
        [&self.before, &self.after]
            .map(|list| list.iter().filter(|report| report.noise > 0).count())
    }

    /// The places of its data bytes.
    pub fn data(&self) -> Range<usize> {
        let first = low_nibble(self.start, 0);
        first..first + DATA
    }

    /// The damaged dump keeps its extent and has one report, with this refusal.
    pub fn refuses(&self, damage: Damage, refusal: Outcome) {
        let expected = reported(self.start, self.end, refusal);
        assert_eq!(self.survives(damage), [expected], "{damage:?}");
    }

    /// The claim of demand 3 for one damage; gives the damaged dump's reports, all refusals.
    pub fn survives(&self, damage: Damage) -> Vec<Report> {
        let mut damaged = self.stream.clone();
        damage.apply(&mut damaged);
        // Where a place behind the damage has moved to.
        let moved = |place: usize| place + damaged.len() - self.stream.len();

        let mut found = reports(&damaged).peekable();
        for before in &self.before {
            assert_eq!(found.next().as_ref(), Some(before), "{damage:?}");
            self.reads_alike(before.start, &damaged, before.start, false);
        }
        let mut refusals = Vec::new();
        let end = moved(self.end);
        while let Some(own) = found.next_if(|report| report.start < end) {
            assert!(own.start >= self.start);
            assert_ne!(own.answer, 0, "{damage:?}");
            self.yields_nothing(&damaged, own.start);
            refusals.push(own);
        }
        for after in &self.after {
            let expected = Report {
                start: moved(after.start),
                end: moved(after.end),
                ..*after
            };
            assert_eq!(found.next(), Some(expected), "{damage:?}");
            self.reads_alike(after.start, &damaged, expected.start, true);
        }
        assert_eq!(found.next(), None, "{damage:?}");
        refusals
    }

    /// Reading from a report before or behind gives the same from both streams.
    fn reads_alike(&self, place: usize, damaged: &[u8], moved: usize, behind: bool) {
        for &length in self.lent {
            let mut one = [0xA5; 200];
            let mut other = one;
            let first = read(&self.stream, place, &mut one[..length]);
            let second = read(damaged, moved, &mut other[..length]);
            assert_eq!(one, other);
            let counted = |reading: Reading, stream: &[u8]| {
                let from = if behind { stream.len() } else { 0 };
                (reading.start.abs_diff(from), reading.end.abs_diff(from))
            };
            assert_eq!(counted(first, &self.stream), counted(second, damaged));
            assert_eq!(reading_outcome(&first), reading_outcome(&second));
            assert_eq!(first.noise, second.noise);
            assert_eq!(first.bytes, second.bytes);
        }
    }

    /// Reading from a report of the damaged dump gives neither 0 nor 13 and keeps the buffer.
    fn yields_nothing(&self, damaged: &[u8], place: usize) {
        for &length in self.lent {
            let mut buffer = [0xA5; 200];
            let reading = read(damaged, place, &mut buffer[..length]);
            assert!(![0, 13].contains(&reading.answer));
            assert_eq!(reading.bytes, [0; 4]);
            assert_eq!(buffer, [0xA5; 200]);
        }
    }
}

/// What stands before and behind a dump: nothing, other messages, messages left open, bytes that an
/// edit could begin and end with.
pub fn surroundings() -> [(Vec<u8>, Vec<u8>); 4] {
    let other = written(|out| write_patch(98, &bass(), out));
    let split = dump(0x02, 49, &SPLIT);
    let edit = [0xF0, 0x10, 0x06, 0x06, 0x15, 0x7F, 0xF7];
    let bank = operation_message(0x0A, &[5]);
    let store = operation_message(0x0E, &[5, 1, 0x7F]);
    [
        (vec![], vec![]),
        (
            [&[0x41, 0xF7, 0xFE], &other[..], &split, &bank].concat(),
            [&store[..], &edit, &split, &other].concat(),
        ),
        (
            vec![0xF0, 0x10, 0x06, 0x01, 0xFE],
            vec![0x00, 0xF7, 0xF0, 0x10],
        ),
        (vec![0xF0], vec![0x06, 0x06, 0x15, 0x7F, 0xF7]),
    ]
}

/// A patch's two dumps, numbered and for the edit buffer.
pub fn dumps(number: u8, patch: &[u8; 134]) -> [Vec<u8>; 2] {
    [
        written(|out| write_patch(number, patch, out)),
        written(|out| write_edit_buffer(patch, out)),
    ]
}

/// A patch's two dumps in each of the surroundings.
pub fn placed(patch: &[u8; 134]) -> Vec<Undamaged> {
    let dumps = dumps(41, patch);
    let placed = surroundings().into_iter().flat_map(|(before, after)| {
        let dumps = dumps.each_ref();
        dumps.map(|dump| Undamaged::new(&before, dump, &after))
    });
    placed.collect()
}

/// One dump of each patch, the kinds and the surroundings by turns, for long runs.
pub fn by_turns(patches: &[[u8; 134]]) -> Vec<Undamaged> {
    let turns = [0, 3, 4, 7].into_iter().cycle();
    let placed = patches.iter().zip(turns).map(|(patch, turn)| Undamaged {
        lent: &FEW,
        ..placed(patch).swap_remove(turn)
    });
    placed.collect()
}
