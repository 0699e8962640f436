//! The walk, the reports of a stream, and reading a record.

use std::iter::FusedIterator;

use crate::answers::{Outcome, Reading, Refusal, Report, NO_MESSAGE, TOO_SHORT};
use crate::frames::{next_frame, Frame};
use crate::records::Record;

/// The first message that starts at `place` or later; answer 1 when there is none.
#[inline]
pub fn walk(input: &[u8], place: usize) -> Report {
    let (report, _) = walk_and(input, place, |_| ());
    report
}

/// The same with what is told of the message's record, if it has one.
#[inline]
pub(crate) fn walk_and<T>(
    input: &[u8],
    place: usize,
    tell: impl FnOnce(&Record) -> T,
) -> (Report, Option<T>) {
    let Some(Frame {
        start,
        end,
        noise,
        ending,
    }) = next_frame(input, place)
    else {
        let nothing = Report {
            start: input.len(),
            end: input.len(),
            answer: NO_MESSAGE,
            detail: 0,
            value: 0,
            noise: 0,
        };
        return (nothing, None);
    };
    let mut told = None;
    let judged = Record::of(ending, noise).map(|record| {
        told = Some(tell(&record));
        usize::from(record.opcode())
    });
    let Outcome {
        answer,
        detail,
        value,
    } = judged.into();
    let report = Report {
        start,
        end,
        answer,
        detail,
        value,
        noise,
    };
    (report, told)
}

/// Reads a record: answers as the walk does, then 13, and puts a dump's packed bytes at the
/// buffer's start.
#[inline]
pub fn read(input: &[u8], place: usize, buffer: &mut [u8]) -> Reading {
    let Some(Frame {
        start,
        end,
        noise,
        ending,
    }) = next_frame(input, place)
    else {
        return Reading {
            start: input.len(),
            end: input.len(),
            answer: NO_MESSAGE,
            detail: 0,
            value: 0,
            noise: 0,
            bytes: [0; 4],
        };
    };
    let mut bytes = [0; 4];
    let judged = Record::of(ending, noise).and_then(|record| {
        let packed = record.packed();
        buffer
            .get_mut(..packed.len())
            .ok_or(Refusal::plain(TOO_SHORT))?
            .copy_from_slice(packed);
        bytes = record.bytes();
        Ok(usize::from(record.opcode()))
    });
    let Outcome {
        answer,
        detail,
        value,
    } = judged.into();
    Reading {
        start,
        end,
        answer,
        detail,
        value,
        noise,
        bytes,
    }
}

/// The reports of a stream: the walk from 0, each next from the last end, until it answers 1.
pub fn reports(input: &[u8]) -> Reports<'_> {
    Reports { input, place: 0 }
}

/// An iterator over the reports of a stream. It carries nothing but the input and its place.
#[derive(Clone, Debug)]
#[must_use]
pub struct Reports<'a> {
    input: &'a [u8],
    place: usize,
}

impl Iterator for Reports<'_> {
    type Item = Report;

    #[inline]
    fn next(&mut self) -> Option<Report> {
        let report = walk(self.input, self.place);
        self.place = report.end;
        (report.answer != NO_MESSAGE).then_some(report)
    }
}

// A walk that found nothing ends at the input's length and finds nothing again.
impl FusedIterator for Reports<'_> {}
