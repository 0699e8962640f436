//! Readers straight from the cable: what is done with one call by call, and what each call tells and
//! leaves in the reader's record.

use std::fmt;

use compare::ffi::{self, Cable, CABLE_ROOM};
use reference::answers::STREAM_TOO_LONG;
use reference::streams::Random;
use reference::{CableReader, LONGEST_STREAM};

use crate::lent::{hex, Call, Fill, Lent};
use crate::routines::Returned;

/// What is done in a call.
#[derive(Clone, Copy, Debug, PartialEq, Eq)]
pub enum Deed {
    /// So many of the bytes left are fed, or all of them where there are fewer.
    Feed(usize),
    /// The end is declared.
    End,
}

impl Deed {
    /// The bytes that it feeds, if it does.
    pub fn feeds(self, left: &[u8]) -> Option<&[u8]> {
        match self {
            Self::Feed(size) => Some(&left[..size.min(left.len())]),
            Self::End => None,
        }
    }
}

/// What a call told, and the record behind it.
#[derive(Clone, PartialEq, Eq)]
struct Told {
    fed: ffi::Fed,
    record: Cable,
}

/// A reader in both programs, and what is done with it.
#[derive(Clone)]
pub struct Run {
    /// The library's, which is lent.
    pub record: Lent<Cable>,
    /// The second program's.
    pub reader: CableReader,
    /// What is done in turn; bytes that are not taken are fed again.
    pub deeds: Vec<Deed>,
    /// What each call told and left.
    told: Vec<Told>,
    /// How many calls before these were the same in both programs.
    same: usize,
}

/// Two are the same where all their calls told and left the same.
impl PartialEq for Run {
    fn eq(&self, other: &Self) -> bool {
        self.record == other.record && self.told == other.told
    }
}

impl Eq for Run {}

impl Run {
    pub fn new(record: Lent<Cable>, reader: CableReader, deeds: Vec<Deed>) -> Self {
        assert!(!deeds.is_empty(), "nothing to compare: no call");
        Self {
            record,
            reader,
            deeds,
            told: Vec::new(),
            same: 0,
        }
    }

    /// Makes all calls. Each is given the record and the bytes that are fed, none for the end.
    fn play(
        &mut self,
        stream: &[u8],
        mut call: impl FnMut(&mut Cable, Option<&[u8]>) -> ffi::Fed,
    ) -> Returned {
        let mut left = stream;
        for deed in &self.deeds {
            let record = &mut self.record.get_mut()[0];
            let fed = call(record, deed.feeds(left));
            left = left.get(fed.taken..).unwrap_or_default();
            let record = *record;
            self.told.push(Told { fed, record });
        }
        let answers = self
            .told
            .iter()
            .map(|told| told.fed.reading.report.outcome.answer);
        Returned::of_calls(answers.map(usize::from).collect())
    }

    /// Keeps of what the calls told only the first that differs.
    pub fn keep_difference(&mut self, other: &mut Self) {
        let both = self.told.iter().zip(&other.told);
        let same = both.take_while(|(told, other)| told == other).count();
        for run in [self, other] {
            run.told.drain(..same);
            run.told.truncate(1);
            run.same = same;
        }
    }
}

/// Makes the calls of a run.
pub fn library(call: &mut Call) -> Returned {
    let Call { first, run, .. } = call;
    let run = run.as_mut().expect("a run");
    run.play(first.get(), library_call)
}

/// What they are to tell and to leave.
pub fn expected(call: &mut Call) -> Returned {
    let Call { first, run, .. } = call;
    let run = run.as_mut().expect("a run");
    let mut reader = run.reader.clone();
    run.play(first.get(), |record, bytes| {
        reader_call(&mut reader, record, bytes)
    })
}

fn library_call(record: &mut Cable, bytes: Option<&[u8]>) -> ffi::Fed {
    match bytes {
        Some(bytes) => ffi::cable_feed(record, bytes),
        None => ffi::cable_end(record),
    }
}

/// A call that is refused changes nothing, whatever the record holds. Behind any other the record is
/// what the second program's reader says of itself.
fn reader_call(reader: &mut CableReader, record: &mut Cable, bytes: Option<&[u8]>) -> ffi::Fed {
    let over = reader.is_over();
    let fed = match bytes {
        Some(bytes) => reader.feed(bytes),
        None => reader.end(),
    };
    if !over && fed.report.answer != STREAM_TOO_LONG {
        *record = record_of(reader);
    }
    told(fed)
}

/// The record of a reader.
pub fn record_of(reader: &CableReader) -> Cable {
    let open = reader.open();
    let held = open.map_or(reader.packed(), |open| open.content);
    let mut bytes = [0; CABLE_ROOM];
    bytes[..held.len()].copy_from_slice(held);
    Cable {
        bytes,
        inside: open.is_some(),
        over: reader.is_over(),
        count: held.len(),
        start: open.map_or(0, |open| open.start),
        noise: open.map_or(0, |open| open.noise),
        taken: reader.taken(),
    }
}

/// What the second program tells, as the library's struct.
fn told(fed: reference::Fed) -> ffi::Fed {
    let reference::Fed {
        taken,
        ended,
        report,
        bytes,
    } = fed;
    let report = report_of(report);
    ffi::Fed {
        reading: ffi::Reading { report, bytes },
        taken,
        ended,
    }
}

/// The second program's report, as the library's struct.
pub const fn report_of(report: reference::Report) -> ffi::Report {
    let reference::Report {
        start,
        end,
        answer,
        detail,
        value,
        noise,
    } = report;
    let outcome = ffi::Outcome {
        answer,
        value,
        detail,
    };
    ffi::Report {
        start,
        end,
        outcome,
        noise,
    }
}

/// A reader at a fresh start in both programs, which do the same call by call.
pub struct Both {
    record: Cable,
    reader: CableReader,
    expected: Cable,
    /// How many calls were made.
    pub calls: usize,
}

impl Both {
    pub fn fresh() -> Self {
        let reader = CableReader::new();
        Self {
            record: ffi::cable_fresh(),
            expected: record_of(&reader),
            reader,
            calls: 0,
        }
    }

    /// Feeds pieces, bytes not taken being fed again, then declares the end. Each message that ends goes
    /// to the function with the record. None and a print where the programs differ.
    pub fn feed_all<'a>(
        &mut self,
        pieces: impl Iterator<Item = &'a [u8]>,
        mut ended: impl FnMut(ffi::Reading, &Cable),
    ) -> Option<()> {
        let mut tell = |fed: ffi::Fed, record: &Cable| {
            if fed.ended {
                ended(fed.reading, record);
            }
        };
        for mut piece in pieces {
            loop {
                let fed = self.call(Some(piece))?;
                tell(fed, &self.record);
                piece = &piece[fed.taken..];
                if piece.is_empty() {
                    break;
                }
            }
        }
        let fed = self.call(None)?;
        tell(fed, &self.record);
        Some(())
    }

    /// What a call tells, or none and a print where the programs differ.
    fn call(&mut self, bytes: Option<&[u8]>) -> Option<ffi::Fed> {
        let before = self.record;
        let fed = library_call(&mut self.record, bytes);
        let expected = reader_call(&mut self.reader, &mut self.expected, bytes);
        self.calls += 1;
        if fed == expected && self.record == self.expected {
            return Some(fed);
        }
        println!("the programs differ in call {}", self.calls - 1);
        match bytes {
            Some(bytes) => println!("  fed {}", hex(bytes)),
            None => println!("  the end declared"),
        }
        println!("  the record before\n    {}", Shown(&before));
        println!(
            "  the library told {fed:?} and left\n    {}",
            Shown(&self.record)
        );
        println!(
            "  the second program told {expected:?} and left\n    {}",
            Shown(&self.expected)
        );
        None
    }
}

/// A record in one line.
struct Shown<'a>(&'a Cable);

impl fmt::Display for Shown<'_> {
    fn fmt(&self, f: &mut fmt::Formatter<'_>) -> fmt::Result {
        let Cable {
            bytes,
            inside,
            over,
            count,
            start,
            noise,
            taken,
        } = self.0;
        write!(
            f,
            "inside {inside}, over {over}, count {count}, start {start}, "
        )?;
        write!(f, "noise {noise}, taken {taken}, bytes {}", hex(bytes))
    }
}

impl fmt::Debug for Lent<Cable> {
    fn fmt(&self, f: &mut fmt::Formatter<'_>) -> fmt::Result {
        let [before, record, behind] = self.parts().map(|part| Shown(&part[0]));
        write!(f, "{before}\n          [{record}]\n          {behind}")
    }
}

impl fmt::Display for Run {
    fn fmt(&self, f: &mut fmt::Formatter<'_>) -> fmt::Result {
        writeln!(f, "    record  {:?}", self.record)?;
        write!(f, "    calls  ")?;
        for deed in &self.deeds {
            match deed {
                Deed::Feed(size) => write!(f, " {size}")?,
                Deed::End => f.write_str(" end")?,
            }
        }
        for Told { fed, record } in &self.told {
            write!(f, "\n    call {} told {fed:?} and left\n", self.same)?;
            write!(f, "          {}", Shown(record))?;
        }
        Ok(())
    }
}

/// Any record, those that no call leaves too.
impl Fill for Cable {
    const GUARD: usize = 1;

    fn fill(random: &mut Random) -> Self {
        Self {
            bytes: std::array::from_fn(|_| random.byte()),
            inside: random.one_in(2),
            over: random.one_in(2),
            count: random.pick(&[0, 1, 134, 172, 350, 351, 352, usize::MAX]),
            start: any_number(random),
            noise: any_number(random),
            taken: any_number(random),
        }
    }
}

/// A number of any size, or around the most bytes that are taken.
fn any_number(random: &mut Random) -> usize {
    match random.below(5) {
        0 => random.below(1_000),
        1 => LONGEST_STREAM - random.below(1_000),
        2 => LONGEST_STREAM + random.below(1_000),
        3 => usize::MAX - random.below(2),
        _ => random.draw() as usize,
    }
}
