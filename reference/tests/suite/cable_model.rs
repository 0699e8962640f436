//! Document 02's cable reader once more, as slowly and plainly as it can be said: it keeps every
//! byte taken, and at each call walks the whole from its first byte.

use reference::streams::cuts::next_feed;
use reference::{reports, CableReader, Fed, Open, Report};

use crate::kit::{less_real_time, record, report};

/// The most bytes that are taken.
pub const LIMIT: usize = 4_294_967_295;

/// A call that takes nothing and ends no message, with its answer and the place for it.
pub fn without_message(answer: u8, place: usize) -> Fed {
    Fed {
        taken: 0,
        ended: false,
        report: report(place, place, answer, 0),
        bytes: [0; 4],
    }
}

/// A call in which no message ended.
pub fn took(taken: usize) -> Fed {
    Fed {
        taken,
        ..without_message(0, 0)
    }
}

/// The reader as the paper tells it.
#[derive(Clone)]
pub struct Model {
    /// How many bytes were taken before the ones kept.
    before: usize,
    bytes: Vec<u8>,
    /// How many of the walk's reports were given.
    given: usize,
    over: bool,
    packed: Vec<u8>,
}

impl Model {
    pub const fn with_taken(before: usize) -> Self {
        Self {
            before,
            bytes: Vec::new(),
            given: 0,
            over: false,
            packed: Vec::new(),
        }
    }

    const fn taken(&self) -> usize {
        self.before + self.bytes.len()
    }

    pub fn feed(&mut self, bytes: &[u8]) -> Fed {
        if self.over {
            return without_message(1, self.taken());
        }
        if self.taken() + bytes.len() > LIMIT {
            return without_message(21, 0);
        }
        self.packed.clear();
        let arrived = [&self.bytes, bytes].concat();
        // Cut is a message that may go on.
        let next = reports(&arrived).nth(self.given);
        let Some(ended) = next.filter(|report| report.answer != 2) else {
            self.bytes = arrived;
            return took(bytes.len());
        };
        let taken = ended.end - self.bytes.len();
        self.bytes.extend_from_slice(&bytes[..taken]);
        self.given += 1;
        let (reading, packed) = record(&arrived, ended.start);
        self.packed = packed;
        self.ended(taken, ended, reading.bytes)
    }

    pub fn end(&mut self) -> Fed {
        let open = self.open_report();
        self.over = true;
        self.packed.clear();
        open.map_or(without_message(1, self.taken()), |open| {
            self.ended(0, open, [0; 4])
        })
    }

    /// A report with places from the first byte taken.
    fn ended(&self, taken: usize, report: Report, bytes: [u8; 4]) -> Fed {
        Fed {
            taken,
            ended: true,
            report: Report {
                start: self.before + report.start,
                end: self.before + report.end,
                ..report
            },
            bytes,
        }
    }

    /// The walk's report of the message that is open. After the end none is.
    fn open_report(&self) -> Option<Report> {
        let open = reports(&self.bytes).nth(self.given);
        open.filter(|_| !self.over)
    }

    /// The reader's record says what it has to after each call.
    pub fn agrees(&self, reader: &CableReader) {
        assert_eq!(reader.taken(), self.taken());
        assert_eq!(reader.is_over(), self.over);
        assert_eq!(reader.packed(), self.packed);
        let open = self.open_report();
        let content = open.map(|open| less_real_time(&self.bytes[open.start + 1..]));
        let expected = open.zip(content.as_ref()).map(|(open, content)| Open {
            start: self.before + open.start,
            noise: open.noise,
            content: &content[..content.len().min(351)],
        });
        assert_eq!(reader.open(), expected);
    }
}

/// A reader and its model that are fed the same.
#[derive(Clone)]
pub struct Both {
    pub reader: CableReader,
    model: Model,
}

impl Both {
    pub fn new() -> Self {
        let both = Self {
            reader: CableReader::new(),
            model: Model::with_taken(0),
        };
        both.model.agrees(&both.reader);
        both
    }

    pub fn with_taken(taken: usize) -> Self {
        let both = Self {
            reader: CableReader::with_taken(taken),
            model: Model::with_taken(taken),
        };
        both.model.agrees(&both.reader);
        both
    }

    pub fn feed(&mut self, bytes: &[u8]) -> Fed {
        let fed = self.reader.feed(bytes);
        assert_eq!(fed, self.model.feed(bytes));
        self.model.agrees(&self.reader);
        fed
    }

    pub fn end(&mut self) -> Fed {
        let ended = self.reader.end();
        assert_eq!(ended, self.model.end());
        self.model.agrees(&self.reader);
        ended
    }
}

/// A report with its record.
#[derive(Clone, Debug, PartialEq, Eq)]
pub struct Told {
    pub report: Report,
    pub bytes: [u8; 4],
    pub packed: Vec<u8>,
}

/// What the file walk tells of a stream.
pub fn told_by_the_walk(stream: &[u8]) -> Vec<Told> {
    let told = reports(stream).map(|report| {
        let (reading, packed) = record(stream, report.start);
        Told {
            report,
            bytes: reading.bytes,
            packed,
        }
    });
    told.collect()
}

/// What the cable reader tells of a stream, fed as it is cut, the end declared. Each call is done,
/// and goes on.
pub fn told_by_the_cable(stream: &[u8], cuts: &[usize]) -> Vec<Told> {
    let mut reader = CableReader::new();
    let mut told = Vec::new();
    let (mut place, mut turn, mut calls) = (0, 0, 0);
    let mut stood = false;
    while let Some(fed) = next_feed(cuts, turn, stream.len() - place) {
        let call = reader.feed(&stream[place..place + fed]);
        place += call.taken;
        assert_eq!(reader.taken(), place);
        told.extend(tell(call, &reader));
        if fed > 0 {
            // Only the byte that interrupts isn't taken, and only once.
            let stands = call.taken == 0;
            assert!(!stands || (!stood && call.ended && call.report.answer == 3));
            stood = stands;
            calls += 1;
        }
        turn += 1;
    }
    assert!(calls <= 2 * stream.len());
    let end = reader.end();
    assert!(if end.ended {
        end.report.answer == 2
    } else {
        end == without_message(1, stream.len())
    });
    told.extend(tell(end, &reader));
    told
}

/// What a call tells, if a message ended with it.
fn tell(call: Fed, reader: &CableReader) -> Option<Told> {
    if !call.ended {
        assert_eq!(call.bytes, [0; 4]);
        assert!(reader.packed().is_empty());
        return None;
    }
    assert_eq!(call.report.end, reader.taken());
    Some(Told {
        report: call.report,
        bytes: call.bytes,
        packed: reader.packed().to_vec(),
    })
}
