//! The exported routines, each beside the second program's.

use std::fmt;

use compare::ffi::{self, A_CALL};
use compare::word;
use reference::answers::NO_MESSAGE;
use reference::streams::Random;

use crate::cable;
use crate::calls;
use crate::feeds;
use crate::found;
use crate::lent::Call;
use crate::operations;
use crate::pairs;
use crate::slips;
use crate::units;

/// Where a routine's inputs come from.
#[derive(Clone, Copy)]
pub enum Source {
    /// Any number of them, each from a seed.
    Any(Any),
    /// All of a number of them.
    Every(usize, Every),
}

/// Makes an input.
type Any = fn(&mut Random) -> Call;
/// Makes the input of a number.
type Every = fn(&mut Random, usize) -> Call;

/// A routine of the library, and what the second program says of the same call.
pub struct Routine {
    /// What the library exports it as, behind `matrix_`.
    pub name: &'static str,
    /// Which inputs these are, where they are not just any.
    pub inputs: &'static str,
    pub source: Source,
    /// Makes the call.
    pub library: fn(&mut Call) -> Returned,
    /// What the call is to return. Elements are written as the call is to write them.
    pub expected: fn(&mut Call) -> Returned,
}

impl Routine {
    /// The same routine on other inputs.
    const fn on(self, inputs: &'static str, source: Source) -> Self {
        Self {
            inputs,
            source,
            ..self
        }
    }

    /// The same routine on all of a number of inputs.
    const fn on_every(self, inputs: &'static str, all: usize, make: Every) -> Self {
        self.on(inputs, Source::Every(all, make))
    }

    /// The same routine on inputs with a byte out of range, at each place of a patch.
    const fn finding(self, make: Every) -> Self {
        self.on_every(", out of range at every place", found::EVERYWHERE, make)
    }

    /// The same at each place of a split.
    const fn finding_in_splits(self, make: Every) -> Self {
        let inputs = ", out of range at every place of a split";
        self.on_every(inputs, found::EVERYWHERE_IN_SPLITS, make)
    }
}

impl fmt::Display for Routine {
    fn fmt(&self, f: &mut fmt::Formatter<'_>) -> fmt::Result {
        write!(f, "{}{}", self.name, self.inputs)
    }
}

/// What a call returns, as numbers; the answer, or what else it is known by, first. Of several calls
/// what each is known by.
#[derive(Debug, PartialEq, Eq)]
pub struct Returned {
    numbers: Vec<usize>,
    calls: usize,
}

impl Returned {
    const fn new(numbers: Vec<usize>) -> Self {
        Self { numbers, calls: 1 }
    }

    /// The answers of calls one after the other.
    pub const fn of_calls(answers: Vec<usize>) -> Self {
        Self {
            calls: answers.len(),
            numbers: answers,
        }
    }

    /// The answer, count, place or parameter of each call.
    pub fn known_by(&self) -> &[usize] {
        &self.numbers[..self.calls]
    }

    /// What an outcome has.
    fn outcome(answer: u8, detail: usize, value: i16) -> Self {
        Self::new(vec![answer.into(), detail, word(value)])
    }

    fn and(mut self, more: impl IntoIterator<Item = usize>) -> Self {
        self.numbers.extend(more);
        self
    }
}

/// The library's structs.
impl From<ffi::Outcome> for Returned {
    fn from(outcome: ffi::Outcome) -> Self {
        let ffi::Outcome {
            answer,
            value,
            detail,
        } = outcome;
        Self::outcome(answer, detail, value)
    }
}

impl From<ffi::Report> for Returned {
    fn from(report: ffi::Report) -> Self {
        let ffi::Report {
            start,
            end,
            outcome,
            noise,
        } = report;
        Self::from(outcome).and([start, end, noise])
    }
}

impl From<ffi::Reading> for Returned {
    fn from(ffi::Reading { report, bytes }: ffi::Reading) -> Self {
        Self::from(report).and(bytes.map(usize::from))
    }
}

impl From<ffi::BankOutcome> for Returned {
    fn from(ffi::BankOutcome { outcome, place }: ffi::BankOutcome) -> Self {
        Self::from(outcome).and([place])
    }
}

impl From<ffi::Range> for Returned {
    fn from(range: ffi::Range) -> Self {
        let ffi::Range {
            outcome,
            least,
            greatest,
        } = range;
        Self::from(outcome).and([word(least), word(greatest)])
    }
}

impl From<ffi::Held> for Returned {
    fn from(ffi::Held { outcome, value }: ffi::Held) -> Self {
        Self::from(outcome).and([word(value)])
    }
}

impl From<ffi::Listed> for Returned {
    fn from(ffi::Listed { count, next }: ffi::Listed) -> Self {
        Self::new(vec![count, next])
    }
}

/// A record is known by the bytes taken.
impl From<ffi::Cable> for Returned {
    fn from(record: ffi::Cable) -> Self {
        let ffi::Cable {
            bytes,
            inside,
            over,
            count,
            start,
            noise,
            taken,
        } = record;
        let numbers = vec![taken, inside.into(), over.into(), count, start, noise];
        Self::new(numbers).and(bytes.map(usize::from))
    }
}

impl From<ffi::Step> for Returned {
    fn from(step: ffi::Step) -> Self {
        let ffi::Step {
            report,
            unit,
            meant,
            count,
            sent,
        } = step;
        let ffi::Unit {
            bank,
            locked,
            grouped,
            number,
        } = unit;
        let unit = [bank, locked.into(), grouped.into(), number];
        let told = Self::from(report).and(unit.map(usize::from));
        told.and([meant.into(), count.into()])
            .and(sent.map(usize::from))
    }
}

impl From<u8> for Returned {
    fn from(number: u8) -> Self {
        Self::new(vec![number.into()])
    }
}

impl From<bool> for Returned {
    fn from(is_so: bool) -> Self {
        Self::from(u8::from(is_so))
    }
}

/// The second program's structs, the same numbers in the same order.
impl From<reference::Outcome> for Returned {
    fn from(outcome: reference::Outcome) -> Self {
        let reference::Outcome {
            answer,
            detail,
            value,
        } = outcome;
        Self::outcome(answer, detail, value)
    }
}

impl From<reference::Report> for Returned {
    fn from(report: reference::Report) -> Self {
        let reference::Report {
            start,
            end,
            answer,
            detail,
            value,
            noise,
        } = report;
        Self::outcome(answer, detail, value).and([start, end, noise])
    }
}

impl From<reference::Reading> for Returned {
    fn from(reading: reference::Reading) -> Self {
        let reference::Reading {
            start,
            end,
            answer,
            detail,
            value,
            noise,
            bytes,
        } = reading;
        let report = Self::outcome(answer, detail, value).and([start, end, noise]);
        report.and(bytes.map(usize::from))
    }
}

impl From<reference::BankOutcome> for Returned {
    fn from(bank: reference::BankOutcome) -> Self {
        let reference::BankOutcome {
            answer,
            detail,
            value,
            place,
        } = bank;
        Self::outcome(answer, detail, value).and([place])
    }
}

impl From<reference::RangeOutcome> for Returned {
    fn from(range: reference::RangeOutcome) -> Self {
        let reference::RangeOutcome {
            answer,
            detail,
            value,
            least,
            greatest,
        } = range;
        Self::outcome(answer, detail, value).and([word(least), word(greatest)])
    }
}

impl From<reference::ValueOutcome> for Returned {
    fn from(outcome: reference::ValueOutcome) -> Self {
        let reference::ValueOutcome {
            answer,
            detail,
            value,
            held,
        } = outcome;
        Self::outcome(answer, detail, value).and([word(held)])
    }
}

/// What the table gives, 255 for none.
impl From<Option<u8>> for Returned {
    fn from(number: Option<u8>) -> Self {
        Self::from(number.unwrap_or(255))
    }
}

/// The reports from the call's place on, as many as its room takes, at most eight.
fn reports(call: &mut Call) -> Returned {
    let mut place = call.place;
    let mut made = 0;
    let (room, _) = call.room.get_mut().as_chunks_mut();
    for flat in room.iter_mut().take(A_CALL) {
        let report = reference::walk(call.first.get(), place);
        if report.answer == NO_MESSAGE {
            break;
        }
        *flat = compare::flat(report);
        place = report.end;
        made += 1;
    }
    Returned::new(vec![made, place])
}

const WALK: Routine = Routine {
    name: "walk",
    inputs: "",
    source: Source::Any(calls::walk),
    library: |c| ffi::walk(c.first.get(), c.place).into(),
    expected: |c| reference::walk(c.first.get(), c.place).into(),
};

const READ: Routine = Routine {
    name: "read",
    inputs: "",
    source: Source::Any(calls::read),
    library: |c| ffi::read(c.first.get(), c.place, c.second.get_mut()).into(),
    expected: |c| reference::read(c.first.get(), c.place, c.second.get_mut()).into(),
};

const REPORTS: Routine = Routine {
    name: "reports",
    inputs: "",
    source: Source::Any(calls::reports_from),
    library: |c| ffi::reports(c.first.get(), c.place, c.room.get_mut()).into(),
    expected: reports,
};

const CABLE_FEED: Routine = Routine {
    name: "cable_feed",
    inputs: "",
    source: Source::Any(feeds::feed),
    library: cable::library,
    expected: cable::expected,
};

const CABLE_END: Routine = Routine {
    name: "cable_end",
    inputs: "",
    source: Source::Any(feeds::end),
    library: cable::library,
    expected: cable::expected,
};

const TEST_PATCH: Routine = Routine {
    name: "test_patch",
    inputs: "",
    source: Source::Any(calls::test_patch),
    library: |c| ffi::test_patch(c.first.get()).into(),
    expected: |c| reference::test_patch(c.first.get()).into(),
};

const TEST_SPLIT: Routine = Routine {
    name: "test_split",
    inputs: "",
    source: Source::Any(calls::test_split),
    library: |c| ffi::test_split(c.first.get()).into(),
    expected: |c| reference::test_split(c.first.get()).into(),
};

const VALUE_OF: Routine = Routine {
    name: "value_of",
    inputs: "",
    source: Source::Any(calls::value_of),
    library: |c| ffi::value_of(c.first.get(), c.bytes[0]).into(),
    expected: |c| reference::value_of(c.first.get(), c.bytes[0]).into(),
};

const SET_NAME: Routine = Routine {
    name: "set_name",
    inputs: "",
    source: Source::Any(calls::set_name),
    library: |c| ffi::set_name(c.first.get_mut(), c.second.get()).into(),
    expected: |c| reference::set_name(c.first.get_mut(), c.second.get()).into(),
};

const SHOW_NAME: Routine = Routine {
    name: "show_name",
    inputs: "",
    source: Source::Any(calls::show_name),
    library: |c| ffi::show_name(c.first.get(), c.second.get_mut()).into(),
    expected: |c| reference::show_name(c.first.get(), c.second.get_mut()).into(),
};

const APPLY_EDIT: Routine = Routine {
    name: "apply_edit",
    inputs: "",
    source: Source::Any(calls::apply_edit),
    library: |c| {
        let [parameter, value, ..] = c.bytes;
        ffi::apply_edit(c.first.get_mut(), parameter, value).into()
    },
    expected: |c| {
        let [parameter, value, ..] = c.bytes;
        reference::apply_edit(c.first.get_mut(), parameter, value).into()
    },
};

const APPLY_BUS_EDIT: Routine = Routine {
    name: "apply_bus_edit",
    inputs: "",
    source: Source::Any(calls::apply_bus_edit),
    library: |c| ffi::apply_bus_edit(c.first.get_mut(), c.bytes).into(),
    expected: |c| {
        let [bus, source, amount, destination] = c.bytes;
        let patch = c.first.get_mut();
        reference::apply_bus_edit(patch, bus, source, amount, destination).into()
    },
};

const WRITE_PATCH: Routine = Routine {
    name: "write_patch",
    inputs: "",
    source: Source::Any(calls::write_patch),
    library: |c| ffi::write_patch(c.bytes[0], c.first.get(), c.second.get_mut()).into(),
    expected: |c| {
        let out = c.second.get_mut();
        reference::write_patch(c.bytes[0], c.first.get(), out).into()
    },
};

const WRITE_SPLIT: Routine = Routine {
    name: "write_split",
    inputs: "",
    source: Source::Any(calls::write_split),
    library: |c| ffi::write_split(c.bytes[0], c.first.get(), c.second.get_mut()).into(),
    expected: |c| {
        let out = c.second.get_mut();
        reference::write_split(c.bytes[0], c.first.get(), out).into()
    },
};

const WRITE_EDIT_BUFFER: Routine = Routine {
    name: "write_edit_buffer",
    inputs: "",
    source: Source::Any(calls::write_edit_buffer),
    library: |c| ffi::write_edit_buffer(c.first.get(), c.second.get_mut()).into(),
    expected: |c| reference::write_edit_buffer(c.first.get(), c.second.get_mut()).into(),
};

const WRITE_EDIT: Routine = Routine {
    name: "write_edit",
    inputs: "",
    source: Source::Any(calls::write_edit),
    library: |c| {
        let [parameter, value, ..] = c.bytes;
        ffi::write_edit(parameter, value, c.second.get_mut()).into()
    },
    expected: |c| {
        let [parameter, value, ..] = c.bytes;
        reference::write_edit(parameter, value, c.second.get_mut()).into()
    },
};

const WRITE_BUS_EDIT: Routine = Routine {
    name: "write_bus_edit",
    inputs: "",
    source: Source::Any(calls::write_bus_edit),
    library: |c| ffi::write_bus_edit(c.bytes, c.second.get_mut()).into(),
    expected: |c| {
        let [bus, source, amount, destination] = c.bytes;
        let out = c.second.get_mut();
        reference::write_bus_edit(bus, source, amount, destination, out).into()
    },
};

const WRITE_REQUEST_DATA: Routine = Routine {
    name: "write_request_data",
    inputs: "",
    source: Source::Any(operations::write_request),
    library: |c| {
        let [wanted, number, ..] = c.bytes;
        ffi::write_request_data(wanted, number, c.second.get_mut()).into()
    },
    expected: |c| {
        let [wanted, number, ..] = c.bytes;
        reference::write_request_data(wanted, number, c.second.get_mut()).into()
    },
};

const WRITE_GROUP_MODE: Routine = Routine {
    name: "write_group_mode",
    inputs: "",
    source: Source::Any(operations::write_group),
    library: |c| {
        let [total, id, ..] = c.bytes;
        ffi::write_group_mode(total, id, c.second.get_mut()).into()
    },
    expected: |c| {
        let [total, id, ..] = c.bytes;
        reference::write_group_mode(total, id, c.second.get_mut()).into()
    },
};

const WRITE_SET_BANK: Routine = Routine {
    name: "write_set_bank",
    inputs: "",
    source: Source::Any(operations::write_bank_number),
    library: |c| ffi::write_set_bank(c.bytes[0], c.second.get_mut()).into(),
    expected: |c| reference::write_set_bank(c.bytes[0], c.second.get_mut()).into(),
};

const WRITE_UNLOCK_BANK: Routine = Routine {
    name: "write_unlock_bank",
    inputs: "",
    source: Source::Any(operations::write_unlock),
    library: |c| ffi::write_unlock_bank(c.second.get_mut()).into(),
    expected: |c| reference::write_unlock_bank(c.second.get_mut()).into(),
};

const WRITE_STORE_EDIT_BUFFER: Routine = Routine {
    name: "write_store_edit_buffer",
    inputs: "",
    source: Source::Any(operations::write_store),
    library: |c| {
        let [number, bank, id, _] = c.bytes;
        ffi::write_store_edit_buffer(number, bank, id, c.second.get_mut()).into()
    },
    expected: |c| {
        let [number, bank, id, _] = c.bytes;
        reference::write_store_edit_buffer(number, bank, id, c.second.get_mut()).into()
    },
};

const UNIT_STEP: Routine = Routine {
    name: "unit_step",
    inputs: "",
    source: Source::Any(units::step),
    library: |c| ffi::unit_step(c.unit, c.first.get(), c.place).into(),
    expected: |c| units::expected(c).into(),
};

const WRITE_BANK: Routine = Routine {
    name: "write_bank",
    inputs: "",
    source: Source::Any(calls::write_bank),
    library: |c| ffi::write_bank(c.first.get(), c.second.get_mut()).into(),
    expected: |c| reference::write_bank(c.first.get(), c.second.get_mut()).into(),
};

const PLAN: Routine = Routine {
    name: "plan",
    inputs: "",
    source: Source::Any(pairs::plan),
    library: |c| ffi::plan(c.first.get(), c.second.get(), c.third.get_mut()).into(),
    expected: |c| reference::plan(c.first.get(), c.second.get(), c.third.get_mut()).into(),
};

const CHECK_PLAN: Routine = Routine {
    name: "check_plan",
    inputs: "",
    source: Source::Any(pairs::check),
    library: |c| ffi::check_plan(c.first.get(), c.second.get(), c.third.get()).into(),
    expected: |c| reference::check_plan(c.first.get(), c.second.get(), c.third.get()).into(),
};

/// What the inputs are called that have real time among all their bytes.
const NOISY: &str = ", among real time";

/// What readers straight from the cable are called that have taken about as many bytes as they may, and
/// those whose records no call leaves.
const NEAR_LIMIT: &str = ", near the limit";
const STRANGE: &str = ", records that no call leaves";

/// What slipped neighbours are called.
const EXCHANGED: &str = ", every pair of neighbours exchanged";
const REPLACED: &str = ", every pair of values for a byte's nibbles";

/// What splits are called with a nibble replaced.
const NIBBLES: &str = ", every byte for every nibble of a split";

/// What the bus edits are called with each byte as bus and each as amount.
const AMOUNTS: &str = ", every bus and amount";

/// What the edits are called that are sent, those that are handed in, and the bus edits of these.
const SENT: &str = ", every edit sent";
const EDITS: &str = ", every parameter and value";
const BUS_EDITS: &str = ", every bus, source and destination";

/// What operations are called that are sent: each byte of them through all that a message carries, each
/// replaced by every byte, and those of other lengths.
const OPERATIONS: &str = ", every operation sent";
const REPLACED_IN: &str = ", every byte for every byte of an operation";
const LENGTHS: &str = ", every length of an operation";

/// What the outputs are called that a writer may find too short.
const ROOMS: &str = ", every length of output";

/// What pairs are called that differ in one byte or in none.
const CHANGED: &str = ", every byte at every place of either patch";

pub static ROUTINES: [Routine; 115] = [
    WALK,
    WALK.on(NOISY, Source::Any(calls::walk_noisy)),
    WALK.on_every(SENT, 2 << 14, calls::every_edit_sent),
    WALK.finding(found::in_dump),
    WALK.finding_in_splits(found::in_split_dump),
    WALK.on_every(NIBBLES, slips::NIBBLES, slips::read_nibble),
    WALK.on_every(OPERATIONS, operations::SENT, operations::every_sent),
    WALK.on_every(
        REPLACED_IN,
        operations::REPLACED,
        operations::every_replaced,
    ),
    WALK.on_every(LENGTHS, operations::LENGTHS, operations::every_length),
    READ,
    READ.on(NOISY, Source::Any(calls::read_noisy)),
    READ.on_every(AMOUNTS, 1 << 16, calls::every_amount_sent),
    READ.on_every(SENT, 2 << 14, calls::every_edit_sent),
    READ.finding(found::in_dump),
    READ.finding_in_splits(found::in_split_dump),
    READ.on_every(EXCHANGED, slips::EXCHANGES, slips::read_exchange),
    READ.on_every(REPLACED, slips::PAIRS, slips::read_pair),
    READ.on_every(NIBBLES, slips::NIBBLES, slips::read_nibble),
    READ.on_every(OPERATIONS, operations::SENT, operations::every_sent),
    READ.on_every(
        REPLACED_IN,
        operations::REPLACED,
        operations::every_replaced,
    ),
    READ.on_every(LENGTHS, operations::LENGTHS, operations::every_length),
    REPORTS,
    REPORTS.on(NOISY, Source::Any(calls::reports_noisy)),
    REPORTS.on_every(SENT, 2 << 14, calls::every_edit_sent),
    REPORTS.finding(found::in_dump),
    REPORTS.finding_in_splits(found::in_split_dump),
    REPORTS.on_every(EXCHANGED, slips::EXCHANGES, slips::report_exchange),
    REPORTS.on_every(REPLACED, slips::PAIRS, slips::report_pair),
    REPORTS.on_every(NIBBLES, slips::NIBBLES, slips::report_nibble),
    REPORTS.on_every(OPERATIONS, operations::SENT, operations::every_sent),
    REPORTS.on_every(
        REPLACED_IN,
        operations::REPLACED,
        operations::every_replaced,
    ),
    Routine {
        name: "cable_fresh",
        inputs: "",
        source: Source::Any(calls::call),
        library: |_| ffi::cable_fresh().into(),
        expected: |_| cable::record_of(&reference::CableReader::new()).into(),
    },
    CABLE_FEED,
    CABLE_FEED.on(NOISY, Source::Any(feeds::feed_noisy)),
    CABLE_FEED.on_every(
        ", every kind of stream and of cutting",
        feeds::KINDS,
        feeds::feed_kind,
    ),
    CABLE_FEED.on(NEAR_LIMIT, Source::Any(feeds::feed_near_limit)),
    CABLE_FEED.on(STRANGE, Source::Any(feeds::feed_strange)),
    CABLE_FEED.finding_in_splits(found::in_split_fed),
    CABLE_FEED.on_every(OPERATIONS, operations::SENT, operations::every_fed),
    CABLE_END,
    CABLE_END.on(NOISY, Source::Any(feeds::end_noisy)),
    CABLE_END.on(NEAR_LIMIT, Source::Any(feeds::end_near_limit)),
    CABLE_END.on(STRANGE, Source::Any(feeds::end_strange)),
    TEST_PATCH,
    TEST_PATCH.on_every(", every byte at every place", 134 * 256, calls::every_field),
    TEST_SPLIT,
    TEST_SPLIT.on_every(
        ", every byte at every place",
        18 * 256,
        calls::every_split_field,
    ),
    TEST_SPLIT.finding_in_splits(found::in_split),
    Routine {
        name: "place_of",
        inputs: ", every parameter",
        source: Source::Every(256, calls::every_byte),
        library: |c| ffi::place_of(c.bytes[0]).into(),
        expected: |c| reference::place_of(c.bytes[0]).into(),
    },
    Routine {
        name: "parameter_of",
        inputs: ", every place",
        source: Source::Every(256, calls::every_byte),
        library: |c| ffi::parameter_of(c.bytes[0]).into(),
        expected: |c| reference::parameter_of(c.bytes[0]).into(),
    },
    Routine {
        name: "range_of",
        inputs: ", every parameter",
        source: Source::Every(256, calls::every_byte),
        library: |c| ffi::range_of(c.bytes[0]).into(),
        expected: |c| reference::range_of(c.bytes[0]).into(),
    },
    VALUE_OF,
    VALUE_OF.on_every(
        ", every parameter of 16 patches",
        16 * 256,
        calls::every_parameter,
    ),
    VALUE_OF.finding(found::in_patch),
    SET_NAME,
    SET_NAME.finding(found::in_named),
    SHOW_NAME,
    SHOW_NAME.finding(found::in_patch),
    APPLY_EDIT,
    APPLY_EDIT.on_every(EDITS, 1 << 16, calls::every_edit),
    APPLY_EDIT.finding(found::in_patch),
    APPLY_BUS_EDIT,
    APPLY_BUS_EDIT.on_every(BUS_EDITS, 10 << 16, calls::every_bus_edit),
    APPLY_BUS_EDIT.on_every(AMOUNTS, 1 << 16, calls::every_amount),
    APPLY_BUS_EDIT.finding(found::in_patch),
    WRITE_PATCH,
    WRITE_PATCH.finding(found::in_patch),
    WRITE_SPLIT,
    WRITE_SPLIT.on_every(", every number", 256, calls::every_split_number),
    WRITE_SPLIT.finding_in_splits(found::in_split),
    WRITE_EDIT_BUFFER,
    WRITE_EDIT_BUFFER.finding(found::in_patch),
    Routine {
        name: "write_master",
        inputs: "",
        source: Source::Any(calls::write_master),
        library: |c| ffi::write_master(c.first.get(), c.second.get_mut()).into(),
        expected: |c| reference::write_master(c.first.get(), c.second.get_mut()).into(),
    },
    WRITE_EDIT,
    WRITE_EDIT.on_every(EDITS, 1 << 16, calls::every_edit),
    WRITE_BUS_EDIT,
    WRITE_BUS_EDIT.on_every(BUS_EDITS, 10 << 16, calls::every_bus_edit),
    WRITE_BUS_EDIT.on_every(AMOUNTS, 1 << 16, calls::every_amount),
    WRITE_REQUEST_DATA,
    WRITE_REQUEST_DATA.on_every(
        ", every type and number",
        operations::PAIRS,
        operations::every_pair,
    ),
    WRITE_REQUEST_DATA.on_every(ROOMS, operations::ROOMS, operations::every_request_room),
    WRITE_GROUP_MODE,
    WRITE_GROUP_MODE.on_every(
        ", every total and ID",
        operations::PAIRS,
        operations::every_pair,
    ),
    WRITE_GROUP_MODE.on_every(ROOMS, operations::ROOMS, operations::every_group_room),
    WRITE_SET_BANK,
    WRITE_SET_BANK.on_every(", every bank", operations::BANKS, operations::every_bank),
    WRITE_SET_BANK.on_every(ROOMS, operations::ROOMS, operations::every_bank_room),
    WRITE_UNLOCK_BANK,
    WRITE_UNLOCK_BANK.on_every(ROOMS, operations::ROOMS, operations::every_unlock_room),
    WRITE_STORE_EDIT_BUFFER,
    WRITE_STORE_EDIT_BUFFER.on_every(
        ", every number, bank and ID",
        operations::STORES,
        operations::every_store,
    ),
    WRITE_STORE_EDIT_BUFFER.on_every(ROOMS, operations::ROOMS, operations::every_store_room),
    UNIT_STEP,
    UNIT_STEP.on(NOISY, Source::Any(units::step_noisy)),
    UNIT_STEP.on_every(", from every place", units::PLACES, units::step_place),
    UNIT_STEP.on_every(OPERATIONS, operations::SENT, operations::every_sent),
    UNIT_STEP.on_every(
        REPLACED_IN,
        operations::REPLACED,
        operations::every_replaced,
    ),
    UNIT_STEP.on_every(LENGTHS, operations::LENGTHS, operations::every_length),
    Routine {
        name: "unit_step",
        inputs: ", chains of units",
        source: Source::Any(units::any_chain),
        library: |c| Returned::new(vec![units::library_chain(c)]),
        expected: |c| Returned::new(vec![units::expected_chain(c)]),
    },
    Routine {
        name: "unit_meant",
        inputs: ", every unit and ID",
        source: Source::Every(units::IDS, units::every_id),
        library: |c| ffi::unit_meant(c.unit, c.bytes[0]).into(),
        expected: |c| units::plain(c.unit).is_meant(c.bytes[0]).into(),
    },
    WRITE_BANK,
    WRITE_BANK.finding(found::in_bank),
    PLAN,
    PLAN.on_every(", every kind of pair", pairs::KINDS, pairs::plan_kind),
    PLAN.on_every(CHANGED, pairs::CHANGES, pairs::plan_change),
    PLAN.on_every(", every length of output", pairs::ROOMS, pairs::plan_room),
    CHECK_PLAN,
    CHECK_PLAN.on_every(
        ", every kind of pair and list",
        pairs::LIST_KINDS,
        pairs::check_kind,
    ),
    CHECK_PLAN.on_every(CHANGED, pairs::CHANGES, pairs::check_change),
    CHECK_PLAN.on_every(
        ", every byte at every place, the list as before",
        pairs::CHANGES,
        pairs::check_stale,
    ),
    CHECK_PLAN.on_every(
        ", every byte of a list replaced",
        pairs::REPLACED,
        pairs::check_replaced,
    ),
    CHECK_PLAN.on_every(", a list cut at every byte", pairs::CUTS, pairs::check_cut),
    CHECK_PLAN.on_every(EDITS, 1 << 16, pairs::check_edit),
    CHECK_PLAN.on_every(BUS_EDITS, 10 << 16, pairs::check_bus_edit),
    CHECK_PLAN.on_every(AMOUNTS, 1 << 16, pairs::check_amount),
];
