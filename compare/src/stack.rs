//! How deep the stack of each exported routine goes.
//!
//! A routine is called on a stack of its own that is painted before the call. After it the lowest
//! word that has changed tells how far below its caller the routine wrote, its return address
//! included. It is called so on the inputs that it is compared on, a reader straight from the cable call
//! by call; those that read a stream also on each message of one as the eighth report of a call, with
//! real time behind each byte, and the reader on each such message whole and cut. The deepest call
//! counts.

use std::arch::asm;

use compare::ffi::{Cable, Unit, A_CALL, EMPTY};
use reference::streams::{self, Random};
use reference::{reports, CableReader};

use crate::cable::Deed;
use crate::feeds;
use crate::lent::{Call, Fill, Lent};
use crate::routines::{Source, ROUTINES};

/// How many inputs each routine is measured on where the command line names none.
pub const COUNT: usize = 1_000;
/// The size of the painted stack, far more than any routine needs.
const SIZE: usize = 1 << 14;
/// A byte that a routine writes may be that of the paint, so each call is made on two paints. A register that
/// holds the paint may be saved: it is a whole word.
const PAINTS: [u8; 2] = [0xA5, 0x5A];
/// No routine goes deeper.
const MOST: usize = 1 << 10;
/// But for the reports: eight of them may be under way at once.
const MOST_REPORTS: usize = 5 << 10;
/// And for feeding a reader straight from the cable, whose record has room for the longest message.
const MOST_FEED: usize = 2 << 10;

/// The words of the largest struct that is too large for registers.
const LARGEST: usize = size_of::<Cable>() / size_of::<usize>();

/// So many calls of a reader are measured for an input at most, and so many messages of a stream.
const MOST_CALLS: usize = 20;

/// The packed bytes of a master; no message has more.
const LONGEST_PACKED: usize = 172;

/// What a call passes, one register each, in C's order on x86-64.
type Registers = [usize; 6];

/// An exported routine as machine code.
struct Entry {
    name: &'static str,
    address: unsafe extern "C" fn(),
    /// What the call passes; the last is where a struct goes that is too large for registers.
    registers: fn(&mut Call, usize) -> Registers,
}

macro_rules! entries {
    ($($name:ident as $symbol:ident: $registers:expr,)*) => {
        unsafe extern "C" {
            $(unsafe fn $symbol();)*
        }

        static ENTRIES: &[Entry] = &[$(Entry {
            name: stringify!($name),
            address: $symbol,
            registers: $registers,
        },)*];
    };
}

entries! {
    walk as matrix_walk: |c, struct_at| {
        let (s, length) = read(&c.first);
        [struct_at, s, length, c.place, 0, 0]
    },
    read as matrix_read: |c, struct_at| {
        let (s, length) = read(&c.first);
        let (buffer, size) = written(&mut c.second);
        [struct_at, s, length, c.place, buffer, size]
    },
    reports as matrix_reports: |c, _| {
        let (s, length) = read(&c.first);
        let (room, size) = written(&mut c.room);
        [s, length, c.place, room, size, 0]
    },
    cable_fresh as matrix_cable_fresh: |_, struct_at| [struct_at, 0, 0, 0, 0, 0],
    cable_feed as matrix_cable_feed: |c, struct_at| {
        let (input, length) = read(&c.first);
        [struct_at, record(c), input, length, 0, 0]
    },
    cable_end as matrix_cable_end: |c, struct_at| [struct_at, record(c), 0, 0, 0, 0],
    test_patch as matrix_test_patch: |c, _| {
        let (p, length) = read(&c.first);
        [p, length, 0, 0, 0, 0]
    },
    test_split as matrix_test_split: |c, _| {
        let (p, length) = read(&c.first);
        [p, length, 0, 0, 0, 0]
    },
    place_of as matrix_place_of: |c, _| [c.bytes[0].into(), 0, 0, 0, 0, 0],
    parameter_of as matrix_parameter_of: |c, _| [c.bytes[0].into(), 0, 0, 0, 0, 0],
    range_of as matrix_range_of: |c, struct_at| [struct_at, c.bytes[0].into(), 0, 0, 0, 0],
    value_of as matrix_value_of: |c, struct_at| {
        let (p, length) = read(&c.first);
        [struct_at, p, length, c.bytes[0].into(), 0, 0]
    },
    set_name as matrix_set_name: |c, _| {
        let (p, length) = written(&mut c.first);
        let (text, size) = read(&c.second);
        [p, length, text, size, 0, 0]
    },
    show_name as matrix_show_name: |c, _| {
        let (p, length) = read(&c.first);
        let (out, size) = written(&mut c.second);
        [p, length, out, size, 0, 0]
    },
    apply_edit as matrix_apply_edit: |c, _| {
        let (p, length) = written(&mut c.first);
        let [parameter, value, ..] = c.bytes.map(usize::from);
        [p, length, parameter, value, 0, 0]
    },
    apply_bus_edit as matrix_apply_bus_edit: |c, _| {
        let (p, length) = written(&mut c.first);
        let [bus, source, amount, destination] = c.bytes.map(usize::from);
        [p, length, bus, source, amount, destination]
    },
    write_patch as matrix_write_patch: |c, _| {
        let (p, length) = read(&c.first);
        let (out, size) = written(&mut c.second);
        [c.bytes[0].into(), p, length, out, size, 0]
    },
    write_split as matrix_write_split: |c, _| {
        let (p, length) = read(&c.first);
        let (out, size) = written(&mut c.second);
        [c.bytes[0].into(), p, length, out, size, 0]
    },
    write_edit_buffer as matrix_write_edit_buffer: |c, _| {
        let (p, length) = read(&c.first);
        let (out, size) = written(&mut c.second);
        [p, length, out, size, 0, 0]
    },
    write_master as matrix_write_master: |c, _| {
        let (m, length) = read(&c.first);
        let (out, size) = written(&mut c.second);
        [m, length, out, size, 0, 0]
    },
    write_edit as matrix_write_edit: |c, _| {
        let (out, size) = written(&mut c.second);
        let [parameter, value, ..] = c.bytes.map(usize::from);
        [parameter, value, out, size, 0, 0]
    },
    write_bus_edit as matrix_write_bus_edit: |c, _| {
        let (out, size) = written(&mut c.second);
        let [bus, source, amount, destination] = c.bytes.map(usize::from);
        [bus, source, amount, destination, out, size]
    },
    write_request_data as matrix_write_request_data: |c, _| {
        let (out, size) = written(&mut c.second);
        let [wanted, number, ..] = c.bytes.map(usize::from);
        [wanted, number, out, size, 0, 0]
    },
    write_group_mode as matrix_write_group_mode: |c, _| {
        let (out, size) = written(&mut c.second);
        let [total, id, ..] = c.bytes.map(usize::from);
        [total, id, out, size, 0, 0]
    },
    write_set_bank as matrix_write_set_bank: |c, _| {
        let (out, size) = written(&mut c.second);
        [c.bytes[0].into(), out, size, 0, 0, 0]
    },
    write_unlock_bank as matrix_write_unlock_bank: |c, _| {
        let (out, size) = written(&mut c.second);
        [out, size, 0, 0, 0, 0]
    },
    write_store_edit_buffer as matrix_write_store_edit_buffer: |c, _| {
        let (out, size) = written(&mut c.second);
        let [number, bank, id, _] = c.bytes.map(usize::from);
        [number, bank, id, out, size, 0]
    },
    unit_step as matrix_unit_step: |c, struct_at| {
        let (s, length) = read(&c.first);
        [struct_at, unit(c.unit), s, length, c.place, 0]
    },
    unit_meant as matrix_unit_meant: |c, _| [unit(c.unit), c.bytes[0].into(), 0, 0, 0, 0],
    write_bank as matrix_write_bank: |c, struct_at| {
        let (ps, length) = read(&c.first);
        let (out, size) = written(&mut c.second);
        [struct_at, ps, length, out, size, 0]
    },
    plan as matrix_plan: |c, _| {
        let (a, length) = read(&c.first);
        let (b, other_length) = read(&c.second);
        let (out, size) = written(&mut c.third);
        [a, length, b, other_length, out, size]
    },
    check_plan as matrix_check_plan: |c, _| {
        let (a, length) = read(&c.first);
        let (b, other_length) = read(&c.second);
        let (list, size) = read(&c.third);
        [a, length, b, other_length, list, size]
    },
}

/// A slice as C has it, to be read.
fn read(lent: &Lent<u8>) -> (usize, usize) {
    let slice = lent.get();
    (slice.as_ptr() as usize, slice.len())
}

/// A slice as C has it, to be written.
fn written<T: Copy + Fill>(lent: &mut Lent<T>) -> (usize, usize) {
    let slice = lent.get_mut();
    (slice.as_mut_ptr() as usize, slice.len())
}

/// A unit as C has it: a struct of four bytes in one register, the first lowest.
fn unit(unit: Unit) -> usize {
    let Unit {
        bank,
        locked,
        grouped,
        number,
    } = unit;
    u32::from_le_bytes([bank, locked.into(), grouped.into(), number]) as usize
}

/// The record of a reader.
fn record(call: &mut Call) -> usize {
    let run = call.run.as_mut().expect("a run");
    let (record, _) = written(&mut run.record);
    record
}

/// Measures every routine on `count` inputs by seed, and those that read a stream on deep ones too;
/// prints a row for each. Holds where none is deeper than it may be.
pub fn run(count: usize) -> bool {
    for routine in &ROUTINES {
        let known = ENTRIES.iter().any(|entry| entry.name == routine.name);
        assert!(known, "{} is compared and not measured", routine.name);
    }
    println!("| Routine | Bytes of stack |");
    println!("|---|---|");
    ENTRIES.iter().fold(true, |held, entry| {
        let deepest = deepest(entry, count);
        println!("| `{}` | {deepest} |", entry.name);
        held && deepest <= entry.most()
    })
}

impl Entry {
    fn most(&self) -> usize {
        match self.name {
            "reports" => MOST_REPORTS,
            "cable_feed" => MOST_FEED,
            _ => MOST,
        }
    }

    fn reads_stream(&self) -> bool {
        matches!(self.name, "walk" | "read" | "reports" | "unit_step")
    }

    /// The calls that are measured for an input.
    fn calls(&self, call: Call) -> Vec<Call> {
        match self.name {
            "cable_feed" => feeds::single(&call, |deed| deed != Deed::End, MOST_CALLS),
            "cable_end" => feeds::single(&call, |deed| deed == Deed::End, MOST_CALLS),
            _ => vec![call],
        }
    }
}

fn deepest(entry: &Entry, count: usize) -> usize {
    let routine = ROUTINES.iter().find(|routine| routine.name == entry.name);
    let source = routine.expect("a routine is compared").source;
    let mut deepest = 0;
    for seed in 0..count as u64 {
        let mut calls = entry.calls(made(source, seed));
        if entry.reads_stream() {
            calls.extend(deep_calls(seed));
        }
        if entry.name == "cable_feed" {
            for call in deep_feeds(seed) {
                calls.extend(entry.calls(call));
            }
        }
        for call in &mut calls {
            deepest = deepest.max(depth(entry, call));
        }
    }
    assert_ne!(deepest, 0, "{} is not called", entry.name);
    deepest
}

/// An input of a routine, from a seed.
fn made(source: Source, seed: u64) -> Call {
    let mut random = Random::new(seed);
    match source {
        Source::Any(make) => make(&mut random),
        Source::Every(all, make) => make(&mut random, seed as usize % all),
    }
}

/// Each message of a stream as the last that a call of the reports can make, with real time behind
/// each of its bytes; from the stream's start, and from the message itself.
fn deep_calls(seed: u64) -> Vec<Call> {
    let mut random = Random::new(seed);
    let input = streams::stream(seed);
    let mut calls = Vec::new();
    for report in reports(&input) {
        let mut deep = vec![0xF0; A_CALL - 1];
        for &byte in &input[report.start..report.end] {
            deep.extend([byte, 0xFE]);
        }
        for place in [0, A_CALL - 1] {
            calls.push(Call {
                first: Lent::new(&mut random, &deep),
                second: Lent::filled(&mut random, LONGEST_PACKED),
                room: Lent::filled(&mut random, A_CALL * EMPTY.len()),
                place,
                bytes: [0; 4],
                unit: Unit::default(),
                third: Lent::filled(&mut random, 0),
                run: None,
            });
        }
    }
    calls
}

/// Each message of a stream with real time behind each of its bytes, fed whole, and cut anywhere.
fn deep_feeds(seed: u64) -> Vec<Call> {
    let mut random = Random::new(seed);
    let input = streams::stream(seed);
    let mut calls = Vec::new();
    for report in reports(&input).take(MOST_CALLS) {
        let message = &input[report.start..report.end];
        let deep: Vec<u8> = message.iter().flat_map(|&byte| [byte, 0xFE]).collect();
        let at = random.below(deep.len());
        for sizes in [[deep.len(), 0], [at, deep.len() - at]] {
            let deeds = sizes.map(Deed::Feed).to_vec();
            calls.push(feeds::lent(&mut random, CableReader::new(), &deep, deeds));
        }
    }
    calls
}

/// How far below its caller's stack a routine writes, its return address included.
fn depth(entry: &Entry, call: &mut Call) -> usize {
    let depths = PAINTS.map(|paint| {
        let mut stack = Stack([paint; SIZE]);
        let mut by_memory = [0_usize; LARGEST];
        let registers = (entry.registers)(call, by_memory.as_mut_ptr() as usize);
        // SAFETY: the registers are a call's arguments as the library's header has them, the slices
        // are the call's own, and the stack is far larger than what any routine needs.
        unsafe { call_on(&mut stack, entry.address, registers) };
        let kept = stack.0.iter().take_while(|&&byte| byte == paint).count();
        assert_ne!(kept, 0, "the painted stack is too small");
        SIZE - kept
    });
    let deepest = depths.into_iter().max().expect("there are paints");
    deepest.next_multiple_of(size_of::<usize>())
}

/// A stack begins at an address that is a multiple of 16.
#[repr(align(16))]
struct Stack([u8; SIZE]);

/// Calls a routine on a stack of its own.
unsafe fn call_on(stack: &mut Stack, routine: unsafe extern "C" fn(), registers: Registers) {
    let [first, second, third, fourth, fifth, sixth] = registers;
    let top = stack.0.as_mut_ptr_range().end;
    // SAFETY: the stack pointer is put back; `clobber_abi` names all else that a call may change.
    unsafe {
        asm!(
            "mov r12, rsp",
            "mov rsp, {top}",
            "call {routine}",
            "mov rsp, r12",
            top = in(reg) top,
            routine = in(reg) routine,
            in("rdi") first,
            in("rsi") second,
            in("rdx") third,
            in("rcx") fourth,
            in("r8") fifth,
            in("r9") sixth,
            out("r12") _,
            clobber_abi("C"),
        );
    }
}
