//! The stored file of a unit. The old form is patch dumps one after another, then at most one
//! master dump. The new form is compact: a header of five numbers, then each patch as its number
//! and its packed bytes, then the master's packed bytes.

use crate::answers::{
    Placed, PlacedOutcome, Refusal, Report, DONE, NOT_OF_THE_FORM, OTHER_DEVICE,
    OTHER_MANUFACTURER, OTHER_OPCODE,
};
use crate::frames::{inside, END};
use crate::kinds::{length, opcode, ENVELOPE, MASTER_LENGTH, VERSION};
use crate::nibbles::pack;
use crate::reading::reports;
use crate::records::drop_real_time;
use crate::table::PATCH_LENGTH;
use crate::writing::{fill_dump, numbered, room, BANK_PATCHES};

/// The most bytes of an old file as our writer writes it: a hundred patches and a master.
pub const LONGEST_DUMPS: usize = MOST.dumps();
/// The most bytes of a new file.
pub const LONGEST_STORED: usize = MOST.stored();

/// The length of a new file's header.
const HEADER: usize = 10;
/// The length of a patch in a new file.
const PATCH_RECORD: usize = 1 + PATCH_LENGTH;

/// Turns an old file into a new one. When done, the detail is the bytes written.
///
/// The first message refused by 2, 3 or 7 to 12 keeps its number, detail and value, with its start
/// as place; then 15 for anything else not of the form; then 13.
pub fn to_stored(old: &[u8], out: &mut [u8]) -> PlacedOutcome {
    stored(old, out).into()
}

/// Turns a new file into an old one, of dumps as our writer writes them. When done, the detail is
/// the bytes written.
///
/// 15 for a bad header or length; then the 8, 11 or 12 of the first bad record, with its start as
/// place; then 13.
pub fn from_stored(new: &[u8], out: &mut [u8]) -> PlacedOutcome {
    restored(new, out).into()
}

fn stored(old: &[u8], out: &mut [u8]) -> Result<usize, Placed> {
    // The whole file is tested before the first byte is written.
    let counts = counted(old)?;
    let new = room(out, counts.stored())?;
    let (header, records) = new.split_at_mut(HEADER);
    header.copy_from_slice(&counts.header());
    let (patches, master) = records.split_at_mut(PATCH_RECORD * counts.patches);
    let mut dumps = old;
    for [number, patch @ ..] in patches.as_chunks_mut::<PATCH_RECORD>().0 {
        (*number, dumps) = take_dump(dumps, patch);
    }
    if !master.is_empty() {
        take_dump(dumps, master);
    }
    Ok(counts.stored())
}

fn restored(new: &[u8], out: &mut [u8]) -> Result<usize, Placed> {
    let counts = headed(new).ok_or(Refusal::plain(NOT_OF_THE_FORM))?;
    let (patches, master) = new[HEADER..].split_at(PATCH_RECORD * counts.patches);
    let (patches, _) = patches.as_chunks::<PATCH_RECORD>();
    // All records are tested before the first dump is written.
    for (index, [number, patch @ ..]) in patches.iter().enumerate() {
        let start = HEADER + PATCH_RECORD * index;
        numbered(*number, patch).map_err(|refusal| refusal.placed(start))?;
    }
    let old = room(out, counts.dumps())?;
    let (dumps, last) = old.split_at_mut(length::SINGLE_PATCH * counts.patches);
    let dumps = dumps.chunks_exact_mut(length::SINGLE_PATCH);
    for ([number, patch @ ..], dump) in patches.iter().zip(dumps) {
        fill_dump(opcode::SINGLE_PATCH, *number, patch, dump);
    }
    if !master.is_empty() {
        fill_dump(opcode::MASTER, VERSION, master, last);
    }
    Ok(counts.dumps())
}

/// How many patches and masters a file has.
#[derive(Clone, Copy)]
struct Counts {
    patches: usize,
    masters: usize,
}

const MOST: Counts = Counts {
    patches: BANK_PATCHES,
    masters: 1,
};

impl Counts {
    /// The length of the old file as our writer writes it.
    const fn dumps(self) -> usize {
        length::SINGLE_PATCH * self.patches + length::MASTER * self.masters
    }

    /// The length of the new file.
    const fn stored(self) -> usize {
        self.master_offset() + MASTER_LENGTH * self.masters
    }

    /// Where the master stands in the new file, or would stand.
    const fn master_offset(self) -> usize {
        HEADER + PATCH_RECORD * self.patches
    }

    /// The header of the new file: five numbers, each with its low byte first.
    fn header(self) -> [u8; HEADER] {
        let numbers = [
            self.patches,
            HEADER,
            self.masters,
            self.master_offset(),
            self.stored(),
        ];
        let mut header = [0; HEADER];
        for (bytes, number) in header.as_chunks_mut().0.iter_mut().zip(numbers) {
            *bytes = (number as u16).to_le_bytes();
        }
        header
    }

    /// Whether a file may have as many.
    const fn allowed(self) -> bool {
        self.patches <= MOST.patches && self.masters <= MOST.masters
    }

    /// Counts a dump. False for a message of another kind, and for one behind a master.
    const fn add(&mut self, report: &Report) -> bool {
        const SINGLE_PATCH: usize = opcode::SINGLE_PATCH as usize;
        const MASTER: usize = opcode::MASTER as usize;
        match (report.answer, report.detail, self.masters) {
            (DONE, SINGLE_PATCH, 0) => self.patches += 1,
            (DONE, MASTER, 0) => self.masters += 1,
            _ => return false,
        }
        true
    }
}

/// Tests an old file and counts its dumps.
fn counted(old: &[u8]) -> Result<Counts, Placed> {
    let mut counts = Counts {
        patches: 0,
        masters: 0,
    };
    let (mut of_the_form, mut place) = (true, 0);
    for report in reports(old) {
        if let Some(refusal) = kept(&report) {
            return Err(refusal.placed(report.start));
        }
        of_the_form &= report.start == place && counts.add(&report);
        place = report.end;
    }
    if of_the_form && place == old.len() && counts.allowed() {
        Ok(counts)
    } else {
        Err(Refusal::plain(NOT_OF_THE_FORM).into())
    }
}

/// The refusal of a message, if the file keeps it. A message with 4 to 6 is only not of the form.
const fn kept(report: &Report) -> Option<Refusal> {
    match report.answer {
        DONE | OTHER_MANUFACTURER | OTHER_DEVICE | OTHER_OPCODE => None,
        answer => Some(Refusal {
            answer,
            detail: report.detail,
            value: report.value,
        }),
    }
}

/// The counts in a new file's header, if that and the file's length are right.
fn headed(new: &[u8]) -> Option<Counts> {
    let header = new.first_chunk::<HEADER>()?;
    let number = |at| u16::from_le_bytes([header[at], header[at + 1]]).into();
    let counts = Counts {
        patches: number(0),
        masters: number(4),
    };
    let right = counts.allowed() && *header == counts.header() && new.len() == counts.stored();
    right.then_some(counts)
}

/// Packs the data of the first dump of a tested old file, which is as long as the room says. Gives
/// its number or version, and the file behind it.
fn take_dump<'o>(old: &'o [u8], packed: &mut [u8]) -> (u8, &'o [u8]) {
    let length = ENVELOPE + 2 * packed.len() + 2;
    // Real time inside would move F7H behind this place.
    if old[length - 1] == END {
        let (dump, behind) = old.split_at(length);
        pack(&dump[5..], packed);
        return (dump[4], behind);
    }
    let content = inside(&old[1..]).bytes;
    let mut data = [0; length::MASTER];
    drop_real_time(content, &mut data);
    pack(&data[4..], packed);
    (data[3], &old[content.len() + 2..])
}
