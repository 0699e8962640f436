//! The desk's commands: for two files with a patch dump each, the list of edits from the patch that
//! was returned to the one that was lent; for the stored file of a unit, its new form or its old.

use std::io::Write;

use crate::answers::{PlacedOutcome, Report, DONE, OTHER_NAME};
use crate::frames::is_real_time;
use crate::kinds::opcode;
use crate::listing::{push_line, LONGEST_INPUT};
use crate::patch::Patch;
use crate::plans::{bus_at, parts, plan, Part, LONGEST_PLAN};
use crate::reading::{read, reports};
use crate::stored::{from_stored, to_stored, LONGEST_DUMPS, LONGEST_STORED};
use crate::table::{FIELDS, PATCH_LENGTH};

/// What the planning command prints: the list as bytes, or a line for each of its edits.
///
/// # Errors
///
/// The line for standard error, for the file that was returned before the one that was lent.
pub fn plan_files(returned: &[u8], lent: &[u8], lines: bool) -> Result<Vec<u8>, Vec<u8>> {
    let returned = one_patch(returned).map_err(|why| told_of("returned", &why))?;
    let lent = one_patch(lent).map_err(|why| told_of("lent", &why))?;
    let mut list = vec![0; LONGEST_PLAN];
    let outcome = plan(&returned, &lent, &mut list);
    if outcome.answer == OTHER_NAME {
        return Err(b"names differ: no edit reaches a name\n".to_vec());
    }
    assert_eq!(outcome.answer, DONE, "accepted dumps hold good patches");
    if lines {
        return Ok(edit_lines(&returned, &lent));
    }
    list.truncate(outcome.detail);
    Ok(list)
}

/// A line that says which file it is about.
fn told_of(file: &str, why: &[u8]) -> Vec<u8> {
    [file.as_bytes(), b": ", why].concat()
}

/// The patch of a file that has one accepted patch dump and no other byte below F8H, or why not.
fn one_patch(input: &[u8]) -> Result<Patch, Vec<u8>> {
    if input.len() > LONGEST_INPUT {
        return Err(b"input too long\n".to_vec());
    }
    let mut messages = reports(input);
    let Some(dump) = messages.next() else {
        return Err(b"no patch dump\n".to_vec());
    };
    if !is_patch_dump(&dump) {
        return Err(not_one(&dump));
    }
    if let Some(second) = messages.next() {
        return Err(not_one(&second));
    }
    let mut outside = input[..dump.start].iter().chain(&input[dump.end..]);
    if !outside.all(|&byte| is_real_time(byte)) {
        return Err(b"bytes outside the patch dump\n".to_vec());
    }
    let mut patch = [0; PATCH_LENGTH];
    let reading = read(input, dump.start, &mut patch);
    assert_eq!(reading.answer, DONE, "reading answers as the walk does");
    Ok(patch)
}

/// Whether a report is that of an accepted 01H or 0DH dump.
fn is_patch_dump(report: &Report) -> bool {
    let opcodes = [opcode::SINGLE_PATCH, opcode::EDIT_BUFFER].map(usize::from);
    report.answer == DONE && opcodes.contains(&report.detail)
}

/// The line about a message, as the listing has it.
fn not_one(message: &Report) -> Vec<u8> {
    let mut text = b"not one accepted patch dump: ".to_vec();
    push_line(&mut text, message);
    text
}

/// A line for each edit that turns one patch into another: its byte place, what it changes, the
/// values before and those after.
fn edit_lines(a: &Patch, b: &Patch) -> Vec<u8> {
    let mut text = Vec::new();
    for part in parts(a, b) {
        push_edit(&mut text, part, a, b).expect("there is room in memory");
    }
    text
}

fn push_edit(text: &mut Vec<u8>, part: Part, a: &Patch, b: &Patch) -> std::io::Result<()> {
    match part {
        Part::Parameter { place, parameter } => {
            let [before, after] = [a, b].map(|patch| FIELDS.value_at(place, patch[place]));
            writeln!(text, "{place} parameter {parameter} {before} {after}")
        }
        Part::Bus { place, bus } => {
            write!(text, "{place} bus {bus}")?;
            for patch in [a, b] {
                for (place, byte) in (place..).zip(bus_at(patch, place)) {
                    write!(text, " {}", FIELDS.value_at(place, byte))?;
                }
            }
            writeln!(text)
        }
    }
}

/// What the filing command prints for one file, old or, on the way back, new: the other form for
/// standard output, and the line for standard error.
#[must_use]
pub fn stored_file(input: &[u8], back: bool) -> (Vec<u8>, Vec<u8>) {
    if input.len() > LONGEST_INPUT {
        return (Vec::new(), b"input too long\n".to_vec());
    }
    let (mut file, outcome);
    if back {
        file = vec![0; LONGEST_DUMPS];
        outcome = from_stored(input, &mut file);
    } else {
        file = vec![0; LONGEST_STORED];
        outcome = to_stored(input, &mut file);
    }
    let PlacedOutcome {
        answer,
        detail,
        value,
        place,
    } = outcome;
    if answer != DONE {
        let line = format!("refused: {answer} {place} {detail} {value}\n");
        return (Vec::new(), line.into_bytes());
    }
    file.truncate(detail);
    (file, b"done\n".to_vec())
}
