//! Request (v) of document 02 once more, slowly: what is refused, the planner's list, and which
//! lists are accepted.

use reference::{apply_bus_edit, apply_edit, reports, test_patch, Outcome};

use crate::kit::{bus_message, edit_message, outcome, record};
use crate::model;

/// The refusal of a pair: that of the first patch, of the second, then 16.
pub fn refusal(a: &[u8], b: &[u8]) -> Option<Outcome> {
    let tested = [a, b].map(test_patch);
    if let Some(&bad) = tested.iter().find(|tested| tested.answer != 0) {
        return Some(bad);
    }
    (a[..8] != b[..8]).then_some(outcome(16, 0))
}

/// The edits for every part that differs, parameters by rising byte place, then buses.
pub fn edits(a: &[u8], b: &[u8]) -> Vec<Vec<u8>> {
    let mut edits = Vec::new();
    for (place, (parameter, ..)) in model::fields().into_iter().enumerate() {
        if let Some(parameter) = parameter.filter(|_| a[place] != b[place]) {
            edits.push(edit_message([parameter, b[place] % 128]).to_vec());
        }
    }
    for bus in 0..10 {
        let place = 104 + 3 * usize::from(bus);
        let [before, after] = [a, b].map(|patch| &patch[place..place + 3]);
        if before != after {
            edits.push(bus_message([bus, after[0], after[1] % 128, after[2]]));
        }
    }
    edits
}

/// Whether a list is accepted: its messages, read one after another, are edits without a byte
/// between them or real time inside, each is applied, and the last patch is the second.
pub fn accepts(a: &[u8], b: &[u8], list: &[u8]) -> bool {
    let mut patch = a.to_vec();
    let mut place = 0;
    for report in reports(list) {
        if report.start != place || report.noise != 0 {
            return false;
        }
        let [first, second, third, fourth] = record(list, place).0.bytes;
        let applied = match (report.answer, report.detail) {
            (0, 0x06) => apply_edit(&mut patch, first, second),
            (0, 0x0B) => apply_bus_edit(&mut patch, first, second, third, fourth),
            _ => return false,
        };
        if applied != outcome(0, 0) {
            return false;
        }
        place = report.end;
    }
    place == list.len() && patch == b
}

/// What the checker answers.
pub fn checked(a: &[u8], b: &[u8], list: &[u8]) -> Outcome {
    let judged = || {
        let answer = if accepts(a, b, list) { 0 } else { 20 };
        outcome(answer, 0)
    };
    refusal(a, b).unwrap_or_else(judged)
}

/// What the planner answers, with room for so many bytes, and its list.
pub fn planned(a: &[u8], b: &[u8], room: usize) -> (Outcome, Vec<u8>) {
    if let Some(refusal) = refusal(a, b) {
        return (refusal, Vec::new());
    }
    let list = edits(a, b).concat();
    if list.len() > room {
        return (outcome(13, 0), Vec::new());
    }
    (outcome(0, list.len()), list)
}
