//! Request (ii) of document 02 once more, slowly: both forms as lists of records, and what is
//! refused.

use reference::{test_patch, PlacedOutcome};

use crate::kit::{dump, less_real_time};
use crate::model;

/// What is answered, and the file that is written.
pub type Answer = (PlacedOutcome, Vec<u8>);

/// The records of one sort, each as its bytes.
type Records = Vec<Vec<u8>>;

/// An answer without a file.
fn refused(answer: u8, detail: usize, value: i16, place: usize) -> Answer {
    let outcome = PlacedOutcome {
        answer,
        detail,
        value,
        place,
    };
    (outcome, Vec::new())
}

/// 13, or the file.
fn written(file: Vec<u8>, room: usize) -> Answer {
    if file.len() > room {
        return refused(13, 0, 0, 0);
    }
    let (done, _) = refused(0, file.len(), 0, 0);
    (done, file)
}

/// What becomes of an old file, with room for so many bytes.
pub fn to_stored(old: &[u8], room: usize) -> Answer {
    let reports = model::reports(old);
    for &(start, _, (answer, detail, value), _) in &reports {
        if [2, 3, 7, 8, 9, 10, 11, 12].contains(&answer) {
            return refused(answer, detail, value, start);
        }
    }
    let messages: Vec<&[u8]> = reports
        .iter()
        .filter(|(_, _, (answer, ..), _)| *answer == 0)
        .map(|&(start, end, ..)| &old[start..end])
        .collect();
    // Accepted messages and nothing else.
    if messages.concat() != old {
        return refused(15, 0, 0, 0);
    }
    match split_up(&messages) {
        Some((patches, masters)) => written(new_file(&patches, &masters), room),
        None => refused(15, 0, 0, 0),
    }
}

/// The records of a file of accepted messages: patches, then masters; none if it isn't of the form.
fn split_up(messages: &[&[u8]]) -> Option<(Records, Records)> {
    let (mut patches, mut masters) = (Vec::new(), Vec::new());
    for message in messages {
        let message = less_real_time(message);
        match message[3] {
            0x01 if masters.is_empty() => {
                let mut record = vec![message[4]];
                record.extend(packed(&message));
                patches.push(record);
            }
            0x03 => masters.push(packed(&message)),
            _ => return None,
        }
    }
    (patches.len() <= 100 && masters.len() <= 1).then_some((patches, masters))
}

/// A dump's packed bytes.
fn packed(dump: &[u8]) -> Vec<u8> {
    let data = &dump[5..dump.len() - 2];
    data.chunks(2).map(|pair| pair[0] + 16 * pair[1]).collect()
}

/// The new file of these records.
fn new_file(patches: &[Vec<u8>], masters: &[Vec<u8>]) -> Vec<u8> {
    let records = [patches.concat(), masters.concat()].concat();
    let numbers = five(patches.len(), masters.len());
    let header = numbers
        .into_iter()
        .flat_map(|number| [number % 256, number / 256]);
    header.map(|byte| byte as u8).chain(records).collect()
}

/// The five numbers of a header.
fn five(patches: usize, masters: usize) -> [usize; 5] {
    let master = 10 + 135 * patches;
    [patches, 10, masters, master, master + 172 * masters]
}

/// What becomes of a new file, with room for so many bytes.
pub fn from_stored(new: &[u8], room: usize) -> Answer {
    let numbers: Vec<usize> = new
        .chunks_exact(2)
        .take(5)
        .map(|pair| usize::from(pair[0]) + 256 * usize::from(pair[1]))
        .collect();
    let right = (0..=100)
        .flat_map(|patches| [five(patches, 0), five(patches, 1)])
        .any(|right| right[..] == numbers && right[4] == new.len());
    if !right {
        return refused(15, 0, 0, 0);
    }
    let mut file = Vec::new();
    let mut place = 10;
    for _ in 0..numbers[0] {
        let (number, patch) = (new[place], &new[place + 1..place + 135]);
        let tested = test_patch(patch);
        if number >= 100 {
            return refused(8, 0, 0, place);
        }
        if tested.answer != 0 {
            return refused(tested.answer, tested.detail, tested.value, place);
        }
        file.extend(dump(0x01, number, patch));
        place += 135;
    }
    if numbers[2] == 1 {
        file.extend(dump(0x03, 3, &new[place..]));
    }
    written(file, room)
}
