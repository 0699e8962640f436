//! What streams are made of: messages good, bad, foreign and broken, and noise.

use super::damage::{low_nibble, Damage};
use super::operations::{bad_operation, operation, operation_of_wrong_length, MOST_SENT, SHORT};
use super::{inputs, Random};
use crate::frames::{END, START};
use crate::kinds::{length, opcode, LAST_SPLIT, MASTER_LENGTH, MATRIX, OBERHEIM, VERSION};
use crate::nibbles;
use crate::splits::SPLIT_LENGTH;

const OPCODES: [u8; 11] = [
    opcode::SINGLE_PATCH,
    opcode::SPLIT,
    opcode::MASTER,
    opcode::REQUEST_DATA,
    opcode::REMOTE_EDIT,
    opcode::GROUP_MODE,
    opcode::SET_BANK,
    opcode::BUS_EDIT,
    opcode::UNLOCK_BANK,
    opcode::EDIT_BUFFER,
    opcode::STORE_EDIT_BUFFER,
];

/// Adds one piece to a stream.
pub(super) type Piece = fn(&mut Random, &mut Vec<u8>);

/// A message of this device: header, opcode, body, end. Nothing is tested.
pub(super) fn message(opcode: u8, body: &[u8], out: &mut Vec<u8>) {
    out.extend_from_slice(&[START, OBERHEIM, MATRIX, opcode]);
    out.extend_from_slice(body);
    out.push(END);
}

/// A dump of packed bytes with their sum. Nothing is tested.
pub(super) fn dump(opcode: u8, second: u8, packed: &[u8], out: &mut Vec<u8>) {
    let mut body = vec![second; 2 * packed.len() + 2];
    let [_, data @ .., sum] = body.as_mut_slice() else {
        unreachable!("a body has two bytes at least");
    };
    nibbles::unpack(packed, data);
    *sum = nibbles::sum(packed);
    message(opcode, &body, out);
}

/// A single patch or a patch to the edit buffer, of this packed patch.
fn patch_dump_of(random: &mut Random, patch: &[u8], out: &mut Vec<u8>) {
    if random.one_in(3) {
        dump(opcode::EDIT_BUFFER, 0, patch, out);
    } else {
        dump(opcode::SINGLE_PATCH, random.byte_within(0..=99), patch, out);
    }
}

pub(super) fn single_patch(random: &mut Random, out: &mut Vec<u8>) {
    let patch = inputs::good_patch(random);
    dump(
        opcode::SINGLE_PATCH,
        random.byte_within(0..=99),
        &patch,
        out,
    );
}

/// A split with an allowed number, of these packed bytes.
fn split_of(random: &mut Random, split: &[u8], out: &mut Vec<u8>) {
    dump(
        opcode::SPLIT,
        random.byte_within(0..=LAST_SPLIT),
        split,
        out,
    );
}

pub(super) fn split(random: &mut Random, out: &mut Vec<u8>) {
    let split = inputs::good_split(random);
    split_of(random, &split, out);
}

pub(super) fn edit_buffer(random: &mut Random, out: &mut Vec<u8>) {
    dump(opcode::EDIT_BUFFER, 0, &inputs::good_patch(random), out);
}

pub(super) fn master(random: &mut Random, out: &mut Vec<u8>) {
    let packed = inputs::bytes(random, MASTER_LENGTH);
    dump(opcode::MASTER, VERSION, &packed, out);
}

pub(super) fn remote_edit(random: &mut Random, out: &mut Vec<u8>) {
    message(opcode::REMOTE_EDIT, &inputs::good_edit(random), out);
}

pub(super) fn bus_edit(random: &mut Random, out: &mut Vec<u8>) {
    message(opcode::BUS_EDIT, &inputs::good_bus_edit(random), out);
}

/// A patch dump, numbered or for the edit buffer.
fn patch_dump(random: &mut Random, out: &mut Vec<u8>) {
    let patch = inputs::good_patch(random);
    patch_dump_of(random, &patch, out);
}

/// A dump of any kind.
pub(super) fn any_dump(random: &mut Random, out: &mut Vec<u8>) {
    match random.below(6) {
        0 | 1 => master(random, out),
        2 => split(random, out),
        _ => patch_dump(random, out),
    }
}

/// An accepted message of any kind.
pub(super) fn good_message(random: &mut Random, out: &mut Vec<u8>) {
    const KINDS: [Piece; 8] = [
        single_patch,
        split,
        edit_buffer,
        master,
        remote_edit,
        bus_edit,
        operation,
        operation,
    ];
    random.pick(&KINDS)(random, out);
}

/// A few dumps numbered from 0, sometimes one of them with a byte out of range, sometimes with the
/// master behind them.
pub(super) fn bank(random: &mut Random, out: &mut Vec<u8>) {
    let count = random.byte_within(1..=6);
    let bad = random.one_in(3).then(|| random.byte_within(0..=count - 1));
    for number in 0..count {
        let patch = if bad == Some(number) {
            inputs::one_out_of_range_patch(random)
        } else {
            inputs::good_patch(random)
        };
        dump(opcode::SINGLE_PATCH, number, &patch, out);
    }
    if random.one_in(2) {
        master(random, out);
    }
}

/// A dump whose number, version or zero isn't allowed.
pub(super) fn bad_number(random: &mut Random, out: &mut Vec<u8>) {
    let patch = inputs::good_patch(random);
    match random.below(4) {
        0 => dump(
            opcode::SINGLE_PATCH,
            random.byte_within(100..=127),
            &patch,
            out,
        ),
        1 => dump(
            opcode::EDIT_BUFFER,
            random.byte_within(1..=127),
            &patch,
            out,
        ),
        2 => {
            let number = random.pick(&[50, 50, 51, 63, 99, 127]);
            dump(opcode::SPLIT, number, &inputs::good_split(random), out);
        }
        _ => {
            let version = random.pick(&[0, 1, 2, 4, 127]);
            let packed = inputs::bytes(random, MASTER_LENGTH);
            dump(opcode::MASTER, version, &packed, out);
        }
    }
}

/// A patch dump with the right sum and fields out of range, or a few with one byte so in each.
pub(super) fn out_of_range(random: &mut Random, out: &mut Vec<u8>) {
    if random.one_in(2) {
        return fields_out_of_range(random, out);
    }
    for _ in 0..random.within(1..=6) {
        let patch = inputs::one_out_of_range_patch(random);
        patch_dump_of(random, &patch, out);
    }
}

/// A patch dump with the right sum and one to three fields out of range.
fn fields_out_of_range(random: &mut Random, out: &mut Vec<u8>) {
    let patch = inputs::out_of_range_patch(random);
    patch_dump_of(random, &patch, out);
}

/// A patch dump with the right sum and a bus half used.
pub(super) fn half_used(random: &mut Random, out: &mut Vec<u8>) {
    let patch = inputs::half_used_patch(random);
    patch_dump_of(random, &patch, out);
}

/// A split with the right sum, out of range at one place or at one to three.
pub(super) fn split_out_of_range(random: &mut Random, out: &mut Vec<u8>) {
    let split = if random.one_in(2) {
        inputs::one_out_of_range_split(random)
    } else {
        inputs::out_of_range_split(random)
    };
    split_of(random, &split, out);
}

/// A split of 42 bytes, as 003 prints; of 44; of 41, with number and sum or as 000's dummy split,
/// which has neither; or of any other length.
pub(super) fn split_of_wrong_length(random: &mut Random, out: &mut Vec<u8>) {
    let mut body = Vec::new();
    split(random, &mut body);
    let mut body = body[4..body.len() - 1].to_vec();
    match random.below(5) {
        0 => {
            body.remove(random.below(body.len()));
        }
        1 => {
            let at = random.within(0..=body.len());
            body.insert(at, random.byte_within(0..=15));
        }
        2 => {
            body.drain(1..3);
        }
        3 => return dummy_split(&dummy_data(random), out),
        _ => {
            body.truncate(random.below(body.len()));
            data(random, 80, &mut body);
            // The right length is none of them.
            if body.len() == 2 * SPLIT_LENGTH + 2 {
                body.push(0);
            }
        }
    }
    message(opcode::SPLIT, &body, out);
}

/// A split good, out of range or of a wrong length.
pub(super) fn any_split(random: &mut Random, out: &mut Vec<u8>) {
    const SPLITS: [Piece; 4] = [split, split, split_out_of_range, split_of_wrong_length];
    random.pick(&SPLITS)(random, out);
}

/// 000's dummy split: 36 bytes of data, neither number nor sum.
fn dummy_split(data: &[u8; 2 * SPLIT_LENGTH], out: &mut Vec<u8>) {
    message(opcode::SPLIT, data, out);
}

/// The data of a dummy split: zeros, a good split's, or any below 80H.
fn dummy_data(random: &mut Random) -> [u8; 2 * SPLIT_LENGTH] {
    let mut data = [0; 2 * SPLIT_LENGTH];
    match random.below(3) {
        0 => {}
        1 => nibbles::unpack(&inputs::good_split(random), &mut data),
        _ => data.fill_with(|| random.byte_within(0..=127)),
    }
    data
}

/// What a Matrix-1000 sends behind its patches when asked for everything (000): fifty dummy splits;
/// or a few of them.
pub(super) fn dummy_splits(random: &mut Random, out: &mut Vec<u8>) {
    if random.one_in(2) {
        patch_dump(random, out);
    }
    let data = dummy_data(random);
    for _ in 0..random.pick(&[1, 4, 50]) {
        dummy_split(&data, out);
    }
    if random.one_in(2) {
        master(random, out);
    }
}

/// A split with one nibble replaced, by another nibble or by any byte.
pub(super) fn split_nibble(random: &mut Random, out: &mut Vec<u8>) {
    let start = out.len();
    split(random, out);
    let at = low_nibble(start, 0) + random.below(2 * SPLIT_LENGTH);
    if random.one_in(2) {
        out[at] ^= random.byte_within(1..=15);
    } else {
        Damage::replace(random, out, at).apply(out);
    }
}

/// A high nibble moved by 8, so that the sum stays.
pub(super) fn high_nibble_moved(random: &mut Random, out: &mut Vec<u8>) {
    let start = out.len();
    any_dump(random, out);
    let bytes = (out.len() - start - 7) / 2;
    let at = start + 6 + 2 * random.below(bytes);
    out[at] ^= 0x08;
}

/// A master with one nibble replaced by any other.
pub(super) fn master_nibble(random: &mut Random, out: &mut Vec<u8>) {
    let start = out.len();
    master(random, out);
    let at = start + 5 + random.below(2 * MASTER_LENGTH);
    out[at] ^= random.byte_within(1..=15);
}

/// A dump with data bytes above 15, the sum right or not.
pub(super) fn wide_data(random: &mut Random, out: &mut Vec<u8>) {
    let start = out.len();
    any_dump(random, out);
    for _ in 0..random.within(1..=3) {
        let at = random.within(start + 5..=out.len() - 3);
        out[at] |= random.pick(&[0x10, 0x20, 0x40, 0x70]);
    }
    if random.one_in(2) {
        let sum = out.len() - 2;
        out[sum] ^= random.byte_within(1..=127);
    }
}

/// A dump with a wrong sum; often that of the nibbles sent in place of the packed bytes.
pub(super) fn wrong_sum(random: &mut Random, out: &mut Vec<u8>) {
    let start = out.len();
    match random.below(6) {
        0 | 1 => master(random, out),
        2 => {
            let patch = inputs::bad_patch(random);
            patch_dump_of(random, &patch, out);
        }
        3 => split(random, out),
        4 => split_out_of_range(random, out),
        _ => patch_dump(random, out),
    }
    let at = out.len() - 2;
    if random.one_in(3) {
        out[at] = nibbles::sum(&out[start + 5..at]);
    } else {
        out[at] ^= random.byte_within(1..=127);
    }
}

/// An edit with any bytes that a message can carry.
pub(super) fn any_edit(random: &mut Random, out: &mut Vec<u8>) {
    if random.one_in(2) {
        let edit = inputs::edit(random).map(|byte| byte & 0x7F);
        message(opcode::REMOTE_EDIT, &edit, out);
    } else {
        let edit = inputs::bus_edit(random).map(|byte| byte & 0x7F);
        message(opcode::BUS_EDIT, &edit, out);
    }
}

/// Some data bytes.
pub(super) fn data(random: &mut Random, most: usize, out: &mut Vec<u8>) {
    let length = random.within(0..=most);
    out.extend((0..length).map(|_| random.byte_within(0..=127)));
}

/// A message of another manufacturer, a universal one, or one without a manufacturer.
pub(super) fn other_manufacturer(random: &mut Random, out: &mut Vec<u8>) {
    const HEADERS: [&[u8]; 10] = [
        &[],
        &[0x00, 0x00, 0x0E],
        &[0x06, 0x10],
        &[0x0F, 0x09, 0x00],
        &[0x11, 0x06, 0x01],
        &[0x41, 0x10],
        &[0x43, 0x00],
        &[0x7E, 0x7F, 0x06, 0x01],
        &[0x7F, 0x7F, 0x02, 0x01],
        &[0x01, 0x06, 0x06],
    ];
    out.push(START);
    let header = random.pick(&HEADERS);
    out.extend_from_slice(header);
    if !header.is_empty() {
        data(random, 300, out);
    }
    out.push(END);
}

/// A message of another device of the manufacturer, or of none.
pub(super) fn other_device(random: &mut Random, out: &mut Vec<u8>) {
    const HEADERS: [&[u8]; 7] = [
        &[],
        &[0x00],
        &[0x02, 0x01, 0x00],
        &[0x02, 0x0D, 0x01],
        &[0x04, 0x01, 0x01],
        &[0x07, 0x01],
        &[0x10, 0x06],
    ];
    out.extend_from_slice(&[START, OBERHEIM]);
    let header = random.pick(&HEADERS);
    out.extend_from_slice(header);
    if !header.is_empty() {
        data(random, 300, out);
    }
    out.push(END);
}

/// A message of this device with an opcode not among the eleven, or with none.
pub(super) fn other_opcode(random: &mut Random, out: &mut Vec<u8>) {
    let opcode = random.byte_within(0..=127);
    if random.one_in(8) || OPCODES.contains(&opcode) {
        out.extend_from_slice(&[START, OBERHEIM, MATRIX, END]);
    } else if random.one_in(3) {
        let start = out.len();
        good_message(random, out);
        out[start + 3] = opcode;
    } else {
        let opcode = random.pick(&[0x00, 0x05, 0x08, 0x09, 0x0F, opcode]);
        let mut body = Vec::new();
        data(random, 40, &mut body);
        message(opcode, &body, out);
    }
}

/// A message of the eleven kinds with a wrong length: one of another's, one near, or any.
pub(super) fn wrong_length(random: &mut Random, out: &mut Vec<u8>) {
    if random.one_in(5) {
        return split_of_wrong_length(random, out);
    }
    let start = out.len();
    good_message(random, out);
    match random.below(4) {
        0 => out[start + 3] = random.pick(&OPCODES),
        1 => {
            let at = random.within(start + 4..=out.len() - 1);
            out.insert(at, random.byte_within(0..=15));
        }
        2 => lose_or_add(random, start, out),
        _ => {
            let kept = random.within(start + 4..=out.len() - 1);
            out.truncate(kept);
            data(random, 400, out);
            out.push(END);
        }
    }
}

/// A message at the stream's end loses a byte behind its opcode; one that has none there gets one.
pub(super) fn lose_or_add(random: &mut Random, start: usize, out: &mut Vec<u8>) {
    if out.len() - start == length::UNLOCK_BANK {
        out.insert(start + 4, random.byte_within(0..=MOST_SENT));
    } else {
        out.remove(random.within(start + 4..=out.len() - 2));
    }
}

/// Adds real time inside a message that stands at the stream's end.
fn sprinkle(random: &mut Random, start: usize, out: &mut Vec<u8>) {
    let most = random.pick(&[1, 3, 20]);
    for _ in 0..random.within(1..=most) {
        let at = random.within(start + 1..=out.len() - 1);
        out.insert(at, random.byte_within(0xF8..=0xFF));
    }
}

/// An accepted message with real time inside.
pub(super) fn real_time_inside(random: &mut Random, out: &mut Vec<u8>) {
    let start = out.len();
    good_message(random, out);
    sprinkle(random, start, out);
}

/// Messages with a fault, each complete.
const FAULTY: [Piece; 12] = [
    bad_operation,
    operation_of_wrong_length,
    bad_number,
    fields_out_of_range,
    split_out_of_range,
    half_used,
    wide_data,
    wrong_sum,
    wrong_length,
    other_manufacturer,
    other_device,
    other_opcode,
];

/// A refused message with real time inside.
pub(super) fn real_time_in_refused(random: &mut Random, out: &mut Vec<u8>) {
    let start = out.len();
    random.pick(&FAULTY)(random, out);
    sprinkle(random, start, out);
}

/// F0H and a run of real time.
pub(super) fn real_time_only(random: &mut Random, out: &mut Vec<u8>) {
    noisy(random, &[], inputs::with_runs, out);
}

/// Messages with runs of real time inside, often right behind the F0H or before the end.
pub(super) fn real_time_runs(random: &mut Random, out: &mut Vec<u8>) {
    noisy_messages(random, inputs::with_runs, out);
}

/// Messages with real time behind every byte inside, every second or every third.
pub(super) fn dense_real_time(random: &mut Random, out: &mut Vec<u8>) {
    noisy_messages(random, inputs::with_dense_real_time, out);
}

/// Messages with real time behind every 16th byte inside, or about as often or as seldom.
pub(super) fn sparse_real_time(random: &mut Random, out: &mut Vec<u8>) {
    noisy_messages(random, inputs::with_sparse_real_time, out);
}

/// Puts real time among the bytes inside a message.
type Noise = fn(&mut Random, &[u8]) -> Vec<u8>;

/// A few messages of any kind, accepted or refused, with noise inside.
fn noisy_messages(random: &mut Random, noise: Noise, out: &mut Vec<u8>) {
    for _ in 0..random.within(1..=3) {
        let mut message = Vec::new();
        if random.one_in(2) {
            good_message(random, &mut message);
        } else {
            random.pick(&FAULTY)(random, &mut message);
        }
        noisy(random, &message[1..message.len() - 1], noise, out);
    }
}

/// A message with noise among these bytes, complete, interrupted or left open. One that isn't
/// complete may have lost some of them.
pub(super) fn noisy(random: &mut Random, inside: &[u8], noise: Noise, out: &mut Vec<u8>) {
    let part = &inside[..random.below(inside.len() + 1)];
    out.push(START);
    match random.below(4) {
        0 => {
            out.extend(noise(random, part));
            interruption(random, out);
        }
        1 => out.extend(noise(random, part)),
        _ => {
            out.extend(noise(random, inside));
            out.push(END);
        }
    }
}

/// A status byte or a message that interrupts, and behind it real time and data that stand in no
/// message.
fn interruption(random: &mut Random, out: &mut Vec<u8>) {
    match random.below(3) {
        0 => good_message(random, out),
        1 => out.push(random.byte_within(0x80..=0xEF)),
        _ => out.push(random.byte_within(0xF1..=0xF6)),
    }
    real_time(random, out);
    data(random, 5, out);
    if random.one_in(2) {
        out.push(END);
    }
}

/// Real time in no message: before and behind messages, data and status bytes.
pub(super) fn real_time_between(random: &mut Random, out: &mut Vec<u8>) {
    for _ in 0..random.within(1..=4) {
        real_time(random, out);
        match random.below(4) {
            0 => out.push(random.byte_within(0x80..=0xEF)),
            1 => out.push(END),
            2 => data(random, 20, out),
            _ => good_message(random, out),
        }
        real_time(random, out);
    }
}

/// A little real time, sometimes a run of it.
fn real_time(random: &mut Random, out: &mut Vec<u8>) {
    let most = random.pick(&[3, 3, 3, 40]);
    let length = random.within(0..=most);
    out.extend(inputs::real_time(random, length));
}

/// A message without its last bytes; what follows, if anything, interrupts it.
pub(super) fn cut(random: &mut Random, out: &mut Vec<u8>) {
    let start = out.len();
    good_message(random, out);
    out.truncate(random.within(start + 1..=out.len() - 1));
}

/// The same with real time inside.
pub(super) fn noisy_cut(random: &mut Random, out: &mut Vec<u8>) {
    let mut message = Vec::new();
    cut(random, &mut message);
    out.push(START);
    out.extend(inputs::with_real_time(random, &message[1..]));
}

/// A message with a status byte inside: another message's start, a voice message, an undefined one.
pub(super) fn interrupted(random: &mut Random, out: &mut Vec<u8>) {
    cut(random, out);
    match random.below(3) {
        0 => good_message(random, out),
        1 => out.extend_from_slice(&[random.byte_within(0x80..=0xEF), 0x40, 0x40]),
        _ => out.push(random.byte_within(0xF0..=0xF6)),
    }
    if random.one_in(2) {
        data(random, 20, out);
        out.push(END);
    }
}

/// A message with bytes replaced, lost or added anywhere, header and end included.
pub(super) fn mutated(random: &mut Random, out: &mut Vec<u8>) {
    let start = out.len();
    good_message(random, out);
    for _ in 0..random.within(1..=4) {
        if start == out.len() {
            return;
        }
        Damage::any(random, out, start..out.len()).apply(out);
    }
}

/// A written patch dump with this many damages among its data and checksum.
fn damaged(random: &mut Random, damages: usize, out: &mut Vec<u8>) {
    let start = out.len();
    patch_dump(random, out);
    for _ in 0..damages {
        let places = start + 5..out.len() - 1;
        Damage::any(random, out, places).apply(out);
    }
}

/// A written patch dump with one byte replaced.
pub(super) fn replaced(random: &mut Random, out: &mut Vec<u8>) {
    let start = out.len();
    patch_dump(random, out);
    let at = random.within(start + 5..=out.len() - 2);
    Damage::replace(random, out, at).apply(out);
}

/// A written patch dump with one byte lost.
pub(super) fn lost(random: &mut Random, out: &mut Vec<u8>) {
    let start = out.len();
    patch_dump(random, out);
    let at = random.within(start + 5..=out.len() - 2);
    Damage::Lose { at }.apply(out);
}

/// A written patch dump with one byte added.
pub(super) fn inserted(random: &mut Random, out: &mut Vec<u8>) {
    let start = out.len();
    patch_dump(random, out);
    let at = random.within(start + 5..=out.len() - 2);
    Damage::insert(random, at).apply(out);
}

/// A dump with unequal neighbours exchanged among its data and checksum, or anywhere, header and
/// end included. Sometimes two bytes two apart, whose exchange the sum doesn't show.
pub(super) fn exchanged(random: &mut Random, out: &mut Vec<u8>) {
    let start = out.len();
    any_dump(random, out);
    let places = start + 5..out.len() - 1;
    let damage = match random.below(8) {
        0 => {
            let at = random.within(places.start..=places.end - 4);
            out.swap(at, at + 2);
            None
        }
        1 => Damage::exchange(random, out, start..out.len()),
        _ => Damage::exchange(random, out, places),
    };
    if let Some(damage) = damage {
        damage.apply(out);
    }
    if random.one_in(8) {
        sprinkle(random, start, out);
    }
}

/// A dump with two neighbouring data bytes replaced, mostly the nibbles of one packed byte.
pub(super) fn pair_replaced(random: &mut Random, out: &mut Vec<u8>) {
    let start = out.len();
    match random.below(20) {
        0 => edit_begun_in_patch(random, out),
        1 => edit_begun_in_master(random, out),
        2 => last_nibble_and_sum(random, out),
        3 => split_begun_in_patch(random, out),
        4 => split_begun_in_master(random, out),
        5 => store_begun_in_patch(random, out),
        6 => operation_begun_in_master(random, out),
        _ => {
            any_dump(random, out);
            let data = start + 5..out.len() - 2;
            if let Some(damage) = Damage::replace_two(random, out, data) {
                damage.apply(out);
            }
        }
    }
    if random.one_in(8) {
        sprinkle(random, start, out);
    }
}

/// A patch dump with F0H and 10H put before data that read 06H and an edit's opcode. Only byte 26
/// and the one behind it allow that, too far from the end for an edit.
fn edit_begun_in_patch(random: &mut Random, out: &mut Vec<u8>) {
    let mut patch = inputs::good_patch(random);
    let mut at = low_nibble(out.len(), 25);
    if random.one_in(2) {
        patch[26] = 0x66;
    } else {
        patch[26] = 0x60 | random.byte_within(0..=15);
        patch[27] = random.pick(&[0x06, 0x0B, 0x36, 0x3B]);
        at += 1;
    }
    patch_dump_of(random, &patch, out);
    begin_header(at, out);
}

/// A master whose last data and checksum read as an edit behind F0H and 10H put before them.
fn edit_begun_in_master(random: &mut Random, out: &mut Vec<u8>) {
    let (last, sum) = if random.one_in(2) {
        let [parameter, value] = inputs::good_edit(random);
        (vec![MATRIX, opcode::REMOTE_EDIT, parameter], value)
    } else {
        let [bus, source, amount, destination] = inputs::good_bus_edit(random);
        let last = vec![MATRIX, opcode::BUS_EDIT, bus, source, amount];
        (last, destination)
    };
    begun_in_master(random, &last, sum, out);
}

/// A patch dump with F0H and 10H put before data that read 06H and 02H, in its name. It is too far
/// from the end for a split.
fn split_begun_in_patch(random: &mut Random, out: &mut Vec<u8>) {
    let mut patch = inputs::good_patch(random);
    let place = random.within(1..=7);
    patch[place] = opcode::SPLIT << 4 | MATRIX;
    let at = low_nibble(out.len(), place - 1);
    patch_dump_of(random, &patch, out);
    begin_header(at, out);
}

/// A master whose last data and checksum read as a split behind F0H and 10H put before them, at
/// times as one out of range.
fn split_begun_in_master(random: &mut Random, out: &mut Vec<u8>) {
    let split = if random.one_in(4) {
        inputs::one_out_of_range_split(random)
    } else {
        inputs::good_split(random)
    };
    let mut last = [0; 3 + 2 * SPLIT_LENGTH];
    last[..3].copy_from_slice(&[MATRIX, opcode::SPLIT, random.byte_within(0..=15)]);
    nibbles::unpack(&split, &mut last[3..]);
    begun_in_master(random, &last, nibbles::sum(&split), out);
}

/// A patch dump whose last bus and checksum read as a store message behind F0H and 10H put before
/// them. No other operation can end with a patch dump.
fn store_begun_in_patch(random: &mut Random, out: &mut Vec<u8>) {
    let mut patch = inputs::good_patch(random);
    let [_, source, _, destination] = inputs::good_bus_edit(random);
    let [_, _, id] = inputs::good_store(random);
    patch[131..].copy_from_slice(&[source, opcode::STORE_EDIT_BUFFER << 4 | MATRIX, destination]);
    // Byte 26 takes all seven bits, so it can make the sum the ID.
    patch[26] = patch[26]
        .wrapping_add(id)
        .wrapping_sub(nibbles::sum(&patch))
        & 0x7F;
    let at = low_nibble(out.len(), 131);
    patch_dump_of(random, &patch, out);
    begin_header(at, out);
}

/// A master whose last data and checksum read as an operation behind F0H and 10H put before them.
fn operation_begun_in_master(random: &mut Random, out: &mut Vec<u8>) {
    let mut message = Vec::new();
    operation(random, &mut message);
    let [_, _, last @ .., sum, _] = &message[..] else {
        unreachable!("an operation has five bytes at least");
    };
    begun_in_master(random, last, *sum, out);
}

/// A master with these last data and this checksum, and F0H and 10H put before them.
fn begun_in_master(random: &mut Random, last: &[u8], sum: u8, out: &mut Vec<u8>) {
    let mut data = inputs::bytes(random, 2 * MASTER_LENGTH - last.len());
    data.extend_from_slice(last);
    data.iter_mut().for_each(|byte| *byte &= 0x0F);

    let mut packed = [0; MASTER_LENGTH];
    nibbles::pack(&data, &mut packed);
    // The first byte makes the sum what it is to be.
    packed[0] = packed[0].wrapping_add(sum.wrapping_sub(nibbles::sum(&packed)));
    dump(opcode::MASTER, VERSION, &packed, out);
    begin_header(out.len() - 2 - last.len() - 2, out);
}

/// F0H and 10H in place of two bytes.
fn begin_header(at: usize, out: &mut Vec<u8>) {
    let bytes = [START, OBERHEIM];
    Damage::ReplaceTwo { at, bytes }.apply(out);
}

/// A patch dump with its last nibble and its checksum replaced so that they fit each other.
fn last_nibble_and_sum(random: &mut Random, out: &mut Vec<u8>) {
    patch_dump(random, out);
    let at = out.len() - 3;
    let nibble = random.byte_within(0..=2);
    let more = nibble.wrapping_sub(out[at]).wrapping_mul(16);
    out[at] = nibble;
    out[at + 1] = out[at + 1].wrapping_add(more) & 0x7F;
}

/// A written patch dump with two damages.
pub(super) fn two_damages(random: &mut Random, out: &mut Vec<u8>) {
    damaged(random, 2, out);
}

/// A written patch dump with three damages.
pub(super) fn three_damages(random: &mut Random, out: &mut Vec<u8>) {
    damaged(random, 3, out);
}

/// Up to three bytes of the sort that matters.
pub(super) fn nearly_nothing(random: &mut Random, out: &mut Vec<u8>) {
    let length = random.below(4);
    out.extend((0..length).map(|_| random.pick(&MARKS)));
}

/// Bytes of any value.
pub(super) fn noise(random: &mut Random, out: &mut Vec<u8>) {
    let length = random.pick(&[8, 64, 512]);
    out.extend((0..random.within(1..=length)).map(|_| random.byte()));
}

/// Bytes that are F0H, F7H, real time and others in about equal parts.
pub(super) fn start_rich_noise(random: &mut Random, out: &mut Vec<u8>) {
    let length = random.within(1..=200);
    out.extend((0..length).map(|_| match random.below(5) {
        0 | 1 => START,
        2 => END,
        3 => random.byte_within(0xF8..=0xFF),
        _ => random.byte(),
    }));
}

/// The bytes that messages begin and end with, and a few that break them.
const MARKS: [u8; 22] = [
    START, START, END, END, OBERHEIM, OBERHEIM, MATRIX, MATRIX, 0x01, 0x02, 0x03, 0x04, 0x07, 0x0A,
    0x0B, 0x0C, 0x0D, 0x0E, 0x00, 0x7F, 0x80, 0xFE,
];

/// Noise made of headers, so that short messages come out of it.
pub(super) fn header_noise(random: &mut Random, out: &mut Vec<u8>) {
    for _ in 0..random.within(1..=40) {
        match random.below(4) {
            0 => out.extend_from_slice(&[START, OBERHEIM, MATRIX]),
            1 => {
                let (opcode, _) = random.pick(&SHORT);
                out.extend_from_slice(&[START, OBERHEIM, MATRIX, opcode]);
            }
            2 => out.push(END),
            _ => out.push(random.pick(&MARKS)),
        }
    }
}

/// Bytes without an F0H: what may stand between messages.
pub(super) fn between(random: &mut Random, out: &mut Vec<u8>) {
    let length = random.within(0..=20);
    let bytes = (0..length).map(|_| random.byte());
    out.extend(bytes.filter(|&byte| byte != START));
}

/// F0H and some data or real time, left open.
pub(super) fn open(random: &mut Random, out: &mut Vec<u8>) {
    out.push(START);
    data(random, 5, out);
    if random.one_in(2) {
        out.push(random.byte_within(0xF8..=0xFF));
    }
}
