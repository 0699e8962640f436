//! Demand 2: written and read back, accepted and written again.

use reference::streams::{inputs, stream, Random, CYCLE};
use reference::{
    nibbles, reports, test_patch, write_bank, write_bus_edit, write_edit, write_edit_buffer,
    write_group_mode, write_master, write_patch, write_request_data, write_set_bank, write_split,
    write_store_edit_buffer, write_unlock_bank, BankOutcome, Reading,
};

use crate::kit::{
    less_real_time, outcome, reading_outcome, record, report, with_real_time, written,
};

/// Writes a record again.
fn rewritten(reading: &Reading, packed: &[u8]) -> Vec<u8> {
    let [a, b, c, d] = reading.bytes;
    written(|out| match reading.detail {
        0x01 => write_patch(a, packed, out),
        0x02 => write_split(a, packed, out),
        0x03 => write_master(packed, out),
        0x04 => write_request_data(a, b, out),
        0x06 => write_edit(a, b, out),
        0x07 => write_group_mode(a, b, out),
        0x0A => write_set_bank(a, out),
        0x0B => write_bus_edit(a, b, c, d, out),
        0x0C => write_unlock_bank(out),
        0x0D => write_edit_buffer(packed, out),
        0x0E => write_store_edit_buffer(a, b, c, out),
        opcode => panic!("opcode {opcode}"),
    })
}

#[test]
fn a_patch_written_and_read_back_is_the_same_patch() {
    let mut random = Random::new(20);
    for round in 0..20_000 {
        let patch = inputs::good_patch(&mut random);
        let number = (round % 100) as u8;
        let dump = written(|out| write_patch(number, &patch, out));
        let (reading, packed) = record(&dump, 0);
        assert_eq!((reading.start, reading.end), (0, 275));
        assert_eq!(reading_outcome(&reading), outcome(0, 1));
        assert_eq!(reading.bytes, [number, 0, 0, 0]);
        assert_eq!(packed, patch);

        let dump = written(|out| write_edit_buffer(&patch, out));
        let (reading, packed) = record(&dump, 0);
        assert_eq!(reading_outcome(&reading), outcome(0, 0x0D));
        assert_eq!(reading.bytes, [0; 4]);
        assert_eq!(packed, patch);
    }
}

#[test]
fn a_split_written_and_read_back_is_the_same_split() {
    let mut random = Random::new(26);
    for round in 0..20_000 {
        let split = inputs::good_split(&mut random);
        let number = (round % 50) as u8;
        let dump = written(|out| write_split(number, &split, out));
        assert_eq!(dump.len(), 43);
        let (reading, packed) = record(&dump, 0);
        assert_eq!((reading.start, reading.end), (0, 43));
        assert_eq!(reading_outcome(&reading), outcome(0, 2));
        assert_eq!(reading.bytes, [number, 0, 0, 0]);
        assert_eq!(packed, split);
    }
}

#[test]
fn a_split_is_read_from_the_middle_of_any_stream() {
    let mut random = Random::new(27);
    for seed in 0..4 * CYCLE {
        let split = inputs::good_split(&mut random);
        let number = random.byte_within(0..=49);
        let dump = written(|out| write_split(number, &split, out));
        let (before, behind) = (stream(seed), stream(seed + 1));
        let start = before.len();
        let input = [before, dump, behind].concat();
        let found = reports(&input).find(|found| found.start >= start);
        assert_eq!(found, Some(report(start, start + 43, 0, 2)), "seed {seed}");
        let (reading, packed) = record(&input, start);
        assert_eq!(reading.bytes, [number, 0, 0, 0]);
        assert_eq!(packed, split);
    }
}

#[test]
fn a_master_written_and_read_back_is_the_same_master() {
    let mut random = Random::new(21);
    for _ in 0..10_000 {
        let master = inputs::bytes(&mut random, 172);
        let dump = written(|out| write_master(&master, out));
        assert_eq!(dump.len(), 351);
        let (reading, packed) = record(&dump, 0);
        assert_eq!(reading_outcome(&reading), outcome(0, 3));
        assert_eq!(reading.bytes, [0; 4]);
        assert_eq!(packed, master);
    }
}

#[test]
fn edits_written_and_read_back_are_the_same_edits() {
    let mut random = Random::new(22);
    for _ in 0..50_000 {
        let [parameter, value] = inputs::good_edit(&mut random);
        let message = written(|out| write_edit(parameter, value, out));
        let (reading, _) = record(&message, 0);
        assert_eq!(reading_outcome(&reading), outcome(0, 6));
        assert_eq!(reading.bytes, [parameter, value, 0, 0]);

        let bytes @ [bus, source, amount, destination] = inputs::good_bus_edit(&mut random);
        let message = written(|out| write_bus_edit(bus, source, amount, destination, out));
        let (reading, _) = record(&message, 0);
        assert_eq!(reading_outcome(&reading), outcome(0, 0x0B));
        assert_eq!(reading.bytes, bytes);
    }
}

#[test]
fn operations_written_and_read_back_are_the_same_operations() {
    let mut random = Random::new(28);
    for _ in 0..20_000 {
        let [wanted, number] = inputs::good_request(&mut random);
        let message = written(|out| write_request_data(wanted, number, out));
        let (reading, _) = record(&message, 0);
        assert_eq!(reading_outcome(&reading), outcome(0, 0x04));
        assert_eq!(reading.bytes, [wanted, number, 0, 0]);

        let [total, id] = inputs::good_group(&mut random);
        let message = written(|out| write_group_mode(total, id, out));
        let (reading, _) = record(&message, 0);
        assert_eq!(reading_outcome(&reading), outcome(0, 0x07));
        assert_eq!(reading.bytes, [total, id, 0, 0]);

        let [bank] = inputs::good_bank_number(&mut random);
        let message = written(|out| write_set_bank(bank, out));
        let (reading, _) = record(&message, 0);
        assert_eq!(reading_outcome(&reading), outcome(0, 0x0A));
        assert_eq!(reading.bytes, [bank, 0, 0, 0]);

        let [number, bank, id] = inputs::good_store(&mut random);
        let message = written(|out| write_store_edit_buffer(number, bank, id, out));
        let (reading, _) = record(&message, 0);
        assert_eq!(reading_outcome(&reading), outcome(0, 0x0E));
        assert_eq!(reading.bytes, [number, bank, id, 0]);
    }
    let (reading, _) = record(&written(write_unlock_bank), 0);
    assert_eq!(reading_outcome(&reading), outcome(0, 0x0C));
    assert_eq!(reading.bytes, [0; 4]);
}

#[test]
fn accepted_and_written_again_is_the_message_less_real_time() {
    let mut accepted = 0;
    for seed in 0..40 * CYCLE {
        let input = stream(seed);
        for found in reports(&input).filter(|found| found.answer == 0) {
            let (reading, packed) = record(&input, found.start);
            let message = less_real_time(&input[found.start..found.end]);
            assert_eq!(rewritten(&reading, &packed), message, "seed {seed}");
            if reading.detail == 0x01 || reading.detail == 0x0D {
                assert_eq!(test_patch(&packed), outcome(0, 0));
            }
            accepted += 1;
        }
    }
    assert!(accepted > 10_000, "{accepted}");
}

#[test]
fn real_time_inside_changes_neither_answer_nor_record() {
    for seed in 0..8 * CYCLE {
        let input = stream(seed);
        for found in reports(&input).take(50) {
            let message = less_real_time(&input[found.start..found.end]);
            if message.len() > 1000 {
                continue;
            }
            let (reading, packed) = record(&message, 0);
            let noisy = with_real_time(&message);
            let (again, same) = record(&noisy, 0);
            assert_eq!((again.start, again.end), (0, noisy.len()));
            assert_eq!(reading_outcome(&again), reading_outcome(&reading));
            assert_eq!((again.bytes, same), (reading.bytes, packed));
            assert_eq!((reading.noise, again.noise), (0, message.len() - 1));
        }
    }
}

#[test]
fn a_bank_written_and_read_back_is_the_same_bank() {
    let mut random = Random::new(23);
    for count in 0..=100 {
        let bank: Vec<u8> = (0..count)
            .flat_map(|_| inputs::good_patch(&mut random))
            .collect();
        let length = 275 * count;
        let mut out = vec![0xA5; length + 3];
        let done = BankOutcome {
            answer: 0,
            detail: length,
            value: 0,
            place: 0,
        };
        assert_eq!(write_bank(&bank, &mut out), done);
        assert_eq!(out[length..], [0xA5; 3]);

        let found: Vec<_> = reports(&out).collect();
        assert_eq!(found.len(), count);
        for (number, found) in found.into_iter().enumerate() {
            let start = 275 * number;
            assert_eq!(found, report(start, start + 275, 0, 1));
            let patch = &bank[134 * number..][..134];
            let (reading, packed) = record(&out, start);
            assert_eq!(usize::from(reading.bytes[0]), number);
            assert_eq!(packed, patch);
            let alone = written(|out| write_patch(number as u8, patch, out));
            assert_eq!(out[start..start + 275], alone);
        }
    }
}

#[test]
fn banks_as_lent() {
    let mut random = Random::new(24);
    for _ in 0..3_000 {
        let bank = inputs::bank(&mut random);
        let lent = inputs::output(&mut random, 275 * (bank.len() / 134));
        let mut out = lent.clone();
        let answer = write_bank(&bank, &mut out);
        assert_eq!(answer, expected_bank(&bank, lent.len()));
        if answer.answer == 0 {
            assert_eq!(out[answer.detail..], lent[answer.detail..]);
        } else {
            assert_eq!(out, lent);
        }
    }
}

fn expected_bank(bank: &[u8], room: usize) -> BankOutcome {
    let refused = |answer| BankOutcome {
        answer,
        detail: 0,
        value: 0,
        place: 0,
    };
    if !bank.len().is_multiple_of(134) || bank.len() > 13_400 {
        return refused(7);
    }
    for (place, patch) in bank.chunks(134).enumerate() {
        let tested = test_patch(patch);
        if tested.answer != 0 {
            return BankOutcome {
                answer: tested.answer,
                detail: tested.detail,
                value: tested.value,
                place,
            };
        }
    }
    let needed = 275 * (bank.len() / 134);
    if room < needed {
        return refused(13);
    }
    BankOutcome {
        answer: 0,
        detail: needed,
        value: 0,
        place: 0,
    }
}

#[test]
fn nibbles_and_bytes_are_inverse() {
    let mut random = Random::new(25);
    for length in (0..300).chain([1000]) {
        let packed = inputs::bytes(&mut random, length);
        let mut data = vec![0xA5; 2 * length];
        nibbles::unpack(&packed, &mut data);
        assert_eq!(nibbles::first_wide(&data), None);
        for (pair, byte) in data.chunks(2).zip(&packed) {
            assert_eq!(pair, [byte % 16, byte / 16]);
        }
        let mut again = vec![0xA5; length];
        nibbles::pack(&data, &mut again);
        assert_eq!(again, packed);

        let sum: usize = packed.iter().map(|&byte| usize::from(byte)).sum();
        assert_eq!(usize::from(nibbles::sum(&packed)), sum % 128);

        for at in 0..data.len().min(40) {
            let kept = data[at];
            data[at] = random.byte_within(16..=255);
            assert_eq!(nibbles::first_wide(&data), Some(at));
            data[at] = kept;
        }
    }
}
