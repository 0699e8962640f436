//! Writes pairs of files for the planning command, those of consecutive seeds, into a directory.

use std::path::Path;
use std::process::ExitCode;
use std::{fs, io};

use reference::kinds::{opcode, LAST_NUMBER, MATRIX, OBERHEIM};
use reference::nibbles;
use reference::streams::damage::Damage;
use reference::streams::inputs::{real_time, with_real_time};
use reference::streams::plans::{pair_of, PAIRS};
use reference::streams::seeds::write_each;
use reference::streams::{stream, Random};

fn main() -> ExitCode {
    write_each("usage: reference-pairs FROM COUNT DIR", write)
}

fn write(directory: &Path, seed: u64) -> io::Result<()> {
    let [returned, lent] = files(seed);
    fs::write(directory.join(format!("{seed}.returned.syx")), returned)?;
    fs::write(directory.join(format!("{seed}.lent.syx")), lent)
}

/// The two files of a seed. As many consecutive seeds as there are kinds of pair have each once.
fn files(seed: u64) -> [Vec<u8>; 2] {
    let mut random = Random::new(seed);
    let kind = seed % PAIRS as u64;
    pair_of(&mut random, kind as usize).map(|patch| file(&mut random, &patch))
}

/// Mostly a dump of the patch and nothing else; else with real time, or what is refused.
fn file(random: &mut Random, patch: &[u8]) -> Vec<u8> {
    let mut file = dump(random, patch);
    match random.below(24) {
        0..3 => {
            let inside = 1..file.len() - 1;
            let noisy = with_real_time(random, &file[inside.clone()]);
            file.splice(inside, noisy);
        }
        3..6 => {
            let [before, behind] = [random.below(9), random.below(9)];
            file.splice(0..0, real_time(random, before));
            file.extend(real_time(random, behind));
        }
        6 => {
            let places = 0..file.len();
            Damage::any(random, &file, places).apply(&mut file);
        }
        7 => {
            let at = random.pick(&[0, file.len()]);
            file.insert(at, random.byte_within(0x00..=0xF7));
        }
        8 => file.extend(dump(random, patch)),
        9 => file.truncate(random.below(file.len())),
        10 => file = stream(random.draw()),
        _ => {}
    }
    file
}

/// A dump of a patch, numbered or for the edit buffer. Nothing is tested.
fn dump(random: &mut Random, patch: &[u8]) -> Vec<u8> {
    let (opcode, second) = if random.one_in(3) {
        (opcode::EDIT_BUFFER, 0)
    } else {
        (opcode::SINGLE_PATCH, random.byte_within(0..=LAST_NUMBER))
    };
    let mut data = vec![0; 2 * patch.len()];
    nibbles::unpack(patch, &mut data);
    let mut dump = vec![0xF0, OBERHEIM, MATRIX, opcode, second];
    dump.extend(data);
    dump.extend([nibbles::sum(patch), 0xF7]);
    dump
}
