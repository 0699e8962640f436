//! The desk's planning command: what it prints, and what it says of files that it doesn't take.

use std::ffi::OsStr;
use std::path::PathBuf;
use std::process::{Command, Output};
use std::{env, fs, process};

use reference::streams::damage::Damage;
use reference::streams::plans::pair;
use reference::streams::{inputs, stream, Random, CYCLE};
use reference::{listing, plan_files};

use crate::kit::{bass, dump, edit_message, operation_message, p_with, with_real_time, P, SPLIT};
use crate::plan_model;

/// A dump of a patch.
fn dumped(patch: &[u8]) -> Vec<u8> {
    dump(0x01, 7, patch)
}

/// The command says this of two files, whether for the list or for its lines.
fn says(returned: &[u8], lent: &[u8], expected: &str) {
    for lines in [false, true] {
        let said = plan_files(returned, lent, lines).unwrap_err();
        assert_eq!(String::from_utf8(said).unwrap(), expected);
    }
}

/// It says this of a file, which may be either of the two.
fn says_of(file: &[u8], expected: &str) {
    let good = dumped(&P);
    says(file, &good, &format!("returned: {expected}\n"));
    says(&good, file, &format!("lent: {expected}\n"));
    // The returned file is looked at first, whatever the other is.
    says(file, file, &format!("returned: {expected}\n"));
    says(file, &[], &format!("returned: {expected}\n"));
    says(&[], file, "returned: no patch dump\n");
}

/// The text for two patches.
fn lines(a: &[u8], b: &[u8]) -> String {
    let text = plan_files(&dumped(a), &dumped(b), true);
    String::from_utf8(text.unwrap()).unwrap()
}

#[test]
fn a_line_for_each_edit() {
    let [mut a, mut b] = [P, P];
    assert_eq!(lines(&a, &b), "");
    b[9] = 63;
    a[19] = 0xFF;
    b[19] = 0xE0;
    b[26] = 0x7F;
    a[76] = 20;
    a[86] = 0x3F;
    b[86] = 0xC0;
    b[103] = 0xFF;
    a[104..107].copy_from_slice(&[20, 0xC0, 32]);
    b[119..122].copy_from_slice(&[1, 0x3F, 2]);
    a[131..].copy_from_slice(&[1, 0x00, 1]);
    b[131..].copy_from_slice(&[1, 0xFF, 1]);
    let there = "\
9 parameter 0 0 63
19 parameter 12 -1 -32
26 parameter 21 0 127
76 parameter 33 20 1
86 parameter 1 63 -64
103 parameter 91 0 -1
104 bus 0 20 -64 32 0 0 0
119 bus 5 0 0 0 1 63 2
131 bus 9 1 0 1 1 -1 1
";
    assert_eq!(lines(&a, &b), there);
    let back = "\
9 parameter 0 63 0
19 parameter 12 -32 -1
26 parameter 21 127 0
76 parameter 33 1 20
86 parameter 1 -64 63
103 parameter 91 -1 0
104 bus 0 0 0 0 20 -64 32
119 bus 5 1 63 2 0 0 0
131 bus 9 1 -1 1 1 0 1
";
    assert_eq!(lines(&b, &a), back);
}

#[test]
fn the_list_of_two_files() {
    let mut random = Random::new(100);
    for _ in 0..3_000 {
        let [a, b] = pair(&mut random);
        if plan_model::refusal(&a, &b).is_some() {
            continue;
        }
        let edits = plan_model::edits(&a, &b);
        assert_eq!(
            plan_files(&dumped(&a), &dumped(&b), false),
            Ok(edits.concat())
        );
        assert_eq!(lines(&a, &b).lines().count(), edits.len());
    }
}

/// Numbered or for the edit buffer, with real time inside and around.
#[test]
fn dumps_of_either_kind() {
    let b = p_with(26, &[0x7F]);
    let expected = edit_message([21, 0x7F]).to_vec();
    let kinds = |patch: &[u8; 134]| {
        let plain = [
            dump(0x01, 0, patch),
            dump(0x01, 99, patch),
            dump(0x0D, 0, patch),
        ];
        plain.into_iter().flat_map(|dump| {
            let around = [&[0xFE, 0xF8], &dump[..], &[0xFF]].concat();
            [with_real_time(&dump), dump, around]
        })
    };
    for returned in kinds(&P) {
        for lent in kinds(&b) {
            assert_eq!(plan_files(&returned, &lent, false), Ok(expected.clone()));
            let line = b"26 parameter 21 0 127\n".to_vec();
            assert_eq!(plan_files(&returned, &lent, true), Ok(line));
        }
    }
}

#[test]
fn files_too_long() {
    let mut longest = dumped(&P);
    longest.resize(65_536, 0xFE);
    assert_eq!(plan_files(&longest, &longest, true), Ok(Vec::new()));
    longest.push(0xFE);
    says_of(&longest, "input too long");
    says_of(&vec![0xF0; 65_537], "input too long");
    says_of(&vec![0x00; 1 << 20], "input too long");
}

#[test]
fn files_without_a_message() {
    for file in [&[][..], &[0x00], &[0xF7], &[0xFE; 9], &dumped(&P)[1..]] {
        says_of(file, "no patch dump");
    }
}

#[test]
fn files_with_other_messages() {
    let good = dumped(&P);
    let bad = dumped(&p_with(19, &[0x80]));
    let not = |line: &str| format!("not one accepted patch dump: {line}");
    says_of(&bad, &not("0 275 11 19 -128 0"));
    says_of(&with_real_time(&bad), &not("0 549 11 19 -128 274"));
    says_of(&dumped(&p_with(104, &[1])), &not("0 275 12 0 0 0"));
    says_of(&good[..274], &not("0 274 2 0 0 0"));
    says_of(&[0x00, 0xF0, 0x90], &not("1 2 3 0 0 0"));
    says_of(&edit_message([21, 0x7F]), &not("0 7 0 6 0 0"));
    let mut master = vec![0; 351];
    master[..5].copy_from_slice(&[0xF0, 0x10, 0x06, 0x03, 0x03]);
    master[350] = 0xF7;
    says_of(&master, &not("0 351 0 3 0 0"));
    says_of(&dump(0x02, 0, &SPLIT), &not("0 43 0 2 0 0"));
    says_of(&operation_message(0x0C, &[]), &not("0 5 0 12 0 0"));

    // The second message is told whatever it is, if the first is good.
    let two = |second: &[u8]| [&good[..], second].concat();
    says_of(&two(&good), &not("275 550 0 1 0 0"));
    says_of(&two(&dump(0x0D, 0, &P)), &not("275 550 0 13 0 0"));
    says_of(&two(&bad), &not("275 550 11 19 -128 0"));
    says_of(&two(&[0xF0]), &not("275 276 2 0 0 0"));
    says_of(&two(&[0x00, 0xF0, 0xFE, 0xF7]), &not("276 279 4 0 0 1"));
    says_of(&two(&[&good[..], &bad].concat()), &not("275 550 0 1 0 0"));
    // Else the first.
    says_of(&[&bad[..], &good].concat(), &not("0 275 11 19 -128 0"));
    // Other bytes come behind.
    says_of(
        &[&[0x00], &two(&good)[..]].concat(),
        &not("276 551 0 1 0 0"),
    );
}

#[test]
fn files_with_other_bytes() {
    let good = dumped(&P);
    for byte in 0..=255 {
        for file in [
            [&[byte], &good[..]].concat(),
            [&good[..], &[byte]].concat(),
            [&[0xFE, byte], &good[..], &[0xFE]].concat(),
        ] {
            match byte {
                0xF8.. => assert_eq!(plan_files(&file, &good, false), Ok(Vec::new())),
                0xF0 => assert!(plan_files(&file, &good, false).is_err()),
                _ => says_of(&file, "bytes outside the patch dump"),
            }
        }
    }
}

#[test]
fn names_that_differ() {
    let told = "names differ: no edit reaches a name\n";
    says(&dumped(&P), &dumped(&bass()), told);
    says(&dumped(&bass()), &dumped(&p_with(8, &[1])), told);
    // Only when both files are right.
    let outside = [&dumped(&bass())[..], &[0x00]].concat();
    says(
        &dumped(&P),
        &outside,
        "lent: bytes outside the patch dump\n",
    );
}

/// What is said of a file, told from its listing.
fn told(file: &[u8]) -> Option<String> {
    let text = String::from_utf8(listing(file)).unwrap();
    let Some((_, body)) = text.split_once('\n').filter(|_| file.len() <= 65_536) else {
        return Some("input too long".into());
    };
    let mut reports = body.lines().filter(|line| !line.starts_with("messages"));
    let Some(first) = reports.next() else {
        return Some("no patch dump".into());
    };
    let numbers: Vec<&str> = first.split(' ').collect();
    let good = numbers[2] == "0" && ["1", "13"].contains(&numbers[3]);
    let wrong = if good { reports.next() } else { Some(first) };
    if let Some(line) = wrong {
        return Some(format!("not one accepted patch dump: {line}"));
    }
    let [start, end] = [0, 1].map(|column| numbers[column].parse::<usize>().unwrap());
    let outside = [&file[..start], &file[end..]].concat();
    let quiet = outside.iter().all(|&byte| byte >= 0xF8);
    (!quiet).then(|| "bytes outside the patch dump".into())
}

/// The command says what the listing tells of a file; whether it is taken.
fn taken(file: &[u8]) -> bool {
    let told = told(file);
    match &told {
        Some(told) => says(file, &[], &format!("returned: {told}\n")),
        None => assert_eq!(plan_files(file, file, false), Ok(Vec::new())),
    }
    told.is_none()
}

#[test]
fn streams_of_many_seeds() {
    let streams = (0..8 * CYCLE).map(stream);
    assert_ne!(streams.filter(|file| taken(file)).count(), 0);
}

/// One dump, often damaged, with real time inside and around it.
#[test]
fn dumps_of_many_seeds() {
    let mut random = Random::new(102);
    let mut met = [0; 2];
    for _ in 0..4_000 {
        let mut file = dumped(&inputs::good_patch(&mut random));
        if random.one_in(2) {
            Damage::any(&mut random, &file, 0..275).apply(&mut file);
        }
        for _ in 0..random.below(3) {
            let at = random.within(0..=file.len());
            file.insert(at, random.byte_within(0xF8..=0xFF));
        }
        met[usize::from(taken(&file))] += 1;
    }
    assert!(met.iter().all(|&times| times > 1_000));
}

/// A directory that goes away with the test.
struct Scratch(PathBuf);

impl Scratch {
    fn new(name: &str) -> Self {
        let directory = env::temp_dir().join(format!("reference-{name}-{}", process::id()));
        fs::create_dir_all(&directory).unwrap();
        Self(directory)
    }

    fn file(&self, name: &str, bytes: &[u8]) -> PathBuf {
        let path = self.0.join(name);
        fs::write(&path, bytes).unwrap();
        path
    }
}

impl Drop for Scratch {
    fn drop(&mut self) {
        let _ = fs::remove_dir_all(&self.0);
    }
}

fn run(arguments: &[&OsStr]) -> Output {
    Command::new(env!("CARGO_BIN_EXE_reference-plan"))
        .args(arguments)
        .output()
        .unwrap()
}

/// What the program prints, which must be all that it does.
fn prints(arguments: &[&OsStr]) -> Vec<u8> {
    let output = run(arguments);
    assert!(output.status.success());
    assert!(output.stderr.is_empty());
    output.stdout
}

/// The one line that the program says, and its status.
fn refusal(arguments: &[&OsStr]) -> String {
    let output = run(arguments);
    assert_eq!(output.status.code(), Some(1));
    assert!(output.stdout.is_empty());
    let said = String::from_utf8(output.stderr).unwrap();
    assert_eq!(said.lines().count(), 1);
    assert!(said.ends_with('\n'));
    said
}

#[test]
fn the_planning_program() {
    let scratch = Scratch::new("plan");
    let mut random = Random::new(101);
    let a = inputs::good_patch(&mut random);
    let mut b = inputs::good_patch(&mut random);
    b[..8].copy_from_slice(&a[..8]);
    let returned = scratch.file("returned.syx", &dumped(&a));
    let lent = scratch.file("lent.syx", &dump(0x0D, 0, &b));
    let other = scratch.file("other.syx", &dumped(&bass()));
    let long = scratch.file("long.syx", &vec![0; 200_000]);
    let (returned, lent) = (returned.as_os_str(), lent.as_os_str());
    let list = OsStr::new("--list");

    assert_eq!(
        prints(&[returned, lent]),
        plan_model::edits(&a, &b).concat()
    );
    assert_eq!(prints(&[list, returned, lent]), lines(&a, &b).into_bytes());
    assert_eq!(prints(&[returned, returned]), b"");
    assert_eq!(prints(&[list, lent, lent]), b"");

    let told = "names differ: no edit reaches a name\n";
    assert_eq!(refusal(&[returned, other.as_os_str()]), told);
    assert_eq!(refusal(&[list, other.as_os_str(), lent]), told);
    assert_eq!(
        refusal(&[returned, long.as_os_str()]),
        "lent: input too long\n"
    );
    assert_eq!(
        refusal(&[list, long.as_os_str(), lent]),
        "returned: input too long\n"
    );

    let nowhere = scratch.0.join("nowhere.syx");
    assert!(refusal(&[nowhere.as_os_str(), lent]).starts_with("returned: "));
    assert!(refusal(&[list, returned, nowhere.as_os_str()]).starts_with("lent: "));
    for arguments in [&[][..], &[returned], &[list], &[list, returned], &[lent; 3]] {
        assert!(refusal(arguments).starts_with("usage: "));
    }
}

#[test]
fn a_list_that_cannot_be_written() {
    let scratch = Scratch::new("full");
    let [returned, lent] = [P, p_with(26, &[1])].map(|patch| dumped(&patch));
    let returned = scratch.file("returned.syx", &returned);
    let lent = scratch.file("lent.syx", &lent);
    for option in [None, Some("--list")] {
        let output = Command::new(env!("CARGO_BIN_EXE_reference-plan"))
            .args(option)
            .args([&returned, &lent])
            .stdout(fs::File::create("/dev/full").unwrap())
            .output()
            .unwrap();
        assert_eq!(output.status.code(), Some(1));
        assert!(!output.stderr.is_empty());
    }
}
