//! The second program's vectors: the reports of each are the listing beside it.

use std::fs;
use std::path::Path;

use matrix1000::{messages, report_at, reports, Error, Kind};

/// A line of the listing.
fn line(start: usize, end: usize, kind: Result<Kind, Error>, noise: usize) -> String {
    let (answer, detail, value) = match kind {
        Ok(kind) => (0, kind.opcode().into(), 0),
        Err(error) => (error.number(), error.detail(), error.value()),
    };
    format!("{start} {end} {answer} {detail} {value} {noise}\n")
}

fn listing(lines: impl Iterator<Item = String>) -> String {
    let lines: Vec<String> = lines.collect();
    let (text, count) = (lines.concat(), lines.len());
    format!("start end answer detail value rt\n{text}messages {count}\n")
}

#[test]
fn listings_of_the_vectors() {
    let folder = Path::new(env!("CARGO_MANIFEST_DIR")).join("../reference/vectors");
    let mut seen = 0;
    for entry in fs::read_dir(folder).unwrap() {
        let path = entry.unwrap().path();
        if path.extension().is_none_or(|extension| extension != "syx") {
            continue;
        }
        let input = fs::read(&path).unwrap();
        let expected = fs::read_to_string(path.with_extension("listing")).unwrap();

        let by_reports = reports(&input).map(|r| line(r.start, r.end, r.kind, r.noise));
        assert_eq!(listing(by_reports), expected, "{}", path.display());

        let by_messages = messages(&input).map(|found| {
            let kind = found.message.map(|message| message.kind());
            line(found.start, found.end, kind, found.noise)
        });
        assert_eq!(listing(by_messages), expected, "{}", path.display());

        let mut place = 0;
        let by_walk = std::iter::from_fn(|| {
            let report = report_at(&input, place)?;
            place = report.end;
            Some(line(report.start, report.end, report.kind, report.noise))
        });
        assert_eq!(listing(by_walk), expected, "{}", path.display());
        seen += 1;
    }
    assert!(seen > 10, "the vectors are there");
}

#[test]
fn more_reports_than_one_call_makes() {
    for length in [63, 64, 65, 127, 128, 129, 1000] {
        let found: Vec<_> = reports(&vec![0xF0; length]).collect();
        assert_eq!(found.len(), length);
        for (start, report) in found.iter().enumerate() {
            assert_eq!((report.range(), report.noise), (start..start + 1, 0));
        }
    }
}
