//! The field tables of a patch and of a split, and their rules.

use reference::table::{Row, ROWS};
use reference::{parameter_of, place_of, splits};

use crate::model;

/// Both tables.
fn tables() -> [&'static [Row]; 2] {
    [&ROWS, &splits::ROWS]
}

#[test]
fn each_row_stands_at_its_place_and_makes_a_range() {
    let rows = tables().map(|table| table.iter().enumerate());
    for (place, row) in rows.into_iter().flatten() {
        assert_eq!(usize::from(row.place), place);
        assert!(row.least <= row.greatest, "{row:?}");
        assert!(!row.name.is_empty());
    }
}

#[test]
fn parameters_and_bytes_8_to_103_match_one_to_one() {
    for place in 0..=255 {
        let parameter = parameter_of(place);
        assert_eq!(parameter.is_some(), (8..=103).contains(&place), "{place}");
        if let Some(parameter) = parameter {
            assert_eq!(place_of(parameter), Some(place));
        }
    }
    let without: Vec<u8> = (0..=99)
        .filter(|&parameter| place_of(parameter).is_none())
        .collect();
    assert_eq!(without, [39, 49, 89, 99]);
    assert!((100..=255).all(|parameter| place_of(parameter).is_none()));
}

#[test]
fn a_byte_and_the_byte_128_away_are_never_both_allowed() {
    for row in tables().concat() {
        let range = row.least..=row.greatest;
        for byte in 0..=127_u8 {
            let both =
                range.contains(&byte.cast_signed()) && range.contains(&(byte + 128).cast_signed());
            assert!(!both, "{row:?} {byte}");
        }
    }
}

#[test]
fn the_corrections_of_documents_01_and_02() {
    let range = |place: usize| (ROWS[place].least, ROWS[place].greatest);
    assert_eq!(range(19), (-32, 31));
    assert_eq!(range(26), (0, 127));
    for lfo in [38, 45] {
        assert_eq!(range(lfo), (0, 6));
        assert_eq!(range(lfo + 1), (0, 31));
        assert_eq!(range(lfo + 2), (0, 20));
    }
    assert_eq!(range(76), (1, 20));
    for bus in 0..10 {
        assert_eq!(range(104 + 3 * bus), (0, 20));
        assert_eq!(range(105 + 3 * bus), (-64, 63));
        assert_eq!(range(106 + 3 * bus), (0, 32));
    }
}

#[test]
fn the_condensed_line_of_document_01_says_the_same() {
    let fields = model::fields();
    assert_eq!(fields.len(), ROWS.len());
    for (row, (parameter, least, greatest)) in ROWS.iter().zip(fields) {
        assert_eq!(row.parameter, parameter, "{row:?}");
        assert_eq!(i16::from(row.least), least, "{row:?}");
        assert_eq!(i16::from(row.greatest), greatest, "{row:?}");
    }
}

#[test]
fn the_splits_of_document_003() {
    let fields = model::split_fields();
    assert_eq!(fields.len(), 18);
    for (row, (parameter, least, greatest)) in splits::ROWS.iter().zip(fields) {
        assert_eq!(row.parameter, parameter, "{row:?}");
        assert_eq!(i16::from(row.least), least, "{row:?}");
        assert_eq!(i16::from(row.greatest), greatest, "{row:?}");
        let has_sign = model::split_has_sign(row.place.into());
        assert_eq!(row.least < 0, has_sign, "{row:?}");
    }
    // Bytes 10 to 17 and the parameters 0 to 7 match one to one.
    let parameters = splits::ROWS.iter().filter_map(|row| row.parameter);
    assert!(parameters.eq(0..=7));
    assert!(splits::ROWS[..10].iter().all(|row| row.parameter.is_none()));
}
