//! The listing program's text.

use crate::answers::Report;
use crate::reading::reports;

/// Programs take at most this many bytes.
pub const LONGEST_INPUT: usize = 65_536;

/// The listing of a stream: start, end, answer, detail, value and noise of each report in decimal,
/// then their number. For an input too long, that alone.
#[must_use]
pub fn listing(input: &[u8]) -> Vec<u8> {
    if input.len() > LONGEST_INPUT {
        return b"input too long\n".to_vec();
    }
    let mut text = b"start end answer detail value rt\n".to_vec();
    let mut messages = 0;
    for report in reports(input) {
        push_line(&mut text, &report);
        messages += 1;
    }
    text.extend_from_slice(b"messages ");
    push_decimal(&mut text, messages, b'\n');
    text
}

/// Adds the line of a report.
pub(crate) fn push_line(text: &mut Vec<u8>, report: &Report) {
    push_decimal(text, report.start, b' ');
    push_decimal(text, report.end, b' ');
    push_decimal(text, report.answer.into(), b' ');
    push_decimal(text, report.detail, b' ');
    push_signed(text, report.value, b' ');
    push_decimal(text, report.noise, b'\n');
}

/// Adds a number with its sign, if it is below 0, and the character behind it.
fn push_signed(text: &mut Vec<u8>, number: i16, behind: u8) {
    if number < 0 {
        text.push(b'-');
    }
    push_decimal(text, number.unsigned_abs().into(), behind);
}

/// Adds a number and the character behind it.
fn push_decimal(text: &mut Vec<u8>, mut number: usize, behind: u8) {
    let mut digits = [behind; 21];
    let mut first = digits.len() - 1;
    loop {
        first -= 1;
        digits[first] = b'0' + (number % 10) as u8;
        number /= 10;
        if number == 0 {
            break;
        }
    }
    text.extend_from_slice(&digits[first..]);
}

#[cfg(test)]
mod tests {
    use super::{push_decimal, push_signed};

    #[test]
    fn numbers_are_decimal() {
        for number in [0, 9, 10, 99, 100, 65_536, usize::MAX] {
            let mut text = Vec::new();
            push_decimal(&mut text, number, b' ');
            assert_eq!(text, format!("{number} ").into_bytes());
        }
    }

    #[test]
    fn numbers_below_0_have_a_sign() {
        for number in [0, 9, 192, 255, i16::MAX, -1, -33, -128, i16::MIN] {
            let mut text = Vec::new();
            push_signed(&mut text, number, b' ');
            assert_eq!(text, format!("{number} ").into_bytes());
        }
    }
}
