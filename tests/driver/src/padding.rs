//! Zeros in front of numbers.

use crate::random::Random;
use reference::text::MAX_DIGITS;

/// A number with so many zeros in front.
pub fn padded(zeros: usize, number: u64) -> String {
    format!("{}{number}", "0".repeat(zeros))
}

/// Puts zeros in front of some numbers of a text, up to ten digits in all; of a few, up to eleven, which is no number.
pub fn pad(random: &mut Random, percent: u64, text: &[u8]) -> Vec<u8> {
    let mut result = Vec::with_capacity(text.len());
    for part in text.chunk_by(|a, b| a.is_ascii_digit() == b.is_ascii_digit()) {
        if part[0].is_ascii_digit() && random.chance(percent) {
            let most = MAX_DIGITS + usize::from(random.chance(2));
            let room = most.saturating_sub(part.len());
            let any = random.size(room + 1);
            let zeros = *random.pick(&[1.min(room), any, room]);
            result.extend(std::iter::repeat_n(b'0', zeros));
        }
        result.extend_from_slice(part);
    }
    result
}

/// Whether a number of a line has a zero in front.
pub fn is_padded(line: &[u8]) -> bool {
    line.split(|&byte| byte == b',').any(|field| field.len() > 1 && field[0] == b'0')
}
