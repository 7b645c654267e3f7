//! Lines and numbers, shared by sheets and maps.

/// The lines of a text: each ends with LF; a last line without one counts if it is not empty.
pub fn lines(text: &[u8]) -> Vec<&[u8]> {
    let mut lines: Vec<&[u8]> = text.split(|&byte| byte == b'\n').collect();
    if lines.last().is_some_and(|rest| rest.is_empty()) {
        lines.pop();
    }
    lines
}

/// The most digits of a number, zeros in front among them.
pub const MAX_DIGITS: usize = 10;

/// A number: one to ten digits and nothing else, of a value up to 4,294,967,295.
pub fn number(field: &[u8]) -> Option<u32> {
    if field.is_empty() || field.len() > MAX_DIGITS || !field.iter().all(u8::is_ascii_digit) {
        return None;
    }
    std::str::from_utf8(field).ok()?.parse::<u64>().ok()?.try_into().ok()
}

/// All fields of a line as numbers, or `None` if one of them is no number.
pub fn numbers(line: &[u8]) -> Option<Vec<u32>> {
    line.split(|&byte| byte == b',').map(number).collect()
}
