//! Reading a map text into span lists.

use crate::run::MAX_BYTES;
use crate::text;

/// The numbers of a span line: from, to, loss, opening and closing minute.
pub const FIELDS: usize = 5;

#[derive(Clone, Copy, Debug, Default, PartialEq, Eq)]
pub struct Header {
    pub code: u32,
    pub places: u32,
    pub start: u32,
    pub minute: u32,
    pub spans: u32,
}

impl Header {
    /// The four figures beside the code.
    pub fn numbers(&self) -> [u32; 4] {
        [self.places, self.start, self.minute, self.spans]
    }
}

/// A map text taken apart into the numbers of its lines, or `None` where it is malformed or too long.
fn parse(text: &[u8]) -> Option<([u32; 3], Vec<[u32; FIELDS]>)> {
    if text.len() > MAX_BYTES {
        return None;
    }
    let lines: Option<Vec<Vec<u32>>> = text::lines(text).into_iter().map(text::numbers).collect();
    let lines = lines?;
    let (first, rest) = lines.split_first()?;
    let spans: Option<Vec<[u32; FIELDS]>> = rest.iter().map(|fields| fields[..].try_into().ok()).collect();
    Some((first[..].try_into().ok()?, spans?))
}

/// Reads a text into the five span lists; the numbers may be any.
pub fn read(text: &[u8], mut lists: [&mut [u32]; FIELDS]) -> Header {
    let Some(([places, start, minute], spans)) = parse(text) else {
        return Header { code: 21, ..Header::default() };
    };
    let room = lists[0].len();
    if lists.iter().any(|list| list.len() != room) || spans.len() > room {
        return Header { code: 16, ..Header::default() };
    }
    for (list, field) in lists.iter_mut().zip(0..) {
        list.iter_mut().zip(&spans).for_each(|(word, span)| *word = span[field]);
    }
    Header { code: 0, places, start, minute, spans: spans.len() as u32 }
}
