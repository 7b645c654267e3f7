//! Fresh and kept runs of a sheet on store words.

use crate::call::Call;
use crate::queue::Queues;
use crate::store::{self, Order};
use crate::text;

pub const MAX_BYTES: usize = 60_000;
pub const MAX_LINES: usize = 2_000;
/// Room that the output must have for each line.
pub const LINE_ROOM: usize = 32;
/// Items of the run for the firmware.
pub const MODEM_ITEMS: usize = 256;

#[derive(Clone, Copy, Debug, Default, PartialEq, Eq)]
pub struct Run {
    pub code: u32,
    pub lines: usize,
    pub bytes: usize,
}

impl Run {
    /// The two figures beside the code: lines and bytes.
    pub fn figures(&self) -> [u32; 2] {
        [self.lines as u32, self.bytes as u32]
    }

    /// The single number that the firmware gets: the bytes written, or 100,000 and the code.
    pub fn number(&self) -> u32 {
        if self.code == 0 {
            self.bytes as u32
        } else {
            100_000 + self.code
        }
    }
}

pub fn fresh(words: &mut [u32], sheet: &[u8], out: &mut [u8]) -> Run {
    match limits(words.len(), sheet, out.len()) {
        0 => {
            let items = store::items(words.len()).expect("tested");
            go(Order::ByItem, Queues::new(items as u32), words, sheet, out)
        }
        code => Run { code, ..Run::default() },
    }
}

pub fn kept(words: &mut [u32], sheet: &[u8], out: &mut [u8]) -> Run {
    kept_in(Order::ByItem, words, sheet, out)
}

/// A kept run on a store whose words lie in the given order, before and after it.
pub fn kept_in(order: Order, words: &mut [u32], sheet: &[u8], out: &mut [u8]) -> Run {
    match limits(words.len(), sheet, out.len()) {
        0 => match order.sound(words) {
            Some(queues) => go(order, queues, words, sheet, out),
            None => Run { code: 5, ..Run::default() },
        },
        code => Run { code, ..Run::default() },
    }
}

/// The fresh run for 256 items on a store of its own.
pub fn modem(sheet: &[u8], out: &mut [u8]) -> Run {
    fresh(&mut vec![0; store::length(MODEM_ITEMS)], sheet, out)
}

/// Codes 1 to 4, 0 if none applies.
pub fn limits(words: usize, sheet: &[u8], room: usize) -> u32 {
    if store::items(words).is_none() {
        1
    } else if sheet.len() > MAX_BYTES {
        2
    } else if text::lines(sheet).len() > MAX_LINES {
        3
    } else if room < LINE_ROOM * text::lines(sheet).len() {
        4
    } else {
        0
    }
}

fn go(order: Order, mut queues: Queues, words: &mut [u32], sheet: &[u8], out: &mut [u8]) -> Run {
    let lines = text::lines(sheet);
    let answers: String = lines.iter().map(|line| queues.answer(Call::parse(line)).line()).collect();
    out[..answers.len()].copy_from_slice(answers.as_bytes());
    words.copy_from_slice(&order.encode(&queues));
    Run { code: 0, lines: lines.len(), bytes: answers.len() }
}
