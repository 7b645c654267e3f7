//! The turn of a store from the old order of words into the new one.

use super::{same, same_list, Checker, Guarded, Verdict};
use reference::store::{self, index, Order, FIELDS, HEAP_WORDS};

/// What a turn returned, and what it left in its second buffer.
pub struct Turned {
    pub code: u32,
    pub words: Vec<u32>,
}

impl Turned {
    pub fn done(&self) -> bool {
        self.code == 0
    }
}

/// Words that differ from place to place.
fn found(length: usize) -> Vec<u32> {
    (0..length as u32).map(|at| at ^ 0xD000_0000).collect()
}

/// Each word of an item is at its new place, and the words of the heaps are where they were. This needs no reference.
fn is_moved(old: &[u32], words: &[u32]) -> Verdict {
    same_list("turn_store words of the heaps", &words[..HEAP_WORDS], &old[..HEAP_WORDS])?;
    let items = (old.len() - HEAP_WORDS) / FIELDS.len();
    for (item, field) in (0..items as u32).flat_map(|item| FIELDS.map(|field| (item, field))) {
        let (from, to) = (Order::ByKind.index(items, field, item), index(items, field, item));
        if words[to] != old[from] {
            return Err(format!("turn_store: {field:?} of item {item} is {}, but was {}", words[to], old[from]));
        }
    }
    Ok(())
}

impl Checker<'_> {
    /// Compares a turn into a second buffer of so many words.
    pub fn turn(&mut self, old: &[u32], room: usize) -> Verdict<Turned> {
        self.turn_onto(old, &found(room))
    }

    /// Compares a turn into a second buffer with the given words. The old ones stay, and on a refusal both.
    pub fn turn_onto(&mut self, old: &[u32], found: &[u32]) -> Verdict<Turned> {
        self.cases += 1;
        let (mut first, mut second) = (Guarded::new(old, 0xA5A5_A5A5), Guarded::new(found, 0x5A5A_5A5A));
        let code = self.engine.turn_store(first.lent(), second.lent());
        let mut expected = found.to_vec();
        let right = store::turn(old, &mut expected);
        let compared = || {
            same("turn_store", &code, &right)?;
            same_list("turn_store old store", &first.intact("turn_store old store")?, old)?;
            let words = second.intact("turn_store second buffer")?;
            if code == 0 {
                is_moved(old, &words)?;
            }
            same_list("turn_store second buffer", &words, &expected)?;
            Ok(Turned { code, words })
        };
        compared().map_err(|fault: String| {
            format!("{fault}; {} and {} words: {:?}", old.len(), found.len(), &old[..old.len().min(120)])
        })
    }
}
