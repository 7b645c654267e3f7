//! The largest shapes that are sound: ranks to 16, cascades through thousands of items.

use super::stores::{candidates, heap_of};
use crate::check::{Checker, Verdict};
use crate::forest::{self, Numbering};
use crate::random::Random;
use crate::sheets::{self, Profile};
use reference::store::{self, index, Field};
use reference::Queues;

/// The largest ranks, the longest cascades, many roots.
pub fn large_shapes(step: u32) -> Vec<Queues> {
    let mut shapes = Vec::new();
    let mut number = Numbering::new(1, step);
    shapes.push(heap_of(4096, vec![number.sparse(16)]));
    let mut number = Numbering::new(0, step);
    shapes.push(heap_of(4096, vec![number.leaf(), number.sparse(15), number.sparse(15)]));
    let mut number = Numbering::new(0, step);
    shapes.push(heap_of(4096, vec![number.leaf(), number.leaf(), number.binomial(11), number.binomial(10)]));
    let mut number = Numbering::new(0, step);
    shapes.push(heap_of(4096, vec![number.binomial(12)]));
    let mut number = Numbering::new(0, step);
    shapes.push(heap_of(4096, vec![number.marked_chain(4096)]));
    let mut number = Numbering::new(0, step);
    shapes.push(heap_of(4096, (0..4096).map(|_| number.leaf()).collect()));
    let mut number = Numbering::new(0, step);
    shapes.push(heap_of(3000, (0..13).rev().map(|rank| number.sparse(rank)).collect()));
    let mut number = Numbering::new(0, step);
    shapes.push(heap_of(1300, (0..40).map(|_| number.marked_chain(30)).collect()));
    shapes
}

/// Sheets for large forests.
const LARGE: Profile = Profile {
    lines: 120,
    heaps: 2,
    keys: 9,
    fill: 0,
    bursts: 5,
    weights: sheets::CASCADES,
    refusals: 0,
    malformed: 0,
    padding: 0,
};

pub fn large_forests(checker: &mut Checker) -> Verdict {
    let mut random = Random::new(9);
    let mut highest = 0;
    for step in [0, 1, 7] {
        for queues in large_shapes(step) {
            let words = store::encode(&queues);
            if !checker.sound(&words)? {
                return Err("a shape that should be sound is not".into());
            }
            let last = forest::nodes(&queues).last().expect("not empty").item;
            let cutting = [format!("D,{last},0\nT,0\nT,0\n"), format!("X,{last}\nT,0\nT,0")];
            for sheet in cutting.into_iter().chain(["T,0".into(), "T,0\nT,0\nT,0\n".into()]) {
                let ran = checker.kept(&words, sheet.as_bytes(), 96)?;
                let rank = |item: u32| ran.words[index(queues.capacity as usize, Field::Rank, item)];
                highest = highest.max((0..queues.capacity).map(rank).max().unwrap_or(0));
            }
            let lines = sheets::lines(&mut random, &queues, &LARGE);
            checker.kept(&words, &sheets::sheet(&lines, false), 120 * 32)?;
            for _ in 0..40 {
                let mut changed = words.clone();
                let at = random.size(changed.len());
                changed[at] = *random.pick(&candidates(changed[at], queues.capacity));
                checker.sound(&changed)?;
            }
        }
    }
    if highest != 16 {
        return Err(format!("the highest rank seen is {highest}"));
    }
    Ok(())
}
