//! The first and the last item of the largest store at every place of linking: alone, and meeting other trees there.

use super::stores::heap_of;
use crate::check::{Checker, Verdict};
use crate::forest::Numbering;
use reference::queue::PLACES;
use reference::store::{self, index, Field};
use reference::{Queues, Tree, NONE};
use std::collections::BTreeSet;

const ITEMS: u32 = 4096;
const FIRST: u32 = 0;
const LAST: u32 = ITEMS - 1;

/// The keys of two that meet: the first wins, item numbers decide, the second wins.
const KEYS: [(u32, u32); 3] = [(2, 3), (2, 2), (3, 2)];

/// The root of a tree of a row: its item, or any other; its rank; its key, 2 or 3.
type Root = (Option<u32>, usize, u32);

/// A heap of the smallest trees with these roots, after item 1, which the first T takes. `None` if there is no room.
fn heap_with(roots: &[Root]) -> Option<Queues> {
    // Items 0, 1 and 4,095 are not handed out; below the roots keys are above 3.
    let mut number = Numbering::new(4, 1);
    let mut row = vec![Tree::single(1, 0)];
    for &(item, rank, key) in roots {
        let mut tree = number.sparse(rank);
        tree.item = item.unwrap_or(tree.item);
        tree.key = key;
        row.push(tree);
    }
    (number.next() <= LAST).then(|| heap_of(ITEMS, row))
}

/// The item alone, at rest at the place of its rank.
fn alone() -> impl Iterator<Item = Vec<Root>> {
    let ranks = |item| (0..PLACES).map(move |rank| vec![(Some(item), rank, 2)]);
    [FIRST, LAST].into_iter().flat_map(ranks)
}

/// Two trees of one rank, one or both with such an item.
fn meetings() -> impl Iterator<Item = Vec<Root>> {
    let (first, last) = (Some(FIRST), Some(LAST));
    let items = [(first, None), (None, first), (last, None), (None, last), (first, last), (last, first)];
    let at_rank = move |rank| {
        let with_keys = move |(a, b)| KEYS.map(|(k, l)| vec![(a, rank, k), (b, rank, l)]);
        items.into_iter().flat_map(with_keys)
    };
    (0..PLACES).flat_map(at_rank)
}

/// The first and the last item at rest at two places.
fn both() -> impl Iterator<Item = Vec<Root>> {
    let pair = |at| vec![(Some(FIRST), at / PLACES, 2), (Some(LAST), at % PLACES, 2)];
    (0..PLACES * PLACES).map(pair).filter(|roots| roots[0].1 != roots[1].1)
}

/// A tree of each rank below 15, then a single item that climbs past them all. One of them has the item.
fn climbs() -> impl Iterator<Item = Vec<Root>> {
    let climb = |item: u32, at: usize, keys: (u32, u32)| {
        let named = move |place| (place == at).then_some(item);
        let held = (0..15).map(move |rank| (named(rank), rank, keys.0));
        held.chain([(named(15), 0, keys.1)]).collect()
    };
    let at_each = move |item| (0..16).flat_map(move |at| KEYS.map(|keys| climb(item, at, keys)));
    [FIRST, LAST].into_iter().flat_map(at_each)
}

pub fn first_and_last_item(checker: &mut Checker) -> Verdict {
    let mut seen = BTreeSet::new();
    for roots in alone().chain(meetings()).chain(both()).chain(climbs()) {
        let Some(queues) = heap_with(&roots) else { continue };
        let words = store::encode(&queues);
        let ran = checker.kept(&words, b"T,0", 32)?;
        if !ran.done() {
            return Err("a store that should be sound is not".into());
        }
        let word = |field, item| ran.words[index(ITEMS as usize, field, item)];
        let at_rest = |&item: &u32| word(Field::State, item) != 0 && word(Field::Parent, item) == NONE;
        seen.extend([FIRST, LAST].into_iter().filter(at_rest).map(|item| (item, word(Field::Rank, item))));
        checker.kept(&words, b"T,0\nT,0\nM,0\nT,0\n", 4 * 32)?;
    }
    // Each of the two items has been at rest at each of the places.
    if seen.len() != 2 * PLACES {
        return Err(format!("only {} of the ranks were seen", seen.len()));
    }
    Ok(())
}
