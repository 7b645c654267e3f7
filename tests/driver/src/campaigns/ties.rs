//! Chains of equal loss: which of them the table shows, how many spans it has, and the list of these numbers.

use super::budgets::{self, every_budget, holds, some_budgets};
use super::feeds::{expect, WORKED};
use super::windows::{as_the_open_spans_alone, at_their_minutes, law};
use crate::check::{Checker, FeedCall, Verdict};
use crate::maps;
use crate::random::Random;
use reference::{store, NONE};

/// Places, start, spans as (from, to, loss), and the losses, spans and joints worked by hand.
type Map = (u32, u32, &'static [[u32; 3]], &'static [u32], &'static [u32], &'static [u32]);

const WORKED_MAPS: [Map; 12] = [
    // The scope paper's map: a smaller loss goes before fewer spans.
    (3, 0, &WORKED, &[0, 7, 12], &[NONE, 0, 2], &[0, 1, 2]),
    // One span and two of the same loss: the shorter chain's span has the lower number, then the higher one.
    (3, 0, &[[0, 1, 1], [0, 2, 2], [1, 2, 1]], &[0, 1, 2], &[NONE, 0, 1], &[0, 1, 1]),
    (3, 2, &[[0, 1, 1], [2, 0, 1], [2, 1, 2]], &[1, 2, 0], &[1, 2, NONE], &[1, 1, 0]),
    // Two spans and four: the longer chain is found last, then the shorter one; its span has the higher number.
    (
        6,
        4,
        &[[0, 5, 1], [1, 2, 1], [2, 0, 1], [3, 5, 2], [4, 1, 1], [4, 3, 2]],
        &[3, 1, 2, 2, 0, 4],
        &[2, 4, 1, 5, NONE, 3],
        &[3, 1, 2, 1, 0, 2],
    ),
    (
        6,
        4,
        &[[0, 5, 2], [1, 2, 1], [2, 0, 1], [3, 5, 1], [4, 1, 1], [4, 3, 4]],
        &[3, 1, 2, 4, 0, 5],
        &[2, 4, 1, 5, NONE, 3],
        &[3, 1, 2, 1, 0, 2],
    ),
    // Chains of equal length: the span of the lower number is found last, of two and of three.
    (4, 2, &[[0, 3, 1], [1, 3, 2], [2, 0, 2], [2, 1, 1]], &[2, 1, 0, 3], &[2, 3, NONE, 0], &[1, 1, 0, 2]),
    (
        5,
        0,
        &[[0, 1, 3], [0, 2, 2], [0, 3, 1], [1, 4, 1], [2, 4, 2], [3, 4, 3]],
        &[0, 3, 2, 1, 4],
        &[NONE, 0, 1, 2, 3],
        &[0, 1, 1, 1, 2],
    ),
    // Three chains, of three, two and one span, and without the last of these.
    (4, 3, &[[0, 1, 2], [0, 2, 4], [1, 2, 2], [3, 0, 2], [3, 2, 6]], &[2, 4, 6, 0], &[3, 0, 4, NONE], &[1, 2, 1, 0]),
    (4, 3, &[[0, 1, 2], [0, 2, 4], [1, 2, 2], [3, 0, 2]], &[2, 4, 6, 0], &[3, 0, 1, NONE], &[1, 2, 2, 0]),
    // Place 4 is met over one span, lowered at the end of three, and offered the same at the end of two before it is
    // taken; 5 stands behind it.
    (
        6,
        0,
        &[[0, 1, 1], [0, 3, 4], [0, 4, 9], [1, 2, 1], [2, 4, 4], [3, 4, 2], [4, 5, 1]],
        &[0, 1, 2, 4, 6, 7],
        &[NONE, 0, 3, 1, 5, 6],
        &[0, 1, 2, 1, 2, 3],
    ),
    // Parallel and self spans, spans into the start, an unreached place.
    (
        4,
        1,
        &[[0, 2, 1], [0, 2, 1], [1, 0, 1], [1, 0, 1], [1, 1, 1], [1, 2, 2], [1, 2, 2], [2, 1, 1], [3, 2, 1]],
        &[1, 0, 2, NONE],
        &[2, NONE, 5, NONE],
        &[1, 0, 1, NONE],
    ),
    // Two spans and five.
    (
        7,
        6,
        &[[0, 1, 1], [1, 2, 1], [2, 3, 1], [3, 4, 1], [5, 4, 2], [6, 0, 1], [6, 5, 3]],
        &[1, 2, 3, 4, 5, 3, 0],
        &[5, 0, 1, 2, 4, 6, NONE],
        &[1, 2, 3, 4, 2, 1, 0],
    ),
];

pub fn worked(checker: &mut Checker) -> Verdict {
    for (places, start, spans, losses, lasts, joints) in WORKED_MAPS {
        let call = maps::call(places, start, spans);
        let left = checker.fed(&call)?;
        law(left.shows(losses, lasts, joints), "another table than worked by hand", &call)?;
    }
    Ok(())
}

pub fn worked_within(checker: &mut Checker) -> Verdict {
    for (places, start, spans, losses, lasts, joints) in WORKED_MAPS {
        let feed = maps::call(places, start, spans);
        let call = budgets::call(&feed, NONE, 1);
        let left = checker.budget(&call)?;
        holds(left.shows(losses, lasts, joints), "another table than worked by hand", &call)?;
        every_budget(checker, &feed, 2)?;
    }
    Ok(())
}

/// The map texts of the worked maps.
pub fn worked_texts() -> impl Iterator<Item = Vec<u8>> {
    WORKED_MAPS.into_iter().map(|(places, start, spans, ..)| maps::text(places, start, spans, false))
}

/// Every map of ways from a place to a later one, each with a span of loss 1 to `most` or with none. The places then get
/// the names, by which the spans are ordered.
fn every_map<const N: usize>(checker: &mut Checker, names: [u32; N], most: u32) -> Verdict {
    let ways: Vec<[u32; 2]> = (0..N).flat_map(|to| (0..to).map(move |from| [names[from], names[to]])).collect();
    for choice in 0..(most + 1).pow(ways.len() as u32) {
        let losses = (0..).map(|way| choice / (most + 1).pow(way) % (most + 1));
        let chosen = ways.iter().zip(losses).filter(|&(_, loss)| loss > 0);
        let mut spans: Vec<[u32; 3]> = chosen.map(|(&[from, to], loss)| [from, to, loss]).collect();
        spans.sort_by_key(|span| span[0]);
        checker.feed(&maps::call(N as u32, names[0], &spans))?;
    }
    Ok(())
}

/// Under all 24 orders of the names, so that spans into a place come in every order.
pub fn every_map_of_four(checker: &mut Checker) -> Verdict {
    let orders = (0..256).map(|bits| [0, 2, 4, 6].map(|shift| bits >> shift & 3));
    for names in orders.filter(|names| (0..4).all(|name| names.contains(&name))) {
        every_map(checker, names, 3)?;
    }
    Ok(())
}

/// With five places a shorter chain may be found after a longer one of the same loss.
pub fn every_map_of_five(checker: &mut Checker) -> Verdict {
    every_map(checker, [0, 1, 2, 3, 4], 2)?;
    every_map(checker, [4, 3, 2, 1, 0], 2)
}

/// The same map with the spans of each place in another order leaves the same losses and joints.
fn in_any_order(checker: &mut Checker, random: &mut Random, call: &FeedCall) -> Verdict {
    let left = checker.fed(call)?;
    let mut spans = maps::spans_of(call);
    random.shuffle(&mut spans);
    spans.sort_by_key(|span| span[0]);
    let other = checker.fed(&maps::call_at(call.places, call.start, call.minute, &spans))?;
    let same = left.losses() == other.losses() && left.joints() == other.joints();
    law(same, "losses or joints depend on the order of the spans of a place", call)
}

pub fn random_maps(checker: &mut Checker) -> Verdict {
    let mut random = Random::new(27);
    for _ in 0..6_000 {
        let call = maps::with_ties(&mut random, 9);
        in_any_order(checker, &mut random, &call)?;
    }
    for _ in 0..60 {
        let call = maps::with_ties(&mut random, 200);
        in_any_order(checker, &mut random, &call)?;
    }
    Ok(())
}

pub fn at_minutes(checker: &mut Checker) -> Verdict {
    let tried = |call: &FeedCall| as_the_open_spans_alone(checker, call);
    at_their_minutes(&mut Random::new(28), 1_000, maps::with_ties_and_windows, tried)
}

pub fn random_within(checker: &mut Checker) -> Verdict {
    let mut random = Random::new(29);
    for _ in 0..1_500 {
        let feed = maps::with_ties(&mut random, 9);
        every_budget(checker, &feed, random.size(3))?;
    }
    for _ in 0..10 {
        let feed = maps::with_ties(&mut random, 120);
        every_budget(checker, &feed, 0)?;
    }
    Ok(())
}

pub fn within_at_minutes(checker: &mut Checker) -> Verdict {
    let tried = |feed: &FeedCall| every_budget(checker, feed, 1);
    at_their_minutes(&mut Random::new(30), 300, maps::with_ties_and_windows, tried)
}

/// A square of places with spans to the right and down, and across two of them at the same loss; its sides have `side`
/// places.
fn square(side: u32) -> Vec<[u32; 3]> {
    let mut spans = Vec::new();
    for place in 0..side * side {
        let (row, column) = (place / side, place % side);
        let steps = [(0, 1, 1), (1, 0, 1), (1, 1, 2), (2, 1, 3)];
        let there = steps.iter().filter(|&&(down, right, _)| row + down < side && column + right < side);
        spans.extend(there.map(|&(down, right, loss)| [place, place + down * side + right, loss]));
    }
    spans
}

/// Most places and spans, nearly all of them in ties: spans between heights, a square, a chain beside one of double steps,
/// and few places with thousands of spans between them.
fn large_calls() -> Vec<FeedCall> {
    let mut random = Random::new(31);
    let mut calls = vec![maps::call(4096, 0, &square(64))];
    for (places, dearer) in [(4096, 0), (4096, 20), (181, 3)] {
        let (start, spans) = maps::heights(&mut random, places, 16_384, dearer);
        calls.push(maps::call(places, start, &spans));
    }
    let mut double: Vec<[u32; 3]> = maps::chain(4096, 1);
    double.extend((2..4096).map(|to| [to - 2, to, 2]));
    double.sort_by_key(|span| span[0]);
    calls.push(maps::call(4096, 0, &double));
    for (places, losses) in [(3, 3), (40, 2), (2_000, 1)] {
        calls.push(maps::call(places, 1, &maps::scattered(&mut random, places, 16_384, losses)));
    }
    calls
}

pub fn large_maps(checker: &mut Checker) -> Verdict {
    for call in large_calls() {
        expect(checker.feed(&call)?, 0, "large map")?;
    }
    Ok(())
}

pub fn large_within(checker: &mut Checker) -> Verdict {
    for feed in large_calls() {
        some_budgets(checker, &feed)?;
    }
    Ok(())
}

/// Calls that are lent lists full of numbers that a search might take for its own: 0, none, and another map's table.
pub fn lists_as_found(checker: &mut Checker) -> Verdict {
    let mut random = Random::new(32);
    for _ in 0..200 {
        let feed = maps::with_ties(&mut random, 9);
        let call = budgets::call(&feed, *random.pick(&[0, 2, 5, NONE]), 2);
        let places = feed.places as usize;
        let lengths = [places, places, places, store::length(places), places + 2];
        for word in [0, 1, NONE] {
            let left = checker.budget_on(&call, lengths.map(|length| vec![word; length]))?;
            checker.budget_on(&budgets::call(&feed, NONE, 2), left.lists)?;
        }
    }
    Ok(())
}
