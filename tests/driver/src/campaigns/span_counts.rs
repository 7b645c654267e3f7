//! The number of spans examined: those that leave a reached place or, with a budget, a listed one; each once, open or
//! closed. Every feed call of every campaign is tested for it; these have many unreached places and closed spans.

use super::budgets::{self, every_budget, holds};
use super::feeds::expect;
use super::windows::{at_their_minutes, law};
use crate::check::{Checker, FeedCall, Verdict};
use crate::maps;
use crate::random::Random;
use reference::NONE;

/// Six places, spans as (from, to, loss, opening, closing). From place 0, place 1 is reached at loss 7 and, while spans 1
/// and 2 are open, place 2 at 12 and place 3 at 16. Place 3 has no span; places 4 and 5 are reached from place 4 only.
const SPANS: [[u32; 5]; 7] = [
    [0, 1, 7, 0, 1_440],
    [0, 2, 20, 360, 720],
    [1, 2, 5, 360, 720],
    [2, 3, 4, 0, 1_440],
    [2, 0, 1, 0, 1],
    [4, 0, 1, 0, 1_440],
    [4, 5, 1, 0, 1_440],
];

/// Start, minute, budget and the number of spans, worked by hand; the largest budget for a full call.
const WORKED: [[u32; 4]; 14] = [
    [0, 0, NONE, 3],
    [0, 360, NONE, 5],
    [1, 0, NONE, 1],
    [2, 0, NONE, 5],
    [3, 360, NONE, 0],
    [4, 360, NONE, 7],
    [5, 360, NONE, 0],
    [0, 360, 0, 2],
    [0, 360, 6, 2],
    [0, 360, 7, 3],
    [0, 360, 11, 3],
    [0, 360, 12, 5],
    [4, 360, 1, 4],
    [3, 360, 0, 0],
];

/// The worked calls, with budget and number.
fn worked_calls() -> impl Iterator<Item = (FeedCall, u32, u32)> {
    WORKED.into_iter().map(|[start, minute, budget, number]| (maps::call_at(6, start, minute, &SPANS), budget, number))
}

pub fn worked(checker: &mut Checker) -> Verdict {
    for (call, _, number) in worked_calls().filter(|&(_, budget, _)| budget == NONE) {
        law(checker.fed(&call)?.figures[2] == number, "another number of spans than worked by hand", &call)?;
    }
    Ok(())
}

pub fn worked_within(checker: &mut Checker) -> Verdict {
    for (feed, budget, number) in worked_calls() {
        let call = budgets::call(&feed, budget, 1);
        holds(checker.budget(&call)?.figures[2] == number, "another number of spans than worked by hand", &call)?;
    }
    Ok(())
}

/// Every map of three places with no span, an open or a closed one from each place to each, itself among them; a span is
/// the dearer the higher the number of the place that it leads to.
fn every_map() -> impl Iterator<Item = Vec<[u32; 5]>> {
    let window = |kind: u32| if kind == 1 { [0, 720] } else { [720, 1_440] };
    let span = move |way: u32, kind: u32| {
        let ([from, to], [opens, closes]) = ([way / 3, way % 3], window(kind));
        [from, to, 1 + to, opens, closes]
    };
    (0..3u32.pow(9)).map(move |choice| {
        let kinds = (0..9).map(|way| (way, choice / 3u32.pow(way) % 3)).filter(|&(_, kind)| kind > 0);
        kinds.map(|(way, kind)| span(way, kind)).collect()
    })
}

pub fn every_map_of_three(checker: &mut Checker) -> Verdict {
    for spans in every_map() {
        for start in 0..3 {
            checker.feed(&maps::call_at(3, start, 719, &spans))?;
        }
    }
    Ok(())
}

pub fn every_map_of_three_within(checker: &mut Checker) -> Verdict {
    for spans in every_map() {
        for budget in [0, 1, 2, NONE] {
            checker.budget(&budgets::call(&maps::call_at(3, 1, 719, &spans), budget, 0))?;
        }
    }
    Ok(())
}

/// A map with few spans and with windows, so that many places are not reached and many have no span; and the minutes around
/// the ends of the windows.
fn sparse(random: &mut Random) -> (FeedCall, Vec<u32>) {
    let places = 2 + random.below(40) as u32;
    let start = random.below(u64::from(places)) as u32;
    let count = random.size(2 * places as usize);
    let mut call = maps::call(places, start, &maps::scattered(random, places, count, 9));
    let cuts = maps::cuts(random);
    maps::give_windows(random, &mut call, &cuts);
    (call, maps::minutes_around(&cuts))
}

pub fn sparse_maps(checker: &mut Checker) -> Verdict {
    let tried = |call: &FeedCall| checker.feed(call).map(|_| ());
    at_their_minutes(&mut Random::new(51), 1_500, sparse, tried)
}

pub fn sparse_within(checker: &mut Checker) -> Verdict {
    let mut random = Random::new(52);
    for _ in 0..600 {
        let (feed, minutes) = sparse(&mut random);
        let minute = *random.pick(&minutes);
        every_budget(checker, &FeedCall { minute, ..feed }, random.size(2))?;
    }
    Ok(())
}

/// Spans from each place to several that are so much further on, as on a ring.
fn ring<const N: usize>(places: u32, further: [u32; N]) -> Vec<[u32; 3]> {
    (0..places).flat_map(|from| further.map(|on| [from, (from + on) % places, on])).collect()
}

/// Full lists of spans, of which all leave reached places, half do, or none; all closed; the last place without one.
fn large_calls() -> [(FeedCall, u32); 5] {
    let ring = ring(4_096, [1, 2, 3, 5]);
    let halves: Vec<[u32; 3]> =
        ring.iter().map(|&[from, to, loss]| [from, from / 2_048 * 2_048 + to % 2_048, loss]).collect();
    let of_the_first = vec![[0, 0, 1]; 16_384];
    let closed: Vec<[u32; 5]> = (0..16_384).map(|span| [span / 8_192, 1, 1, 0, 720]).collect();
    [
        (maps::call(4_096, 7, &ring), 16_384),
        (maps::call(4_096, 7, &halves), 8_192),
        (maps::call(4_096, 4_095, &of_the_first), 0),
        (maps::call_at(2, 0, 720, &closed), 8_192),
        (maps::call(4_096, 0, &ring[..16_380]), 16_380),
    ]
}

pub fn large_maps(checker: &mut Checker) -> Verdict {
    for (call, number) in large_calls() {
        expect(checker.fed(&call)?.figures[2], number, "number of spans of a large map")?;
    }
    Ok(())
}

pub fn large_within(checker: &mut Checker) -> Verdict {
    for (feed, number) in large_calls() {
        let left = checker.budget(&budgets::call(&feed, NONE, 0))?;
        expect(left.figures[2], number, "number of spans of a large map")?;
        for budget in [0, 40, 400] {
            checker.budget(&budgets::call(&feed, budget, 0))?;
        }
    }
    Ok(())
}

/// The feed program on the worked map, on sparse ones, and on as many spans as it holds.
pub fn feed_program(checker: &mut Checker) -> Verdict {
    for (call, ..) in worked_calls() {
        checker.feed_program(&maps::text_of(&call, false))?;
    }
    checker.feed_program(&maps::text(1_024, 5, &ring(1_024, [1, 2, 3]), false))?;
    for start in [0, 1] {
        checker.feed_program(&maps::text(2, start, &vec![[0, 1, 9]; 4_096], false))?;
    }
    let tried = |call: &FeedCall| checker.feed_program(&maps::text_of(call, false));
    at_their_minutes(&mut Random::new(53), 12, sparse, tried)
}
