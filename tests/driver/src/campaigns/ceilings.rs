//! Ceilings on links and cuts. Every feed call of every campaign is tested for them, and every table that the feed program
//! prints; the maps here have figures worked by hand, or many links and cuts.

use super::budgets::{self, every_budget, holds};
use super::windows::law;
use crate::check::{Checker, FeedCall, Verdict};
use crate::maps;
use crate::random::Random;
use reference::{program, text, NONE};

/// Maps on which place i is reached at loss i, and links, cuts and spans examined of a full call.
fn worked_calls() -> [(FeedCall, [u32; 3]); 5] {
    [
        (maps::call(1, 0, &[]), [0, 0, 0]),
        (maps::call(9, 0, &maps::star(1..=8)), [10, 0, 8]),
        (dense(11), [30, 30, 55]),
        (maps::with_even_closed(&dense(11)), [17, 17, 55]),
        (maps::call(5, 0, &maps::chain(5, 1)), [0, 0, 4]),
    ]
}

/// Whether place i has loss i.
fn go_by_place(losses: &[u32]) -> bool {
    losses.iter().zip(0..).all(|(&loss, place)| loss == place)
}

pub fn worked(checker: &mut Checker) -> Verdict {
    for (call, figures) in worked_calls() {
        let left = checker.fed(&call)?;
        let as_worked = left.figures == figures && go_by_place(left.losses());
        law(as_worked, "another result than worked by hand", &call)?;
        for every in [2, 3] {
            checker.feed(&maps::with_closed(&call, every))?;
        }
    }
    Ok(())
}

/// The largest budget first, for which all places are taken.
pub fn worked_within(checker: &mut Checker) -> Verdict {
    for (feed, figures) in worked_calls() {
        let call = budgets::call(&feed, NONE, 1);
        let left = checker.budget(&call)?;
        let as_worked = left.figures[..3] == figures && go_by_place(left.losses());
        holds(as_worked, "another result than worked by hand", &call)?;
        every_budget(checker, &feed, 0)?;
        for every in [2, 3] {
            every_budget(checker, &maps::with_closed(&feed, every), 0)?;
        }
    }
    Ok(())
}

fn dense(places: u32) -> FeedCall {
    maps::call(places, 0, &maps::dense(places))
}

/// Links, cuts and spans examined of a dense map, of which the places up to the budget are taken. Taking one that is not
/// the start leaves n places alone in their trees: n less its ones in binary are the links. Then every place that waits is
/// lowered below all others, so that all are alone again: each link is cut.
fn dense_figures(places: u32, budget: u32) -> [u32; 3] {
    let left = |place: u32| places - 1 - place;
    let taken = 0..places.min(budget.saturating_add(1));
    let examined = taken.clone().map(left).sum();
    let links = taken.skip(1).map(|place| left(place) - left(place).count_ones()).sum();
    [links, links, examined]
}

/// Dense maps, up to the one with the most spans, and such with losses disturbed.
pub fn dense_maps(checker: &mut Checker) -> Verdict {
    for places in (2..=64).chain((73..=181).step_by(12)) {
        let call = dense(places);
        let left = checker.fed(&call)?;
        let as_worked = left.figures == dense_figures(places, NONE) && go_by_place(left.losses());
        law(as_worked, "another result than worked by hand", &call)?;
        checker.feed(&maps::with_closed(&call, 3))?;
    }
    let mut random = Random::new(61);
    for _ in 0..100 {
        let (places, noise) = (2 + random.below(60) as u32, 1 + random.below(100));
        let (start, spans) = maps::disturbed(&mut random, places, noise);
        let call = maps::call(places, start, &spans);
        checker.feed(&call)?;
        checker.feed(&maps::with_closed(&call, 3))?;
    }
    Ok(())
}

pub fn dense_within(checker: &mut Checker) -> Verdict {
    for places in (2..=30).chain([64, 181]) {
        let feed = dense(places);
        for budget in (0..places).step_by(1 + places as usize / 8).chain([places - 1, NONE]) {
            let call = budgets::call(&feed, budget, 0);
            let left = checker.budget(&call)?;
            let as_worked = left.figures[..3] == dense_figures(places, budget);
            holds(as_worked, "other figures than worked by hand", &call)?;
            checker.budget(&budgets::call(&maps::with_closed(&feed, 3), budget, 0))?;
        }
    }
    let mut random = Random::new(62);
    for _ in 0..20 {
        let (places, noise) = (2 + random.below(30) as u32, 1 + random.below(100));
        let (start, spans) = maps::disturbed(&mut random, places, noise);
        every_budget(checker, &maps::with_closed(&maps::call(places, start, &spans), 3), 0)?;
    }
    Ok(())
}

/// Stars with so many spans, of ascending, descending and equal losses, and a chain of them.
fn shapes(spans: u32) -> [FeedCall; 4] {
    let call = |spans: Vec<[u32; 3]>| maps::call(spans.len() as u32 + 1, 0, &spans);
    [
        call(maps::star(1..=spans)),
        call(maps::star((1..=spans).rev())),
        call(maps::star((1..=spans).map(|_| 7))),
        call(maps::chain(spans + 1, 1)),
    ]
}

/// Stars and chains of all small numbers of spans and of some around powers of two, and the largest star.
fn star_and_chain_calls() -> impl Iterator<Item = FeedCall> {
    let around = [64, 256, 1_024].into_iter().flat_map(|power| power - 1..=power + 1);
    let largest = maps::call(4_096, 0, &maps::star(1..=4_095));
    (1..=40).chain(around).flat_map(shapes).chain([largest])
}

pub fn stars_and_chains(checker: &mut Checker) -> Verdict {
    for call in star_and_chain_calls() {
        checker.feed(&call)?;
        checker.feed(&maps::with_closed(&call, 3))?;
    }
    Ok(())
}

pub fn stars_and_chains_within(checker: &mut Checker) -> Verdict {
    for feed in star_and_chain_calls() {
        let half = feed.from.len() as u32 / 2;
        checker.budget(&budgets::call(&feed, half, 0))?;
        checker.budget(&budgets::call(&maps::with_closed(&feed, 3), half.min(7), 0))?;
    }
    Ok(())
}

/// Places of full maps, and the ceiling where each has four spans: of p places with R(p) as 8, 14 and 16.
const FULL_MAPS: [(u32, u32); 3] = [(64, 1_348), (1_024, 27_652), (4_096, 118_788)];

pub fn four_a_place(checker: &mut Checker) -> Verdict {
    let mut random = Random::new(63);
    for (places, ceiling) in FULL_MAPS {
        let call = maps::call(places, 0, &maps::four_a_place(&mut random, places));
        let left = checker.fed(&call)?;
        let [links, cuts, examined] = left.figures;
        let all = !left.losses().contains(&NONE) && examined == 4 * places;
        law(all && links + cuts <= ceiling, "not all places are reached, or the ceiling is broken", &call)?;
        checker.feed(&maps::with_closed(&call, 3))?;
    }
    Ok(())
}

pub fn four_a_place_within(checker: &mut Checker) -> Verdict {
    let mut random = Random::new(64);
    for (places, ceiling) in FULL_MAPS {
        let feed = maps::call(places, 0, &maps::four_a_place(&mut random, places));
        let mut losses = checker.fed(&feed)?.losses().to_vec();
        losses.sort();
        for part in [50, 2] {
            let budget = losses[losses.len() / part];
            let call = budgets::call(&feed, budget, 0);
            let [links, cuts, ..] = checker.budget(&call)?.figures;
            holds(links + cuts <= ceiling, "the ceiling is broken", &call)?;
            checker.budget(&budgets::call(&maps::with_closed(&feed, 3), budget, 0))?;
        }
    }
    Ok(())
}

/// The feed program on the map of a call, which it has to accept.
fn printed(checker: &mut Checker, call: &FeedCall) -> Verdict {
    let text = maps::text_of(call, false);
    checker.feed_program(&text)?;
    let lines = text::lines(&program::feed(&text)).len();
    law(lines == call.places as usize + 1, "the program refuses the map", call)
}

pub fn feed_program(checker: &mut Checker) -> Verdict {
    for (call, _) in worked_calls() {
        printed(checker, &call)?;
        printed(checker, &maps::with_closed(&call, 2))?;
    }
    let mut random = Random::new(65);
    let four = [64, 512].map(|places| maps::call(places, 0, &maps::four_a_place(&mut random, places)));
    let shapes = [1, 2, 31, 32, 33, 1_023].into_iter().flat_map(shapes);
    for call in [2, 3, 12, 40, 80].map(dense).into_iter().chain(shapes).chain(four) {
        printed(checker, &call)?;
        printed(checker, &maps::with_closed(&call, 3))?;
    }
    Ok(())
}
