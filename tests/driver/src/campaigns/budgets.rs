//! Feed calls with a budget.

use super::feeds::{self, expect, Case, WORKED};
use crate::check::{BudgetCall, Checker, FeedCall, Full, Verdict, Within};
use crate::engine::Part;
use crate::maps;
use crate::random::Random;
use reference::{store, NONE};

/// A call with a place list that is longer than the places by `more`.
pub fn call(feed: &FeedCall, budget: u32, more: usize) -> BudgetCall {
    BudgetCall { budget, listed: feed.places as usize + more, feed: feed.clone() }
}

/// 0, the two largest budgets, and those at, one below and one above each loss; ascending.
fn budgets(losses: &[u32]) -> Vec<u32> {
    let reached = losses.iter().filter(|&&loss| loss != NONE);
    let around = reached.flat_map(|&loss| [loss.saturating_sub(1), loss, loss + 1]);
    let mut budgets: Vec<u32> = around.chain([0, NONE - 1, NONE]).collect();
    budgets.sort();
    budgets.dedup();
    budgets
}

pub fn holds(law: bool, what: &str, call: &BudgetCall) -> Verdict {
    match law {
        true => Ok(()),
        false => Err(format!("{what}; {call:?}").chars().take(600).collect()),
    }
}

/// The scope paper's map: budget, places listed, losses, spans, joints, and spans examined.
type Worked = (u32, &'static [u32], [u32; 3], [u32; 3], [u32; 3], u32);
const WORKED_BUDGETS: [Worked; 6] = [
    (0, &[0], [0, NONE, NONE], [NONE, NONE, NONE], [0, NONE, NONE], 2),
    (6, &[0], [0, NONE, NONE], [NONE, NONE, NONE], [0, NONE, NONE], 2),
    (7, &[0, 1], [0, 7, NONE], [NONE, 0, NONE], [0, 1, NONE], 3),
    (11, &[0, 1], [0, 7, NONE], [NONE, 0, NONE], [0, 1, NONE], 3),
    (12, &[0, 1, 2], [0, 7, 12], [NONE, 0, 2], [0, 1, 2], 3),
    (NONE, &[0, 1, 2], [0, 7, 12], [NONE, 0, 2], [0, 1, 2], 3),
];

pub fn worked(checker: &mut Checker) -> Verdict {
    for (budget, places, losses, spans, joints, examined) in WORKED_BUDGETS {
        for more in [0, 1, 6] {
            let call = call(&maps::call(3, 0, &WORKED), budget, more);
            let left = checker.budget(&call)?;
            let as_worked = left.places() == places && left.shows(&losses, &spans, &joints);
            let figures = [0, 0, examined, places.len() as u32];
            holds(as_worked && left.figures == figures, "another result than worked by hand", &call)?;
        }
    }
    // Ties at a budget, where the list goes by place, and several spans that end a least chain.
    let ties = [[0, 2, 5], [0, 4, 5], [0, 5, 1], [2, 1, 1], [4, 1, 1], [5, 1, 5], [5, 3, 4]];
    // Self and parallel spans, spans into the start, unreached places.
    let mixed = [[0, 0, 1], [0, 1, 4], [0, 1, 3], [0, 1, 3], [1, 0, 1], [1, 1, 1], [2, 0, 9]];
    // Places wait in trees when the finder stops, and some are cut from them before.
    let cut: Vec<[u32; 3]> = (1..9).map(|to| [0, to, 10 * to]).chain([[1, 7, 2], [1, 8, 90], [7, 5, 1]]).collect();
    for feed in [maps::call(6, 0, &ties), maps::call(4, 0, &mixed), maps::call(4, 3, &mixed), maps::call(9, 0, &cut)] {
        every_budget(checker, &feed, 2)?;
    }
    every_budget(checker, &maps::call(1, 0, &[]), 0)?;
    every_budget(checker, &maps::call(1, 0, &[[0, 0, 1], [0, 0, 1_000_000]]), 1)
}

/// Calls with every budget around a loss of the map, and what must hold between them and the full call.
pub fn every_budget(checker: &mut Checker, feed: &FeedCall, more: usize) -> Verdict {
    let full = checker.fed(feed)?;
    expect(full.code, 0, "full call")?;
    let mut fewest = 0;
    for budget in budgets(full.losses()) {
        let call = call(feed, budget, more);
        let left = checker.budget(&call)?;
        expect(left.code, 0, "call with a budget")?;
        holds(left.figures[3] >= fewest, "a larger budget lists fewer places", &call)?;
        fewest = left.figures[3];
        holds(is_full_table_within(&full, &left, budget), "not the full call's table within the budget", &call)?;
        let all = left.figures[..3] == full.figures && left.lists[..4] == full.lists;
        holds(budget != NONE || all, "the largest budget is not as the full call", &call)?;
    }
    Ok(())
}

/// The places that the full call reaches within the budget are listed in order and have its entries; no other has one.
fn is_full_table_within(full: &Full, left: &Within, budget: u32) -> bool {
    let loss = |place: u32| full.losses()[place as usize];
    let within = |place: u32| loss(place) != NONE && loss(place) <= budget;
    let shown = |place: u32| if within(place) { full.entry(place) } else { [NONE; 3] };
    let places = 0..full.losses().len() as u32;
    let mut listed: Vec<u32> = places.clone().filter(|&place| within(place)).collect();
    listed.sort_by_key(|&place| (loss(place), place));
    left.places() == listed && places.clone().all(|place| left.entry(place) == shown(place))
}

pub fn limits(checker: &mut Checker) -> Verdict {
    for Case { call: feed, code, what } in feeds::limit_cases() {
        // No list of 4,294,967,295 words is lent: 14 comes before its length.
        let places = feed.places.min(4097) as usize;
        let short_code = if [14, 15, 24, 16, 17].contains(&code) { code } else { 22 };
        for (listed, code) in [(places, code), (places + 5, code), (places.saturating_sub(1), short_code)] {
            let call = BudgetCall { budget: 7, listed, feed: feed.clone() };
            expect(checker.budget(&call)?.code, code, what)?;
        }
    }
    for (places, lengths) in [(1, &[(0, 22), (1, 0), (2, 0)][..]), (3, &[(0, 22), (1, 22), (2, 22), (3, 0), (40, 0)])] {
        for &(listed, code) in lengths {
            for budget in [0, 7, NONE] {
                let call = BudgetCall { budget, listed, feed: maps::call(places, 0, &[[0, 0, 7]]) };
                expect(checker.budget(&call)?.code, code, "length of the place list")?;
            }
        }
    }
    Ok(())
}

/// The faults of a call, in the order in which they are tested.
const FAULTS: [u32; 10] = [14, 15, 24, 16, 17, 22, 18, 19, 20, 23];

/// Makes a call on three places faulty, in one of several ways.
pub fn make_faulty(call: &mut BudgetCall, code: u32, way: usize) {
    match code {
        22 => call.listed = [2, 0][way % 2],
        code => feeds::make_faulty(&mut call.feed, code, way),
    }
}

/// Every choice of faults at once: the one tested first gives the code.
pub fn several_faults(checker: &mut Checker) -> Verdict {
    let good = maps::call(3, 0, &WORKED);
    for bits in 0..1 << FAULTS.len() {
        let faults = feeds::chosen(FAULTS, bits);
        for way in 0..12 {
            let mut call = call(&good, 11, way % 4);
            faults.iter().for_each(|&code| make_faulty(&mut call, code, way));
            expect(checker.budget(&call)?.code, faults.first().copied().unwrap_or(0), "several faults")?;
        }
    }
    Ok(())
}

pub fn faulty_spans(checker: &mut Checker) -> Verdict {
    let mut random = Random::new(17);
    for _ in 0..6_000 {
        let feed = feeds::faulty(&mut random);
        let budget = *random.pick(&[0, 3, 100, NONE]);
        let listed = (feed.places as usize + random.size(4)).saturating_sub(1);
        checker.budget(&BudgetCall { budget, listed, feed })?;
    }
    Ok(())
}

pub fn random_maps(checker: &mut Checker) -> Verdict {
    let mut random = Random::new(18);
    for _ in 0..1_000 {
        let feed = maps::small(&mut random);
        every_budget(checker, &feed, random.size(5))?;
    }
    for _ in 0..2 {
        let noise = 1 + random.below(300);
        let (start, spans) = maps::disturbed(&mut random, 80, noise);
        every_budget(checker, &maps::call(80, start, &spans), 1)?;
    }
    Ok(())
}

/// Calls that are lent the lists and the store as an earlier one left them, and kept runs on such a store.
pub fn one_after_another(checker: &mut Checker) -> Verdict {
    let mut random = Random::new(19);
    for _ in 0..300 {
        let feed = maps::small(&mut random);
        let losses = checker.fed(&feed)?.losses().to_vec();
        let mut left = checker.budget(&call(&feed, 0, 3))?;
        for _ in 0..6 {
            let budget = *random.pick(&budgets(&losses));
            left = checker.budget_on(&call(&feed, budget, 3), left.lists)?;
            if left.store() != store::empty(feed.places as usize) {
                return Err("the store is not left empty".into());
            }
        }
        if checker.has(Part::Runs) {
            checker.kept(left.store(), b"T,0\nI,0,0,5\nM,0\nT,0\nT,0\n", 5 * 32)?;
        }
    }
    Ok(())
}

pub fn large_maps(checker: &mut Checker) -> Verdict {
    let mut random = Random::new(20);
    let chain = maps::call(4096, 0, &maps::chain(4096, 1_000_000));
    for budget in [0, 999_999, 2_000_000_000, 4_094_999_999, 4_095_000_000, 4_095_000_001, NONE - 1, NONE] {
        checker.budget(&call(&chain, budget, 0))?;
    }
    // A star: one place with every other as its neighbour, all losses equal or all different.
    for (spread, budget) in [(0, 5_000), (1, 2_500), (1, 904)] {
        let spans: Vec<[u32; 3]> = (1..4096).map(|to| [0, to, 5_000 - to * spread]).collect();
        let star = maps::call(4096, 0, &spans);
        for (budget, more) in [(budget - 1, 0), (budget, 7), (budget + 1, 1)] {
            checker.budget(&call(&star, budget, more))?;
        }
        let short = BudgetCall { budget, listed: 4095, feed: star };
        expect(checker.budget(&short)?.code, 22, "4,095 words for 4,096 places")?;
    }
    for losses in [3, 1_000_000] {
        let feed = maps::call(4096, 4095, &maps::scattered(&mut random, 4096, 16_384, losses));
        some_budgets(checker, &feed)?;
    }
    for noise in [1, 3_000] {
        let (start, spans) = maps::disturbed(&mut random, 181, noise);
        some_budgets(checker, &maps::call(181, start, &spans[..spans.len().min(16_384)]))?;
    }
    Ok(())
}

/// Budgets around the losses of a few places, near and far.
pub fn some_budgets(checker: &mut Checker, feed: &FeedCall) -> Verdict {
    let mut losses = checker.fed(feed)?.losses().to_vec();
    losses.retain(|&loss| loss != NONE);
    losses.sort();
    for part in [1, 10, 50, 100] {
        let loss = losses[(losses.len() - 1) * part / 100];
        for budget in [loss.saturating_sub(1), loss, loss + 1] {
            checker.budget(&call(feed, budget, part))?;
        }
    }
    Ok(())
}
