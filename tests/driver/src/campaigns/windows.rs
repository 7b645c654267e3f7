//! Supply windows in feed calls: minutes at the ends of windows and beside them, and faults of windows among others.

use super::budgets::{self, every_budget, holds};
use super::feeds::{expect, WORKED};
use crate::check::{BudgetCall, Checker, Fed, FeedCall, Verdict};
use crate::maps;
use crate::random::Random;
use reference::NONE;

/// Minutes, and the losses, spans, joints and number of examined spans that a full call must give at each of them.
type Row = (&'static [u32], &'static [u32], &'static [u32], &'static [u32], u32);

/// Places, spans as (from, to, loss, opening, closing), and rows worked by hand; the start is 0.
type Map = (u32, &'static [[u32; 5]], &'static [Row]);

const WORKED_MAPS: [Map; 8] = [
    // The scope paper's map, each span with a window of its own.
    (
        3,
        &[[0, 1, 7, 100, 500], [0, 2, 20, 0, 1_440], [1, 2, 5, 300, 400]],
        &[
            (&[0, 1, 99, 500, 501, 1_439], &[0, NONE, 20], &[NONE, NONE, 1], &[0, NONE, 1], 2),
            (&[100, 101, 299, 400, 499], &[0, 7, 20], &[NONE, 0, 1], &[0, 1, 1], 3),
            (&[300, 301, 399], &[0, 7, 12], &[NONE, 0, 2], &[0, 1, 2], 3),
        ],
    ),
    // One of two parallel spans closes when the other opens, and the dearer one is the first.
    (
        2,
        &[[0, 1, 9, 0, 600], [0, 1, 4, 600, 1_440]],
        &[(&[0, 598, 599], &[0, 9], &[NONE, 0], &[0, 1], 2), (&[600, 601, 1_439], &[0, 4], &[NONE, 1], &[0, 1], 2)],
    ),
    // Spans one after another, of which one closes when the other opens: there is never a chain.
    (
        3,
        &[[0, 1, 1, 600, 1_440], [1, 2, 1, 0, 600]],
        &[
            (&[0, 599], &[0, NONE, NONE], &[NONE; 3], &[0, NONE, NONE], 1),
            (&[600, 1_439], &[0, 1, NONE], &[NONE, 0, NONE], &[0, 1, NONE], 2),
        ],
    ),
    // Equal parallel spans: the lowest-numbered open one counts. The last span comes from an unreached place.
    (
        3,
        &[[0, 1, 4, 0, 10], [0, 1, 4, 5, 20], [0, 1, 4, 0, 1_440], [2, 1, 1, 0, 1_440]],
        &[
            (&[0, 4, 5, 9], &[0, 4, NONE], &[NONE, 0, NONE], &[0, 1, NONE], 3),
            (&[10, 19], &[0, 4, NONE], &[NONE, 1, NONE], &[0, 1, NONE], 3),
            (&[20, 1_439], &[0, 4, NONE], &[NONE, 2, NONE], &[0, 1, NONE], 3),
        ],
    ),
    // Chains of equal loss: the span of the lower number is closed for a while, and so is one below it.
    (
        4,
        &[[0, 1, 2, 0, 700], [0, 2, 1, 0, 1_440], [1, 3, 1, 300, 1_440], [2, 3, 2, 0, 1_440]],
        &[
            (&[0, 299], &[0, 2, 1, 3], &[NONE, 0, 1, 3], &[0, 1, 1, 2], 4),
            (&[300, 699], &[0, 2, 1, 3], &[NONE, 0, 1, 2], &[0, 1, 1, 2], 4),
            (&[700, 1_439], &[0, NONE, 1, 3], &[NONE, NONE, 1, 3], &[0, NONE, 1, 2], 3),
        ],
    ),
    // Chains of equal loss: the shorter one ends in one of two spans of higher numbers, both of which are closed for an
    // hour.
    (
        5,
        &[
            [0, 3, 1, 0, 1_440],
            [0, 4, 2, 0, 1_440],
            [1, 2, 1, 0, 1_440],
            [3, 1, 1, 0, 1_440],
            [4, 2, 1, 0, 600],
            [4, 2, 1, 660, 1_440],
        ],
        &[
            (&[0, 599], &[0, 2, 3, 1, 2], &[NONE, 3, 4, 0, 1], &[0, 2, 2, 1, 1], 6),
            (&[600, 659], &[0, 2, 3, 1, 2], &[NONE, 3, 2, 0, 1], &[0, 2, 3, 1, 1], 6),
            (&[660, 1_439], &[0, 2, 3, 1, 2], &[NONE, 3, 5, 0, 1], &[0, 2, 2, 1, 1], 6),
        ],
    ),
    // A start whose spans are all closed, but for one minute; self spans and spans into the start.
    (
        3,
        &[[0, 0, 1, 720, 721], [0, 1, 1, 720, 721], [0, 2, 3, 720, 721], [1, 0, 1, 0, 1_440], [2, 2, 1, 0, 1_440]],
        &[
            (&[0, 719, 721, 1_439], &[0, NONE, NONE], &[NONE; 3], &[0, NONE, NONE], 3),
            (&[720], &[0, 1, 3], &[NONE, 1, 2], &[0, 1, 1], 5),
        ],
    ),
    // The first and the last minute of the day.
    (
        3,
        &[[0, 1, 1, 0, 1], [0, 2, 1, 1_439, 1_440]],
        &[
            (&[0], &[0, 1, NONE], &[NONE, 0, NONE], &[0, 1, NONE], 2),
            (&[1, 720, 1_438], &[0, NONE, NONE], &[NONE; 3], &[0, NONE, NONE], 2),
            (&[1_439], &[0, NONE, 1], &[NONE, NONE, 1], &[0, NONE, 1], 2),
        ],
    ),
];

/// Calls on the worked maps, with the row of each.
pub fn worked_calls() -> impl Iterator<Item = (FeedCall, Row)> {
    let at_minutes = |places, spans: &'static [[u32; 5]], row: Row| {
        row.0.iter().map(move |&minute| (maps::call_at(places, 0, minute, spans), row))
    };
    WORKED_MAPS
        .into_iter()
        .flat_map(move |(places, spans, rows)| rows.iter().flat_map(move |&row| at_minutes(places, spans, row)))
}

/// The table and the count of a row.
fn shows<const FIGURES: usize, const LISTS: usize>(left: &Fed<FIGURES, LISTS>, row: Row) -> bool {
    let (_, losses, spans, joints, examined) = row;
    left.shows(losses, spans, joints) && left.figures[2] == examined
}

pub fn worked(checker: &mut Checker) -> Verdict {
    for (call, row) in worked_calls() {
        let left = checker.fed(&call)?;
        law(shows(&left, row), "another table than worked by hand", &call)?;
    }
    Ok(())
}

pub fn worked_within(checker: &mut Checker) -> Verdict {
    for (feed, row) in worked_calls() {
        let call = budgets::call(&feed, NONE, 2);
        let left = checker.budget(&call)?;
        holds(shows(&left, row), "another table than worked by hand", &call)?;
        every_budget(checker, &feed, 1)?;
    }
    Ok(())
}

pub fn law(holds: bool, what: &str, call: &FeedCall) -> Verdict {
    match holds {
        true => Ok(()),
        false => Err(format!("{what}; {call:?}").chars().take(600).collect()),
    }
}

/// Faults of one span: the code, and fields with the faulty number. In the order of the tests of a span.
#[rustfmt::skip]
const SPAN_FAULTS: [(u32, &[(usize, u32)]); 11] = [
    (18, &[(0, 3)]), (18, &[(1, 3)]), (18, &[(0, NONE)]),
    (19, &[(2, 0)]), (19, &[(2, 1_000_001)]),
    (20, &[(0, 0)]),
    (23, &[(3, 600), (4, 600)]), (23, &[(3, 601), (4, 600)]), (23, &[(4, 1_441)]), (23, &[(3, 1_440)]), (23, &[(4, 0)]),
];

/// The windows that the spans have before one is made faulty: all day, and closed at minute 720 before or after it.
const BASE_WINDOWS: [[u32; 2]; 3] = [[0, 1_440], [0, 720], [721, 1_440]];

/// A fault of `SPAN_FAULTS` on a span.
type At = (usize, usize);

/// The call with both faults, and the code: the fault on the first span counts, on one span the one tested first.
/// `None` where both are in one field.
fn with_faults(window: [u32; 2], (a, span_a): At, (b, span_b): At) -> Option<(FeedCall, u32)> {
    let (faults_a, faults_b) = (SPAN_FAULTS[a].1, SPAN_FAULTS[b].1);
    let share_a_field = faults_a.iter().any(|(field, _)| faults_b.iter().any(|(other, _)| field == other));
    if span_a == span_b && share_a_field {
        return None;
    }
    // Spans from place 1: one from 0 after another is 20.
    let mut spans = [[1, 2, 5], [1, 0, 9], [1, 1, 4], [1, 2, 3]].map(|[f, t, l]| [f, t, l, window[0], window[1]]);
    faults_a.iter().for_each(|&(field, number)| spans[span_a][field] = number);
    faults_b.iter().for_each(|&(field, number)| spans[span_b][field] = number);
    let first = (span_a, a).min((span_b, b)).1;
    Some((maps::call_at(3, 1, 720, &spans), SPAN_FAULTS[first].0))
}

/// Every two faults, on one span and on two, with every kind of window around them.
fn fault_pairs() -> impl Iterator<Item = (FeedCall, u32)> {
    // From span 1 on, since 20 needs a span before it.
    let places = || (0..SPAN_FAULTS.len()).flat_map(|fault| (1..4).map(move |span| (fault, span)));
    let pairs = move || places().flat_map(move |a| places().map(move |b| (a, b)));
    BASE_WINDOWS.into_iter().flat_map(move |window| pairs().filter_map(move |(a, b)| with_faults(window, a, b)))
}

pub fn span_faults(checker: &mut Checker) -> Verdict {
    for (call, code) in fault_pairs() {
        expect(checker.feed(&call)?, code, "two faults of spans")?;
    }
    Ok(())
}

pub fn span_faults_within(checker: &mut Checker) -> Verdict {
    for (feed, code) in fault_pairs() {
        for (listed, code) in [(3, code), (2, 22)] {
            let call = BudgetCall { budget: 9, listed, feed: feed.clone() };
            expect(checker.budget(&call)?.code, code, "two faults of spans")?;
        }
    }
    Ok(())
}

fn same_left<const FIGURES: usize, const LISTS: usize>(a: &Fed<FIGURES, LISTS>, b: &Fed<FIGURES, LISTS>) -> bool {
    a.code == b.code && a.figures == b.figures && a.lists == b.lists
}

/// Maps whose windows are all open: a call at any minute leaves what it leaves at minute 0.
pub fn always_open(checker: &mut Checker) -> Verdict {
    let worked = maps::call_at(3, 0, 0, &maps::open(&WORKED));
    same_at_minutes(checker, &worked, 1)?;
    let mut random = Random::new(21);
    for _ in 0..40 {
        same_at_minutes(checker, &maps::small(&mut random), 97)?;
    }
    Ok(())
}

/// Minutes of the day by steps, and its last one.
fn minutes_by(step: usize) -> impl Iterator<Item = u32> {
    (0..1_439).step_by(step).chain([1_439])
}

fn same_at_minutes(checker: &mut Checker, call: &FeedCall, step: usize) -> Verdict {
    let first = checker.fed(&FeedCall { minute: 0, ..call.clone() })?;
    for minute in minutes_by(step) {
        let call = FeedCall { minute, ..call.clone() };
        let left = checker.fed(&call)?;
        law(same_left(&left, &first), "all windows are open, but minutes differ", &call)?;
    }
    Ok(())
}

pub fn always_open_within(checker: &mut Checker) -> Verdict {
    let mut random = Random::new(22);
    for _ in 0..40 {
        let feed = FeedCall { minute: 0, ..maps::small(&mut random) };
        let budget = *random.pick(&[0, 3, 50, NONE]);
        let first = checker.budget(&budgets::call(&feed, budget, 1))?;
        for minute in minutes_by(97) {
            let call = budgets::call(&FeedCall { minute, ..feed.clone() }, budget, 1);
            let left = checker.budget(&call)?;
            holds(same_left(&left, &first), "all windows are open, but minutes differ", &call)?;
        }
    }
    Ok(())
}

/// Tries so many maps, each at all the minutes that are made with it.
pub fn at_their_minutes(
    random: &mut Random,
    count: usize,
    map: fn(&mut Random) -> (FeedCall, Vec<u32>),
    mut tried: impl FnMut(&FeedCall) -> Verdict,
) -> Verdict {
    for _ in 0..count {
        let (call, minutes) = map(random);
        for minute in minutes {
            tried(&FeedCall { minute, ..call.clone() })?;
        }
    }
    Ok(())
}

pub fn random_maps(checker: &mut Checker) -> Verdict {
    let tried = |call: &FeedCall| as_the_open_spans_alone(checker, call);
    at_their_minutes(&mut Random::new(23), 1_500, maps::with_windows, tried)
}

/// The numbers of the spans that are open at the call's minute.
fn open_spans(call: &FeedCall) -> Vec<usize> {
    let is_open = |&span: &usize| (call.opens[span]..call.closes[span]).contains(&call.minute);
    (0..call.from.len()).filter(is_open).collect()
}

/// A call leaves what one on its open spans alone leaves, but for their numbers and for the count of examined ones.
pub fn as_the_open_spans_alone(checker: &mut Checker, call: &FeedCall) -> Verdict {
    let left = checker.fed(call)?;
    let numbers = open_spans(call);
    let spans: Vec<[u32; 3]> = numbers.iter().map(|&span| [call.from[span], call.to[span], call.loss[span]]).collect();
    let alone = checker.fed(&maps::call(call.places, call.start, &spans))?;
    let renumbered = |&span: &u32| if span == NONE { NONE } else { numbers[span as usize] as u32 };
    let spans: Vec<u32> = alone.spans().iter().map(renumbered).collect();
    let same = left.shows(alone.losses(), &spans, alone.joints()) && left.figures[..2] == alone.figures[..2];
    law(same, "another table than that of the open spans alone", call)
}

/// Budgets around every loss at a few minutes, and the table at one budget at all of them.
pub fn random_within(checker: &mut Checker) -> Verdict {
    let mut random = Random::new(24);
    for _ in 0..400 {
        let (feed, minutes) = maps::with_windows(&mut random);
        for _ in 0..2 {
            let minute = *random.pick(&minutes);
            every_budget(checker, &FeedCall { minute, ..feed.clone() }, random.size(3))?;
        }
        let budget = random.below(200) as u32;
        for minute in minutes {
            checker.budget(&budgets::call(&FeedCall { minute, ..feed.clone() }, budget, 0))?;
        }
    }
    Ok(())
}

/// A chain with one short window, a star with every third span closed, and full lists with windows.
fn large_calls() -> Vec<FeedCall> {
    let mut random = Random::new(25);
    let mut chain = maps::call(4096, 0, &maps::chain(4096, 1_000_000));
    (chain.opens[4_000], chain.closes[4_000]) = (719, 721);
    let star: Vec<[u32; 5]> =
        (1..4096).map(|to| [0, to, 5_000 - to, if to % 3 == 0 { 720 } else { 0 }, 1_440]).collect();
    let mut calls = vec![maps::call_at(4096, 0, 719, &star), maps::call_at(4096, 0, 720, &star)];
    calls.extend([718, 719, 720, 721].map(|minute| FeedCall { minute, ..chain.clone() }));
    let mut scattered = maps::call(4096, 4095, &maps::scattered(&mut random, 4096, 16_384, 1_000));
    let cuts = [0, 480, 960, 1_440];
    maps::give_windows(&mut random, &mut scattered, &cuts);
    calls.extend([479, 480].map(|minute| FeedCall { minute, ..scattered.clone() }));
    let (start, spans) = maps::disturbed(&mut random, 181, 3_000);
    let mut lowering = maps::call(181, start, &spans[..16_290]);
    maps::give_windows(&mut random, &mut lowering, &cuts);
    calls.extend([959, 960, 1_439].map(|minute| FeedCall { minute, ..lowering.clone() }));
    calls
}

pub fn large_maps(checker: &mut Checker) -> Verdict {
    for call in large_calls() {
        expect(checker.feed(&call)?, 0, "large map")?;
    }
    Ok(())
}

pub fn large_within(checker: &mut Checker) -> Verdict {
    for feed in large_calls() {
        for budget in [2_000, 4_000_000_000, NONE] {
            expect(checker.budget(&budgets::call(&feed, budget, 0))?.code, 0, "large map")?;
        }
    }
    Ok(())
}
