//! Feed calls.

use crate::check::{Checker, FeedCall, Verdict};
use crate::maps;
use crate::random::Random;
use reference::{store, NONE};

pub const WORKED: [[u32; 3]; 3] = [[0, 1, 7], [0, 2, 20], [1, 2, 5]];

pub fn expect(found: u32, code: u32, what: &str) -> Verdict {
    match found == code {
        true => Ok(()),
        false => Err(format!("{what}: the reference gives {found} where the test expects {code}")),
    }
}

pub fn worked(checker: &mut Checker) -> Verdict {
    for start in 0..3 {
        expect(checker.feed(&maps::call(3, start, &WORKED))?, 0, "worked map")?;
    }
    // Ties: the lowest-numbered span of the shortest chains counts, not the one met first.
    let tie = [[0, 1, 5], [0, 2, 1], [0, 3, 2], [1, 4, 1], [2, 4, 5], [3, 4, 4]];
    checker.feed(&maps::call(5, 0, &tie))?;
    let late = [[0, 2, 3], [1, 3, 1], [2, 1, 4], [2, 3, 5], [2, 3, 5]];
    checker.feed(&maps::call(4, 0, &late))?;
    // Self and parallel spans, spans into the start, an unreached place.
    let mixed = [[0, 0, 1], [0, 1, 4], [0, 1, 3], [0, 1, 3], [1, 0, 1], [1, 1, 1], [2, 0, 9]];
    for start in 0..3 {
        checker.feed(&maps::call(3, start, &mixed))?;
    }
    checker.feed(&maps::call(1, 0, &[]))?;
    checker.feed(&maps::call(1, 0, &[[0, 0, 1], [0, 0, 1_000_000]]))?;
    Ok(())
}

/// A call with one thing changed.
fn changed(call: &FeedCall, change: impl Fn(&mut FeedCall)) -> FeedCall {
    let mut call = call.clone();
    change(&mut call);
    call
}

/// A call, the code that it must get, and what is tried.
pub struct Case {
    pub call: FeedCall,
    pub code: u32,
    pub what: &'static str,
}

fn case(code: u32, what: &'static str, call: FeedCall) -> Case {
    Case { call, code, what }
}

pub fn limits(checker: &mut Checker) -> Verdict {
    for Case { call, code, what } in limit_cases() {
        expect(checker.feed(&call)?, code, what)?;
    }
    Ok(())
}

/// Codes 14 to 20, 23 and 24 at their limits, alone and together.
pub fn limit_cases() -> Vec<Case> {
    let good = maps::call(3, 0, &WORKED);
    let mut cases = Vec::new();
    for (places, code) in [(0, 14), (4097, 14), (NONE, 14), (1, 18), (2, 17)] {
        let call = changed(&good, |call| {
            call.places = places;
            if places == 1 {
                (call.best, call.last, call.joints, call.words) = (1, 1, 1, store::length(1));
            }
        });
        cases.push(case(code, "places", call));
    }
    cases.push(case(0, "4,096 places", maps::call(4096, 0, &maps::chain(4096, 1_000_000))));
    cases.push(case(14, "4,097 places", maps::call(4097, 0, &[])));
    for (start, code) in [(2, 0), (3, 15), (NONE, 15)] {
        cases.push(case(code, "start", changed(&good, |call| call.start = start)));
    }
    for (minute, code) in [(0, 0), (1, 0), (1_438, 0), (1_439, 0), (1_440, 24), (1_441, 24), (65_536, 24), (NONE, 24)] {
        cases.push(case(code, "minute", changed(&good, |call| call.minute = minute)));
    }
    cases.extend(span_lists(&good));
    cases.extend(result_lists(&good));
    cases.extend(losses_and_places(&good));
    cases.extend(windows(&good));
    cases.extend(orders(&good));
    cases
}

/// Each of the five lists shorter or longer than the others, and some of them together.
fn span_lists(good: &FeedCall) -> Vec<Case> {
    let mut cases = Vec::new();
    for chosen in 1..(1 << 5) - 1 {
        for length in [0, 2, 4] {
            let call = changed(good, |call| {
                let lists = call.lists().into_iter().enumerate().filter(|(list, _)| chosen >> list & 1 == 1);
                lists.for_each(|(_, list)| list.resize(length, 1));
            });
            // 16 comes before 17 and 18.
            let later_faults = changed(&call, |call| {
                call.best = 2;
                call.to.iter_mut().for_each(|to| *to = 9);
            });
            cases.push(case(16, "unequal span lists", call));
            cases.push(case(16, "unequal span lists with later faults", later_faults));
        }
    }
    let mut random = Random::new(10);
    for (count, code) in [(16_384, 0), (16_385, 16)] {
        let spans = maps::scattered(&mut random, 300, count, 50);
        cases.push(case(code, "16,384 spans", maps::call(300, 7, &spans)));
    }
    cases
}

fn result_lists(good: &FeedCall) -> Vec<Case> {
    let mut cases = Vec::new();
    for length in [0, 2, 4] {
        for list in 0..3 {
            let call = changed(good, |call| *call.result_lengths()[list] = length);
            let faulty_span = changed(&call, |call| call.loss[0] = 0);
            cases.push(case(17, "losses, spans or joints", call));
            cases.push(case(17, "losses, spans or joints, and a faulty span", faulty_span));
        }
        let all = changed(good, |call| call.result_lengths().into_iter().for_each(|list| *list = length));
        cases.push(case(17, "all result lists", all));
    }
    // 64 are right; 56 were, with four words a heap.
    for words in [0, 40, 48, 56, 63, 65, 72] {
        cases.push(case(17, "store", changed(good, |call| call.words = words)));
    }
    cases
}

fn losses_and_places(good: &FeedCall) -> Vec<Case> {
    let mut cases = Vec::new();
    for span in 0..3 {
        for (loss, code) in [(0, 19), (1, 0), (1_000_000, 0), (1_000_001, 19), (NONE, 19)] {
            cases.push(case(code, "loss", changed(good, |call| call.loss[span] = loss)));
        }
        for place in [3, 4, NONE] {
            cases.push(case(18, "from", changed(good, |call| call.from[span] = place)));
            cases.push(case(18, "to", changed(good, |call| call.to[span] = place)));
        }
    }
    cases
}

/// Windows that are right, empty, turned round or longer than a day, on each span.
fn windows(good: &FeedCall) -> Vec<Case> {
    let right = [(0, 1), (0, 1_440), (1_439, 1_440), (719, 720)].map(|window| (window, 0));
    let empty = [(0, 0), (1, 1), (720, 720), (1_440, 1_440), (NONE, NONE)].map(|window| (window, 23));
    let turned = [(1, 0), (720, 719), (1_440, 0), (1_440, 1_439), (NONE, 1_440)].map(|window| (window, 23));
    let long =
        [(0, 1_441), (1_439, 1_441), (1_440, 1_441), (0, 65_537), (0, NONE), (1_441, 1_442)].map(|window| (window, 23));
    let mut cases = Vec::new();
    for span in 0..3 {
        for &((opens, closes), code) in right.iter().chain(&empty).chain(&turned).chain(&long) {
            let call = changed(good, |call| (call.opens[span], call.closes[span]) = (opens, closes));
            cases.push(case(code, "window", call));
        }
    }
    cases
}

fn orders(good: &FeedCall) -> Vec<Case> {
    let mut cases = Vec::new();
    for (from, code) in [([0, 0, 0], 0), ([1, 1, 1], 0), ([1, 0, 2], 20), ([0, 2, 1], 20), ([2, 2, 2], 0)] {
        cases.push(case(code, "order", changed(good, |call| call.from = from.to_vec())));
    }
    // The lowest-numbered faulty span decides; on one span the lower code.
    let pairs: [([u32; 3], [u32; 3], u32); 5] = [
        ([1, 0, 0], [7, 7, 7], 20),
        ([1, 1, 0], [7, 0, 7], 19),
        ([1, 3, 0], [7, 0, 0], 18),
        ([2, 1, 0], [7, 0, 7], 19),
        ([2, 1, 3], [7, 7, 0], 20),
    ];
    for (from, loss, code) in pairs {
        let call = changed(good, |call| {
            call.from = from.to_vec();
            call.loss = loss.to_vec();
        });
        cases.push(case(code, "two faults", call));
    }
    cases
}

pub fn random_maps(checker: &mut Checker) -> Verdict {
    let mut random = Random::new(11);
    for _ in 0..12_000 {
        checker.feed(&maps::small(&mut random))?;
    }
    for _ in 0..40 {
        let noise = 1 + random.below(300);
        let (start, spans) = maps::disturbed(&mut random, 80, noise);
        checker.feed(&maps::call(80, start, &spans))?;
    }
    Ok(())
}

/// The faults of a call, in the order in which they are tested.
const FAULTS: [u32; 9] = [14, 15, 24, 16, 17, 18, 19, 20, 23];

/// Makes a call faulty, in one of several ways. The codes 18 to 20 and 23 are all on the last span.
pub fn make_faulty(feed: &mut FeedCall, code: u32, way: usize) {
    match code {
        14 => feed.places = [0, 4097, NONE][way % 3],
        15 => feed.start = [3, NONE][way % 2],
        24 => feed.minute = [1_440, 1_441, NONE][way % 3],
        16 => feed.lists()[way % 5].push(1),
        17 => match way % 4 {
            3 => feed.words -= 1,
            list => *feed.result_lengths()[list] -= 1,
        },
        18 => [&mut feed.from, &mut feed.to][way % 2][2] = 3,
        19 => feed.loss[2] = [0, 1_000_001][way % 2],
        20 => feed.from[1] = feed.from[2] + 1,
        _ => (feed.opens[2], feed.closes[2]) = [(600, 600), (601, 600), (0, 1_441)][way % 3],
    }
}

/// Which of some faults are chosen by the bits of a number.
pub fn chosen<const N: usize>(faults: [u32; N], bits: usize) -> Vec<u32> {
    (0..N).filter(|fault| bits >> fault & 1 == 1).map(|fault| faults[fault]).collect()
}

/// Every choice of faults at once: the one tested first gives the code.
pub fn several_faults(checker: &mut Checker) -> Verdict {
    for bits in 0..1 << FAULTS.len() {
        let faults = chosen(FAULTS, bits);
        for way in 0..12 {
            let mut call = maps::call(3, 0, &WORKED);
            faults.iter().for_each(|&code| make_faulty(&mut call, code, way));
            expect(checker.feed(&call)?, faults.first().copied().unwrap_or(0), "several faults")?;
        }
    }
    Ok(())
}

pub fn faulty_spans(checker: &mut Checker) -> Verdict {
    let mut random = Random::new(12);
    for _ in 0..6_000 {
        checker.feed(&faulty(&mut random))?;
    }
    Ok(())
}

/// A small map with one or two of its numbers changed.
pub fn faulty(random: &mut Random) -> FeedCall {
    let mut call = maps::small(random);
    if random.chance(50) {
        let cuts = maps::cuts(random);
        maps::give_windows(random, &mut call, &cuts);
    }
    for _ in 0..1 + random.size(2) {
        if call.from.is_empty() {
            break;
        }
        let span = random.size(call.from.len());
        match random.below(7) {
            0 => call.from[span] = *random.pick(&[0, call.places - 1, call.places, NONE]),
            1 => call.to[span] = *random.pick(&[0, call.places - 1, call.places, NONE]),
            2 => call.loss[span] = *random.pick(&[0, 1, 1_000_000, 1_000_001, NONE]),
            3 => {
                call.opens[span] =
                    *random.pick(&[0, call.minute, call.closes[span].saturating_sub(1), call.closes[span], NONE])
            }
            4 => {
                call.closes[span] =
                    *random.pick(&[0, call.opens[span], call.opens[span].saturating_add(1), 1_440, 1_441, NONE])
            }
            5 => call.minute = *random.pick(&[0, call.opens[span], 1_439, 1_440, NONE]),
            _ => call.from.swap(0, span),
        }
    }
    call
}

pub fn large_maps(checker: &mut Checker) -> Verdict {
    let mut random = Random::new(13);
    let all = maps::lowering(181);
    checker.feed(&maps::call(181, 0, &all[..all.len().min(16_384)]))?;
    for noise in [1, 50, 3_000] {
        let (start, spans) = maps::disturbed(&mut random, 181, noise);
        checker.feed(&maps::call(181, start, &spans[..spans.len().min(16_384)]))?;
    }
    for losses in [3, 1_000_000] {
        let spans = maps::scattered(&mut random, 4096, 16_384, losses);
        checker.feed(&maps::call(4096, 4095, &spans))?;
    }
    // A star: one place with every other as its neighbour, all losses equal or all different.
    for spread in [0, 1] {
        let spans: Vec<[u32; 3]> = (1..4096).map(|to| [0, to, 5000 - to * spread]).collect();
        checker.feed(&maps::call(4096, 0, &spans))?;
    }
    Ok(())
}
