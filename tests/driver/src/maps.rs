//! Maps: span lists with ties, parallel and self spans, unreached places, and many lowerings; windows are all open
//! where nothing else is said.

use crate::check::FeedCall;
use crate::random::Random;
use reference::feed::MINUTES;
use reference::store;

/// Spans with all windows open.
pub fn open(spans: &[[u32; 3]]) -> Vec<[u32; 5]> {
    spans.iter().map(|&[from, to, loss]| [from, to, loss, 0, MINUTES]).collect()
}

/// A call on spans given as (from, to, loss, opening, closing), with lists of the right lengths.
pub fn call_at(places: u32, start: u32, minute: u32, spans: &[[u32; 5]]) -> FeedCall {
    let list = |field: usize| spans.iter().map(|span| span[field]).collect();
    FeedCall {
        places,
        start,
        minute,
        from: list(0),
        to: list(1),
        loss: list(2),
        opens: list(3),
        closes: list(4),
        best: places as usize,
        last: places as usize,
        joints: places as usize,
        words: store::length(places as usize),
    }
}

/// A call on spans that are always open, given as (from, to, loss); the minute is any.
pub fn call(places: u32, start: u32, spans: &[[u32; 3]]) -> FeedCall {
    call_at(places, start, any_minute(places, start, spans), &open(spans))
}

/// A minute drawn for a map, the same one each time.
fn any_minute(places: u32, start: u32, spans: &[[u32; 3]]) -> u32 {
    let add = |sum: u64, &number: &u32| sum.wrapping_mul(31).wrapping_add(u64::from(number));
    let seed = spans.iter().flatten().fold(u64::from(places), add);
    Random::new(seed ^ u64::from(start)).below(u64::from(MINUTES)) as u32
}

/// Spans between random places, by ascending from; losses below or at `losses`.
pub fn scattered(random: &mut Random, places: u32, count: usize, losses: u64) -> Vec<[u32; 3]> {
    let place = |random: &mut Random| random.below(u64::from(places)) as u32;
    let mut spans: Vec<[u32; 3]> =
        (0..count).map(|_| [place(random), place(random), 1 + random.below(losses) as u32]).collect();
    spans.sort_by_key(|span| span[0]);
    spans
}

/// Each place has a span to all later ones, dear the further it goes: each place taken lowers the rest.
pub fn lowering(places: u32) -> Vec<[u32; 3]> {
    let mut spans = Vec::new();
    for from in 0..places {
        for to in from + 1..places {
            spans.push([from, to, (to - from) * (to - from)]);
        }
    }
    spans
}

/// A lowering map with numbers exchanged and losses disturbed, so that deep trees are cut into.
pub fn disturbed(random: &mut Random, places: u32, noise: u64) -> (u32, Vec<[u32; 3]>) {
    let mut names: Vec<u32> = (0..places).collect();
    random.shuffle(&mut names);
    let mut spans = lowering(places);
    for span in &mut spans {
        let loss = 10 * span[2] + random.below(noise) as u32;
        *span = [names[span[0] as usize], names[span[1] as usize], loss];
    }
    spans.sort_by_key(|span| span[0]);
    (names[0], spans)
}

/// Spans between random places of different heights. A span upwards loses the difference, so that all chains to a place
/// are of equal loss; so many in a hundred of the spans lose one or two more. The start is the lowest place.
pub fn heights(random: &mut Random, places: u32, count: usize, dearer: u64) -> (u32, Vec<[u32; 3]>) {
    let mut names: Vec<u32> = (0..places).collect();
    random.shuffle(&mut names);
    let mut spans: Vec<[u32; 3]> = (0..count)
        .map(|_| {
            let low = random.below(u64::from(places) - 1) as u32;
            let step = 1 + random.below(u64::from(places - 1 - low).min(6)) as u32;
            let more = if random.chance(dearer) { 1 + random.below(2) as u32 } else { 0 };
            [names[low as usize], names[(low + step) as usize], step + more]
        })
        .collect();
    spans.sort_by_key(|span| span[0]);
    (names[0], spans)
}

/// A map of two places or more, up to `most`, on which most places end several chains of equal loss: many spans, parallel
/// ones among them, of small losses.
pub fn with_ties(random: &mut Random, most: u64) -> FeedCall {
    let places = 2 + random.below(most - 1) as u32;
    let count = random.size(6 * places as usize);
    if random.chance(50) {
        let dearer = *random.pick(&[0, 10, 40]);
        let (start, spans) = heights(random, places, count, dearer);
        return call(places, start, &spans);
    }
    let losses = 1 + random.below(3);
    let start = random.below(u64::from(places)) as u32;
    call(places, start, &scattered(random, places, count, losses))
}

/// Each place has a span to all later ones, in the list the furthest first. The next place is offered one more than the
/// place's own loss, so that place i is settled at loss i; the others are offered one less than by the place before, first
/// of all twice the number of places. So every place that waits is lowered below all others, one after the other.
pub fn dense(places: u32) -> Vec<[u32; 3]> {
    let loss = move |from: u32, to: u32| if to == from + 1 { 1 } else { 2 * (places - from) };
    let from_place = move |from: u32| (from + 1..places).rev().map(move |to| [from, to, loss(from, to)]);
    (0..places).flat_map(from_place).collect()
}

/// One place with a span to each other, of these losses.
pub fn star(losses: impl Iterator<Item = u32>) -> Vec<[u32; 3]> {
    (1..).zip(losses).map(|(to, loss)| [0, to, loss]).collect()
}

/// Four spans from each place: the first leads to the next place, so that every place is reached, the others anywhere.
pub fn four_a_place(random: &mut Random, places: u32) -> Vec<[u32; 3]> {
    let span = |number: u32| {
        let anywhere = random.below(u64::from(places)) as u32;
        let to = match number % 4 {
            0 => (number / 4 + 1) % places,
            _ => anywhere,
        };
        [number / 4, to, 1 + random.below(1_000_000) as u32]
    };
    (0..4 * places).map(span).collect()
}

/// One long chain of greatest losses.
pub fn chain(places: u32, loss: u32) -> Vec<[u32; 3]> {
    (1..places).map(|to| [to - 1, to, loss]).collect()
}

/// Any small map.
pub fn small(random: &mut Random) -> FeedCall {
    let places = 1 + random.below(30) as u32;
    if random.chance(25) {
        let places = places.max(2);
        let noise = 1 + random.below(40);
        let (start, spans) = disturbed(random, places, noise);
        return call(places, start, &spans);
    }
    let count = random.size(4 * places as usize + 2);
    let losses = *random.pick(&[1, 2, 5, 100, 1_000_000]);
    let start = random.below(u64::from(places)) as u32;
    call(places, start, &scattered(random, places, count, losses))
}

/// Gives each span a window between two of the cuts, which are ascending; many windows close as others open. Some spans
/// stay open all day.
pub fn give_windows(random: &mut Random, call: &mut FeedCall, cuts: &[u32]) {
    for (opens, closes) in call.opens.iter_mut().zip(&mut call.closes) {
        if random.chance(75) {
            let first = random.size(cuts.len() - 1);
            let later = first + 1 + random.size(cuts.len() - 1 - first);
            (*opens, *closes) = (cuts[first], cuts[later]);
        }
    }
}

/// The call at noon, when the last of every so many spans is closed.
pub fn with_closed(call: &FeedCall, every: usize) -> FeedCall {
    let mut call = FeedCall { minute: MINUTES / 2, ..call.clone() };
    call.closes.iter_mut().skip(every - 1).step_by(every).for_each(|closes| *closes = MINUTES / 2);
    call
}

/// The call at noon, when the spans are closed that lead on by an even number of places.
pub fn with_even_closed(call: &FeedCall) -> FeedCall {
    let mut call = FeedCall { minute: MINUTES / 2, ..call.clone() };
    for span in (0..call.from.len()).filter(|&span| (call.to[span] - call.from[span]) % 2 != 1) {
        call.closes[span] = MINUTES / 2;
    }
    call
}

/// Ascending minutes at which windows open and close, both ends of the day among them.
pub fn cuts(random: &mut Random) -> Vec<u32> {
    let mut cuts: Vec<u32> = (0..1 + random.size(3)).map(|_| 1 + random.below(1_439) as u32).collect();
    cuts.extend([0, MINUTES]);
    cuts.sort();
    cuts.dedup();
    cuts
}

/// The minutes of the day at, before and after each cut.
pub fn minutes_around(cuts: &[u32]) -> Vec<u32> {
    let around = cuts.iter().flat_map(|&cut| [cut.saturating_sub(1), cut, cut + 1]);
    let mut minutes: Vec<u32> = around.filter(|&minute| minute < MINUTES).collect();
    minutes.sort();
    minutes.dedup();
    minutes
}

/// A small map with windows, and the minutes around the ends of these.
pub fn with_windows(random: &mut Random) -> (FeedCall, Vec<u32>) {
    let mut call = small(random);
    let cuts = cuts(random);
    give_windows(random, &mut call, &cuts);
    (call, minutes_around(&cuts))
}

/// A small map with ties and with windows, and the minutes around the ends of these.
pub fn with_ties_and_windows(random: &mut Random) -> (FeedCall, Vec<u32>) {
    let mut call = with_ties(random, 9);
    let cuts = cuts(random);
    give_windows(random, &mut call, &cuts);
    (call, minutes_around(&cuts))
}

/// The spans of a call as (from, to, loss, opening, closing).
pub fn spans_of(call: &FeedCall) -> Vec<[u32; 5]> {
    let span = |at: usize| [call.from[at], call.to[at], call.loss[at], call.opens[at], call.closes[at]];
    (0..call.from.len()).map(span).collect()
}

/// The text of a map with spans given as (from, to, loss, opening, closing); without a last LF if `open`.
pub fn text_at(places: u32, start: u32, minute: u32, spans: &[[u32; 5]], open: bool) -> Vec<u8> {
    let mut text = format!("{places},{start},{minute}\n");
    for [from, to, loss, opens, closes] in spans {
        text += &format!("{from},{to},{loss},{opens},{closes}\n");
    }
    if open {
        text.pop();
    }
    text.into_bytes()
}

/// The text of a map with all windows open.
pub fn text(places: u32, start: u32, spans: &[[u32; 3]], open: bool) -> Vec<u8> {
    text_at(places, start, any_minute(places, start, spans), &self::open(spans), open)
}

pub fn text_of(call: &FeedCall, open: bool) -> Vec<u8> {
    text_at(call.places, call.start, call.minute, &spans_of(call), open)
}
