//! Faults in the number of spans examined.

use super::search::Within;
use super::Mock;
use super::Variant::*;
use reference::NONE;
use std::collections::BTreeSet;

/// The spans of a map, and which of them leave a place that the call shows a loss for.
struct Leaving<'a> {
    within: Within<'a>,
    best: &'a [u32],
}

impl Leaving<'_> {
    /// The number of spans of which something is so.
    fn count(&self, is_so: impl Fn(usize) -> bool) -> u32 {
        (0..self.within.asked.spans.from.len()).filter(|&span| is_so(span)).count() as u32
    }

    fn from(&self, span: usize) -> u32 {
        self.within.asked.spans.from[span]
    }

    fn to(&self, span: usize) -> u32 {
        self.within.asked.spans.to[span]
    }

    fn is_reached(&self, place: u32) -> bool {
        self.best[place as usize] != NONE
    }

    /// Whether the span is one of those to be counted.
    fn counts(&self, span: usize) -> bool {
        self.is_reached(self.from(span))
    }

    fn is_open(&self, span: usize) -> bool {
        self.within.asked.is_usable(span)
    }

    /// The number of spans that leave a place.
    fn spans_of(&self, place: u32) -> u32 {
        self.count(|span| self.from(span) == place)
    }

    /// The place of the largest loss, of several the one with the highest number: it is visited last.
    fn visited_last(&self) -> u32 {
        let reached = (0..self.within.asked.places).filter(|&place| self.is_reached(place));
        reached.max_by_key(|&place| (self.best[place as usize], place)).expect("the start is reached")
    }

    /// How many pairs of from and to the counted spans have.
    fn ways(&self) -> u32 {
        let counted = (0..self.within.asked.spans.from.len()).filter(|&span| self.counts(span));
        counted.map(|span| (self.from(span), self.to(span))).collect::<BTreeSet<_>>().len() as u32
    }
}

impl Mock {
    /// The number of spans that a call which is done says it examined, given the right one. `best` has the losses shown.
    pub(super) fn examined(&self, within: Within, best: &[u32], right: u32) -> u32 {
        let map = Leaving { within, best };
        let one_more = |place: u32| right + u32::from(map.is_reached(place) && map.spans_of(place) == 0);
        match self.variant {
            Some(ClosedSpansNotCounted) => map.count(|span| map.counts(span) && map.is_open(span)),
            Some(EveryClosedSpanCounted) => map.count(|span| map.counts(span) || !map.is_open(span)),
            Some(EveryOpenSpanCounted) => map.count(|span| map.counts(span) || map.is_open(span)),
            Some(EverySpanCounted) => map.count(|_| true),
            Some(SpansIntoReachedPlacesCounted) => map.count(|span| map.is_reached(map.to(span))),
            Some(OneMoreIfThePlaceVisitedLastHasNoSpan) => one_more(map.visited_last()),
            Some(OneMoreIfTheHighestPlaceHasNoSpan) => one_more(within.asked.places - 1),
            Some(PlaceVisitedLastNotCounted) => right - map.spans_of(map.visited_last()),
            Some(SelfSpansNotCounted) => map.count(|span| map.counts(span) && map.from(span) != map.to(span)),
            Some(SpansIntoTheStartNotCounted) => {
                map.count(|span| map.counts(span) && map.to(span) != within.asked.start)
            }
            Some(ParallelSpansCountedOnce) => map.ways(),
            Some(PlacesCountedForSpans) => within.asked.places,
            Some(CountFromOne) => right + 1,
            Some(SpansCountedTwice) => 2 * right,
            Some(CountCutTo8Bits) => right % 256,
            Some(CountCutTo12Bits) => right % 4_096,
            Some(CountCutTo14Bits) => right % 16_384,
            _ => self.examined_beyond(&map, right),
        }
    }

    /// The same with faults in what counts beyond the budget.
    fn examined_beyond(&self, map: &Leaving, right: u32) -> u32 {
        let met = |budget| self.search(Within { budget, ..map.within }).entries;
        let leaving_met = |budget| {
            let met = met(budget);
            map.count(|span| met[map.from(span) as usize].loss != NONE)
        };
        match self.variant {
            Some(SpansBeyondTheBudgetCounted) => leaving_met(NONE),
            Some(SpansOfWaitingPlacesCounted) => leaving_met(map.within.budget),
            Some(SpansOfTheFirstWaitingPlaceCounted) => {
                let first = self.search(map.within).first_waiting();
                right + first.map_or(0, |(place, _)| map.spans_of(place))
            }
            _ => right,
        }
    }
}
