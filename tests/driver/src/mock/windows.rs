//! Faults in windows and in the minute of a feed call.

use super::Mock;
use super::Variant::{self, *};
use reference::feed::{self, is_faulty_window, Asked, Lent, Spans, MINUTES};
use reference::NONE;

/// Faults in which spans are used.
const USES: [Variant; 6] = [
    UsableAtTheClosingMinute,
    ClosedAtTheOpeningMinute,
    OpeningIgnored,
    ClosingIgnored,
    WindowsIgnored,
    ClosedSpanEndsTheTrying,
];

/// Window lists in place of those that are lent.
pub(super) struct Windows {
    opens: Vec<u32>,
    closes: Vec<u32>,
}

impl Windows {
    fn new(windows: impl Iterator<Item = [u32; 2]>) -> Windows {
        let (opens, closes) = windows.map(|[opens, closes]| (opens, closes)).unzip();
        Windows { opens, closes }
    }

    pub(super) fn of<'a>(&'a self, asked: Asked<'a>) -> Asked<'a> {
        Asked { spans: Spans { opens: &self.opens, closes: &self.closes, ..asked.spans }, ..asked }
    }
}

impl Mock {
    /// Windows by which the reference uses the spans that this engine uses.
    pub(super) fn windows_used(&self, asked: Asked) -> Windows {
        if !self.variant.is_some_and(|variant| USES.contains(&variant)) {
            return Windows { opens: asked.spans.opens.to_vec(), closes: asked.spans.closes.to_vec() };
        }
        // A minute long, and another minute than the one asked for.
        let closed = if asked.minute == 0 { [1, 2] } else { [0, 1] };
        let window = |span| if self.uses(asked, span) { [0, MINUTES] } else { closed };
        Windows::new((0..asked.spans.from.len()).map(window))
    }

    fn uses(&self, asked: Asked, span: usize) -> bool {
        let (opens, minute, closes) = (asked.spans.opens[span], asked.minute, asked.spans.closes[span]);
        let from = asked.spans.from;
        match self.variant {
            Some(UsableAtTheClosingMinute) => opens <= minute && minute <= closes,
            Some(ClosedAtTheOpeningMinute) => opens < minute && minute < closes,
            Some(OpeningIgnored) => minute < closes,
            Some(ClosingIgnored) => opens <= minute,
            Some(WindowsIgnored) => true,
            Some(ClosedSpanEndsTheTrying) => {
                let mut of_its_place = (0..=span).rev().take_while(|&before| from[before] == from[span]);
                of_its_place.all(|before| asked.is_usable(before))
            }
            _ => asked.is_usable(span),
        }
    }

    /// A fault in what closed spans leave in the table.
    pub(super) fn spoil_closed(&self, asked: Asked, best: &[u32], last: &mut [u32]) {
        if !self.is(ClosedSpanShownOnTies) {
            return;
        }
        let Asked { start, spans, .. } = asked;
        let is_tried = |span: &usize| best[spans.from[*span] as usize] != NONE;
        for span in (0..spans.from.len()).filter(|&span| !asked.is_usable(span)).filter(is_tried) {
            let (from, to) = (spans.from[span] as usize, spans.to[span] as usize);
            if best[from] + spans.loss[span] == best[to] && spans.to[span] != start {
                last[to] = last[to].min(span as u32);
            }
        }
    }

    /// The code of a call, with faults in the tests of windows and of the minute. `listed` is the length of the place
    /// list, where one is lent.
    pub(super) fn windows_code(&self, asked: Asked, lent: &Lent, listed: Option<usize>) -> u32 {
        let code = feed::refusal(asked, lent, listed);
        match code {
            14 | 15 | 24 => self.minute_code(code, asked, lent, listed),
            _ if asked.minute == MINUTES - 1 && self.is(LastMinuteRefused) => 24,
            16 => self.length_code(asked, lent, listed),
            17 | 22 => code,
            _ => self.span_code(code, asked, lent, listed),
        }
    }

    /// The code where the right one is 14, 15 or 24.
    fn minute_code(&self, code: u32, asked: Asked, lent: &Lent, listed: Option<usize>) -> u32 {
        let later = || feed::refusal(Asked { minute: 0, ..asked }, lent, listed);
        let first_of = |codes: &[u32]| if codes.contains(&later()) { later() } else { 24 };
        match (self.variant, code) {
            (Some(MinuteTestedBeforePlaces), 14 | 15) if asked.minute >= MINUTES => 24,
            (Some(MinuteTestedBeforeStart), 15) if asked.minute >= MINUTES => 24,
            (Some(MinuteTestedAfterSpanLists), 24) => first_of(&[16]),
            (Some(MinuteTestedAfterResultLists), 24) => first_of(&[16, 17]),
            (Some(MinuteTestedAfterPlaceList), 24) => first_of(&[16, 17, 22]),
            (Some(MinuteTestedAfterSpans), 24) => first_of(&[16, 17, 22, 18, 19, 20, 23]),
            (Some(Minute1440Accepted), 24) if asked.minute == MINUTES => later(),
            (Some(MinuteNotTested), 24) => later(),
            (Some(MinuteCutTo16Bits), 24) if asked.minute % 65_536 < MINUTES => later(),
            _ => code,
        }
    }

    /// The code where the right one is 16.
    fn length_code(&self, asked: Asked, lent: &Lent, listed: Option<usize>) -> u32 {
        let Spans { from, opens, closes, .. } = asked.spans;
        let mut windows = Windows { opens: opens.to_vec(), closes: closes.to_vec() };
        match self.variant {
            Some(OpeningListNotCompared) => windows.opens.resize(from.len(), 0),
            Some(ClosingListNotCompared) => windows.closes.resize(from.len(), MINUTES),
            _ => {}
        }
        feed::refusal(windows.of(asked), lent, listed)
    }

    /// The code where the right one is 0 or that of a span.
    fn span_code(&self, code: u32, asked: Asked, lent: &Lent, listed: Option<usize>) -> u32 {
        let Spans { opens, closes, .. } = asked.spans;
        match self.variant {
            Some(WindowTestedBeforeOrder) if code == 20 && first_has_faulty_window(asked) => 23,
            Some(WindowTestedBeforePlaces) if code != 0 && first_has_faulty_window(asked) => 23,
            Some(WindowsTestedAfterAllSpans) if code == 23 => {
                let others = feed::refusal(Windows::new(opens.iter().map(|_| [0, MINUTES])).of(asked), lent, listed);
                if others == 0 {
                    23
                } else {
                    others
                }
            }
            Some(ClosedSpansNotTested) => open_spans_code(asked, lent, listed),
            Some(
                AlwaysOpenWindowRefused
                | WindowOfOneMinuteRefused
                | ClosingAt1441Accepted
                | AnyClosingAccepted
                | EmptyWindowAccepted
                | TurnedWindowAccepted
                | WindowCutTo16Bits,
            ) => {
                let windows =
                    Windows::new(opens.iter().zip(closes).map(|(&opens, &closes)| self.taken_for(opens, closes)));
                feed::refusal(windows.of(asked), lent, listed)
            }
            _ => code,
        }
    }

    /// A window that the reference accepts if this engine accepts the given one.
    fn taken_for(&self, opens: u32, closes: u32) -> [u32; 2] {
        let refused = match self.variant {
            Some(AlwaysOpenWindowRefused) => (opens, closes) == (0, MINUTES) || is_faulty_window(opens, closes),
            Some(WindowOfOneMinuteRefused) => closes <= opens.saturating_add(1) || closes > MINUTES,
            Some(ClosingAt1441Accepted) => closes <= opens || closes > MINUTES + 1,
            Some(AnyClosingAccepted) => closes <= opens,
            Some(EmptyWindowAccepted) => closes < opens || closes > MINUTES,
            Some(TurnedWindowAccepted) => closes == opens || closes > MINUTES,
            Some(WindowCutTo16Bits) => is_faulty_window(opens % 65_536, closes % 65_536),
            _ => is_faulty_window(opens, closes),
        };
        if refused {
            [1, 1]
        } else {
            [0, MINUTES]
        }
    }
}

/// Whether the first faulty span has a fault in its window too.
fn first_has_faulty_window(asked: Asked) -> bool {
    let Asked { places, spans, .. } = asked;
    let first = (0..spans.from.len()).find(|&span| feed::span_fault(places, spans, span) != 0);
    first.is_some_and(|span| is_faulty_window(spans.opens[span], spans.closes[span]))
}

/// The code of the call on the open spans alone.
fn open_spans_code(asked: Asked, lent: &Lent, listed: Option<usize>) -> u32 {
    let Spans { from, to, loss, opens, closes } = asked.spans;
    let kept = |list: &[u32]| -> Vec<u32> {
        (0..list.len()).filter(|&span| asked.is_usable(span)).map(|span| list[span]).collect()
    };
    let [from, to, loss, opens, closes] = [from, to, loss, opens, closes].map(kept);
    let spans = Spans { from: &from, to: &to, loss: &loss, opens: &opens, closes: &closes };
    feed::refusal(Asked { spans, ..asked }, lent, listed)
}
