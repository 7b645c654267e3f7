//! The number of spans examined: those that leave a reached place or, with a budget, a listed one; closed ones count.

use reference::feed::{self, Asked, Lent, Spans};
use reference::{store, NONE};

/// From place 0, place 1 is reached at loss 7 and, while spans 1 and 2 are open, place 2 at 12 and place 3 at 16. Place 3
/// has no span; places 4 and 5 are reached from place 4 only. Spans are (from, to, loss, opening, closing).
const SPANS: [[u32; 5]; 7] = [
    [0, 1, 7, 0, 1_440],
    [0, 2, 20, 360, 720],
    [1, 2, 5, 360, 720],
    [2, 3, 4, 0, 1_440],
    [2, 0, 1, 0, 1],
    [4, 0, 1, 0, 1_440],
    [4, 5, 1, 0, 1_440],
];

/// Spans examined in full, and with a budget.
fn examined(start: u32, minute: u32, budget: Option<u32>) -> u32 {
    let [from, to, loss, opens, closes] = [0, 1, 2, 3, 4].map(|field| SPANS.map(|span| span[field]));
    let spans = Spans { from: &from, to: &to, loss: &loss, opens: &opens, closes: &closes };
    let asked = Asked { places: 6, start, minute, spans };
    let (mut lists, mut words) = ([[7; 6]; 4], vec![7; store::length(6)]);
    let [best, last, joints, listed] = &mut lists;
    let lent = Lent { best, last, joints, words: &mut words };
    let figures = match budget {
        None => feed::table(asked, lent),
        Some(budget) => feed::within(asked, budget, lent, listed).figures,
    };
    assert_eq!(figures.code, 0);
    figures.examined
}

#[test]
fn in_full() {
    let worked = [[0, 0, 3], [0, 360, 5], [1, 0, 1], [2, 0, 5], [3, 360, 0], [4, 360, 7], [5, 360, 0]];
    for [start, minute, number] in worked {
        assert_eq!(examined(start, minute, None), number, "start {start}, minute {minute}");
        assert_eq!(examined(start, minute, Some(NONE)), number, "start {start}, minute {minute}, largest budget");
    }
}

#[test]
fn within_budgets() {
    let worked = [[0, 0, 2], [0, 6, 2], [0, 7, 3], [0, 11, 3], [0, 12, 5], [0, 16, 5], [4, 0, 2], [4, 1, 4], [3, 0, 0]];
    for [start, budget, number] in worked {
        assert_eq!(examined(start, 360, Some(budget)), number, "start {start}, budget {budget}");
    }
}
