//! Supply windows: the scope paper's map with windows, and small maps worked by hand.

use reference::feed::{self, Asked, Lent, Spans};
use reference::{store, NONE};

/// Losses, spans, joints and the three figures that a full call leaves.
#[derive(Debug, PartialEq)]
struct Left {
    best: Vec<u32>,
    last: Vec<u32>,
    joints: Vec<u32>,
    figures: [u32; 3],
}

fn left(best: &[u32], last: &[u32], joints: &[u32], figures: [u32; 3]) -> Left {
    Left { best: best.to_vec(), last: last.to_vec(), joints: joints.to_vec(), figures }
}

struct Map {
    places: u32,
    lists: [Vec<u32>; 5],
}

impl Map {
    /// Spans given as (from, to, loss, opening, closing).
    fn new(places: u32, spans: &[[u32; 5]]) -> Map {
        Map { places, lists: [0, 1, 2, 3, 4].map(|field| spans.iter().map(|span| span[field]).collect()) }
    }

    fn asked(&self, minute: u32) -> Asked<'_> {
        let [from, to, loss, opens, closes] = &self.lists;
        Asked { places: self.places, start: 0, minute, spans: Spans { from, to, loss, opens, closes } }
    }

    fn at(&self, minute: u32) -> Left {
        let [mut best, mut last, mut joints] = [(); 3].map(|()| vec![7; self.places as usize]);
        let mut words = vec![7; store::length(self.places as usize)];
        let lent = Lent { best: &mut best, last: &mut last, joints: &mut joints, words: &mut words };
        let figures = feed::table(self.asked(minute), lent);
        assert_eq!((figures.code, words), (0, store::empty(self.places as usize)));
        Left { best, last, joints, figures: [figures.links, figures.cuts, figures.examined] }
    }

    /// What a call with a budget leaves, and the places that it lists.
    fn within(&self, minute: u32, budget: u32) -> (Left, Vec<u32>) {
        let [mut best, mut last, mut joints] = [(); 3].map(|()| vec![7; self.places as usize]);
        let mut words = vec![7; store::length(self.places as usize)];
        let mut listed = vec![7; self.places as usize];
        let lent = Lent { best: &mut best, last: &mut last, joints: &mut joints, words: &mut words };
        let within = feed::within(self.asked(minute), budget, lent, &mut listed);
        assert_eq!((within.figures.code, words), (0, store::empty(self.places as usize)));
        listed.truncate(within.listed as usize);
        let [links, cuts, examined, _] = within.numbers();
        (Left { best, last, joints, figures: [links, cuts, examined] }, listed)
    }
}

/// The paper's map, each span with a window of its own.
fn worked() -> Map {
    Map::new(3, &[[0, 1, 7, 100, 500], [0, 2, 20, 0, 1_440], [1, 2, 5, 300, 400]])
}

#[test]
fn the_papers_map() {
    let shown = [
        ([0, 99, 500, 1_439], left(&[0, NONE, 20], &[NONE, NONE, 1], &[0, NONE, 1], [0, 0, 2])),
        ([100, 299, 400, 499], left(&[0, 7, 20], &[NONE, 0, 1], &[0, 1, 1], [0, 0, 3])),
        ([300, 301, 398, 399], left(&[0, 7, 12], &[NONE, 0, 2], &[0, 1, 2], [0, 0, 3])),
    ];
    for (minutes, expected) in shown {
        for minute in minutes {
            assert_eq!(worked().at(minute), expected, "minute {minute}");
        }
    }
}

#[test]
fn the_papers_map_within_a_budget() {
    // The last span is closed, so that place 2 is beyond a budget that it is within at minute 300.
    let far = left(&[0, 7, NONE], &[NONE, 0, NONE], &[0, 1, NONE], [0, 0, 3]);
    assert_eq!(worked().within(299, 12), (far, vec![0, 1]));
    let near = left(&[0, 7, 12], &[NONE, 0, 2], &[0, 1, 2], [0, 0, 3]);
    assert_eq!(worked().within(300, 12), (near, vec![0, 1, 2]));
    let start = || (left(&[0, NONE, NONE], &[NONE; 3], &[0, NONE, NONE], [0, 0, 2]), vec![0]);
    assert_eq!(worked().within(300, 6), start());
    let direct = left(&[0, NONE, 20], &[NONE, NONE, 1], &[0, NONE, 1], [0, 0, 2]);
    assert_eq!(worked().within(99, 20), (direct, vec![0, 2]));
    assert_eq!(worked().within(99, 19), start());
}

/// Of two parallel spans one closes at the minute at which the other opens: there is always exactly one.
#[test]
fn touching_windows() {
    let map = Map::new(2, &[[0, 1, 9, 0, 600], [0, 1, 4, 600, 1_440]]);
    for (minute, loss, span) in [(0, 9, 0), (599, 9, 0), (600, 4, 1), (1_439, 4, 1)] {
        assert_eq!(map.at(minute), left(&[0, loss], &[NONE, span], &[0, 1], [0, 0, 2]), "minute {minute}");
    }
}

/// A window of one minute, in the middle and at both ends of the day.
#[test]
fn one_minute() {
    for opens in [0, 720, 1_439] {
        let map = Map::new(2, &[[0, 1, 3, opens, opens + 1]]);
        for minute in [0, 719, 720, 721, 1_438, 1_439] {
            let open = left(&[0, 3], &[NONE, 0], &[0, 1], [0, 0, 1]);
            let closed = left(&[0, NONE], &[NONE, NONE], &[0, NONE], [0, 0, 1]);
            assert_eq!(map.at(minute), if minute == opens { open } else { closed }, "{opens}, minute {minute}");
        }
    }
}

/// Spans 0 to 2 are equal; the lowest-numbered open one is shown. Span 3 is from a place that is not reached.
#[test]
fn closed_spans_in_a_tie() {
    let spans = [[0, 1, 4, 0, 10], [0, 1, 4, 5, 20], [0, 1, 4, 0, 1_440], [2, 1, 1, 0, 1_440]];
    let map = Map::new(3, &spans);
    for (minute, span) in [(0, 0), (9, 0), (10, 1), (19, 1), (20, 2), (1_439, 2)] {
        let expected = left(&[0, 4, NONE], &[NONE, span, NONE], &[0, 1, NONE], [0, 0, 3]);
        assert_eq!(map.at(minute), expected, "minute {minute}");
    }
}

/// Eight spans of the start wait; the closed ones make no queue call, so that there is less to link.
#[test]
fn closed_spans_make_no_calls() {
    let spans: Vec<[u32; 5]> = (1..9).map(|to| [0, to, 10 * to, 0, if to % 2 == 0 { 700 } else { 1_440 }]).collect();
    let map = Map::new(9, &spans);
    // Eight wait: taking 1 to 6 links 4, 2, 1, 2, 0 and 1 of them.
    assert_eq!(map.at(699).figures, [10, 0, 8]);
    assert_eq!(map.at(699).best, [0, 10, 20, 30, 40, 50, 60, 70, 80]);
    // Four wait: taking 1 links 3 and 5; taking 3 leaves 5 and 7, which are linked.
    let (best, last) = ([0, 10, NONE, 30, NONE, 50, NONE, 70, NONE], [NONE, 0, NONE, 2, NONE, 4, NONE, 6, NONE]);
    let joints = [0, 1, NONE, 1, NONE, 1, NONE, 1, NONE];
    assert_eq!(map.at(700), left(&best, &last, &joints, [2, 0, 8]));
}

/// A start whose spans are all closed.
#[test]
fn nothing_open() {
    let map = Map::new(3, &[[0, 1, 1, 0, 1], [0, 2, 1, 0, 1], [1, 2, 1, 0, 1_440]]);
    let start = || left(&[0, NONE, NONE], &[NONE; 3], &[0, NONE, NONE], [0, 0, 2]);
    assert_eq!(map.at(1), start());
    assert_eq!(map.within(1, NONE), (start(), vec![0]));
    assert_eq!(map.at(0).best, [0, 1, 1]);
}

/// With every window open all day, no minute makes a difference.
#[test]
fn always_open() {
    let map = Map::new(3, &[[0, 1, 7, 0, 1_440], [0, 2, 20, 0, 1_440], [1, 2, 5, 0, 1_440]]);
    for minute in 0..1_440 {
        let expected = left(&[0, 7, 12], &[NONE, 0, 2], &[0, 1, 2], [0, 0, 3]);
        assert_eq!(map.at(minute), expected, "minute {minute}");
    }
}
