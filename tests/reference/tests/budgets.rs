//! The feed call with a budget: the scope paper's map, and small maps worked by hand.

use reference::feed::{self, Asked, Figures, Lent, Spans, Within};
use reference::{store, NONE};

/// A word that no call leaves.
const FOUND: u32 = 77;

struct Left {
    within: Within,
    best: Vec<u32>,
    last: Vec<u32>,
    joints: Vec<u32>,
    listed: Vec<u32>,
    words: Vec<u32>,
}

/// Spans given as (from, to, loss) as five lists, every window open all day.
fn open_lists(spans: &[[u32; 3]]) -> [Vec<u32>; 5] {
    let [from, to, loss] = [0, 1, 2].map(|field| spans.iter().map(|span| span[field]).collect());
    [from, to, loss, vec![0; spans.len()], vec![1_440; spans.len()]]
}

fn spans_of(lists: &[Vec<u32>; 5]) -> Spans<'_> {
    let [from, to, loss, opens, closes] = lists;
    Spans { from, to, loss, opens, closes }
}

/// A call on spans given as (from, to, loss), with a place list of `room` words.
fn call(places: u32, start: u32, spans: &[[u32; 3]], budget: u32, room: usize) -> Left {
    let lists = open_lists(spans);
    let [mut best, mut last, mut joints] = [(); 3].map(|()| vec![FOUND; places as usize]);
    let (mut listed, mut words) = (vec![FOUND; room], vec![FOUND; store::length(places as usize)]);
    let lent = Lent { best: &mut best, last: &mut last, joints: &mut joints, words: &mut words };
    let asked = Asked { places, start, minute: 0, spans: spans_of(&lists) };
    let within = feed::within(asked, budget, lent, &mut listed);
    Left { within, best, last, joints, listed, words }
}

fn done(links: u32, cuts: u32, examined: u32, listed: u32) -> Within {
    Within { figures: Figures { code: 0, links, cuts, examined }, listed }
}

/// Budget, places listed, losses, spans, joints, spans examined.
type Row = (u32, &'static [u32], [u32; 3], [u32; 3], [u32; 3], u32);

const WORKED: [[u32; 3]; 3] = [[0, 1, 7], [0, 2, 20], [1, 2, 5]];

#[test]
fn the_papers_map() {
    let shown: [Row; 6] = [
        (0, &[0], [0, NONE, NONE], [NONE, NONE, NONE], [0, NONE, NONE], 2),
        (6, &[0], [0, NONE, NONE], [NONE, NONE, NONE], [0, NONE, NONE], 2),
        (7, &[0, 1], [0, 7, NONE], [NONE, 0, NONE], [0, 1, NONE], 3),
        (11, &[0, 1], [0, 7, NONE], [NONE, 0, NONE], [0, 1, NONE], 3),
        (12, &[0, 1, 2], [0, 7, 12], [NONE, 0, 2], [0, 1, 2], 3),
        (NONE, &[0, 1, 2], [0, 7, 12], [NONE, 0, 2], [0, 1, 2], 3),
    ];
    for (budget, places, best, last, joints, examined) in shown {
        for room in [3, 8] {
            let left = call(3, 0, &WORKED, budget, room);
            assert_eq!(left.within, done(0, 0, examined, places.len() as u32), "budget {budget}");
            assert_eq!((&left.best[..], &left.last[..]), (&best[..], &last[..]), "budget {budget}");
            assert_eq!(left.joints, joints, "budget {budget}");
            let (listed, beyond) = left.listed.split_at(places.len());
            assert_eq!(listed, places, "budget {budget}");
            assert!(beyond.iter().all(|&word| word == FOUND), "budget {budget}");
            assert_eq!(left.words, store::empty(3));
        }
    }
}

#[test]
fn a_tie_at_the_budget() {
    let spans = [[0, 1, 3], [0, 2, 4], [0, 3, 4], [1, 2, 1]];
    let left = call(5, 0, &spans, 4, 5);
    assert_eq!(left.listed, [0, 1, 2, 3, FOUND]);
    assert_eq!(left.best, [0, 3, 4, 4, NONE]);
    assert_eq!(left.last, [NONE, 0, 1, 2, NONE]);
    assert_eq!(left.joints, [0, 1, 1, 1, NONE]);
    // Taking 1 links 2 and 3; nothing is linked after that.
    assert_eq!(left.within, done(1, 0, 4, 4));
    assert_eq!(call(5, 0, &spans, 3, 5).listed, [0, 1, FOUND, FOUND, FOUND]);
}

/// Seven places wait when the finder stops: row 8, 6, 2, with 7 below 6, and 3, 4 and 5 below 2. Lowering 8, a root,
/// cuts nothing; lowering 7 does.
#[test]
fn moves_until_it_stops() {
    let mut spans: Vec<[u32; 3]> = (1..9).map(|to| [0, to, 10 * to]).collect();
    spans.push([1, 8, 2]);
    assert_eq!(call(9, 0, &spans, 9, 9).within, done(0, 0, 8, 1));
    let left = call(9, 0, &spans, 10, 9);
    assert_eq!(left.within, done(4, 0, 9, 2));
    assert_eq!(left.listed[..3], [0, 1, FOUND]);
    let spans = [&spans[..8], &[[1, 7, 2]]].concat();
    assert_eq!(call(9, 0, &spans, 10, 9).within, done(4, 1, 9, 2));
}

/// Chains that are longer than the budget are as none; so is none at all, also under the largest budget.
#[test]
fn an_unreached_place() {
    let spans = [[0, 1, 7], [2, 1, 1]];
    let left = call(3, 0, &spans, NONE, 4);
    assert_eq!((&left.best[..], &left.last[..]), (&[0, 7, NONE][..], &[NONE, 0, NONE][..]));
    assert_eq!(left.joints, [0, 1, NONE]);
    assert_eq!(left.listed, [0, 1, FOUND, FOUND]);
    assert_eq!(left.within, done(0, 0, 1, 2));
}

/// The largest budget lists every reached place, and is a full call in all else.
#[test]
fn the_largest_budget_is_a_full_call() {
    let spans = [[0, 1, 9], [0, 2, 5], [0, 3, 8], [0, 4, 7], [1, 5, 1], [2, 3, 1], [2, 4, 1], [3, 1, 1], [4, 4, 3]];
    let left = call(6, 0, &spans, NONE, 6);
    let lists = open_lists(&spans);
    let [mut best, mut last, mut joints] = [(); 3].map(|()| vec![0; 6]);
    let mut words = vec![0; store::length(6)];
    let lent = Lent { best: &mut best, last: &mut last, joints: &mut joints, words: &mut words };
    let full = feed::table(Asked { places: 6, start: 0, minute: 0, spans: spans_of(&lists) }, lent);
    assert_eq!(left.within, Within { figures: full, listed: 6 });
    assert_eq!((left.best, left.last, left.joints, left.words), (best, last, joints, words));
    assert_eq!(left.listed, [0, 2, 3, 4, 1, 5]);
}

#[test]
fn a_refused_call_leaves_everything() {
    for (start, room, code) in [(3, 3, 15), (0, 2, 22), (0, 0, 22)] {
        let left = call(3, start, &WORKED, 9, room);
        assert_eq!(left.within, Within { figures: Figures { code, ..Figures::default() }, listed: 0 });
        assert_eq!(left.within.numbers(), [0; 4]);
        for list in [&left.best, &left.last, &left.joints, &left.listed, &left.words] {
            assert!(list.iter().all(|&word| word == FOUND));
        }
    }
}
