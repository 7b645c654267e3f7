//! Chains of equal loss: maps worked by hand, and small maps on which every chain is walked.

use reference::feed::{self, Asked, Lent, Spans};
use reference::{program, store, NONE};

/// Losses, spans, joints and the three figures that a call leaves.
#[derive(Debug, PartialEq)]
struct Left {
    best: Vec<u32>,
    last: Vec<u32>,
    joints: Vec<u32>,
    figures: [u32; 3],
}

struct Map {
    places: u32,
    start: u32,
    minute: u32,
    lists: [Vec<u32>; 5],
}

impl Map {
    /// Spans given as (from, to, loss, opening, closing).
    fn at(places: u32, start: u32, minute: u32, spans: &[[u32; 5]]) -> Map {
        let lists = [0, 1, 2, 3, 4].map(|field| spans.iter().map(|span| span[field]).collect());
        Map { places, start, minute, lists }
    }

    /// Spans given as (from, to, loss), always open.
    fn new(places: u32, start: u32, spans: &[[u32; 3]]) -> Map {
        let open: Vec<[u32; 5]> = spans.iter().map(|&[from, to, loss]| [from, to, loss, 0, 1_440]).collect();
        Map::at(places, start, 720, &open)
    }

    fn asked(&self) -> Asked<'_> {
        let [from, to, loss, opens, closes] = &self.lists;
        let spans = Spans { from, to, loss, opens, closes };
        Asked { places: self.places, start: self.start, minute: self.minute, spans }
    }

    fn full(&self) -> Left {
        let [mut best, mut last, mut joints] = [(); 3].map(|()| vec![7; self.places as usize]);
        let mut words = vec![7; store::length(self.places as usize)];
        let lent = Lent { best: &mut best, last: &mut last, joints: &mut joints, words: &mut words };
        let figures = feed::table(self.asked(), lent);
        assert_eq!((figures.code, words), (0, store::empty(self.places as usize)));
        Left { best, last, joints, figures: [figures.links, figures.cuts, figures.examined] }
    }

    /// What a call with a budget leaves, and the places that it lists.
    fn within(&self, budget: u32) -> (Left, Vec<u32>) {
        let [mut best, mut last, mut joints, mut listed] = [(); 4].map(|()| vec![7; self.places as usize]);
        let mut words = vec![7; store::length(self.places as usize)];
        let lent = Lent { best: &mut best, last: &mut last, joints: &mut joints, words: &mut words };
        let within = feed::within(self.asked(), budget, lent, &mut listed);
        assert_eq!((within.figures.code, words), (0, store::empty(self.places as usize)));
        listed.truncate(within.listed as usize);
        let [links, cuts, examined, _] = within.numbers();
        (Left { best, last, joints, figures: [links, cuts, examined] }, listed)
    }
}

fn left(best: &[u32], last: &[u32], joints: &[u32], figures: [u32; 3]) -> Left {
    Left { best: best.to_vec(), last: last.to_vec(), joints: joints.to_vec(), figures }
}

/// Place 2 is nearer by two spans than by one: fewer spans count only where the loss is equal.
#[test]
fn the_papers_map() {
    let map = Map::new(3, 0, &[[0, 1, 7], [0, 2, 20], [1, 2, 5]]);
    assert_eq!(map.full(), left(&[0, 7, 12], &[NONE, 0, 2], &[0, 1, 2], [0, 0, 3]));
}

/// One span and two of the same loss, with the shorter chain's span before and after the longer one's.
#[test]
fn two_lengths() {
    let before = Map::new(3, 0, &[[0, 1, 1], [0, 2, 2], [1, 2, 1]]);
    assert_eq!(before.full(), left(&[0, 1, 2], &[NONE, 0, 1], &[0, 1, 1], [0, 0, 3]));
    let after = Map::new(3, 2, &[[0, 1, 1], [2, 0, 1], [2, 1, 2]]);
    assert_eq!(after.full(), left(&[1, 2, 0], &[1, 2, NONE], &[1, 1, 0], [0, 0, 3]));
}

/// The longer chain is found last, and its span has the lower number; then the shorter one is found last.
#[test]
fn two_lengths_found_in_either_order() {
    // Place 0 is reached over 4, 1 and 2; it is taken after 3, which offers place 5 by two spans.
    let spans = [[0, 5, 1], [1, 2, 1], [2, 0, 1], [3, 5, 2], [4, 1, 1], [4, 3, 2]];
    let longer_last = Map::new(6, 4, &spans);
    assert_eq!(longer_last.full().best, [3, 1, 2, 2, 0, 4]);
    assert_eq!((longer_last.full().last[5], longer_last.full().joints[5]), (3, 2));
    // Place 3 is dearer now, so that 0 offers place 5 first.
    let spans = [[0, 5, 2], [1, 2, 1], [2, 0, 1], [3, 5, 1], [4, 1, 1], [4, 3, 4]];
    let shorter_last = Map::new(6, 4, &spans);
    assert_eq!(shorter_last.full().best, [3, 1, 2, 4, 0, 5]);
    assert_eq!((shorter_last.full().last[5], shorter_last.full().joints[5]), (3, 2));
}

/// Place 1 is taken before 0, so that span 1 is found before span 0, which ends as short a chain.
#[test]
fn equal_lengths() {
    let map = Map::new(4, 2, &[[0, 3, 1], [1, 3, 2], [2, 0, 2], [2, 1, 1]]);
    assert_eq!(map.full(), left(&[2, 1, 0, 3], &[2, 3, NONE, 0], &[1, 1, 0, 2], [0, 0, 4]));
}

/// Chains of three, two and one span; the same without the last of these; and three of two spans, the lowest found last.
#[test]
fn three_chains() {
    let spans = [[0, 1, 2], [0, 2, 4], [1, 2, 2], [3, 0, 2], [3, 2, 6]];
    let map = Map::new(4, 3, &spans);
    assert_eq!(map.full(), left(&[2, 4, 6, 0], &[3, 0, 4, NONE], &[1, 2, 1, 0], [0, 0, 5]));
    let map = Map::new(4, 3, &spans[..4]);
    assert_eq!(map.full(), left(&[2, 4, 6, 0], &[3, 0, 1, NONE], &[1, 2, 2, 0], [0, 0, 4]));
    let map = Map::new(5, 0, &[[0, 1, 3], [0, 2, 2], [0, 3, 1], [1, 4, 1], [2, 4, 2], [3, 4, 3]]);
    assert_eq!(map.full().last, [NONE, 0, 1, 2, 3]);
    assert_eq!(map.full().joints, [0, 1, 1, 1, 2]);
}

/// Place 4 is met at 9, then lowered to 6 at the end of three spans; 3 offers the same loss at the end of two before 4 is
/// taken. Place 5 stands behind it.
fn improved() -> Map {
    Map::new(6, 0, &[[0, 1, 1], [0, 3, 4], [0, 4, 9], [1, 2, 1], [2, 4, 4], [3, 4, 2], [4, 5, 1]])
}

#[test]
fn improved_while_it_waits() {
    // Taking 1 links 3 and 4, and the lowered 4 stays below 3: the better chain makes no call.
    let expected = left(&[0, 1, 2, 4, 6, 7], &[NONE, 0, 3, 1, 5, 6], &[0, 1, 2, 1, 2, 3], [1, 0, 7]);
    assert_eq!(improved().full(), expected);
}

#[test]
fn improved_within_a_budget() {
    let until_3 = left(&[0, 1, 2, 4, NONE, NONE], &[NONE, 0, 3, 1, NONE, NONE], &[0, 1, 2, 1, NONE, NONE], [1, 0, 6]);
    assert_eq!(improved().within(5), (until_3, vec![0, 1, 2, 3]));
    let until_4 = left(&[0, 1, 2, 4, 6, NONE], &[NONE, 0, 3, 1, 5, NONE], &[0, 1, 2, 1, 2, NONE], [1, 0, 7]);
    assert_eq!(improved().within(6), (until_4, vec![0, 1, 2, 3, 4]));
    assert_eq!(improved().within(7), (improved().full(), vec![0, 1, 2, 3, 4, 5]));
    let start = left(&[0, NONE, NONE, NONE, NONE, NONE], &[NONE; 6], &[0, NONE, NONE, NONE, NONE, NONE], [0, 0, 3]);
    assert_eq!(improved().within(0), (start, vec![0]));
}

/// Spans with larger numbers make the shorter chain, which is closed for an hour.
#[test]
fn the_shorter_chain_is_closed() {
    let at = |minute| {
        let spans = [[0, 1, 1, 0, 1_440], [2, 0, 1, 0, 1_440], [2, 1, 2, 0, 600], [2, 1, 2, 660, 1_440]];
        Map::at(3, 2, minute, &spans).full()
    };
    for (minute, span, hops) in [(0, 2, 1), (599, 2, 1), (600, 0, 2), (659, 0, 2), (660, 3, 1), (1_439, 3, 1)] {
        let expected = left(&[1, 2, 0], &[1, span, NONE], &[1, hops, 0], [0, 0, 4]);
        assert_eq!(at(minute), expected, "minute {minute}");
    }
}

#[test]
fn unreached_places_and_the_start() {
    let map = Map::new(4, 1, &[[1, 1, 1], [1, 2, 3], [2, 1, 1], [3, 2, 1]]);
    assert_eq!(map.full(), left(&[NONE, 0, 3, NONE], &[NONE, NONE, 1, NONE], &[NONE, 0, 1, NONE], [0, 0, 3]));
}

#[test]
fn a_tie_as_it_is_printed() {
    let printed = program::feed(b"4,2,0\n0,1,1,0,1440\n2,0,1,0,1440\n2,1,2,0,1440\n");
    assert_eq!(printed, b"0,1,1,1\n1,2,2,1\n2,0,-,0\n3,-,-,-\n0,0,3\n");
}

/// Numbers below a limit, from a fixed seed.
struct Draws(u64);

impl Draws {
    fn below(&mut self, limit: u32) -> u32 {
        self.0 = self.0.wrapping_mul(6_364_136_223_846_793_005).wrapping_add(1_442_695_040_888_963_407);
        (self.0 >> 33) as u32 % limit
    }

    /// A map of few places with small losses, some spans of which are closed at its minute. The start is often the last
    /// place, whose spans have the highest numbers.
    fn map(&mut self) -> Map {
        let places = 2 + self.below(5);
        let windows = [[0, 1_440], [0, 1_440], [720, 721], [0, 721], [0, 720]];
        let mut spans: Vec<[u32; 5]> = (0..self.below(22))
            .map(|_| {
                let [opens, closes] = windows[self.below(5) as usize];
                [self.below(places), self.below(places), 1 + self.below(3), opens, closes]
            })
            .collect();
        spans.sort_by_key(|span| span[0]);
        let start = [places - 1, self.below(places)][self.below(2) as usize];
        Map::at(places, start, 720, &spans)
    }
}

/// Loss, spans and last span of a chain. Of all chains to a place, the least of these is its entry in the table.
type Entry = (u32, u32, u32);

/// Walks every chain that goes on from a place and comes to no place twice; keeps the least entry of each place. Nothing
/// is lost: a chain that comes to a place twice has more loss than the one without the turn.
fn walk(asked: Asked, place: u32, entry: Entry, on_chain: &mut Vec<u32>, least: &mut [Option<Entry>]) {
    on_chain.push(place);
    let known = &mut least[place as usize];
    *known = Some(known.map_or(entry, |known| known.min(entry)));
    for span in 0..asked.spans.from.len() {
        let (from, to, loss) = (asked.spans.from[span], asked.spans.to[span], asked.spans.loss[span]);
        if from == place && asked.is_usable(span) && !on_chain.contains(&to) {
            walk(asked, to, (entry.0 + loss, entry.1 + 1, span as u32), on_chain, least);
        }
    }
    on_chain.pop();
}

#[test]
fn every_chain_of_small_maps() {
    let mut draws = Draws(5);
    let mut ties = 0;
    for _ in 0..20_000 {
        let map = draws.map();
        let mut least = vec![None; map.places as usize];
        walk(map.asked(), map.start, (0, 0, NONE), &mut vec![], &mut least);
        let full = map.full();
        for (place, entry) in least.into_iter().enumerate() {
            let (loss, hops, span) = entry.unwrap_or((NONE, NONE, NONE));
            assert_eq!((full.best[place], full.joints[place], full.last[place]), (loss, hops, span));
        }
        ties += usize::from(full.last != lowest_spans(map.asked(), &full.best));
    }
    assert!(ties > 500, "only {ties} maps in which the lowest span of least loss ends a longer chain");
}

/// The lowest-numbered span that ends a chain of least loss, of whatever length: the table before chains of equal loss
/// were told apart.
fn lowest_spans(asked: Asked, best: &[u32]) -> Vec<u32> {
    let Spans { from, to, loss, .. } = asked.spans;
    let ends = |span: usize, place: usize| {
        let known = best[from[span] as usize];
        to[span] as usize == place && asked.is_usable(span) && known != NONE && known + loss[span] == best[place]
    };
    let lowest = |place| (0..from.len()).find(|&span| ends(span, place)).map_or(NONE, |span| span as u32);
    (0..best.len()).map(lowest).collect()
}

/// The losses are those of an order by loss alone: no span makes any of them smaller, and one makes each of them.
#[test]
fn losses_are_as_before() {
    let mut draws = Draws(6);
    for _ in 0..5_000 {
        let map = draws.map();
        let (asked, best) = (map.asked(), map.full().best);
        let Spans { from, to, loss, .. } = asked.spans;
        for span in (0..from.len()).filter(|&span| asked.is_usable(span)) {
            let known = best[from[span] as usize];
            assert!(known == NONE || best[to[span] as usize] <= known + loss[span]);
        }
        let spans = lowest_spans(asked, &best);
        for place in (0..map.places).filter(|&place| place != map.start) {
            assert_eq!(spans[place as usize] == NONE, best[place as usize] == NONE);
        }
        assert_eq!(best[map.start as usize], 0);
    }
}
