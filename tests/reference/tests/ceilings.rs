//! Ceilings on links and cuts of a feed call: worked figures, bounds that are too low, and maps with many moves.

use reference::ceiling::{ceiling, map_ceiling, sharp_map_ceiling};
use reference::feed::{self, Asked, Figures, Lent, Spans};
use reference::ledger::max_rank;
use reference::{program, store, NONE};

/// Spans as (from, to, loss, opening, closing); the start is place 0, the minute 720.
struct Map {
    places: u32,
    spans: Vec<[u32; 5]>,
}

/// What a call says of its work, and how many places its table shows a loss for.
struct Done {
    moves: u64,
    examined: u64,
    reached: u64,
    figures: Figures,
    best: Vec<u32>,
}

impl Map {
    fn open(places: u32, spans: impl Iterator<Item = [u32; 3]>) -> Map {
        Map { places, spans: spans.map(|[from, to, loss]| [from, to, loss, 0, 1_440]).collect() }
    }

    /// The map with the last of every so many spans closed at the minute.
    fn with_closed(mut self, every: usize) -> Map {
        self.spans.iter_mut().skip(every - 1).step_by(every).for_each(|span| span[4] = 720);
        self
    }

    /// The map with the spans closed at the minute that lead on by an even number of places: about half of them.
    fn half_closed(mut self) -> Map {
        let is_even = |span: &&mut [u32; 5]| (span[1] - span[0]) % 2 != 1;
        self.spans.iter_mut().filter(is_even).for_each(|span| span[4] = 720);
        self
    }

    fn fed(&self, budget: Option<u32>) -> Done {
        let [from, to, loss, opens, closes] =
            [0, 1, 2, 3, 4].map(|field| self.spans.iter().map(|span| span[field]).collect::<Vec<u32>>());
        let spans = Spans { from: &from, to: &to, loss: &loss, opens: &opens, closes: &closes };
        let asked = Asked { places: self.places, start: 0, minute: 720, spans };
        let [mut best, mut last, mut joints, mut listed] = [(); 4].map(|()| vec![0; self.places as usize]);
        let mut words = vec![0; store::length(self.places as usize)];
        let lent = Lent { best: &mut best, last: &mut last, joints: &mut joints, words: &mut words };
        let figures = match budget {
            None => feed::table(asked, lent),
            Some(budget) => feed::within(asked, budget, lent, &mut listed).figures,
        };
        assert_eq!(figures.code, 0);
        let reached = best.iter().filter(|&&loss| loss != NONE).count() as u64;
        let moves = u64::from(figures.links) + u64::from(figures.cuts);
        Done { moves, examined: figures.examined.into(), reached, figures, best }
    }

    /// Tests all that is claimed, for a full call and for those with the given budgets.
    fn keeps_ceilings(&self, budgets: impl Iterator<Item = u32>) {
        let (places, spans) = (u64::from(self.places), self.spans.len() as u64);
        for budget in budgets.map(Some).chain([None]) {
            let Done { moves, examined, reached, .. } = self.fed(budget);
            assert!(1 <= reached && reached <= examined + 1);
            assert!(moves <= ceiling(reached, examined));
            assert!(moves <= map_ceiling(places, spans));
            assert!(sharp_map_ceiling(places, spans).is_none_or(|most| moves <= most));
        }
    }
}

/// A start without spans.
fn alone() -> Map {
    Map::open(1, [].into_iter())
}

/// A start with so many spans, of loss 1 and so on in the order of the list.
fn star(spans: u32) -> Map {
    Map::open(spans + 1, (1..=spans).map(|to| [0, to, to]))
}

/// Each place has a span to all later ones, in the list the furthest first. The next place is offered one more than the
/// place's own loss, so that place i is settled at loss i; the others are offered one less than by the place before, first
/// of all twice the number of places.
fn dense(places: u32) -> Map {
    let loss = move |from: u32, to: u32| if to == from + 1 { 1 } else { 2 * (places - from) };
    let from_place = move |from: u32| (from + 1..places).rev().map(move |to| [from, to, loss(from, to)]);
    Map::open(places, (0..places).flat_map(from_place))
}

/// The links of the dense map, and as many cuts. Taking place i, from place 1 on, leaves n places alone in their trees; n
/// less its ones in binary are the links. Place i then lowers every place that waits below all others, last the next one,
/// so that all are alone again: each link is cut.
fn dense_links(places: u32) -> u32 {
    (1..places - 1).map(|left| left - left.count_ones()).sum()
}

fn figures(links: u32, cuts: u32, examined: u32) -> Figures {
    Figures { code: 0, links, cuts, examined }
}

#[test]
fn a_start_without_spans() {
    let done = alone().fed(None);
    assert_eq!((done.figures, done.reached), (figures(0, 0, 0), 1));
    assert_eq!((ceiling(1, 0), map_ceiling(1, 0), sharp_map_ceiling(1, 0)), (1, 1, None));
}

/// Taking 1 links 4 times, 2 to 8 into trees of 1, 2 and 4; taking 2, 3, 4 and 6 links 2, 1, 2 times and once.
#[test]
fn a_star_of_eight() {
    let done = star(8).fed(None);
    assert_eq!((done.figures, done.reached), (figures(10, 0, 8), 9));
    assert_eq!(done.best, [0, 1, 2, 3, 4, 5, 6, 7, 8]);
    assert_eq!((ceiling(9, 8), map_ceiling(9, 8), sharp_map_ceiling(9, 8)), (45, 69, Some(45)));
}

/// Takings leave 9 places, 8 and so on: 7, 7, 4, 4, 3, 3, 1 and 1 links, and as many cuts.
#[test]
fn a_dense_map_of_eleven() {
    let map = dense(11);
    assert_eq!(map.spans.len(), 55);
    assert_eq!(map.spans[..3], [[0, 10, 22, 0, 1_440], [0, 9, 22, 0, 1_440], [0, 8, 22, 0, 1_440]]);
    assert_eq!(map.spans[9..12], [[0, 1, 1, 0, 1_440], [1, 10, 20, 0, 1_440], [1, 9, 20, 0, 1_440]]);
    let done = map.fed(None);
    assert_eq!((done.figures, done.reached), (figures(30, 30, 55), 11));
    assert_eq!(done.best, [0, 1, 2, 3, 4, 5, 6, 7, 8, 9, 10]);
    assert_eq!((ceiling(11, 55), map_ceiling(11, 55), sharp_map_ceiling(11, 55)), (235, 265, Some(235)));
}

/// With half its spans closed, takings link 3, 4, 1, 3, 2, 3, 0 times and once; from place 2 on, lowerings cut 4, 3, 3, 3
/// and 2 times and once, and once. Place 1 is the last to insert any.
#[test]
fn a_dense_map_half_closed() {
    let map = dense(11).half_closed();
    let done = map.fed(None);
    assert_eq!((done.figures, done.reached), (figures(17, 17, 55), 11));
    assert_eq!(done.best, [0, 1, 2, 3, 4, 5, 6, 7, 8, 9, 10]);
    let within = map.fed(Some(3));
    assert_eq!((within.figures, within.reached), (figures(8, 7, 34), 4));
}

#[test]
fn dense_maps() {
    for places in 2..40 {
        let links = dense_links(places);
        let done = dense(places).fed(None);
        assert_eq!(done.figures, figures(links, links, places * (places - 1) / 2), "{places} places");
        assert_eq!(done.best, (0..places).collect::<Vec<u32>>(), "{places} places");
    }
}

/// Without one of its terms the ceiling is broken, and so is a bound of reached places by the spans examined alone.
#[test]
fn lower_bounds_are_broken() {
    let [alone, star, dense] = [alone(), star(8), dense(11)].map(|map| map.fed(None));
    assert!(alone.reached > alone.examined);
    let ranks = |done: &Done| done.reached * max_rank(done.reached as usize);
    let lowerings = |done: &Done| 4 * (done.examined + 1 - done.reached);
    assert_eq!((star.moves, star.reached + lowerings(&star)), (10, 9));
    assert_eq!((dense.moves, dense.reached + ranks(&dense)), (60, 55));
    for done in [alone, star, dense] {
        assert!(done.moves <= done.reached + lowerings(&done) + ranks(&done));
    }
}

/// So is the ceiling of a map without its term for the takings, on a star whose losses are scattered over the list.
#[test]
fn lower_bound_of_a_map_is_broken() {
    let star = Map::open(101, (1..=100).map(|to| [0, to, 1 + 7 * to % 101]));
    let done = star.fed(None);
    assert_eq!((done.reached, done.examined), (101, 100));
    assert!(done.moves > 4 * 100 + 1);
    star.keeps_ceilings([0, 50, NONE].into_iter());
}

/// Four spans a place. F(10) = 55 is the last up to 64, F(16) = 987 up to 1,024, and F(18) = 2,584 up to 4,096.
#[test]
fn four_spans_a_place() {
    let worked = [
        (64, 8, 64 + 4 * 193 + 64 * 8, 1_348, 1_537),
        (1_024, 14, 1_024 + 4 * 3_073 + 1_024 * 14, 27_652, 30_721),
        (4_096, 16, 4_096 + 4 * 12_289 + 4_096 * 16, 118_788, 131_073),
    ];
    for (places, rank, sum, most, most_of_map) in worked {
        assert_eq!(max_rank(places as usize), rank);
        assert_eq!((ceiling(places, 4 * places), sum), (most, most));
        assert_eq!(map_ceiling(places, 4 * places), most_of_map);
        assert_eq!(sharp_map_ceiling(places, 4 * places), Some(most));
    }
}

/// The sharper ceiling begins at five places, and where the spans can reach all places.
#[test]
fn where_the_sharper_ceiling_begins() {
    assert_eq!([4, 5].map(|places| sharp_map_ceiling(places, 9)), [None, Some(5 + 4 * 5 + 5 * 3)]);
    assert_eq!([6, 7, 8].map(|places| sharp_map_ceiling(places, 6)), [Some(6 + 4 + 18), Some(7 + 21), None]);
}

#[test]
fn ceilings_are_kept() {
    alone().keeps_ceilings([0, 1, NONE].into_iter());
    for spans in [1, 2, 3, 4, 8, 31, 64, 200] {
        star(spans).keeps_ceilings([0, 1, spans / 2, NONE].into_iter());
        star(spans).with_closed(3).keeps_ceilings([0, 1, spans / 2, NONE].into_iter());
    }
    for places in 2..24 {
        dense(places).keeps_ceilings(0..places);
        dense(places).half_closed().keeps_ceilings(0..2 * places);
        dense(places).with_closed(3).keeps_ceilings(0..2 * places);
    }
}

/// The text of a map at its minute.
fn text(map: &Map) -> Vec<u8> {
    let line = |[from, to, loss, opens, closes]: &[u32; 5]| format!("{from},{to},{loss},{opens},{closes}\n");
    let spans: String = map.spans.iter().map(line).collect();
    format!("{},0,720\n{spans}", map.places).into_bytes()
}

/// The stored runs are of these maps, and print what the reference prints.
#[test]
fn stored_runs() {
    let runs: [(Map, &[u8], &[u8]); 3] = [
        (
            star(8),
            include_bytes!("../../stored/feed/ceiling_star.in"),
            include_bytes!("../../stored/feed/ceiling_star.out"),
        ),
        (
            dense(11),
            include_bytes!("../../stored/feed/ceiling_dense.in"),
            include_bytes!("../../stored/feed/ceiling_dense.out"),
        ),
        (
            dense(11).half_closed(),
            include_bytes!("../../stored/feed/ceiling_dense_closed.in"),
            include_bytes!("../../stored/feed/ceiling_dense_closed.out"),
        ),
    ];
    for (map, read, printed) in runs {
        assert_eq!(text(&map), read);
        assert_eq!(program::feed(read), printed);
    }
}
