//! The example of each code in the scope paper's table, and its exact limit; code 22 of the call with a budget, and 23
//! and 24 for windows and the minute.

use reference::feed::{self, Asked, Lent, Spans};
use reference::{map, run, store, Call, Queues};

fn fresh_code(words: usize, sheet: &[u8], room: usize) -> u32 {
    run::fresh(&mut vec![9; words], sheet, &mut vec![0; room]).code
}

#[test]
fn runs() {
    // A store is 40 words and eight for each item; before request 6 it was 32.
    for words in [0, 32, 39, 41, 47] {
        assert_eq!(fresh_code(words, b"", 0), 1);
    }
    assert_eq!([0, 1, 256, 4096].map(store::length), [40, 48, 2_088, 32_808]);
    assert_eq!(fresh_code(store::length(4097), b"", 0), 1);
    assert_eq!(fresh_code(store::length(4096), b"", 0), 0);
    assert_eq!(fresh_code(40, &[b'M'; 60_001], 32), 2);
    assert_eq!(fresh_code(40, &[b'M'; 60_000], 32), 0);
    assert_eq!(fresh_code(40, &[b'\n'; 2_001], 64_064), 3);
    assert_eq!(fresh_code(40, &[b'\n'; 2_000], 64_000), 0);
    assert_eq!(fresh_code(40, b"M,0", 31), 4);
    assert_eq!(fresh_code(40, b"M,0", 32), 0);
}

#[test]
fn unsound_kept_store() {
    let mut words = store::empty(1);
    words[3] = 1;
    let before = words.clone();
    assert_eq!(run::kept(&mut words, b"", &mut []).code, 5);
    assert_eq!(words, before);
}

fn codes(capacity: u32, lines: &[&str]) -> Vec<u32> {
    let mut queues = Queues::new(capacity);
    lines.iter().map(|line| queues.answer(Call::parse(line.as_bytes())).code).collect()
}

#[test]
fn lines() {
    assert_eq!(codes(4, &["T,-7"]), [6]);
    assert_eq!(codes(4, &["J,9,9"]), [7]);
    assert_eq!(codes(1024, &["X,1024"]), [8]);
    assert_eq!(codes(4, &["I,0,1,5", "I,0,1,5"]), [0, 9]);
    assert_eq!(codes(4, &["X,0"]), [10]);
    assert_eq!(codes(4, &["I,0,1,5", "D,1,6"]), [0, 11]);
    assert_eq!(codes(4, &["T,0"]), [12]);
    assert_eq!(codes(4, &["J,2,2"]), [13]);
    assert_eq!(codes(4, &["J,2,3", "M,7", "M,8", "I,8,9,0", "I,0,4,0"]), [0, 12, 7, 7, 8]);
    assert_eq!(codes(4, &["A,8,0", "A,7,0", "I,0,1,5", "A,0,4294967290", "A,0,1"]), [7, 0, 0, 0, 25]);
}

#[test]
fn lines_that_are_no_call() {
    let lines = ["", ",", "T", "T,", "T,0,", "T,0,0", "T 0", "t,0", "T,0\r", " T,0", "T,+0", "T,-0", "M,,0"];
    assert_eq!(codes(4, &lines), vec![6; lines.len()]);
    let lines = ["A", "A,", "A,0", "A,0,", "A,,1", "A,0,1,2", "a,0,1", "A,0,-1", "A,0,4294967296", "A,8"];
    assert_eq!(codes(4, &lines), vec![6; lines.len()]);
    assert_eq!(codes(4, &["T,4294967295", "T,4294967296", "T,18446744073709551616"]), [7, 6, 6]);
}

#[test]
fn zeros_in_front() {
    assert_eq!(codes(4, &["I,07,3,9", "T,07", "T,007", "T,0000000007"]), [0, 0, 12, 12]);
    assert_eq!(codes(4, &["M,0000000000", "M,00000000000", "T,00000000001"]), [12, 6, 6]);
    assert_eq!(codes(4, &["T,0000000008", "T,4294967295", "T,04294967295", "T,4294967296"]), [7, 7, 6, 6]);
    let mut queues = Queues::new(4);
    let lines = ["I,00,03,0000000250", "D,003,0249", "M,000", "J,01,00", "X,0000000003"];
    let printed: String = lines.iter().map(|line| queues.answer(Call::parse(line.as_bytes())).line()).collect();
    assert_eq!(printed, "0,3,250,0,0\n0,3,249,0,0\n0,3,249,0,0\n0,1,1,0,0\n0,3,249,0,0\n");
}

/// A feed call on three places with one span, of which a test changes what it is about.
#[derive(Clone)]
struct Tried {
    places: u32,
    start: u32,
    minute: u32,
    /// From, to, loss, opening and closing minutes.
    lists: [Vec<u32>; 5],
    /// The words of the losses, the spans and the joints, and the places that the store is for.
    results: [usize; 3],
    stored: usize,
    /// The words of the place list, which only the call with a budget is lent.
    listed: usize,
}

impl Tried {
    fn new(spans: &[[u32; 5]]) -> Tried {
        let lists = [0, 1, 2, 3, 4].map(|field| spans.iter().map(|span| span[field]).collect());
        Tried { places: 3, start: 0, minute: 0, lists, results: [3; 3], stored: 3, listed: 3 }
    }

    fn with(&self, change: impl Fn(&mut Tried)) -> Tried {
        let mut tried = self.clone();
        change(&mut tried);
        tried
    }

    /// The codes of the full call and of one with a budget.
    fn codes(&self) -> [u32; 2] {
        let [from, to, loss, opens, closes] = &self.lists;
        let spans = Spans { from, to, loss, opens, closes };
        let asked = Asked { places: self.places, start: self.start, minute: self.minute, spans };
        let [mut best, mut last, mut joints] = self.results.map(|length| vec![0; length]);
        let mut words = vec![0; store::length(self.stored)];
        let lent = Lent { best: &mut best, last: &mut last, joints: &mut joints, words: &mut words };
        let full = feed::table(asked, lent);
        let lent = Lent { best: &mut best, last: &mut last, joints: &mut joints, words: &mut words };
        [full.code, feed::within(asked, 9, lent, &mut vec![0; self.listed]).figures.code]
    }

    /// The code, where both calls give the same one.
    fn code(&self) -> u32 {
        let [full, within] = self.codes();
        assert_eq!(full, within);
        full
    }
}

/// The code of a call on three places with these spans, all of them always open.
fn open_code(spans: &[[u32; 3]]) -> u32 {
    let spans: Vec<[u32; 5]> = spans.iter().map(|&[from, to, loss]| [from, to, loss, 0, 1_440]).collect();
    Tried::new(&spans).code()
}

#[test]
fn feed_calls() {
    let none = Tried::new(&[]);
    assert_eq!(none.code(), 0);
    assert_eq!(none.with(|tried| tried.places = 0).code(), 14);
    assert_eq!(none.with(|tried| (tried.places, tried.results, tried.stored) = (4097, [4097; 3], 4097)).code(), 14);
    assert_eq!(none.with(|tried| tried.start = 3).code(), 15);
    assert_eq!(none.with(|tried| tried.results = [2; 3]).code(), 17);
    assert_eq!(none.with(|tried| tried.stored = 4).code(), 17);
    assert_eq!(open_code(&[[0, 3, 1]]), 18);
    assert_eq!(open_code(&[[0, 1, 0]]), 19);
    assert_eq!(open_code(&[[0, 1, 1_000_001]]), 19);
    assert_eq!(open_code(&[[0, 1, 1_000_000]]), 0);
    assert_eq!(open_code(&[[1, 1, 1], [0, 1, 1]]), 20);
    assert_eq!(open_code(&[[0, 1, 1], [1, 1, 0], [0, 3, 1]]), 19);
}

#[test]
fn span_lists() {
    let two = Tried::new(&[[0, 1, 1, 0, 1_440], [1, 2, 1, 0, 1_440]]);
    assert_eq!(two.code(), 0);
    for list in 0..5 {
        assert_eq!(two.with(|tried| tried.lists[list].truncate(1)).code(), 16);
        assert_eq!(two.with(|tried| tried.lists[list].push(1)).code(), 16);
    }
    for (count, code) in [(16_384, 0), (16_385, 16)] {
        assert_eq!(Tried::new(&vec![[0, 1, 1, 0, 1_440]; count]).code(), code);
    }
}

/// Each of the three result lists shorter or longer than the places while the others are right.
#[test]
fn result_lists() {
    let one = Tried::new(&[[0, 1, 1, 0, 1_440]]);
    assert_eq!(one.code(), 0);
    for list in 0..3 {
        for length in [0, 1, 2, 4, 5] {
            let wrong = one.with(|tried| tried.results[list] = length);
            assert_eq!(wrong.code(), 17);
            // After 14, 15, 24 and 16, before 22 and the spans.
            assert_eq!(wrong.with(|tried| tried.places = 0).code(), 14);
            assert_eq!(wrong.with(|tried| tried.start = 3).code(), 15);
            assert_eq!(wrong.with(|tried| tried.minute = 1_440).code(), 24);
            assert_eq!(wrong.with(|tried| tried.lists[4].clear()).code(), 16);
            assert_eq!(wrong.with(|tried| tried.listed = 2).code(), 17);
            assert_eq!(wrong.with(|tried| tried.lists[1][0] = 3).code(), 17);
            assert_eq!(wrong.with(|tried| tried.lists[4][0] = 0).code(), 17);
        }
    }
}

#[test]
fn minutes() {
    let one = Tried::new(&[[0, 1, 1, 0, 1_440]]);
    for (minute, code) in [(0, 0), (1_439, 0), (1_440, 24), (1_441, 24), (u32::MAX, 24)] {
        assert_eq!(one.with(|tried| tried.minute = minute).code(), code);
    }
    // After 14 and 15, before all others.
    let late = one.with(|tried| tried.minute = 1_440);
    assert_eq!(late.with(|tried| tried.places = 0).code(), 14);
    assert_eq!(late.with(|tried| tried.start = 3).code(), 15);
    assert_eq!(late.with(|tried| tried.lists[4].clear()).code(), 24);
    assert_eq!(late.with(|tried| tried.results = [2; 3]).code(), 24);
    assert_eq!(late.with(|tried| tried.listed = 2).code(), 24);
    for (list, word) in [(0, 3), (2, 0), (4, 0)] {
        assert_eq!(late.with(|tried| tried.lists[list][0] = word).code(), 24);
    }
}

#[test]
fn windows() {
    let code = |opens, closes| Tried::new(&[[0, 1, 1, opens, closes]]).code();
    for (opens, closes) in [(0, 1), (0, 1_440), (1_439, 1_440), (600, 601)] {
        assert_eq!(code(opens, closes), 0, "{opens} to {closes}");
    }
    for (opens, closes) in [(0, 0), (1_440, 1_440), (601, 600), (1_440, 0), (0, 1_441), (0, u32::MAX), (1_440, 1_441)] {
        assert_eq!(code(opens, closes), 23, "{opens} to {closes}");
    }
}

/// A span with a fault of each code, in the order in which one span is tested: it comes after one from place 1.
const FAULTY: [(u32, [u32; 5]); 6] = [
    (18, [1, 3, 1, 0, 1_440]),
    (19, [1, 1, 0, 0, 1_440]),
    (20, [0, 1, 1, 0, 1_440]),
    (23, [1, 1, 1, 600, 600]),
    (23, [1, 1, 1, 600, 599]),
    (23, [1, 1, 1, 0, 1_441]),
];

/// Two faults on one span: each number is the faulty one of either span, if one is.
fn both_faults(a: [u32; 5], b: [u32; 5]) -> [u32; 5] {
    let good = [1, 1, 1, 0, 1_440];
    std::array::from_fn(|field| if a[field] != good[field] { a[field] } else { b[field] })
}

#[test]
fn two_faulty_spans() {
    let before = [1, 2, 1, 0, 1_440];
    let good = [1, 1, 1, 0, 1_440];
    for (first, (code, a)) in FAULTY.into_iter().enumerate() {
        assert_eq!(Tried::new(&[before, a]).code(), code);
        // On one span the code that is tested first.
        for (later, b) in FAULTY.into_iter().skip(first) {
            assert_eq!(Tried::new(&[before, both_faults(a, b)]).code(), code, "{code} and {later}");
        }
        // Among spans the first that is faulty, whatever the codes.
        for (_, b) in FAULTY {
            assert_eq!(Tried::new(&[before, a, b]).code(), code);
            assert_eq!(Tried::new(&[before, a, good, b]).code(), code);
        }
    }
}

#[test]
fn closed_spans_are_tested() {
    for (code, span) in [(18, [0, 3, 1, 0, 9]), (19, [0, 1, 0, 0, 9]), (23, [0, 1, 1, 9, 9]), (0, [0, 1, 1, 0, 9])] {
        for minute in [0, 8, 9, 1_439] {
            assert_eq!(Tried::new(&[span]).with(|tried| tried.minute = minute).code(), code);
        }
    }
    assert_eq!(Tried::new(&[[1, 1, 1, 700, 701], [0, 1, 1, 700, 701]]).code(), 20);
}

#[test]
fn place_lists() {
    let one = Tried::new(&[[0, 1, 1, 0, 1_440]]);
    let short = one.with(|tried| tried.listed = 2);
    assert_eq!(short.codes(), [0, 22]);
    assert_eq!(one.with(|tried| tried.listed = 0).codes(), [0, 22]);
    assert_eq!(one.code(), 0);
    assert_eq!(one.with(|tried| tried.listed = 9).code(), 0);
    // After 14 to 17, before the spans.
    assert_eq!(short.with(|tried| tried.places = 4097).code(), 14);
    assert_eq!(short.with(|tried| tried.start = 3).code(), 15);
    assert_eq!(short.with(|tried| tried.lists[2].clear()).code(), 16);
    assert_eq!(short.with(|tried| tried.results = [2; 3]).code(), 17);
    for (code, span) in FAULTY {
        let spans = Tried::new(&[[1, 2, 1, 0, 1_440], span]);
        assert_eq!(spans.with(|tried| tried.listed = 2).codes(), [code, 22]);
    }
}

fn map_code(text: &[u8], room: usize) -> u32 {
    let mut lists = [(); 5].map(|()| vec![0; room]);
    map::read(text, lists.each_mut().map(|list| &mut list[..])).code
}

#[test]
fn map_texts() {
    assert_eq!(map_code(b"3,0,0\n0,1", 4), 21);
    assert_eq!(map_code(b"", 4), 21);
    assert_eq!(map_code(b"3,0,0\n\n", 4), 21);
    assert_eq!(map_code(b"3,0,0\n0,1,2,0,9\n0,1,2,0,9", 1), 16);
    assert_eq!(map_code(b"3,0,0\n0,1,2,0,9\n0,1,2,0", 1), 21);
    assert_eq!(map_code(b"3,0,0\n0,1,2,0,9\n0,1,2,0,9", 2), 0);
    assert_eq!(map_code(b"03,0000000000,01439\n00,1,02,000,01440", 1), 0);
    assert_eq!(map_code(b"3,00000000000,0\n", 1), 21);
    assert_eq!(map_code(b"3,0,00000000000\n", 1), 21);
    assert_eq!(map_code(b"3,0,0\n0,1,2,0,00000001440", 1), 21);
}

/// A text of a first line and one more with so many numbers each.
fn numbered(head: usize, span: usize) -> Vec<u8> {
    [vec!["1"; head].join(","), vec!["1"; span].join(",")].join("\n").into_bytes()
}

#[test]
fn numbers_of_a_map_line() {
    for head in 1..=6 {
        for span in 1..=7 {
            let code = if (head, span) == (3, 5) { 0 } else { 21 };
            assert_eq!(map_code(&numbered(head, span), 1), code, "{head} and {span} numbers");
        }
    }
}

#[test]
fn map_lists() {
    for list in 0..5 {
        for other in [0, 2] {
            let mut lists = [(); 5].map(|()| vec![7; 1]);
            lists[list] = vec![7; other];
            let header = map::read(b"3,0,0", lists.each_mut().map(|list| &mut list[..]));
            assert_eq!((header.code, header.numbers()), (16, [0; 4]));
            assert!(lists.iter().flatten().all(|&word| word == 7));
        }
    }
}

/// The reader keeps what it reads, also where no feed call would accept it.
#[test]
fn numbers_of_a_map() {
    let mut lists = [(); 5].map(|()| vec![7; 3]);
    let header =
        map::read(b"9,10,4294967295\n8,6,0,5,4\n1,2,3,1441,9999\n", lists.each_mut().map(|list| &mut list[..]));
    assert_eq!((header.code, header.numbers()), (0, [9, 10, u32::MAX, 2]));
    assert_eq!(lists, [[8, 1, 7], [6, 2, 7], [0, 3, 7], [5, 1_441, 7], [4, 9_999, 7]]);
}
