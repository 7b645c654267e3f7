//! Raises: worked by hand, up to the largest number and beyond, and at joins.

use super::raised_sheets::many_raises;
use crate::check::{Checker, Verdict};
use crate::random::Random;
use reference::{store, Call, Queues, HEAPS};

/// A line and its answer, worked by hand.
type Line = (&'static str, &'static str);

/// Two raises between three insertions; the last key is below the amount.
const BETWEEN_INSERTIONS: &[Line] = &[
    ("I,0,0,5", "0,0,5,0,0"),
    ("A,0,10", "0,0,1,0,0"),
    ("I,0,1,12", "0,1,12,0,0"),
    ("A,0,100", "0,0,2,0,0"),
    ("I,0,2,3", "0,2,3,0,0"),
    ("M,0", "0,2,3,0,0"),
    ("T,0", "0,2,3,1,0"),
    ("T,0", "0,1,112,0,0"),
    ("T,0", "0,0,115,0,0"),
    ("T,0", "12,0,0,0,0"),
];

/// Run (b), raised, and lowerings of item 0 below item 1: without a cut, refused, and with one by item number.
const LOWERED: &[Line] = &[
    ("I,0,0,5", "0,0,5,0,0"),
    ("I,0,1,3", "0,1,3,0,0"),
    ("I,0,2,8", "0,2,8,0,0"),
    ("I,0,3,1", "0,3,1,0,0"),
    ("T,0", "0,3,1,1,0"),
    ("A,0,1000", "0,0,3,0,0"),
    ("D,0,1006", "11,0,0,0,0"),
    ("D,0,1004", "0,0,1004,0,0"),
    ("D,0,1005", "11,0,0,0,0"),
    ("D,0,1003", "0,0,1003,0,1"),
    ("X,1", "0,1,1003,0,0"),
    ("M,0", "0,0,1003,0,0"),
    ("X,0", "0,0,1003,0,0"),
    ("X,2", "0,2,1008,0,0"),
];

/// Two raised heaps are joined, then the empty one is used again and joined into a raised one.
const JOINED: &[Line] = &[
    ("I,0,0,1", "0,0,1,0,0"),
    ("I,0,1,2", "0,1,2,0,0"),
    ("A,0,100", "0,0,2,0,0"),
    ("I,1,2,7", "0,2,7,0,0"),
    ("I,1,3,9", "0,3,9,0,0"),
    ("A,1,50", "0,1,2,0,0"),
    ("J,0,1", "0,0,4,0,0"),
    ("M,0", "0,2,57,0,0"),
    ("A,1,9", "0,1,0,0,0"),
    ("I,1,4,58", "0,4,58,0,0"),
    ("M,1", "0,4,58,0,0"),
    ("J,1,0", "0,1,5,0,0"),
    ("T,1", "0,2,57,3,0"),
    ("D,0,58", "0,0,58,0,1"),
    ("A,1,1", "0,1,4,0,0"),
    ("T,1", "0,0,59,0,0"),
    ("T,1", "0,4,59,0,0"),
    ("T,1", "0,3,60,0,0"),
    ("T,1", "0,1,103,0,0"),
    ("A,0,4294967295", "0,0,0,0,0"),
];

/// Raise, lower, raise again: the amount passes the largest number. One too many is 25 and changes nothing.
const WRAPPED: &[Line] = &[
    ("I,0,0,0", "0,0,0,0,0"),
    ("A,0,4294967295", "0,0,1,0,0"),
    ("A,0,1", "25,0,0,0,0"),
    ("D,0,5", "0,0,5,0,0"),
    ("A,0,4000000000", "0,0,1,0,0"),
    ("M,0", "0,0,4000000005,0,0"),
    ("I,0,1,2", "0,1,2,0,0"),
    ("A,0,294967291", "25,0,0,0,0"),
    ("A,0,294967290", "0,0,2,0,0"),
    ("A,0,4294967295", "25,0,0,0,0"),
    ("M,0", "0,1,294967292,0,0"),
    ("X,0", "0,0,4294967295,0,0"),
    ("A,0,7", "0,0,1,0,0"),
    ("T,0", "0,1,294967299,0,0"),
];

/// Heaps that empty by T and by X, and are used again; an empty heap is raised by anything.
const EMPTIED: &[Line] = &[
    ("A,3,4294967295", "0,3,0,0,0"),
    ("I,3,0,7", "0,0,7,0,0"),
    ("A,3,20", "0,3,1,0,0"),
    ("T,3", "0,0,27,0,0"),
    ("I,3,0,7", "0,0,7,0,0"),
    ("M,3", "0,0,7,0,0"),
    ("A,3,20", "0,3,1,0,0"),
    ("X,0", "0,0,27,0,0"),
    ("A,3,5", "0,3,0,0,0"),
    ("I,3,1,6", "0,1,6,0,0"),
    ("I,3,2,4294967295", "0,2,4294967295,0,0"),
    ("A,3,1", "25,0,0,0,0"),
    ("A,3,0", "0,3,2,0,0"),
    ("T,3", "0,1,6,0,0"),
    ("A,8,0", "7,0,0,0,0"),
    ("A,7,0", "0,7,0,0,0"),
    ("A,0", "6,0,0,0,0"),
    ("A,0,1,2", "6,0,0,0,0"),
    ("A,,1", "6,0,0,0,0"),
    ("A,03,0000000000", "0,3,1,0,0"),
];

/// Words in another order than keys, among linked trees: linking, a lowering without a cut, 25 by a child's key alone,
/// and joins of a tree into an empty heap and into a raised one.
const LINKED: &[Line] = &[
    ("I,3,4,4294967295", "0,4,4294967295,0,0"),
    ("I,2,0,10", "0,0,10,0,0"),
    ("A,2,20", "0,2,1,0,0"),
    ("I,2,1,15", "0,1,15,0,0"),
    ("I,2,2,25", "0,2,25,0,0"),
    ("I,2,3,0", "0,3,0,0,0"),
    ("T,2", "0,3,0,1,0"),
    ("M,2", "0,1,15,0,0"),
    ("A,2,4294967266", "25,0,0,0,0"),
    ("D,0,20", "0,0,20,0,0"),
    ("J,5,2", "0,5,3,0,0"),
    ("M,5", "0,1,15,0,0"),
    ("A,5,100", "0,5,3,0,0"),
    ("I,2,5,118", "0,5,118,0,0"),
    ("A,2,3", "0,2,1,0,0"),
    ("J,2,5", "0,2,4,0,0"),
    ("T,2", "0,1,115,1,0"),
    ("T,2", "0,0,120,0,0"),
    ("T,2", "0,5,121,0,0"),
    ("T,2", "0,2,125,0,0"),
    ("T,2", "12,0,0,0,0"),
    ("A,3,0", "0,3,1,0,0"),
    ("A,3,1", "25,0,0,0,0"),
];

pub const WORKED: [&[Line]; 6] = [BETWEEN_INSERTIONS, LOWERED, JOINED, WRAPPED, EMPTIED, LINKED];

/// Lines, each with LF.
pub fn text<'a>(lines: impl Iterator<Item = &'a str>) -> Vec<u8> {
    lines.flat_map(|line| [line, "\n"]).collect::<String>().into_bytes()
}

/// Sheet and answers.
pub fn sheet_and_answers(lines: &[Line]) -> (Vec<u8>, Vec<u8>) {
    (text(lines.iter().map(|line| line.0)), text(lines.iter().map(|line| line.1)))
}

/// The worked runs, in one run and cut after each line.
pub fn worked(checker: &mut Checker) -> Verdict {
    for lines in WORKED {
        let (sheet, answers) = sheet_and_answers(lines);
        for items in [6, 256, 4096] {
            let dirty = vec![0xDEAD_BEEF; store::length(items)];
            let whole = checker.fresh(&dirty, &sheet, 32 * lines.len())?;
            if whole.answers() != answers {
                return Err("a raise has other answers than worked by hand".into());
            }
            for end in 0..=lines.len() {
                let [first, rest] = [&lines[..end], &lines[end..]].map(|part| text(part.iter().map(|line| line.0)));
                let begun = checker.fresh(&dirty, &first, 32 * end)?;
                let ended = checker.kept(&begun.words, &rest, 32 * lines.len())?;
                if [begun.answers(), ended.answers()].concat() != answers || ended.words != whole.words {
                    return Err(format!("a worked run with raises differs when it is cut after {end} lines"));
                }
            }
        }
    }
    Ok(())
}

pub fn modem(checker: &mut Checker) -> Verdict {
    for lines in WORKED {
        let (sheet, answers) = sheet_and_answers(lines);
        if checker.modem(&sheet, 32 * lines.len())? as usize != answers.len() {
            return Err("a raise has other answers than worked by hand".into());
        }
    }
    for sheet in limit_sheets(0) {
        checker.modem(&sheet, 2_000)?;
    }
    let mut random = Random::new(34);
    for case in 0..700 {
        let items = *random.pick(&[4, 16, 60, 256]);
        let count = if case % 100 == 99 { 2_000 } else { 1 + random.size(300) };
        let sheet = many_raises(&mut random, &Queues::new(items), count);
        checker.modem(&sheet, 32 * count)?;
    }
    Ok(())
}

/// Heaps of seven items, of which one has the largest key, raised up to the largest number and by one too many.
fn limit_sheets(heap: usize) -> impl Iterator<Item = Vec<u8>> {
    let raised = [0, 1, 4_000, u32::MAX - 100];
    let cases = (0..7).flat_map(move |at| raised.map(|before| (at, before)));
    cases.flat_map(move |(at, before)| [false, true].map(|linked| limit_sheet(heap, at, before, linked)))
}

/// `at` says which item has the largest key, 100; `before` is what the heap is raised by first. Another heap has the
/// largest number, which is no matter here.
fn limit_sheet(heap: usize, at: u32, before: u32, linked: bool) -> Vec<u8> {
    let other = (heap + 1) % HEAPS;
    let room = u32::MAX - 100 - before;
    let mut lines = vec![format!("I,{other},7,{}", u32::MAX)];
    lines.extend((0..7).map(|item| format!("I,{heap},{item},{}", if item == at { 100 } else { 10 + item })));
    if linked {
        lines.extend([format!("I,{heap},8,0"), format!("T,{heap}")]);
    }
    lines.push(format!("A,{heap},{before}"));
    lines.extend(room.checked_add(1).map(|more| format!("A,{heap},{more}")));
    let then = [
        format!("A,{heap},{}", u32::MAX),
        format!("A,{heap},{room}"),
        format!("A,{heap},1"),
        format!("A,{heap},0"),
        format!("D,{at},{}", u32::MAX - 3),
        format!("A,{heap},4"),
        format!("A,{heap},3"),
        format!("A,{heap},1"),
        format!("X,{at}"),
        format!("M,{heap}"),
        format!("A,{heap},1"),
        format!("T,{heap}"),
        format!("A,{other},0"),
        format!("A,{other},1"),
    ];
    lines.extend(then);
    text(lines.iter().map(String::as_str))
}

/// The largest key at every place of a heap, for every heap.
pub fn limits(checker: &mut Checker) -> Verdict {
    for heap in 0..HEAPS {
        for sheet in limit_sheets(heap) {
            checker.fresh(&store::empty(9), &sheet, 2_000)?;
        }
    }
    Ok(())
}

/// What a heap is before a join: empty, or raised by so much with linked trees or without.
const SIDES: [Option<(u32, bool)>; 8] = [
    None,
    Some((0, false)),
    Some((0, true)),
    Some((5, false)),
    Some((5, true)),
    Some((1 << 31, true)),
    Some((u32::MAX - 9, false)),
    Some((u32::MAX - 9, true)),
];

/// Puts four items into a heap, one of which may be taken again.
fn fill(queues: &mut Queues, heap: usize, first: u32, keys: [u32; 4], (raised, linked): (u32, bool)) {
    for (item, key) in (first..).zip(keys) {
        queues.answer(Some(Call::Insert { heap: heap as u32, item, key }));
    }
    if linked {
        queues.answer(Some(Call::ExtractMin { heap: heap as u32 }));
    }
    queues.answer(Some(Call::Raise { heap: heap as u32, by: raised }));
}

/// Joins in both directions, of heaps that are empty, not raised or raised, and what follows on the joined heap.
pub fn joins(checker: &mut Checker) -> Verdict {
    for (a, b) in [(0, 1), (6, 7), (7, 2)] {
        for (one, other) in SIDES.iter().flat_map(|one| SIDES.map(|other| (*one, other))) {
            for keys in [[4, 9, 2, 6], [9, 9, 9, 9], [0, 1, 7, 0]] {
                let mut queues = Queues::new(8);
                one.into_iter().for_each(|side| fill(&mut queues, a, 0, keys, side));
                other.into_iter().for_each(|side| fill(&mut queues, b, 4, [4, 2, 9, 3], side));
                let words = store::encode(&queues);
                for sheet in joining_sheets(a, b).into_iter().chain(joining_sheets(b, a)) {
                    checker.kept(&words, &sheet, 20 * 32)?;
                }
            }
        }
    }
    Ok(())
}

/// A join of b into a, and calls that show keys, amounts and order after it.
fn joining_sheets(a: usize, b: usize) -> Vec<Vec<u8>> {
    let begin = [format!("J,{a},{b}"), format!("M,{a}"), format!("M,{b}")];
    let takings = vec![format!("T,{a}"); 9];
    let items = (0..8).map(|item| format!("X,{item}")).collect();
    let lowerings = [1, 5, 6].map(|item| format!("D,{item},4")).to_vec();
    let raises = [3, u32::MAX - 8, 1].map(|by| format!("A,{a},{by}")).to_vec();
    let back = vec![format!("I,{b},7,5"), format!("A,{b},9"), format!("J,{b},{a}"), format!("M,{b}"), format!("T,{b}")];
    let sheets =
        [vec![], takings.clone(), items, [lowerings, takings.clone()].concat(), [raises, takings].concat(), back];
    sheets.map(|then| text([&begin[..], &then].concat().iter().map(String::as_str))).to_vec()
}
