//! The turn of stores from the old order of words, kind by kind, into the new one, item by item.

use super::amounts::{self, change_each_word, every_small_store, small_forests_with_amounts, with_amounts};
use super::feeds::expect;
use super::large_stores::large_shapes;
use super::raised_sheets::many_raises;
use super::stores::{candidates, change_a_few, heap_of, judge, small_stores};
use crate::check::{Checker, Verdict};
use crate::engine::Part;
use crate::forest::{self, Numbering};
use crate::random::Random;
use crate::sheets::{self, Profile};
use reference::store::{self, heap_index, HeapField, Order};
use reference::{run, text, Answer, Call, Queues, Tree, HEAPS, NONE};
use std::collections::BTreeSet;

/// The words of heaps that have items, and those of the items by kind and by item.
type Worked = (&'static [(usize, [u32; 5])], &'static [u32], &'static [u32]);

#[rustfmt::skip]
const WORKED: [Worked; 4] = [
    // Run (b): the row is 2, 1 with 0 under 1, and 3 is free.
    (
        &[(0, [2, 1, 1, 3, 0])],
        &[
            5, 3, 8, 0, // keys
            1, NONE, NONE, 0, // parents
            NONE, 0, NONE, 0, // first children
            NONE, 0, NONE, 0, // last children
            NONE, NONE, 1, 0, // next siblings
            NONE, 2, NONE, 0, // previous siblings
            0, 1, 0, 0, // ranks
            1, 1, 1, 0, // states
        ],
        &[
            5, 1, NONE, NONE, NONE, NONE, 0, 1,
            3, NONE, 0, 0, NONE, 2, 1, 1,
            8, NONE, NONE, NONE, 1, NONE, 0, 1,
            0, 0, 0, 0, 0, 0, 0, 0,
        ],
    ),
    // Heap 2, with the amount 6 below 2^32: 4 with 0 and 3 under it, and 3 is marked. Heap 6, raised by 3: the row is 1, 2.
    (
        &[(2, [4, 4, 4, 3, 4_294_967_290]), (6, [1, 2, 1, 2, 3])],
        &[
            15, 0, 5, 11, 8, // keys 9, 3, 8, 5, 2
            4, NONE, NONE, 4, NONE, // parents
            NONE, NONE, NONE, NONE, 0, // first children
            NONE, NONE, NONE, NONE, 3, // last children
            3, 2, NONE, NONE, NONE, // next siblings
            NONE, NONE, 1, 0, NONE, // previous siblings
            0, 0, 0, 0, 2, // ranks
            5, 13, 13, 6, 5, // states
        ],
        &[
            15, 4, NONE, NONE, 3, NONE, 0, 5,
            0, NONE, NONE, NONE, 2, NONE, 0, 13,
            5, NONE, NONE, NONE, NONE, 1, 0, 13,
            11, 4, NONE, NONE, NONE, 0, 0, 6,
            8, NONE, 0, 3, NONE, NONE, 2, 5,
        ],
    ),
    // One item, whose words are where they were, and none.
    (&[(7, [0, 0, 0, 1, 9])], &[5, NONE, NONE, NONE, NONE, NONE, 0, 15], &[5, NONE, NONE, NONE, NONE, NONE, 0, 15]),
    (&[], &[], &[]),
];

/// The words of a store with these words of heaps, all other heaps empty.
fn by_hand(heaps: &[(usize, [u32; 5])], item_words: &[u32]) -> Vec<u32> {
    let mut words = [NONE, NONE, NONE, 0, 0].repeat(HEAPS);
    heaps.iter().for_each(|(heap, five)| words[5 * heap..][..5].copy_from_slice(five));
    words.extend(item_words);
    words
}

pub fn worked(checker: &mut Checker) -> Verdict {
    for (heaps, by_kind, by_item) in WORKED {
        let old = by_hand(heaps, by_kind);
        let turned = checker.turn(&old, old.len())?;
        if turned.words != by_hand(heaps, by_item) {
            return Err("another store than written out by hand".into());
        }
    }
    Ok(())
}

/// Lengths around those of small stores and of the largest, and lengths of which 16 bits are those of small stores.
const LENGTHS: [&[usize]; 3] = [
    &[0, 1, 8, 31, 32, 33, 39, 40, 41, 47, 48, 49, 55, 56, 57, 63, 64, 65, 71, 72, 73],
    &[32_799, 32_800, 32_801, 32_807, 32_808, 32_809, 32_815, 32_816, 32_824],
    &[40, 48, 64, 65_536 + 40, 65_536 + 48, 65_536 + 64],
];

/// So many words, of which the first are those of a sound old store that has all its items in a row.
fn begun(length: usize) -> Vec<u32> {
    let items = (length.saturating_sub(40) / 8) as u32;
    let mut number = Numbering::new(0, 3);
    let mut words = Order::ByKind.encode(&heap_of(items, (0..items).map(|_| number.leaf()).collect()));
    words.resize(length, 0);
    words
}

/// Every two of such lengths, with words that are sound as far as they can be and with others: 1 comes before 5.
pub fn lengths(checker: &mut Checker) -> Verdict {
    for lengths in LENGTHS {
        for &length in lengths {
            let (sound, unsound) = (begun(length), vec![0xDEAD_BEEF; length]);
            for &room in lengths {
                let fits = length >= 40 && length % 8 == 0 && length <= 32_808 && room == length;
                expect(checker.turn(&sound, room)?.code, if fits { 0 } else { 1 }, "lengths of a turn")?;
                expect(checker.turn(&unsound, room)?.code, if fits { 5 } else { 1 }, "lengths of a turn")?;
            }
        }
    }
    Ok(())
}

/// What is in the second buffer before a turn is no matter.
pub fn second_buffers(checker: &mut Checker) -> Verdict {
    let mut random = Random::new(61);
    for queues in small_forests_with_amounts(&mut random) {
        let (old, new) = (Order::ByKind.encode(&queues), store::encode(&queues));
        let mut unsound = old.clone();
        unsound[heap_index(HeapField::Count, 0)] += 1;
        let any = old.iter().map(|_| random.word() as u32).collect();
        let same = [0, NONE].map(|word| vec![word; old.len()]);
        let stores = [old.clone(), new.clone(), unsound.clone(), store::empty(queues.capacity as usize)];
        for found in same.into_iter().chain(stores).chain([any]) {
            if checker.turn_onto(&old, &found)?.words != new {
                return Err("a turn depends on what the second buffer holds".into());
            }
            expect(checker.turn_onto(&unsound, &found)?.code, 5, "a count that is one too many")?;
        }
    }
    Ok(())
}

/// Forests of up to twelve items as a sheet left them, often of eight: their turn is also the way back.
fn small_forests(random: &mut Random) -> Queues {
    let any = random.below(13) as u32;
    let items = *random.pick(&[any, any, 8]);
    let played = random.size(40);
    sheets::grown(random, items, played)
}

/// Both outcomes must occur, or a campaign shows nothing.
fn both_seen([refused, done]: [u32; 2], least: u32) -> Verdict {
    match refused >= least && done >= least {
        true => Ok(()),
        false => Err(format!("only {refused} refused and {done} done")),
    }
}

/// Stores that are turned already, turned again: refused, unless their words are sound in the old order too.
pub fn turned_already(checker: &mut Checker) -> Verdict {
    let mut random = Random::new(62);
    let mut seen = [0; 2];
    for _ in 0..3_000 {
        let old = Order::ByKind.encode(&small_forests(&mut random));
        let once = checker.turn(&old, old.len())?;
        expect(once.code, 0, "a sound old store")?;
        let twice = checker.turn(&once.words, old.len())?;
        seen[usize::from(twice.done())] += 1;
    }
    both_seen(seen, 100)
}

/// Stores as they were before request 6, with four words a heap: refused, and turned once each heap has its amount of 0.
pub fn four_words_a_heap(checker: &mut Checker) -> Verdict {
    let mut random = Random::new(63);
    for _ in 0..500 {
        let mut queues = small_forests(&mut random);
        queues.amounts = [0; HEAPS];
        let old = Order::ByKind.encode(&queues);
        let older = amounts::without_amounts(&old);
        let code = if queues.capacity == 0 { 1 } else { 5 };
        expect(checker.turn(&older, older.len())?.code, code, "four words a heap")?;
        expect(checker.turn(&older, old.len())?.code, 1, "four words a heap, five in the second buffer")?;
        expect(checker.turn(&old, old.len())?.code, 0, "amounts of 0")?;
    }
    Ok(())
}

/// Every forest of up to three items in one heap, with marks and amounts.
pub fn every_small_forest(checker: &mut Checker) -> Verdict {
    let mut seen = [0; 2];
    every_small_store(Order::ByKind, |words| {
        seen[usize::from(checker.turn(words, words.len())?.done())] += 1;
        Ok(())
    })?;
    both_seen(seen, 1_000)
}

/// Forests of small sound stores, with amounts on all heaps that have items and as they came.
fn small_sound_forests(random: &mut Random) -> Vec<Queues> {
    let mut forests = small_forests_with_amounts(random);
    forests.extend(small_stores(random).iter().filter_map(|words| store::sound(words)));
    forests
}

/// Every word of small old stores, changed.
pub fn single_changes(checker: &mut Checker) -> Verdict {
    let forests = small_sound_forests(&mut Random::new(64));
    let tried = |words: &[u32]| Ok(checker.turn(words, words.len())?.done());
    amounts::suffices(change_each_word(Order::ByKind, &forests, tried)?)
}

/// Several words of small old stores, changed; and forests that obey the rules only mostly.
pub fn several_changes(checker: &mut Checker) -> Verdict {
    let mut random = Random::new(65);
    let stores: Vec<Vec<u32>> =
        small_sound_forests(&mut random).iter().map(|queues| Order::ByKind.encode(queues)).collect();
    let mut seen = [0; 2];
    for _ in 0..15_000 {
        let mut words = random.pick(&stores).clone();
        change_a_few(&mut random, &mut words);
        checker.turn(&words, words.len())?;
        let items = 1 + random.below(9) as u32;
        let queues = forest::careless(&mut random, items);
        let words = Order::ByKind.encode(&with_amounts(&mut random, &queues));
        seen[usize::from(checker.turn(&words, words.len())?.done())] += 1;
    }
    both_seen(seen, 1_000)
}

/// A sheet run on the turned store answers as in the old order, and leaves what is left there, turned. Returns the answers.
fn commutes(checker: &mut Checker, start: &Queues, sheet: &[u8]) -> Verdict<Vec<u8>> {
    let mut old = Order::ByKind.encode(start);
    let turned = checker.turn(&old, old.len())?;
    let room = 32 * text::lines(sheet).len();
    let mut answers = vec![0; room];
    let ran = run::kept_in(Order::ByKind, &mut old, sheet, &mut answers);
    answers.truncate(ran.bytes);
    let left = checker.turn(&old, old.len())?;
    if !turned.done() || ran.code != 0 || !left.done() {
        return Err("a sound old store is refused".into());
    }
    if checker.has(Part::Runs) {
        let kept = checker.kept(&turned.words, sheet, room)?;
        if kept.answers() != answers || kept.words != left.words || !checker.sound(&turned.words)? {
            return Err("a run on the turned store differs from the run in the old order".into());
        }
    }
    Ok(answers)
}

/// Sound forests with amounts: as a sheet left them, or made directly.
fn start(random: &mut Random) -> Queues {
    let items = 1 + random.below(30) as u32;
    let made = forest::careless(random, items);
    let queues = if store::well_formed(&made) { made } else { sheets::grown(random, items, 60) };
    with_amounts(random, &queues)
}

/// Random sheets, in one run and line by line, refused lines and lines that are no call among them.
pub fn sheets_on_turned_stores(checker: &mut Checker) -> Verdict {
    let mut random = Random::new(66);
    for _ in 0..400 {
        let (start, count) = (start(&mut random), 1 + random.size(60));
        let sheet = many_raises(&mut random, &start, count);
        commutes(checker, &start, &sheet)?;
    }
    for _ in 0..80 {
        let mut queues = start(&mut random);
        let profile = Profile { refusals: 15, malformed: 10, ..sheets::profile(&mut random, 30) };
        for line in sheets::lines(&mut random, &queues, &profile) {
            commutes(checker, &queues, &[&line, &b"\n"[..]].concat())?;
            queues.answer(Call::parse(&line));
        }
    }
    Ok(())
}

/// Each kind of call, done and under each code of a line, on small stores.
pub fn calls_on_turned_stores(checker: &mut Checker) -> Verdict {
    let of_heaps = ["M,H", "T,H", "J,H,0", "J,0,H", "A,H,3", "A,H,4294967295", "I,H,0,4", "I,H,4,4294967295"];
    let of_items = ["X,#", "D,#,0", "D,#,3", "D,#,4294967295", "I,3,#,5"];
    let mut calls = vec!["T,-7".to_string(), String::new()];
    calls.extend([0, 2, 7, 8].iter().flat_map(|heap| of_heaps.map(|call| call.replace('H', &heap.to_string()))));
    calls.extend((0..7).flat_map(|item| of_items.map(|call| call.replace('#', &item.to_string()))));
    let mut codes = BTreeSet::new();
    for queues in small_sound_forests(&mut Random::new(67)) {
        for call in &calls {
            let answers = commutes(checker, &queues, format!("{call}\n").as_bytes())?;
            codes.extend(text::lines(&answers).into_iter().filter_map(Answer::parse).map(|answer| answer.code));
        }
    }
    match codes.into_iter().eq([0, 6, 7, 8, 9, 10, 11, 12, 13, 25]) {
        true => Ok(()),
        false => Err("not every code of a line was seen".into()),
    }
}

/// The same forests with items numbered in another way. Keys must differ, so that they alone make the order.
fn renumbered(random: &mut Random, queues: &Queues) -> Queues {
    fn rename(tree: &mut Tree, names: &[u32]) {
        tree.item = names[tree.item as usize];
        tree.children.iter_mut().for_each(|child| rename(child, names));
    }
    let mut names: Vec<u32> = (0..queues.capacity).collect();
    random.shuffle(&mut names);
    let mut queues = queues.clone();
    queues.rows.iter_mut().flatten().for_each(|root| rename(root, &names));
    queues
}

/// Stores of up to 4,096 items, full ones and ones with free items, with amounts; and a word of each changed.
pub fn large_stores(checker: &mut Checker) -> Verdict {
    let mut random = Random::new(68);
    let shapes = large_shapes(7);
    let mut forests: Vec<Queues> = shapes.iter().map(|queues| renumbered(&mut random, queues)).collect();
    forests.extend(shapes);
    for _ in 0..30 {
        let items = 1 + random.below(4_096) as u32;
        forests.push(sheets::grown(&mut random, items, 300));
    }
    for queues in forests {
        let old = Order::ByKind.encode(&with_amounts(&mut random, &queues));
        let turned = checker.turn(&old, old.len())?;
        if !turned.done() || checker.has(Part::Runs) && !checker.sound(&turned.words)? {
            return Err("a large store is not turned, or not into a sound one".into());
        }
        for _ in 0..12 {
            let mut changed = old.clone();
            let at = random.size(old.len());
            changed[at] = *random.pick(&candidates(old[at], queues.capacity));
            checker.turn(&changed, old.len())?;
        }
        for room in [old.len() - 8, old.len() - 1, old.len() + 1, old.len() + 8] {
            expect(checker.turn(&old, room)?.code, 1, "a second buffer of another length")?;
        }
    }
    Ok(())
}

/// Stores in the old order, lent to runs and to the check as they are: a host that keeps one is told so, unless its words
/// are sound in the new order too.
pub fn kept_as_they_were(checker: &mut Checker) -> Verdict {
    let mut random = Random::new(69);
    let mut seen = [0; 2];
    for _ in 0..2_000 {
        let queues = small_forests(&mut random);
        seen[usize::from(judge(checker, &Order::ByKind.encode(&queues))?)] += 1;
        if !judge(checker, &store::encode(&queues))? {
            return Err("a store in the new order is not sound".into());
        }
    }
    both_seen(seen, 100)
}
