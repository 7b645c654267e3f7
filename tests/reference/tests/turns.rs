//! The turn from the old order of words, kind by kind, into the new one, item by item: small stores written out in both
//! orders, its codes, and sheets before and after it.

use reference::run;
use reference::store::{empty, encode, heap_index, index, sound, turn, HeapField, Order, FIELDS, HEAP_WORDS};
use reference::{Call, Queues, Tree, NONE};

/// A word that no turn leaves here.
const FOUND: u32 = 77;

/// The words of a store: those of one heap, the words of seven empty ones, then those of the items.
fn with_heap(heap: usize, heap_words: [u32; 5], item_words: &[u32]) -> Vec<u32> {
    let mut words = empty(0);
    words[heap_index(HeapField::FirstTree, heap)..][..5].copy_from_slice(&heap_words);
    words.extend(item_words);
    words
}

/// Heap 3, raised by 10: the row is 2, 0 with 1 under 0, and 1 is marked. Keys 14, 19 and 25.
fn three_items() -> Queues {
    let mut queues = Queues::new(3);
    let below = Tree { item: 1, key: 19, marked: true, children: vec![] };
    let root = Tree { item: 0, key: 14, marked: false, children: vec![below] };
    queues.rows[3] = vec![Tree::single(2, 25), root];
    queues.amounts[3] = 10;
    queues
}

#[rustfmt::skip]
fn three_items_by_kind() -> Vec<u32> {
    with_heap(3, [2, 0, 0, 3, 10], &[
        4, 9, 15, // keys, each less 10
        NONE, 0, NONE, // parents
        1, NONE, NONE, // first children
        1, NONE, NONE, // last children
        NONE, NONE, 0, // next siblings
        2, NONE, NONE, // previous siblings
        1, 0, 0, // ranks
        7, 8, 7, // states
    ])
}

#[rustfmt::skip]
fn three_items_by_item() -> Vec<u32> {
    with_heap(3, [2, 0, 0, 3, 10], &[
        4, NONE, 1, 1, NONE, 2, 1, 7,
        9, 0, NONE, NONE, NONE, NONE, 0, 8,
        15, NONE, NONE, NONE, 0, NONE, 0, 7,
    ])
}

/// The turned words, after a buffer of other words; the code must be 0.
fn turned(old: &[u32]) -> Vec<u32> {
    let mut words = vec![FOUND; old.len()];
    assert_eq!(turn(old, &mut words), 0);
    words
}

/// The code of a turn into so many words, which must stay as they are.
fn refused(old: &[u32], room: usize) -> u32 {
    let mut words = vec![FOUND; room];
    let code = turn(old, &mut words);
    assert!(code != 0 && words == vec![FOUND; room]);
    code
}

#[test]
fn words_in_both_orders() {
    let queues = three_items();
    assert_eq!(Order::ByKind.encode(&queues), three_items_by_kind());
    assert_eq!(Order::ByItem.encode(&queues), three_items_by_item());
    assert_eq!(encode(&queues), three_items_by_item());
    // The forest read from either order is the same one.
    assert_eq!(Order::ByKind.sound(&three_items_by_kind()), Some(queues.clone()));
    assert_eq!(sound(&three_items_by_item()), Some(queues));
    assert_eq!(Order::ByKind.sound(&three_items_by_item()), None);
    assert_eq!(sound(&three_items_by_kind()), None);
}

#[test]
fn three_items_turned() {
    assert_eq!(turned(&three_items_by_kind()), three_items_by_item());
}

/// Item 1 alone in heap 7 with the largest key, item 0 free.
#[test]
fn a_free_item_turned() {
    let by_kind = [0, NONE, 0, NONE, 0, NONE, 0, NONE, 0, NONE, 0, NONE, 0, 0, 0, 15];
    let by_item = [0, 0, 0, 0, 0, 0, 0, 0, NONE, NONE, NONE, NONE, NONE, NONE, 0, 15];
    let heap = [1, 1, 1, 1, 0];
    assert_eq!(turned(&with_heap(7, heap, &by_kind)), with_heap(7, heap, &by_item));
}

/// With one item or none, and with free items alone, both orders have the same words.
#[test]
fn stores_that_stay() {
    for items in [0, 1, 2, 8, 4_096] {
        assert_eq!(turned(&empty(items)), empty(items));
    }
    let one = with_heap(0, [0, 0, 0, 1, 5], &[3, NONE, NONE, NONE, NONE, NONE, 0, 1]);
    assert_eq!(turned(&one), one);
}

/// 40 words and eight an item, for 0 to 4,096 items; any other length is 1, whatever the words.
#[test]
fn lengths_of_the_old_store() {
    let is_right = |&length: &usize| length >= 40 && length % 8 == 0 && length <= 40 + 8 * 4_096;
    for length in (0..120).chain(32_790..32_830).filter(|length| !is_right(length)) {
        for word in [0, NONE] {
            assert_eq!(refused(&vec![word; length], length), 1, "{length} words");
        }
    }
    let mut beyond = empty(4_096);
    beyond.extend([0; 8]);
    assert_eq!(refused(&beyond, beyond.len()), 1);
}

#[test]
fn unequal_lengths() {
    let old = three_items_by_kind();
    for room in (0..200).filter(|&room| room != old.len()) {
        assert_eq!(refused(&old, room), 1, "{room} words");
        // Before 5: an unsound store of unequal length is 1 too.
        assert_eq!(refused(&vec![FOUND; old.len()], room), 1, "{room} words");
    }
    // The lengths are compared with each other, and the first with those of stores.
    assert_eq!(refused(&old[..old.len() - 1], old.len()), 1);
    assert_eq!(refused(&old[..old.len() - 1], old.len() - 1), 1);
}

#[test]
fn unsound_stores() {
    let old = three_items_by_kind();
    let changed = |at: usize, word: u32| {
        let mut words = old.clone();
        words[at] = word;
        refused(&words, old.len())
    };
    assert_eq!(refused(&[0; 40], 40), 5);
    // A count, an amount on an empty heap, a key below that of its parent, a marked root, a rank.
    assert_eq!(changed(heap_index(HeapField::Count, 3), 2), 5);
    assert_eq!(changed(heap_index(HeapField::Amount, 4), 1), 5);
    assert_eq!(changed(41, 3), 5);
    assert_eq!(changed(61, 8), 5);
    assert_eq!(changed(58, 0), 5);
    // A store that is turned already.
    assert_eq!(refused(&three_items_by_item(), old.len()), 5);
}

/// Sheets with all calls, with refusals between, and lines that are no call.
const SHEETS: [&str; 4] = [
    "I,0,0,5\nI,0,1,3\nI,0,2,8\nI,0,3,1\nT,0\nD,0,2\nM,0\nT,1\nD,0,3\nX,2\nT,-7\nX,9\n",
    "I,0,0,0\nI,0,1,10\nI,0,2,20\nI,0,3,30\nI,0,4,40\nI,0,5,50\nI,0,6,60\nI,0,7,70\nI,0,8,80\nT,0\nA,0,1000\n\
     D,8,1005\nD,6,1004\nD,7,1003\nA,0,4294967295\nX,3\nJ,1,0\nT,1\nJ,1,1\n",
    "I,7,8,4294967295\nI,7,0,4294967295\nA,7,1\nD,8,5\nA,7,0\nI,2,4,6\nA,2,9\nJ,2,7\nM,2\nT,2\n",
    "I,0,3,4\nI,1,2,4\nA,0,7\nA,1,8\nJ,0,1\nJ,1,0\nI,8,1,1\nI,0,3,3\nT,1\nT,1\nT,1\n\n",
];

/// A kept run in an order: the answers, and the words that it leaves.
fn kept(order: Order, words: &[u32], sheet: &str) -> (Vec<u8>, Vec<u32>) {
    let (mut words, mut out) = (words.to_vec(), vec![0; 32 * sheet.len()]);
    let ran = run::kept_in(order, &mut words, sheet.as_bytes(), &mut out);
    assert_eq!(ran.code, 0);
    out.truncate(ran.bytes);
    (out, words)
}

/// Every line, refused ones too, on the turned store leaves the turned words of what it leaves in the old order, with the
/// same answer.
#[test]
fn calls_and_the_turn() {
    for sheet in SHEETS {
        let mut old = empty(9);
        for line in sheet.split_inclusive('\n') {
            let (answer, left) = kept(Order::ByKind, &old, line);
            assert_eq!(kept(Order::ByItem, &turned(&old), line), (answer, turned(&left)), "{line}");
            old = left;
        }
    }
}

/// A sheet of which the first lines are run in the old order and the rest on the turned store.
#[test]
fn sheets_and_the_turn() {
    for sheet in SHEETS {
        let (answers, left) = kept(Order::ByKind, &empty(9), sheet);
        for end in (0..=sheet.len()).filter(|&end| end == 0 || sheet[..end].ends_with('\n')) {
            let (first, old) = kept(Order::ByKind, &empty(9), &sheet[..end]);
            let (rest, new) = kept(Order::ByItem, &turned(&old), &sheet[end..]);
            assert_eq!(([first, rest].concat(), new), (answers.clone(), turned(&left)), "turned after {end} bytes");
        }
    }
}

/// The turn is written from forests. As words go, it takes each from its old place to its new one, and leaves those of
/// the heaps where they are.
#[test]
fn every_word_goes_to_its_place() {
    for (sheet, items) in SHEETS.into_iter().flat_map(|sheet| [9, 10, 100, 4_096].map(|items| (sheet, items))) {
        let mut queues = Queues::new(items);
        for line in sheet.lines() {
            queues.answer(Call::parse(line.as_bytes()));
        }
        let old = Order::ByKind.encode(&queues);
        let new = turned(&old);
        assert_eq!(new[..HEAP_WORDS], old[..HEAP_WORDS]);
        for (item, field) in (0..items).flat_map(|item| FIELDS.map(|field| (item, field))) {
            let from = Order::ByKind.index(items as usize, field, item);
            assert_eq!(new[index(items as usize, field, item)], old[from], "{field:?} of {item}");
        }
    }
}
