//! Words of small stores, sound and unsound, written out by hand.

use reference::store::{self, empty, encode, index, sound, Field};
use reference::{Call, Queues, Tree, NONE};

fn after(capacity: u32, lines: &[&str]) -> Queues {
    let mut queues = Queues::new(capacity);
    for line in lines {
        assert_eq!(queues.answer(Call::parse(line.as_bytes())).code, 0, "{line}");
    }
    queues
}

#[test]
fn words_of_a_linked_heap() {
    // Item 3 taken from keys 5, 3, 8, 1: the row is 2, 1 with 0 under 1.
    let words = encode(&after(4, &["I,0,0,5", "I,0,1,3", "I,0,2,8", "I,0,3,1", "T,0"]));
    assert_eq!(words[..10], [2, 1, 1, 3, 0, NONE, NONE, NONE, 0, 0]);
    assert_eq!(words[40..48], [5, 1, NONE, NONE, NONE, NONE, 0, 1]);
    assert_eq!(words[48..56], [3, NONE, 0, 0, NONE, 2, 1, 1]);
    assert_eq!(words[56..64], [8, NONE, NONE, NONE, 1, NONE, 0, 1]);
    assert_eq!(words[64..], [0; 8]);
}

/// The largest store's first and last words of items, and one in between.
#[test]
fn places_of_words() {
    let at = |field, item| index(4096, field, item);
    assert_eq!([at(Field::Key, 0), at(Field::State, 0), at(Field::Key, 1)], [40, 47, 48]);
    assert_eq!([at(Field::Rank, 2_048), at(Field::State, 4_095)], [40 + 16_384 + 6, 32_807]);
}

#[test]
fn sound_and_unsound() {
    assert!(sound(&empty(0)).is_some());
    assert!(sound(&empty(5)).is_some());
    assert!(sound(&[0; 40]).is_none());
    assert!(sound(&empty(0)[..32]).is_none(), "four words a heap");
    assert!(sound(&empty(5)[1..]).is_none());

    let marked_leaf = Tree { item: 1, key: 1, marked: true, children: vec![] };
    let root = |children| Tree { item: 0, key: 0, marked: false, children };
    let with = |tree| {
        let mut queues = Queues::new(4);
        queues.rows[7].push(tree);
        store::encode(&queues)
    };
    assert!(sound(&with(root(vec![marked_leaf.clone()]))).is_some());
    assert!(sound(&with(marked_leaf.clone())).is_none(), "a marked root");
    let pair = |second: Tree| root(vec![Tree::single(2, 2), second]);
    assert!(sound(&with(pair(marked_leaf))).is_some(), "a marked second child of rank 0");
    assert!(sound(&with(pair(Tree::single(1, 1)))).is_none(), "a second child that is too small");
}

#[test]
fn own_parent_is_unsound() {
    let mut words = encode(&after(2, &["I,0,0,5"]));
    for field in [Field::Parent, Field::FirstChild, Field::LastChild] {
        words[index(2, field, 1)] = 1;
    }
    words[index(2, Field::State, 1)] = 1;
    assert!(sound(&words).is_none());
}
