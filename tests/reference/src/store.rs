//! The words of a store: written from whole forests, read back with care from any words, in the order of today or in
//! the one before request 8; and the turn from the old order into the new.

use crate::queue::{Queues, Tree, HEAPS};

/// "None" in a link word.
pub const NONE: u32 = u32::MAX;
pub const MAX_ITEMS: usize = 4096;
/// The words of one heap.
pub const WORDS_A_HEAP: usize = 5;
/// The words of all heaps, which come first.
pub const HEAP_WORDS: usize = WORDS_A_HEAP * HEAPS;

/// The five words of a heap, in their order.
#[derive(Clone, Copy)]
pub enum HeapField {
    FirstTree,
    LastTree,
    FirstItem,
    Count,
    /// What is added to an item's key word to make its key, wrapping.
    Amount,
}

/// The words of one item.
pub const WORDS_AN_ITEM: usize = 8;

/// The eight words of an item, in their sequence.
#[derive(Clone, Copy, Debug, PartialEq, Eq)]
pub enum Field {
    Key,
    Parent,
    FirstChild,
    LastChild,
    Next,
    Previous,
    Rank,
    State,
}

pub const FIELDS: [Field; WORDS_AN_ITEM] = [
    Field::Key,
    Field::Parent,
    Field::FirstChild,
    Field::LastChild,
    Field::Next,
    Field::Previous,
    Field::Rank,
    Field::State,
];

/// How the words of the items lie, after those of the heaps.
#[derive(Clone, Copy, Debug, PartialEq, Eq)]
pub enum Order {
    /// Item by item, the eight words of each side by side. All entries use it.
    ByItem,
    /// Kind by kind, one word of each item: the order before request 8, which only the turn still reads.
    ByKind,
}

/// The number of words for a number of items.
pub fn length(items: usize) -> usize {
    HEAP_WORDS + WORDS_AN_ITEM * items
}

/// The number of items that a number of words stands for.
pub fn items(words: usize) -> Option<usize> {
    let items = words.checked_sub(HEAP_WORDS)? / WORDS_AN_ITEM;
    (length(items) == words && items <= MAX_ITEMS).then_some(items)
}

/// The place of one word of a heap.
pub fn heap_index(field: HeapField, heap: usize) -> usize {
    WORDS_A_HEAP * heap + field as usize
}

/// The place of one word of an item.
pub fn index(items: usize, field: Field, item: u32) -> usize {
    Order::ByItem.index(items, field, item)
}

pub fn empty(items: usize) -> Vec<u32> {
    encode(&Queues::new(items as u32))
}

/// The words that stand for the forests.
pub fn encode(queues: &Queues) -> Vec<u32> {
    Order::ByItem.encode(queues)
}

/// The forests that the first and next words lead to, as `Order::decode`.
pub fn decode(words: &[u32]) -> Option<Queues> {
    Order::ByItem.decode(words)
}

/// The forests of a sound store; `None` if the words are not sound.
pub fn sound(words: &[u32]) -> Option<Queues> {
    Order::ByItem.sound(words)
}

/// Turns a sound store of the old order into the new one, in a second buffer; returns the code. The words written are
/// those of the forests that the old ones stand for, and on a refusal none are.
pub fn turn(old: &[u32], turned: &mut [u32]) -> u32 {
    if items(old.len()).is_none() || turned.len() != old.len() {
        return 1;
    }
    match Order::ByKind.sound(old) {
        Some(queues) => {
            turned.copy_from_slice(&encode(&queues));
            0
        }
        None => 5,
    }
}

impl Order {
    /// The place of one word of an item.
    pub fn index(self, items: usize, field: Field, item: u32) -> usize {
        let (field, item) = (field as usize, item as usize);
        match self {
            Order::ByItem => HEAP_WORDS + WORDS_AN_ITEM * item + field,
            Order::ByKind => HEAP_WORDS + field * items + item,
        }
    }

    pub fn encode(self, queues: &Queues) -> Vec<u32> {
        let items = queues.capacity as usize;
        let mut writer = Writer { order: self, items, words: vec![0; length(items)] };
        for (heap, row) in queues.rows.iter().enumerate() {
            let (first, last) = ends(row);
            let minimum = queues.minimum(heap).map_or(NONE, |root| row[root].item);
            let amount = queues.amounts[heap];
            let fields = [first, last, minimum, queues.count(heap) as u32, amount];
            writer.words[WORDS_A_HEAP * heap..][..WORDS_A_HEAP].copy_from_slice(&fields);
            writer.siblings((heap as u32, amount), NONE, row);
        }
        writer.words
    }

    /// Follows the first and next words of arbitrary store words; `None` if an item is met twice or is
    /// out of range. What comes back need not have these words: `sound` compares.
    pub fn decode(self, words: &[u32]) -> Option<Queues> {
        let items = items(words.len())?;
        let mut reader = Reader { order: self, words, items, amount: 0, met: vec![false; items] };
        let mut queues = Queues::new(items as u32);
        for heap in 0..HEAPS {
            reader.amount = words[heap_index(HeapField::Amount, heap)];
            queues.amounts[heap] = reader.amount;
            queues.rows[heap] = reader.siblings(words[heap_index(HeapField::FirstTree, heap)])?;
        }
        Some(queues)
    }

    pub fn sound(self, words: &[u32]) -> Option<Queues> {
        self.decode(words).filter(|queues| self.encode(queues) == words && well_formed(queues))
    }
}

fn ends(row: &[Tree]) -> (u32, u32) {
    (row.first().map_or(NONE, |tree| tree.item), row.last().map_or(NONE, |tree| tree.item))
}

struct Writer {
    order: Order,
    items: usize,
    words: Vec<u32>,
}

impl Writer {
    fn siblings(&mut self, (heap, amount): (u32, u32), parent: u32, row: &[Tree]) {
        for (number, tree) in row.iter().enumerate() {
            let (first, last) = ends(&tree.children);
            let previous = if number == 0 { NONE } else { row[number - 1].item };
            let next = row.get(number + 1).map_or(NONE, |sibling| sibling.item);
            let state = 1 + 2 * heap + u32::from(tree.marked);
            let key_word = tree.key.wrapping_sub(amount);
            let words = [key_word, parent, first, last, next, previous, tree.rank() as u32, state];
            for (field, word) in FIELDS.into_iter().zip(words) {
                self.words[self.order.index(self.items, field, tree.item)] = word;
            }
            self.siblings((heap, amount), tree.item, &tree.children);
        }
    }
}

struct Reader<'a> {
    order: Order,
    words: &'a [u32],
    items: usize,
    /// The amount of the heap that is read.
    amount: u32,
    met: Vec<bool>,
}

impl Reader<'_> {
    fn word(&self, field: Field, item: u32) -> u32 {
        self.words[self.order.index(self.items, field, item)]
    }

    fn siblings(&mut self, first: u32) -> Option<Vec<Tree>> {
        let mut trees = Vec::new();
        let mut item = first;
        while item != NONE {
            trees.push(self.tree(item)?);
            item = self.word(Field::Next, item);
        }
        Some(trees)
    }

    /// An item is entered only once, so any words are read in a bounded number of steps.
    fn tree(&mut self, item: u32) -> Option<Tree> {
        let met = self.met.get_mut(item as usize)?;
        if std::mem::replace(met, true) {
            return None;
        }
        let marked = self.word(Field::State, item).is_multiple_of(2);
        let children = self.siblings(self.word(Field::FirstChild, item))?;
        let key = self.word(Field::Key, item).wrapping_add(self.amount);
        Some(Tree { item, key, marked, children })
    }
}

/// Heap order, no marked root, the rank rule, and no amount on an empty heap.
pub fn well_formed(queues: &Queues) -> bool {
    let roots = || queues.rows.iter().flatten();
    roots().all(|root| !root.marked && ordered(root) && ranks_suffice(root)) && amounts_fit(queues)
}

/// An empty heap has the amount 0; any other may have any.
pub fn amounts_fit(queues: &Queues) -> bool {
    (0..HEAPS).all(|heap| !queues.rows[heap].is_empty() || queues.amounts[heap] == 0)
}

pub fn ordered(tree: &Tree) -> bool {
    tree.children.iter().all(|child| !child.precedes(tree) && ordered(child))
}

/// The i-th child, from 1, has rank at least i - 1, or i - 2 if it is marked.
pub fn ranks_suffice(tree: &Tree) -> bool {
    let child_suffices =
        |(number, child): (usize, &Tree)| child.rank() + usize::from(child.marked) >= number && ranks_suffice(child);
    tree.children.iter().enumerate().all(child_suffices)
}
