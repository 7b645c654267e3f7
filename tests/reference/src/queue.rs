//! Eight Fibonacci heaps as rows of owned trees, and the seven calls on them.

use crate::call::{Answer, Call};

pub const HEAPS: usize = 8;
/// Ranks 0 to 16 have a place while linking.
pub const PLACES: usize = 17;

#[derive(Clone, Debug, PartialEq, Eq)]
pub struct Tree {
    pub item: u32,
    /// The key itself, whatever amount its heap has: only `store` knows what its word holds.
    pub key: u32,
    pub marked: bool,
    /// In the order in which they were linked.
    pub children: Vec<Tree>,
}

impl Tree {
    pub fn single(item: u32, key: u32) -> Tree {
        Tree { item, key, marked: false, children: Vec::new() }
    }

    pub fn rank(&self) -> usize {
        self.children.len()
    }

    /// Item order: the smaller key, then the smaller item number.
    pub fn precedes(&self, other: &Tree) -> bool {
        (self.key, self.item) < (other.key, other.item)
    }

    pub fn size(&self) -> usize {
        1 + self.children.iter().map(Tree::size).sum::<usize>()
    }

    pub fn marks(&self) -> usize {
        usize::from(self.marked) + self.children.iter().map(Tree::marks).sum::<usize>()
    }

    /// The largest key of the tree.
    pub fn largest_key(&self) -> u32 {
        self.children.iter().map(Tree::largest_key).fold(self.key, u32::max)
    }

    /// Adds to every key of the tree.
    pub fn raise(&mut self, by: u32) {
        self.key += by;
        self.children.iter_mut().for_each(|child| child.raise(by));
    }

    /// Extends `path` by the child numbers that lead to `item`.
    fn find(&self, item: u32, path: &mut Vec<usize>) -> bool {
        if self.item == item {
            return true;
        }
        for (number, child) in self.children.iter().enumerate() {
            path.push(number);
            if child.find(item, path) {
                return true;
            }
            path.pop();
        }
        false
    }
}

/// Makes the root that comes second the last child of the other, unmarked.
pub fn link(a: Tree, b: Tree) -> Tree {
    let (mut winner, mut loser) = if a.precedes(&b) { (a, b) } else { (b, a) };
    loser.marked = false;
    winner.children.push(loser);
    winner
}

/// Where an item stands: its heap, then the tree's number in the row, then child numbers downward.
#[derive(Clone, Debug, PartialEq, Eq)]
pub struct Position {
    pub heap: usize,
    pub path: Vec<usize>,
}

#[derive(Clone, Debug, PartialEq, Eq)]
pub struct Queues {
    pub capacity: u32,
    pub rows: [Vec<Tree>; HEAPS],
    /// What raises have added to each heap since it was last empty, wrapping at 32 bits; 0 for an empty heap.
    pub amounts: [u32; HEAPS],
}

impl Queues {
    pub fn new(capacity: u32) -> Queues {
        Queues { capacity, rows: Default::default(), amounts: [0; HEAPS] }
    }

    pub fn count(&self, heap: usize) -> usize {
        self.rows[heap].iter().map(Tree::size).sum()
    }

    /// The largest key of a heap.
    pub fn largest_key(&self, heap: usize) -> Option<u32> {
        self.rows[heap].iter().map(Tree::largest_key).max()
    }

    /// The row number of the root that comes first.
    pub fn minimum(&self, heap: usize) -> Option<usize> {
        let row = &self.rows[heap];
        (0..row.len()).reduce(|best, next| if row[next].precedes(&row[best]) { next } else { best })
    }

    pub fn locate(&self, item: u32) -> Option<Position> {
        for (heap, row) in self.rows.iter().enumerate() {
            for (number, tree) in row.iter().enumerate() {
                let mut path = vec![number];
                if tree.find(item, &mut path) {
                    return Some(Position { heap, path });
                }
            }
        }
        None
    }

    pub fn node(&self, position: &Position) -> &Tree {
        let (first, rest) = position.path.split_first().expect("a path starts with a row number");
        rest.iter().fold(&self.rows[position.heap][*first], |tree, &child| &tree.children[child])
    }

    pub fn node_mut(&mut self, position: &Position) -> &mut Tree {
        let (first, rest) = position.path.split_first().expect("a path starts with a row number");
        rest.iter().fold(&mut self.rows[position.heap][*first], |tree, &child| &mut tree.children[child])
    }

    /// The code that refuses a call, 0 if none does; conditions in the order of the codes.
    pub fn refusal(&self, call: Call) -> u32 {
        let item = call.item().unwrap_or(0);
        if call.heaps().iter().any(|&heap| heap >= HEAPS as u32) {
            return 7;
        }
        if call.item().is_some_and(|item| item >= self.capacity) {
            return 8;
        }
        match call {
            Call::Insert { .. } if self.locate(item).is_some() => 9,
            Call::DecreaseKey { .. } | Call::Delete { .. } if self.locate(item).is_none() => 10,
            Call::DecreaseKey { item, key } if key > self.key_of(item) => 11,
            Call::FindMin { heap } | Call::ExtractMin { heap } if self.rows[heap as usize].is_empty() => 12,
            Call::Raise { heap, by } if self.passes_the_largest(heap as usize, by) => 25,
            Call::Meld { into, from } if into == from => 13,
            _ => 0,
        }
    }

    /// Whether a raise would carry a key of the heap above 4,294,967,295.
    fn passes_the_largest(&self, heap: usize, by: u32) -> bool {
        self.largest_key(heap).is_some_and(|key| key.checked_add(by).is_none())
    }

    fn key_of(&self, item: u32) -> u32 {
        self.node(&self.locate(item).expect("the item is in a heap")).key
    }

    /// Answers one line: a call, or no call at all.
    pub fn answer(&mut self, line: Option<Call>) -> Answer {
        match line {
            None => Answer::refused(6),
            Some(call) => match self.refusal(call) {
                0 => self.apply(call),
                code => Answer::refused(code),
            },
        }
    }

    fn apply(&mut self, call: Call) -> Answer {
        match call {
            Call::Insert { heap, item, key } => {
                self.rows[heap as usize].push(Tree::single(item, key));
                Answer::done(item, key, 0, 0)
            }
            Call::FindMin { heap } => {
                let root = &self.rows[heap as usize][self.minimum(heap as usize).expect("not empty")];
                Answer::done(root.item, root.key, 0, 0)
            }
            Call::ExtractMin { heap } => self.extract_min(heap as usize),
            Call::DecreaseKey { item, key } => self.decrease_key(item, key),
            Call::Delete { item } => self.delete(item),
            Call::Meld { into, from } => {
                let joined = std::mem::take(&mut self.rows[from as usize]);
                self.rows[into as usize].extend(joined);
                self.forget_amount_if_empty(from as usize);
                Answer::done(into, self.count(into as usize) as u32, 0, 0)
            }
            Call::Raise { heap, by } => self.raise(heap as usize, by),
        }
    }

    fn raise(&mut self, heap: usize, by: u32) -> Answer {
        self.rows[heap].iter_mut().for_each(|root| root.raise(by));
        self.amounts[heap] = self.amounts[heap].wrapping_add(by);
        self.forget_amount_if_empty(heap);
        Answer::done(heap as u32, self.count(heap) as u32, 0, 0)
    }

    /// An empty heap has the amount 0.
    pub fn forget_amount_if_empty(&mut self, heap: usize) {
        if self.rows[heap].is_empty() {
            self.amounts[heap] = 0;
        }
    }

    fn extract_min(&mut self, heap: usize) -> Answer {
        let root = self.minimum(heap).expect("not empty");
        let tree = self.rows[heap].remove(root);
        let (item, key) = (tree.item, tree.key);
        self.release(heap, tree);
        let links = self.consolidate(heap);
        self.forget_amount_if_empty(heap);
        Answer::done(item, key, links, 0)
    }

    fn decrease_key(&mut self, item: u32, key: u32) -> Answer {
        let position = self.locate(item).expect("the item is in a heap");
        self.node_mut(&position).key = key;
        let cuts = if self.precedes_parent(&position) { self.cut(&position) } else { 0 };
        Answer::done(item, key, 0, cuts)
    }

    fn precedes_parent(&self, position: &Position) -> bool {
        let mut parent = position.clone();
        parent.path.pop();
        !parent.path.is_empty() && self.node(position).precedes(self.node(&parent))
    }

    fn delete(&mut self, item: u32) -> Answer {
        let position = self.locate(item).expect("the item is in a heap");
        let heap = position.heap;
        if self.minimum(heap).is_some_and(|root| position.path == [root]) {
            return self.extract_min(heap);
        }
        let cuts = self.cut(&position);
        let root = self.rows[heap].iter().position(|tree| tree.item == item).expect("a root by now");
        let tree = self.rows[heap].remove(root);
        let key = tree.key;
        self.release(heap, tree);
        Answer::done(item, key, 0, cuts)
    }

    /// The children of a removed root join the row's end in their order, unmarked.
    pub fn release(&mut self, heap: usize, removed: Tree) {
        for mut child in removed.children {
            child.marked = false;
            self.rows[heap].push(child);
        }
    }

    /// Cuts the tree at `position` and cascades: a marked parent is cut too, an unmarked one that is
    /// not a root is marked. Does nothing to a root. Returns the number of cuts.
    pub fn cut(&mut self, position: &Position) -> u32 {
        let mut parent = position.clone();
        let mut cuts = 0;
        while parent.path.len() > 1 {
            let child = parent.path.pop().expect("longer than one");
            let mut tree = self.node_mut(&parent).children.remove(child);
            tree.marked = false;
            self.rows[parent.heap].push(tree);
            cuts += 1;
            let is_root = parent.path.len() == 1;
            let parent_tree = self.node_mut(&parent);
            if is_root || !parent_tree.marked {
                parent_tree.marked = !is_root;
                break;
            }
        }
        cuts
    }

    /// Links trees of equal rank from left to right; the new row has ascending ranks.
    pub fn consolidate(&mut self, heap: usize) -> u32 {
        let mut places: [Option<Tree>; PLACES] = Default::default();
        let mut links = 0;
        for mut tree in std::mem::take(&mut self.rows[heap]) {
            while let Some(holder) = places[tree.rank()].take() {
                tree = link(holder, tree);
                links += 1;
            }
            let rank = tree.rank();
            places[rank] = Some(tree);
        }
        self.rows[heap] = places.into_iter().flatten().collect();
        links
    }
}
