//! Forests made directly, for shapes that few or no sheets reach.

use crate::random::Random;
use reference::{Queues, Tree};

/// A node seen from outside its tree.
#[derive(Clone, Copy)]
pub struct Seen {
    pub item: u32,
    pub key: u32,
    pub depth: usize,
    pub parent_key: u32,
    pub parent_marked: bool,
}

/// Every node of the forests, with what a sheet writer wants to know of it.
pub fn nodes(queues: &Queues) -> Vec<Seen> {
    nodes_by_heap(queues).map(|(_, node)| node).collect()
}

/// Every node with its heap.
pub fn nodes_by_heap(queues: &Queues) -> impl Iterator<Item = (usize, Seen)> + '_ {
    fn walk(tree: &Tree, depth: usize, parent: Option<&Tree>, seen: &mut Vec<Seen>) {
        let (parent_key, parent_marked) = parent.map_or((0, false), |parent| (parent.key, parent.marked));
        seen.push(Seen { item: tree.item, key: tree.key, depth, parent_key, parent_marked });
        tree.children.iter().for_each(|child| walk(child, depth + 1, Some(tree), seen));
    }
    queues.rows.iter().enumerate().flat_map(|(heap, row)| {
        let mut seen = Vec::new();
        row.iter().for_each(|root| walk(root, 0, None, &mut seen));
        seen.into_iter().map(move |node| (heap, node))
    })
}

/// The nodes of a longest way from a root down, root first.
pub fn longest_path(queues: &Queues) -> Vec<&Tree> {
    fn below(tree: &Tree) -> Vec<&Tree> {
        let mut path = tree.children.iter().map(below).max_by_key(Vec::len).unwrap_or_default();
        path.push(tree);
        path
    }
    let mut path = queues.rows.iter().flatten().map(below).max_by_key(Vec::len).unwrap_or_default();
    path.reverse();
    path
}

/// Forests whose keys are the key words of the given ones, with no amounts.
pub fn by_words(queues: &Queues) -> Queues {
    fn lessen(tree: &mut Tree, amount: u32) {
        tree.key = tree.key.wrapping_sub(amount);
        tree.children.iter_mut().for_each(|child| lessen(child, amount));
    }
    let mut queues = queues.clone();
    for (row, amount) in queues.rows.iter_mut().zip(queues.amounts) {
        row.iter_mut().for_each(|root| lessen(root, amount));
    }
    queues.amounts = Default::default();
    queues
}

/// Hands out item numbers in the order of the walk; keys rise along it, so heap order holds.
pub struct Numbering {
    next: u32,
    step: u32,
}

impl Numbering {
    /// With a step of 0 all keys are equal and item numbers alone decide.
    pub fn new(first: u32, step: u32) -> Numbering {
        Numbering { next: first, step }
    }

    /// The item that comes next.
    pub fn next(&self) -> u32 {
        self.next
    }

    pub fn leaf(&mut self) -> Tree {
        let item = self.next;
        self.next += 1;
        Tree::single(item, item * self.step)
    }

    /// The smallest tree of a rank that the rank rule allows: F(rank + 2) items.
    pub fn sparse(&mut self, rank: usize) -> Tree {
        let mut root = self.leaf();
        for number in 0..rank {
            let mut child = self.sparse(number.saturating_sub(1));
            child.marked = number > 0;
            root.children.push(child);
        }
        root
    }

    /// The tree that linking alone makes: 2^rank items.
    pub fn binomial(&mut self, rank: usize) -> Tree {
        let mut root = self.leaf();
        for number in 0..rank {
            let child = self.binomial(number);
            root.children.push(child);
        }
        root
    }

    /// Each item is the only child of the one before; all but the root are marked.
    pub fn marked_chain(&mut self, length: usize) -> Tree {
        let mut nodes: Vec<Tree> = (0..length).map(|_| self.leaf()).collect();
        let mut tree = nodes.pop().expect("a chain has an item");
        while let Some(mut parent) = nodes.pop() {
            tree.marked = true;
            parent.children.push(tree);
            tree = parent;
        }
        tree
    }
}

/// Every row of trees over exactly these items: each order of the walk, and each node under any node
/// of the rightmost way so far or as a new root. Keys 0; nothing marked.
pub fn every_row(items: &[u32]) -> Vec<Vec<Tree>> {
    let mut rows = vec![(Vec::new(), items.to_vec())];
    for _ in items {
        rows = rows.iter().flat_map(|(row, left)| grow(row, left)).collect();
    }
    rows.into_iter().map(|(row, _)| row).collect()
}

/// All ways to add one of the items left at the end of a walk.
fn grow(row: &[Tree], left: &[u32]) -> Vec<(Vec<Tree>, Vec<u32>)> {
    let mut grown = Vec::new();
    for &item in left {
        let rest: Vec<u32> = left.iter().copied().filter(|&other| other != item).collect();
        for depth in 0.. {
            let mut row = row.to_vec();
            match rightmost(&mut row, depth) {
                Some(siblings) => siblings.push(Tree::single(item, 0)),
                None => break,
            }
            grown.push((row, rest.clone()));
        }
    }
    grown
}

/// The sibling list at a depth of the rightmost way: the row itself, the last root's children, and so on.
fn rightmost(row: &mut Vec<Tree>, depth: usize) -> Option<&mut Vec<Tree>> {
    match depth {
        0 => Some(row),
        _ => rightmost(&mut row.last_mut()?.children, depth - 1),
    }
}

/// Gives the nodes keys and marks by the bits of two numbers, in the order of the walk.
pub fn dress(row: &mut [Tree], keys: &mut u32, marks: &mut u32) {
    for tree in row {
        tree.key = *keys & 1;
        tree.marked = *marks & 1 == 1;
        (*keys, *marks) = (*keys >> 1, *marks >> 1);
        dress(&mut tree.children, keys, marks);
    }
}

/// Random forests of a few items that obey the rules only mostly.
pub fn careless(random: &mut Random, capacity: u32) -> Queues {
    let mut queues = Queues::new(capacity);
    let mut items: Vec<u32> = (0..capacity).collect();
    random.shuffle(&mut items);
    items.truncate(random.size(capacity as usize + 1));
    if random.chance(70) {
        items.sort_unstable();
    }
    let keys = 1 + random.below(4);
    let heaps = 1 + random.size(2);
    let mut key = 0;
    let mut placed: Vec<u32> = Vec::new();
    for item in items {
        key = if random.chance(90) { key + random.below(keys) as u32 } else { random.below(keys) as u32 };
        let mut tree = Tree::single(item, key);
        tree.marked = random.chance(30);
        if placed.is_empty() || random.chance(20) {
            tree.marked &= random.chance(10);
            queues.rows[random.size(heaps)].push(tree);
        } else {
            let parent = *random.pick(&placed);
            let position = queues.locate(parent).expect("placed");
            queues.node_mut(&position).children.push(tree);
        }
        placed.push(item);
    }
    queues
}
