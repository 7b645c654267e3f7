//! Faults in the calls and in reading lines.

use super::places;
use super::raises::shift;
use super::Mock;
use super::Variant::*;
use crate::forest;
use reference::{Answer, Call, Position, Queues};

impl Mock {
    pub(super) fn answer(&self, queues: &mut Queues, line: &[u8], takings: &mut u32) -> Answer {
        let call = self.parse(line);
        match call {
            None if self.is(SixTestedAfterSeven) && names_heap_above_7(line) => return Answer::refused(7),
            None if self.is_raise_by_too_much(line) => return Answer::refused(25),
            Some(Call::Insert { item, heap, .. })
                if self.is(EightAnsweredAsNine) && heap < 8 && item == queues.capacity =>
            {
                return Answer::refused(9)
            }
            Some(Call::FindMin { heap } | Call::ExtractMin { heap }) if self.is(TwelveWithoutLooking) && heap < 8 => {
                return Answer::refused(12)
            }
            _ => {}
        }
        let Some(call) = call else { return Answer::refused(6) };
        match self.refusal(queues, call) {
            0 => {}
            code => return Answer::refused(code),
        }
        let before = queues.clone();
        let mut answer = self.by_words(queues, call).unwrap_or_else(|| self.perform(queues, call, takings));
        self.settle_amounts(queues, call, &before);
        self.show_words(&before, call, &mut answer);
        answer
    }

    fn perform(&self, queues: &mut Queues, call: Call, takings: &mut u32) -> Answer {
        match call {
            Call::FindMin { heap } | Call::ExtractMin { heap } => {
                let takes = matches!(call, Call::ExtractMin { .. });
                *takings += u32::from(takes);
                self.first(queues, heap as usize, takes, *takings)
            }
            Call::DecreaseKey { item, key } => self.lower(queues, item, key),
            Call::Delete { item } => self.delete(queues, item, *takings),
            Call::Meld { into, from } => self.join(queues, into as usize, from as usize),
            Call::Raise { heap, .. } if heap >= 8 => Answer::done(heap, 0, 0, 0),
            Call::Raise { heap, by } => self.raise(queues, heap as usize, by),
            Call::Insert { .. } => queues.answer(Some(call)),
        }
    }

    fn parse(&self, line: &[u8]) -> Option<Call> {
        match line {
            [start @ .., b'\r'] if self.is(ReturnBeforeLineEndAccepted) => Call::parse(start),
            [b'A', ..] if self.is(RaiseIsNoCall) => None,
            _ => Call::parse(&self.misread(line)).or_else(|| self.misread_raise(line)),
        }
    }

    /// Shows or takes the first item.
    fn first(&self, queues: &mut Queues, heap: usize, takes: bool, takings: u32) -> Answer {
        let mut root = queues.minimum(heap).expect("not empty");
        if self.is(EqualKeysInRowOrder) {
            let key = queues.rows[heap][root].key;
            root = queues.rows[heap].iter().position(|tree| tree.key == key).expect("the key is there");
        }
        if self.is(FirstByWords) {
            root = forest::by_words(queues).minimum(heap).expect("not empty");
        }
        if !takes {
            return Answer::done(queues.rows[heap][root].item, queues.rows[heap][root].key, 0, 0);
        }
        let taken = queues.rows[heap].remove(root);
        let mut answer = Answer::done(taken.item, taken.key, 0, 0);
        if self.is(ReleasedChildrenCountedAsCuts) {
            answer.cuts = taken.rank() as u32;
        }
        if self.is(MarkLeftOnReleasedChild) {
            queues.rows[heap].extend(taken.children);
        } else {
            queues.release(heap, taken);
        }
        answer.links = self.consolidate(queues, heap, takings);
        answer
    }

    fn consolidate(&self, queues: &mut Queues, heap: usize, takings: u32) -> u32 {
        let row = queues.rows[heap].clone();
        let links = queues.consolidate(heap);
        match self.variant {
            Some(RowNeverLinked) => {
                queues.rows[heap] = row;
                0
            }
            Some(LinksOnlyAtTheFirstTaking) if takings > 1 => {
                queues.rows[heap] = row;
                links
            }
            Some(RowByDescendingRank) => {
                queues.rows[heap].reverse();
                links
            }
            Some(TieLinkedByRowOrder) => {
                queues.rows[heap] = row;
                consolidate_by_row_order(queues, heap)
            }
            Some(fault) if places::FAULTS.contains(&fault) => {
                queues.rows[heap] = row;
                self.consolidate_by_numbers(queues, heap)
            }
            Some(LinkedByWords) => {
                queues.rows[heap] = row;
                consolidate_by_words(queues, heap)
            }
            Some(LinksReportedZero) => 0,
            Some(InventedCount) => links + links / 3,
            _ => links,
        }
    }

    fn lower(&self, queues: &mut Queues, item: u32, key: u32) -> Answer {
        let position = queues.locate(item).expect("not refused");
        let ancestors = Ancestors::of(queues, &position);
        if self.is(EqualKeyNeverCut) && ancestors.parent_key() == Some(key) {
            queues.node_mut(&position).key = key;
            return Answer::done(item, key, 0, 0);
        }
        if self.is(NoCascade) {
            ancestors.unmark_parent(queues, &position);
        }
        if self.is(CutByWords) {
            return lower_by_words(queues, &position, key);
        }
        let answer = queues.answer(Some(Call::DecreaseKey { item, key }));
        self.after_cuts(queues, &ancestors, answer.cuts);
        answer
    }

    fn delete(&self, queues: &mut Queues, item: u32, takings: u32) -> Answer {
        let position = queues.locate(item).expect("not refused");
        let heap = position.heap;
        if position.path.len() == 1 && queues.minimum(heap) == Some(position.path[0]) {
            if self.is(DeleteOfTheFirstWithoutLinking) {
                let tree = queues.rows[heap].remove(position.path[0]);
                let key = tree.key;
                queues.release(heap, tree);
                return Answer::done(item, key, 0, 0);
            }
            return self.first(queues, heap, true, takings + 1);
        }
        let ancestors = Ancestors::of(queues, &position);
        let mut answer = queues.answer(Some(Call::Delete { item }));
        self.after_cuts(queues, &ancestors, answer.cuts);
        if self.is(LinkingOnDeleteOfAnother) {
            answer.links = queues.consolidate(heap);
        }
        answer
    }

    /// Faults in the marks after a cut and its cascade.
    fn after_cuts(&self, queues: &mut Queues, ancestors: &Ancestors, cuts: u32) {
        let cut = &ancestors.nodes[..cuts as usize];
        if self.is(MarkLeftOnCutTree) {
            for node in cut.iter().filter(|node| node.marked) {
                set_mark(queues, node.item, true);
            }
        }
        let last_parent = ancestors.nodes.get(cuts as usize);
        if let (true, true, Some(root)) = (self.is(RootMarkedThatLostAChild), cuts > 0, last_parent) {
            if cuts as usize + 1 == ancestors.nodes.len() {
                set_mark(queues, root.item, true);
            }
        }
    }
}

/// Linking in which the tree that stood first wins where keys are equal.
fn consolidate_by_row_order(queues: &mut Queues, heap: usize) -> u32 {
    let mut places: [Option<reference::Tree>; 17] = Default::default();
    let mut links = 0;
    for mut tree in std::mem::take(&mut queues.rows[heap]) {
        while let Some(mut holder) = places[tree.rank()].take() {
            if tree.key < holder.key {
                std::mem::swap(&mut tree, &mut holder);
            }
            tree.marked = false;
            holder.children.push(tree);
            tree = holder;
            links += 1;
        }
        let rank = tree.rank();
        places[rank] = Some(tree);
    }
    queues.rows[heap] = places.into_iter().flatten().collect();
    links
}

/// Linking in which words are compared.
fn consolidate_by_words(queues: &mut Queues, heap: usize) -> u32 {
    let amount = queues.amounts[heap];
    let mut words = forest::by_words(queues);
    let links = words.consolidate(heap);
    queues.rows[heap] = words.rows[heap].clone();
    queues.rows[heap].iter_mut().for_each(|root| shift(root, amount));
    links
}

/// A lowering that cuts if the word then comes before that of the parent.
fn lower_by_words(queues: &mut Queues, position: &Position, key: u32) -> Answer {
    queues.node_mut(position).key = key;
    let words = forest::by_words(queues);
    let mut parent = position.clone();
    parent.path.pop();
    let cut = !parent.path.is_empty() && words.node(position).precedes(words.node(&parent));
    let item = queues.node(position).item;
    let cuts = if cut { queues.cut(position) } else { 0 };
    Answer::done(item, key, 0, cuts)
}

fn names_heap_above_7(line: &[u8]) -> bool {
    let digits: Vec<u8> = line.iter().skip(2).copied().take_while(u8::is_ascii_digit).collect();
    let number = String::from_utf8_lossy(&digits).parse::<u64>().unwrap_or(0);
    matches!(line, [b'M' | b'T' | b'I' | b'J' | b'A', b',', ..]) && number > 7
}

fn set_mark(queues: &mut Queues, item: u32, marked: bool) {
    if let Some(position) = queues.locate(item) {
        queues.node_mut(&position).marked = marked;
    }
}

struct Ancestor {
    item: u32,
    key: u32,
    marked: bool,
}

/// A node and its ancestors up to the root, as they were before a call.
struct Ancestors {
    nodes: Vec<Ancestor>,
}

impl Ancestors {
    fn of(queues: &Queues, position: &Position) -> Ancestors {
        let at = |depth: usize| {
            let node = queues.node(&Position { heap: position.heap, path: position.path[..depth].to_vec() });
            Ancestor { item: node.item, key: node.key, marked: node.marked }
        };
        Ancestors { nodes: (1..=position.path.len()).rev().map(at).collect() }
    }

    fn parent_key(&self) -> Option<u32> {
        self.nodes.get(1).map(|parent| parent.key)
    }

    /// An unmarked parent ends a cascade.
    fn unmark_parent(&self, queues: &mut Queues, position: &Position) {
        if position.path.len() > 1 {
            set_mark(queues, self.nodes[1].item, false);
        }
    }
}
