//! Sheets: steered towards deep trees, cascades, ties and raises, with refusals and malformed lines between.

use crate::forest;
use crate::malformed;
use crate::padding;
use crate::random::Random;
use reference::{Call, Queues, Tree};

/// What kind of sheet to write.
#[derive(Clone, Copy)]
pub struct Profile {
    pub lines: usize,
    pub heaps: u64,
    /// Keys are drawn below this; a small limit gives many ties.
    pub keys: u64,
    /// Percent of the items that are inserted first.
    pub fill: u64,
    /// Percent of steps that prepare and then make a long cascade.
    pub bursts: u64,
    /// I, M, T, D, X, J, A.
    pub weights: [u64; 7],
    /// Percent of lines meant to be refused with 7 to 13 or 25.
    pub refusals: u64,
    /// Percent of lines that are no call.
    pub malformed: u64,
    /// Percent of numbers with zeros in front.
    pub padding: u64,
}

pub const STEADY: [u64; 7] = [30, 5, 20, 35, 8, 2, 0];
pub const CASCADES: [u64; 7] = [25, 0, 8, 60, 6, 1, 0];
pub const DELETIONS: [u64; 7] = [35, 2, 6, 20, 35, 2, 2];
pub const MELDS: [u64; 7] = [40, 5, 15, 15, 10, 15, 6];
pub const RAISES: [u64; 7] = [28, 6, 14, 22, 8, 7, 15];

const WIDE: u64 = 1 << 32;

pub fn profile(random: &mut Random, lines: usize) -> Profile {
    Profile {
        lines,
        heaps: *random.pick(&[1, 1, 2, 8]),
        keys: *random.pick(&[1, 3, 20, 1000, 100_000, WIDE]),
        fill: *random.pick(&[0, 50, 100]),
        bursts: *random.pick(&[0, 3, 10]),
        weights: *random.pick(&[STEADY, CASCADES, DELETIONS, MELDS, RAISES]),
        refusals: *random.pick(&[0, 3, 15]),
        malformed: *random.pick(&[0, 2, 15]),
        padding: *random.pick(&[0, 0, 15, 100]),
    }
}

/// Lines (without LF) for queues that start as given.
pub fn lines(random: &mut Random, start: &Queues, profile: &Profile) -> Vec<Vec<u8>> {
    let mut queues = start.clone();
    let mut lines = Vec::with_capacity(profile.lines);
    let push = |random: &mut Random, queues: &mut Queues, lines: &mut Vec<Vec<u8>>, line: Vec<u8>| {
        if lines.len() < profile.lines {
            let line = padding::pad(random, profile.padding, &line);
            queues.answer(Call::parse(&line));
            lines.push(line);
        }
    };
    for line in filling(random, &queues, profile) {
        push(random, &mut queues, &mut lines, line);
    }
    while lines.len() < profile.lines {
        if random.chance(profile.bursts) {
            for line in burst(&queues) {
                push(random, &mut queues, &mut lines, line);
            }
        }
        let line = if random.chance(profile.malformed) {
            malformed::line(random)
        } else if random.chance(profile.refusals) {
            refused(random, &queues).into_bytes()
        } else {
            steered(random, &queues, profile).into_bytes()
        };
        push(random, &mut queues, &mut lines, line);
    }
    lines
}

/// Insertions of free items in random order, and a taking that links them.
fn filling(random: &mut Random, queues: &Queues, profile: &Profile) -> Vec<Vec<u8>> {
    let mut items: Vec<u32> = (0..queues.capacity).filter(|&item| queues.locate(item).is_none()).collect();
    random.shuffle(&mut items);
    items.truncate(items.len() * profile.fill as usize / 100);
    let mut lines: Vec<Vec<u8>> = items
        .into_iter()
        .map(|item| format!("I,{},{item},{}", random.below(profile.heaps), key(random, profile.keys)).into_bytes())
        .collect();
    if !lines.is_empty() {
        lines.push(b"T,0".to_vec());
    }
    lines
}

/// Lowerings that mark the nodes of a longest path one by one, and one at its end that cuts them all.
fn burst(queues: &Queues) -> Vec<Vec<u8>> {
    let path = forest::longest_path(queues);
    let mut lines = Vec::new();
    let mut lower = |child: &Tree, parent: &Tree| {
        let key = if child.item < parent.item { parent.key } else { parent.key.saturating_sub(1) };
        if key <= child.key {
            lines.push(format!("D,{},{key}", child.item).into_bytes());
        }
    };
    for step in path.windows(2).skip(1) {
        let (node, below) = (step[0], step[1]);
        if let (false, Some(child)) = (node.marked, node.children.iter().find(|child| child.item != below.item)) {
            lower(child, node);
        }
    }
    if let [.., parent, leaf] = path[..] {
        lower(leaf, parent);
    }
    lines
}

/// Joins lines with LF; without a last LF if `open`.
pub fn sheet(lines: &[Vec<u8>], open: bool) -> Vec<u8> {
    let mut sheet = Vec::new();
    for line in lines {
        sheet.extend_from_slice(line);
        sheet.push(b'\n');
    }
    if open {
        sheet.pop();
    }
    sheet
}

fn key(random: &mut Random, limit: u64) -> u32 {
    if limit == WIDE && random.chance(10) {
        return *random.pick(&[0, 1, u32::MAX - 1, u32::MAX]);
    }
    random.below(limit) as u32
}

/// A call that is mostly possible, and often cuts.
fn steered(random: &mut Random, queues: &Queues, profile: &Profile) -> String {
    let heap = random.below(profile.heaps);
    let held: Vec<u64> = (0..profile.heaps).filter(|&heap| !queues.rows[heap as usize].is_empty()).collect();
    let full = if held.is_empty() || random.chance(3) { heap } else { *random.pick(&held) };
    let nodes = forest::nodes(queues);
    let kind = if nodes.is_empty() { 0 } else { random.weighted(&profile.weights) };
    match kind {
        0 => match free_item(random, queues, &nodes) {
            Some(item) => format!("I,{heap},{item},{}", key_beside(random, queues, heap as usize, profile.keys)),
            None => format!("T,{full}"),
        },
        1 => format!("M,{full}"),
        2 => format!("T,{full}"),
        3 => {
            let node = deep_node(random, &nodes);
            // Equal to the parent's key, just below it, or anywhere below its own.
            let below_own = node.key - random.below(u64::from(node.key) + 1) as u32;
            let aims = [node.parent_key.min(node.key), node.parent_key.min(node.key).saturating_sub(1), below_own];
            format!("D,{},{}", node.item, random.pick(&aims))
        }
        4 => format!("X,{}", deep_node(random, &nodes).item),
        5 if random.chance(25) => format!("J,{full},{heap}"),
        5 => format!("J,{heap},{full}"),
        _ => format!("A,{full},{}", raise(random, queues, full as usize)),
    }
}

/// The most that a heap can be raised by.
pub fn room(queues: &Queues, heap: usize) -> u32 {
    u32::MAX - queues.largest_key(heap).unwrap_or(0)
}

/// By how much to raise a heap: mostly little, now and then up to the largest number or one more.
fn raise(random: &mut Random, queues: &Queues, heap: usize) -> u32 {
    let room = room(queues, heap);
    let little = random.below(u64::from(room).min(50) + 1) as u32;
    let any = random.below(u64::from(room) + 1) as u32;
    let choices = [little, any, room, room.saturating_add(1), 0, random.word() as u32];
    choices[random.weighted(&[60, 15, 8, 6, 4, 7])]
}

/// A key for a heap: where it has been raised, often that of one of its items, or one beside it.
fn key_beside(random: &mut Random, queues: &Queues, heap: usize, limit: u64) -> u32 {
    let row = &queues.rows[heap];
    if queues.amounts[heap] == 0 || row.is_empty() || random.chance(40) {
        return key(random, limit);
    }
    let near = random.pick(row).key;
    *random.pick(&[near, near.saturating_add(1), near.saturating_sub(1), queues.amounts[heap]])
}

fn free_item(random: &mut Random, queues: &Queues, nodes: &[forest::Seen]) -> Option<u32> {
    let mut free = vec![true; queues.capacity as usize];
    nodes.iter().for_each(|node| free[node.item as usize] = false);
    let free: Vec<u32> = (0..queues.capacity).filter(|&item| free[item as usize]).collect();
    (!free.is_empty()).then(|| *random.pick(&free))
}

/// A node under a marked parent if there is one, else the deepest of a few.
fn deep_node(random: &mut Random, nodes: &[forest::Seen]) -> forest::Seen {
    let cascading: Vec<_> = nodes.iter().filter(|node| node.parent_marked).collect();
    if !cascading.is_empty() && random.chance(60) {
        return **random.pick(&cascading);
    }
    let few: Vec<_> = (0..1 + random.size(3)).map(|_| *random.pick(nodes)).collect();
    *few.iter().max_by_key(|node| node.depth).expect("at least one")
}

/// A line that is a call but is mostly refused.
fn refused(random: &mut Random, queues: &Queues) -> String {
    let beyond = *random.pick(&[8, 9, 10, 255, u32::MAX]);
    let outside = *random.pick(&[queues.capacity, queues.capacity + 1, u32::MAX]);
    let item = random.below(u64::from(queues.capacity) + 1) as u32;
    let heap = random.below(8);
    match random.below(17) {
        0 => format!("{},{beyond}", random.pick(&["M", "T"])),
        1 => format!("J,{heap},{beyond}"),
        2 => format!("J,{beyond},{beyond}"),
        3 => format!("I,{beyond},{outside},0"),
        4 => format!("I,{heap},{outside},0"),
        5 => format!("D,{outside},{}", random.below(3)),
        6 => format!("X,{outside}"),
        7 => format!("J,{heap},{heap}"),
        8 => format!("I,{heap},{item},{}", random.below(9)),
        9 => format!("D,{item},{}", u32::MAX - random.below(2) as u32),
        10 => format!("X,{item}"),
        11 => format!("A,{beyond},{}", random.below(3)),
        12 => format!("A,{heap},{}", room(queues, heap as usize).saturating_add(1)),
        13 => format!("A,{heap},{}", u32::MAX - random.below(3) as u32),
        14 | 15 => lowering_by_word(random, queues),
        _ => format!("{},{heap}", random.pick(&["M", "T"])),
    }
}

/// A lowering to the key word of an item or to one above its key: where the heap is raised, the word misleads.
fn lowering_by_word(random: &mut Random, queues: &Queues) -> String {
    let nodes: Vec<_> = forest::nodes_by_heap(queues).filter(|&(heap, _)| queues.amounts[heap] != 0).collect();
    if nodes.is_empty() {
        return "D,0,4294967295".into();
    }
    let (heap, node) = *random.pick(&nodes);
    let word = node.key.wrapping_sub(queues.amounts[heap]);
    format!("D,{},{}", node.item, random.pick(&[word, word.wrapping_add(1), node.key.saturating_add(1)]))
}

/// Queues as a random sheet leaves them.
pub fn grown(random: &mut Random, capacity: u32, lines_played: usize) -> Queues {
    let mut queues = Queues::new(capacity);
    let mut profile = profile(random, lines_played);
    (profile.refusals, profile.malformed, profile.padding) = (0, 0, 0);
    for line in lines(random, &queues.clone(), &profile) {
        queues.answer(Call::parse(&line));
    }
    queues
}
