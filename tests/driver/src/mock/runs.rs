//! Faults in runs and in the check of a kept store.

use super::layouts::{by_item, Moment};
use super::Mock;
use super::Variant::*;
use crate::forest;
use crate::padding;
use reference::run::{self, Run, LINE_ROOM};
use reference::store::{self, heap_index, HeapField, WORDS_A_HEAP};
use reference::{text, Answer, Queues, Tree, HEAPS, NONE};

impl Mock {
    /// The check of words as they are lent.
    pub(super) fn accepts_lent(&self, words: &[u32]) -> Option<Queues> {
        let mut words = words.to_vec();
        if self.is(StoreOf32Words) {
            words.resize(words.len() + WORDS_A_HEAP + 3, 0);
        }
        store::items(words.len())?;
        self.lay_out(&mut words, Moment::Checked);
        match self.accepts(&words) {
            None if self.is(EitherOrderSound) => self.accepts(&by_item(&words)),
            found => found,
        }
    }

    /// The forests that a kept run goes on from.
    fn accepts_kept(&self, words: &[u32]) -> Option<Queues> {
        match self.variant {
            Some(KeptStoreCheckedByKind) => self.accepts(&by_item(words)).and_then(|_| store::decode(words)),
            Some(EitherOrderKept) => self.accepts(words).or_else(|| self.accepts(&by_item(words))),
            _ => self.accepts(words),
        }
    }

    /// The check of words at their right places.
    pub(super) fn accepts(&self, words: &[u32]) -> Option<Queues> {
        let decoded = store::decode(words)?;
        let exact = store::encode(&decoded) == words;
        let roots = || decoded.rows.iter().flatten();
        let unmarked = roots().all(|root| !root.marked);
        let (ordered, ranks) = (roots().all(store::ordered), roots().all(store::ranks_suffice));
        let amounts = store::amounts_fit(&decoded);
        let by_words = forest::by_words(&decoded);
        let accepted = match self.variant {
            Some(SmallChildAccepted) => exact && unmarked && ordered && amounts,
            Some(MarkedRootAccepted) => exact && ordered && ranks && amounts,
            Some(HeapOrderIgnored) => exact && unmarked && ranks && amounts,
            Some(CountsIgnored) => {
                same_but(HeapField::Count, &store::encode(&decoded), words) && unmarked && ordered && ranks && amounts
            }
            Some(EveryStoreSound) => true,
            Some(NoStoreSound) => false,
            Some(MarkedSecondChildRefused) => {
                exact && unmarked && ordered && ranks && amounts && !roots().any(has_marked_small_child)
            }
            Some(AmountOnEmptyHeapAccepted) => exact && unmarked && ordered && ranks,
            Some(OrderCheckedByWords) => exact && amounts && store::well_formed(&by_words),
            Some(FirstItemCheckedByWords) => {
                let others = same_but(HeapField::FirstItem, &store::encode(&decoded), words);
                others && has_first_items(&by_words, words) && store::well_formed(&decoded)
            }
            Some(AnyAmountRefused) => exact && store::well_formed(&decoded) && decoded.amounts == [0; HEAPS],
            Some(WrappedKeyRefused) => exact && store::well_formed(&decoded) && !has_wrapped_key(&decoded),
            _ => exact && unmarked && ordered && ranks && amounts,
        };
        accepted.then_some(decoded)
    }

    /// A run on lent words, with its two figures.
    pub(super) fn lent_run(
        &self,
        kept: bool,
        words: &mut [u32],
        sheet: &[u8],
        out: &mut [u8],
        figures: &mut [u32; 2],
    ) -> u32 {
        let run = self.run(kept, words, sheet, out);
        if run.code != 0 && self.is(RunFiguresLeftOnRefusal) {
            return run.code;
        }
        *figures = run.figures();
        if self.is(RunFiguresSwapped) {
            figures.reverse();
        }
        run.code
    }

    /// A run on words that lie, and are as many, as a fault has it.
    pub(super) fn run(&self, kept: bool, words: &mut [u32], sheet: &[u8], out: &mut [u8]) -> Run {
        let mut own = words.to_vec();
        if self.is(StoreOf32Words) {
            own.resize(words.len() + WORDS_A_HEAP + 3, 0);
        }
        let is_store = store::items(own.len()).is_some();
        if is_store && kept {
            self.lay_out(&mut own, Moment::Kept);
        }
        let run = self.run_laid_out(kept, &mut own, sheet, out);
        if run.code == 0 {
            self.lay_out(&mut own, if kept { Moment::LeftKept } else { Moment::LeftFresh });
            words.copy_from_slice(&own[..words.len()]);
        }
        run
    }

    fn run_laid_out(&self, kept: bool, words: &mut [u32], sheet: &[u8], out: &mut [u8]) -> Run {
        let limit = match run::limits(words.len(), sheet, out.len()) {
            3 if self.is(RoomTestedBeforeLines) && out.len() < LINE_ROOM * text::lines(sheet).len() => 4,
            0 if self.is(RefusesEverySheet) => 2,
            code => code,
        };
        if limit != 0 {
            return Run { code: limit, ..Run::default() };
        }
        let items = store::items(words.len()).expect("tested") as u32;
        let mut queues = Queues::new(items);
        if kept {
            match self.accepts_kept(words) {
                Some(_) if self.is(KeptRunEmptiesTheStore) => {}
                Some(found) => queues = found,
                None => return Run { code: 5, ..Run::default() },
            }
        }
        let answers = self.answers(&mut queues, sheet);
        out[..answers.len()].copy_from_slice(answers.as_bytes());
        if self.is(OneByteBeyond) && answers.len() < out.len() {
            out[answers.len()] = 0;
        }
        if !self.is(StoreLeftAsFound) {
            words.copy_from_slice(&store::encode(&queues));
        }
        self.spoil_heap_words(words, sheet);
        Run { code: 0, lines: text::lines(sheet).len(), bytes: answers.len() }
    }

    fn spoil_heap_words(&self, words: &mut [u32], sheet: &[u8]) {
        for heap in 0..8 {
            let [first_tree, first_item, count] =
                [HeapField::FirstTree, HeapField::FirstItem, HeapField::Count].map(|field| heap_index(field, heap));
            if self.is(FirstItemWordIsFirstTree) {
                words[first_item] = words[first_tree];
            }
            let joined = format!(",{heap}").into_bytes();
            let was_joined = text::lines(sheet).iter().any(|line| line.starts_with(b"J") && line.ends_with(&joined));
            if self.is(CountOfJoinedHeapLeft) && was_joined && words[first_tree] == NONE {
                words[count] = 1;
            }
        }
    }

    /// The answer to a line; with a fault, zeros in the line are printed again, or a zero before seven digits.
    fn printed(&self, line: &[u8], answer: Answer) -> String {
        match self.variant {
            Some(PaddingPrinted) if padding::is_padded(line) => answer.line().replacen(',', ",0", 1),
            Some(SevenDigitsPrintedWide) => eight_wide(&answer.line()),
            _ => answer.line(),
        }
    }

    fn answers(&self, queues: &mut Queues, sheet: &[u8]) -> String {
        let mut lines = text::lines(sheet);
        if self.is(OpenLastLineDropped) && !sheet.ends_with(b"\n") {
            lines.pop();
        }
        if self.is(EmptyLineSkipped) {
            lines.retain(|line| !line.is_empty());
        }
        let (mut takings, mut links, mut answers) = (0, 0, String::new());
        for line in lines {
            let mut answer = self.answer(queues, line, &mut takings);
            links += answer.links;
            if self.is(TallyNotReset) && answer.code == 0 {
                answer.links = links;
            }
            answers += &self.printed(line, answer);
        }
        answers
    }
}

/// Whether words are the same but for one word of each heap.
fn same_but(field: HeapField, expected: &[u32], words: &[u32]) -> bool {
    let exempt: Vec<usize> = (0..HEAPS).map(|heap| heap_index(field, heap)).collect();
    expected.iter().zip(words).enumerate().all(|(at, (a, b))| a == b || exempt.contains(&at))
}

/// Whether the words name the first items of these forests.
fn has_first_items(queues: &Queues, words: &[u32]) -> bool {
    let first = |heap: usize| queues.minimum(heap).map_or(NONE, |root| queues.rows[heap][root].item);
    (0..HEAPS).all(|heap| words[heap_index(HeapField::FirstItem, heap)] == first(heap))
}

/// Whether a key is smaller than the amount, so that its word is larger.
fn has_wrapped_key(queues: &Queues) -> bool {
    forest::nodes_by_heap(queues).any(|(heap, node)| node.key < queues.amounts[heap])
}

fn has_marked_small_child(tree: &Tree) -> bool {
    let small = |(number, child): (usize, &Tree)| child.rank() < number || has_marked_small_child(child);
    tree.children.iter().enumerate().any(small)
}

/// A line with a zero before each number of seven digits.
fn eight_wide(line: &str) -> String {
    let wide = |number: &str| match number.len() {
        7 => format!("0{number}"),
        _ => number.to_string(),
    };
    line.split(',').map(wide).collect::<Vec<_>>().join(",")
}
