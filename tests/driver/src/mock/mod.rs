//! Wrong engines: the reference with one deliberate fault each. The campaigns must catch them all.

mod budgets;
mod ceilings;
mod counts;
mod feeds;
mod joints;
mod layouts;
mod lines;
mod maps;
mod numbers;
mod places;
mod programs;
mod raises;
mod runs;
mod search;
mod turns;
mod windows;

use crate::engine::{BudgetLists, Engine, FeedLists, Part};
use reference::feed::Asked;
use reference::map::FIELDS;
use reference::run::{LINE_ROOM, MAX_BYTES, MAX_LINES, MODEM_ITEMS};
use reference::{program, store};

/// Declares the faults once: as an enum, and in groups with the parts that must each catch them.
macro_rules! variants {
    ($([$($part:ident)*] $($name:ident)*;)*) => {
        #[derive(Clone, Copy, Debug, PartialEq, Eq)]
        pub enum Variant { $($($name,)*)* }
        pub const VARIANTS: &[(&[Part], &[Variant])] = &[$((&[$(Part::$part),*], &[$(Variant::$name),*])),*];
    };
}

variants! {
    // Queues: seen in answers.
    [Modem Runs QueueProgram]
        TwelveWithoutLooking RowNeverLinked LinksReportedZero LinksOnlyAtTheFirstTaking InventedCount
        LinkingOnDeleteOfAnother EqualKeysInRowOrder RowByDescendingRank EqualKeyNeverCut
        ReleasedChildrenCountedAsCuts NoCascade JoinedRowInFront DeleteOfTheFirstWithoutLinking
        TallyNotReset TieLinkedByRowOrder;
    // Raises: which are refused, what they add to, and what they answer.
    [Modem Runs QueueProgram]
        RaiseIsNoCall RaiseWithoutAmountAccepted RaiseWithThirdNumberAccepted RaiseWithoutHeapAccepted
        NumberAboveTheLargestIs25 RaiseOfNoHeapDone RaiseOfEmptyHeapRefused RaiseByNothingRefused
        Never25 AtTheLargestSum25 OneTooManyAccepted OfTheFirstOnly25 OfRootsOnly25 OfTheLastTreeOnly25 ByWords25
        ByTheAmount25 OfAnyHeap25 OfEmptyHeaps25 RefusedRaiseDone RaiseSaturates RaiseOfRootsOnly RaiseOfEveryHeap
        RaiseReplacesTheAmount AmountCutTo16Bits AmountCutTo31Bits AmountSaturates RaiseLinksTheRow
        RaiseCountedAsLink RaiseCountedAsCut RaiseAnswersWhatIsAdded RaiseAnswersTheAmount RaiseAnswersTrees
        RaiseAnswersTheFirst;
    // Words and keys: seen in answers.
    [Modem Runs QueueProgram]
        InsertionStoredWithoutAmount LoweringStoredWithoutAmount ElevenByWord OrderByWords LinkedByWords CutByWords
        FirstByWords ShowingAnswersWord TakingAnswersWord InsertionAnswersWord DeletionAnswersWord LoweringAnswersWord
        JoinedWordsLeft JoinedWordsLeftIfBothAreRaised JoinedWordsLeftInAnUnraisedHeap JoinedWordsLeftInARaisedHeap
        JoinedWordsLeftInAnEmptyHeap JoinedWordsTurnedRound JoinedWordsOfRootsOnly JoinTakesTheOtherAmount;
    // Amounts: seen in store words only, since the keys are right.
    [Runs]
        AmountKeptAfterTaking AmountKeptAfterDeletion EmptyHeapRaised JoinedAmountLeft JoinRewritesToTheOtherAmount
        JoinIntoEmptyTakesTheAmount JoinForgetsTheAmount RaiseRewritesWords AmountSubtracted AmountIsTheFirstWord
        AmountsAfterAllHeaps;
    // Queues: seen in store words only, since a mark on a root changes no later answer.
    [Runs]
        MarkLeftOnCutTree MarkLeftOnReleasedChild RootMarkedThatLostAChild;
    // Queues: seen with more items than the modem has.
    [Runs]
        PlaceCutTo8Bits PlaceCutTo11Bits LastItemTakenForFree FreePlaceCutTo12Bits LastPlaceNeverWritten;
    // Queues: which places of linking are taken.
    [Modem Runs QueueProgram] FirstHolderBack NextPlaceTested PlaceStaysTaken;
    // Lines and runs.
    [Modem Runs QueueProgram]
        RefusesEverySheet SixTestedAfterSeven ReturnBeforeLineEndAccepted
        OpenLastLineDropped EmptyLineSkipped EightAnsweredAsNine;
    // Numbers, in sheets and in maps.
    [Modem Runs QueueProgram Map FeedProgram]
        PaddedNumberRefused ElevenDigitsAccepted AnyZerosAccepted FirstNineDigitsRead DigitDroppedWithZeros
        PaddedNumberReadAsOctal TenDigitsRefused NumberAboveTheLargestWraps NumberAboveTheLargestLowered
        ColonReadAsDigit;
    [Modem Runs QueueProgram] PaddingPrinted SevenDigitsPrintedWide;
    [Modem Runs] OneByteBeyond RoomTestedBeforeLines;
    [Runs]
        StoreLeftAsFound KeptRunEmptiesTheStore FirstItemWordIsFirstTree CountOfJoinedHeapLeft RunFiguresSwapped
        RunFiguresLeftOnRefusal;
    [Modem] ModemHoldsOneItemMore;
    // The size of a store, as it was with four words a heap.
    [Runs] StoreOf32Words;
    [Modem] ModemStoreOf2080Words;
    [Feed Budget] FeedStoreOf32Words FeedStoreOf32WordsToo LongerFeedStoreAccepted StoreTestedAfterSpans;
    [QueueProgram] QueueProgramStoreOf8224Words;
    [FeedProgram] FeedProgramStoreOf8224Words;
    // What a feed call leaves in the words of heap 0.
    [Feed Budget] FeedLeavesAnAmount;
    // Where the words of a store lie. In the part of one entry only that entry has the fault.
    [Runs Turn] WordsByKind StateIsTheFirstWord NextAndPreviousExchanged;
    // A feed call leaves free items, whose words are all 0: only where the heap words lie is seen there.
    [Runs Turn Feed Budget] HeapWordsLast;
    // The order of words before request 8, still used at one place.
    [Runs]
        FreshRunLeavesWordsByKind KeptRunLeavesWordsByKind KeptRunReadsWordsByKind KeptStoreCheckedByKind
        StoreSoundByKind EitherOrderKept EitherOrderSound;
    [Modem Runs QueueProgram] JoinRewritesByKind RaiseTestedByKind;
    // The turn: which words are written, and where.
    [Turn]
        TurnedBack TurnedTwice TurnedInPlace HeapWordsNotTurned AmountsNotTurned AmountsTurnedToZero
        ItemsTurnedFromWord32 LastItemNotTurned StatesNotTurned FreeItemsNotTurned ZeroWordsNotTurned MarksNotTurned
        KeysTurnedForKeyWords AmountsTurnedIntoKeyWords NoneTurnedIn16Bits TurnedItemCutTo8Bits TurnedPlaceCutTo15Bits;
    // The turn: which stores are refused, and under which code.
    [Turn]
        UnsoundStoreTurned OldStoreCheckedByItem EitherOrderTurned SecondBufferChecked UnsoundStoreGets1
        SoundnessTestedBeforeLengths LongerSecondBufferAccepted ShorterSecondBufferAccepted OddLengthTurned
        StoreOf4097ItemsTurned StoreOf4096ItemsNotTurned StoreOfNoItemsNotTurned WrongLengthGets5 UnequalLengthsGet5
        LengthsComparedIn16Bits;
    // The turn: what a refusal leaves, and what becomes of the old store.
    [Turn]
        TurnedBeforeTheCheck HeapWordsTurnedBeforeTheCheck SecondBufferZeroedOnRefusal SecondBufferEmptiedOnRefusal
        OldStoreZeroedOnRefusal OldStoreEmptiedWhenTurned OldStoreTurnedToo;
    // The check of a kept store, and of one that is turned.
    [Runs Turn]
        SmallChildAccepted MarkedRootAccepted HeapOrderIgnored CountsIgnored EveryStoreSound NoStoreSound
        MarkedSecondChildRefused AmountOnEmptyHeapAccepted OrderCheckedByWords FirstItemCheckedByWords
        AnyAmountRefused WrappedKeyRefused;
    // Feed calls.
    [Feed]
        TableOfAllNone FixedTable ZeroLossAccepted FeedStoreLeftFull FeedStoreLeftAsFound FeedCountsZero
        FeedListsTouchedOnRefusal StartShowsASpan OrderTestedBeforeLoss;
    // Chains of equal loss: which one is shown. In the part of one call only that call has the fault.
    [Feed Budget FeedProgram]
        FirstSpanFound LowestSpanOfEqualLoss LowestSpanWithFewestJoints LongerChainPreferred FewerJointsBeforeSmallerLoss
        HighestSpanOfEqualChains FirstSpanOfEqualChains LastSpanOfEqualChains ClosedSpansInTies;
    // Joints: what is shown.
    [Feed Budget FeedProgram]
        JointsLeftOnTies SpanLeftOnTies JointsLeftOnLowering FewestJointsOfAnyOffer JointsOneMore
        JointsOneMoreButAtTheStart InnerJointsCounted JointsAlwaysOne StartJointsNone StartJointsOne UnreachedJointsZero
        JointsCutTo8Bits SpansAndJointsExchanged;
    [Feed Budget] JointsCutTo11Bits;
    [Budget] WaitingJointsShown JointsBeyondTheBudgetShown ListByJointsOnTies;
    // An equal loss that makes a queue call, or is counted.
    [Feed Budget FeedProgram] TiePutInAnew JointsInTheKey TieCountedAsCut TieCountedAsExamined;
    // The list of joints: its length, and what a refusal leaves.
    [Feed Budget]
        JointListNotTested LongerJointListAccepted ShorterJointListAccepted JointListTestedFirst
        JointListTestedBeforeSpanLists JointListTestedAfterSpans JointsTouchedOnRefusal JointsFilledBeforeSpans;
    [Budget] JointListTestedAfterPlaceList;
    // Feed calls with a budget: which places, and in which order.
    [Budget]
        PlaceAtTheBudgetLeftOut PlaceBeyondTheBudgetListed UnreachedPlacesListed ListByPlace
        ListByDescendingPlaceOnTies ListedOneTooMany;
    // Feed calls with a budget: what they leave.
    [Budget]
        FirstWaitingPlaceInTheList ListFilledWithNone LongerListFilled WaitingLossesShown WaitingSpansShown
        WaitingPlacesLeftInStore BudgetTouchesListOnRefusal BudgetFiguresLeftOnRefusal;
    // Feed calls with a budget: what they count.
    [Budget] SearchNotStopped StoppingTakingCounted EmptyingCounted OffersBeyondPruned;
    // Feed calls with a budget: code 22.
    [Budget]
        PlaceListTestedAfterSpans PlaceListTestedBeforeLists LongerPlaceListRefused PlaceListNotTested;
    // Windows: which spans are used. In the part of one call only that call has the fault.
    [Feed Budget FeedProgram]
        UsableAtTheClosingMinute ClosedAtTheOpeningMinute OpeningIgnored ClosingIgnored WindowsIgnored
        ClosedSpanEndsTheTrying ClosedSpanShownOnTies;
    // The number of spans examined.
    [Feed Budget FeedProgram]
        ClosedSpansNotCounted EveryClosedSpanCounted EveryOpenSpanCounted EverySpanCounted SpansIntoReachedPlacesCounted
        OneMoreIfThePlaceVisitedLastHasNoSpan OneMoreIfTheHighestPlaceHasNoSpan PlaceVisitedLastNotCounted
        SelfSpansNotCounted SpansIntoTheStartNotCounted ParallelSpansCountedOnce PlacesCountedForSpans
        CountFromOne SpansCountedTwice CountCutTo8Bits CountCutTo12Bits;
    [Feed Budget] CountCutTo14Bits;
    [Budget] SpansBeyondTheBudgetCounted SpansOfWaitingPlacesCounted SpansOfTheFirstWaitingPlaceCounted;
    // Links, cuts and spans examined by which a ceiling is broken. Up to the call's own only a comparison shows it.
    [Feed Budget FeedProgram]
        LinksCountedFiveFold CutsCountedTenFold FeedTallyNotReset LinksAtTheLargest CutsLessLinks OneAboveTheCeiling
        OneSpanNotCounted SpansOfTheStartNotCounted StartNotReached EveryRootLinkedAtATaking AtTheCeiling;
    // Windows: what is refused.
    [Feed Budget FeedProgram]
        WindowTestedBeforeOrder WindowTestedBeforePlaces WindowsTestedAfterAllSpans AlwaysOpenWindowRefused
        WindowOfOneMinuteRefused ClosingAt1441Accepted AnyClosingAccepted EmptyWindowAccepted TurnedWindowAccepted
        ClosedSpansNotTested WindowCutTo16Bits;
    [Feed Budget] OpeningListNotCompared ClosingListNotCompared;
    // The minute of a call.
    [Feed Budget FeedProgram]
        MinuteTestedBeforePlaces MinuteTestedBeforeStart MinuteTestedAfterSpans LastMinuteRefused Minute1440Accepted
        MinuteNotTested MinuteCutTo16Bits;
    [Feed Budget] MinuteTestedAfterSpanLists MinuteTestedAfterResultLists;
    [Budget] MinuteTestedAfterPlaceList;
    // Map texts.
    [Map]
        MapListsTouchedOnRefusal MapRoomTestedFirst MapEmptyLineSkipped MapFiguresLeftOnRefusal
        MapMinuteAfterSpans MapOpeningListNotCompared MapClosingListNotCompared MapWindowListsFilled;
    [Map FeedProgram]
        MapWindowsExchanged MapThreeNumbersAccepted MapFourNumbersAccepted MapSixthNumberIgnored
        MapTwoNumberHeadAccepted MapFourthHeadNumberIgnored MapMinuteMissing MapStartAndMinuteExchanged
        MapWindowsTested MapMinuteTested;
    // Programs.
    [QueueProgram FeedProgram] ProgramOmitsLastLineEnd ProgramReadsOneByteLess;
    [QueueProgram] ProgramHoldsOneItemMore;
    [FeedProgram]
        ProgramShowsNoneAsNumber ProgramHoldsOnePlaceMore ProgramHoldsOneSpanMore ProgramShowsJointsBeforeSpan
        ProgramShowsJointsBeforeLoss ProgramShowsZeroForNoJoints ProgramShowsNoJointsAtTheStart ProgramOmitsJoints;
}

use Variant::*;

/// The wrong engine. `None` runs the same code without a fault.
pub struct Mock {
    pub variant: Option<Variant>,
    /// Only this part is offered, so that a fault is seen to be caught there; all parts if `None`.
    pub only: Option<Part>,
}

impl Mock {
    fn is(&self, variant: Variant) -> bool {
        self.variant == Some(variant)
    }

    /// The engine that an entry of a part shows: with the fault where this part is to catch it, else without.
    fn in_part(&self, part: Part) -> Mock {
        Mock { variant: self.variant.filter(|_| self.has(part)), only: self.only }
    }

    /// What a program reads of its input: all, or no more than 60,000 bytes.
    fn read<'a>(&self, input: &'a [u8]) -> &'a [u8] {
        let end = if self.is(ProgramReadsOneByteLess) { input.len().min(MAX_BYTES) } else { input.len() };
        &input[..end]
    }
}

impl Engine for Mock {
    fn has(&self, part: Part) -> bool {
        self.only.is_none_or(|only| only == part)
    }

    fn queue_run(&self, sheet: &[u8], out: &mut [u8]) -> u32 {
        let more = usize::from(self.is(ModemHoldsOneItemMore));
        let items = MODEM_ITEMS + more - usize::from(self.is(ModemStoreOf2080Words));
        self.run(false, &mut vec![0; store::length(items)], sheet, out).number()
    }

    fn fresh_run(&self, store: &mut [u32], sheet: &[u8], out: &mut [u8], figures: &mut [u32; 2]) -> u32 {
        self.lent_run(false, store, sheet, out, figures)
    }

    fn kept_run(&self, store: &mut [u32], sheet: &[u8], out: &mut [u8], figures: &mut [u32; 2]) -> u32 {
        self.lent_run(true, store, sheet, out, figures)
    }

    fn store_sound(&self, store: &[u32]) -> u32 {
        u32::from(self.accepts_lent(store).is_some())
    }

    fn turn_store(&self, old: &mut [u32], turned: &mut [u32]) -> u32 {
        self.in_part(Part::Turn).faulty_turn(old, turned)
    }

    fn feed_table(&self, asked: Asked, lists: FeedLists, figures: &mut [u32; 3]) -> u32 {
        self.in_part(Part::Feed).faulty_table(asked, lists, figures)
    }

    fn feed_budget(&self, asked: Asked, budget: u32, lists: BudgetLists, figures: &mut [u32; 4]) -> u32 {
        self.in_part(Part::Budget).faulty_budget(asked, budget, lists, figures)
    }

    fn read_map(&self, text: &[u8], lists: [&mut [u32]; FIELDS], figures: &mut [u32; 4]) -> u32 {
        self.in_part(Part::Map).faulty_map(text, lists, figures)
    }

    fn queue_program(&self, input: &[u8]) -> Vec<u8> {
        let mut out = vec![0; LINE_ROOM * MAX_LINES];
        let more = usize::from(self.is(ProgramHoldsOneItemMore));
        let items = program::ITEMS + more - usize::from(self.is(QueueProgramStoreOf8224Words));
        let run = self.run(false, &mut vec![0; store::length(items)], self.read(input), &mut out);
        let mut printed = match run.code {
            0 => out[..run.bytes].to_vec(),
            code => format!("{code}\n").into_bytes(),
        };
        if self.is(ProgramOmitsLastLineEnd) {
            printed.pop();
        }
        printed
    }

    fn feed_program(&self, input: &[u8]) -> Vec<u8> {
        let mut printed = self.faulty_feed_program(self.read(input));
        if self.is(ProgramOmitsLastLineEnd) {
            printed.pop();
        }
        printed.into_bytes()
    }
}
