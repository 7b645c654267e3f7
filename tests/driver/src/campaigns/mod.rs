//! The campaigns: each drives one part of an engine and stops at the first difference.

pub mod amounts;
pub mod budgets;
pub mod ceilings;
pub mod codes;
pub mod feeds;
pub mod large_stores;
pub mod lengths;
pub mod linking_places;
pub mod map_texts;
pub mod numbers;
pub mod programs;
pub mod raised_sheets;
pub mod raises;
pub mod runs;
pub mod span_counts;
pub mod stores;
pub mod ties;
pub mod turns;
pub mod windows;

use crate::check::{Checker, Verdict};
use crate::engine::{Engine, Part};

pub struct Campaign {
    pub name: &'static str,
    pub part: Part,
    pub run: fn(&mut Checker) -> Verdict,
}

const fn campaign(part: Part, name: &'static str, run: fn(&mut Checker) -> Verdict) -> Campaign {
    Campaign { name, part, run }
}

/// Quick ones first, so that a wrong engine is caught soon.
pub const ALL: [Campaign; 116] = [
    campaign(Part::Modem, "modem: worked runs and limits", codes::modem),
    campaign(Part::Modem, "modem: zeros before every number", numbers::modem),
    campaign(Part::Modem, "modem: raises", raises::modem),
    campaign(Part::Modem, "modem: random sheets", runs::modem_sheets),
    campaign(Part::Runs, "runs: worked runs", codes::worked_runs),
    campaign(Part::Runs, "runs: codes 1 to 5 at their limits", codes::run_limits),
    campaign(Part::Runs, "runs: lines that are no call", codes::no_calls),
    campaign(Part::Runs, "runs: codes 6 to 13 and 25", codes::line_codes),
    campaign(Part::Runs, "runs: worked raises", raises::worked),
    campaign(Part::Runs, "runs: raises to the largest number", raises::limits),
    campaign(Part::Runs, "runs: zeros before every number", numbers::calls),
    campaign(Part::Runs, "runs: sheets with zeros, cut", numbers::continued),
    campaign(Part::Runs, "stores: items 0 and 4,095 at every rank", linking_places::first_and_last_item),
    campaign(Part::Runs, "runs: joins of raised heaps", raises::joins),
    campaign(Part::Runs, "stores: amounts and none, same answers", amounts::same_answers),
    campaign(Part::Runs, "stores: four words a heap, as before", amounts::four_words_a_heap),
    campaign(Part::Runs, "stores: words by kind, as before", turns::kept_as_they_were),
    campaign(Part::Runs, "stores: every single-word change, amounts", amounts::single_changes),
    campaign(Part::Runs, "stores: several changes, amounts", amounts::several_changes),
    campaign(Part::Runs, "stores: careless forests with amounts", amounts::careless_forests),
    campaign(Part::Runs, "stores: every forest of three, amounts", amounts::every_small_forest),
    campaign(Part::Runs, "stores: every single-word change", stores::single_changes),
    campaign(Part::Runs, "stores: several changes", stores::several_changes),
    campaign(Part::Runs, "stores: loops apart from the rows", stores::loops),
    campaign(Part::Runs, "stores: careless forests", stores::careless_forests),
    campaign(Part::Runs, "stores: every forest of four items", stores::every_small_forest),
    campaign(Part::Runs, "runs: sheets with many raises", raised_sheets::random_sheets),
    campaign(Part::Runs, "runs: sheets with raises, every cut", raised_sheets::every_cut),
    campaign(Part::Runs, "runs: three calls on raised heaps, all", raised_sheets::every_short_sheet),
    campaign(Part::Runs, "runs: every sheet of four calls", runs::every_short_sheet),
    campaign(Part::Runs, "runs: random fresh sheets", runs::fresh_sheets),
    campaign(Part::Runs, "runs: demand 3, line by line", runs::ledger),
    campaign(Part::Runs, "runs: every cut into kept runs", runs::every_cut),
    campaign(Part::Runs, "stores: large forests, ranks to 16", large_stores::large_forests),
    campaign(Part::Runs, "stores: large forests with amounts", amounts::large_forests),
    campaign(Part::Turn, "turns: stores written out by hand", turns::worked),
    campaign(Part::Turn, "turns: lengths of both buffers", turns::lengths),
    campaign(Part::Turn, "turns: any words in the second buffer", turns::second_buffers),
    campaign(Part::Turn, "turns: four words a heap, as before", turns::four_words_a_heap),
    campaign(Part::Turn, "turns: stores turned already", turns::turned_already),
    campaign(Part::Turn, "turns: every forest of three, amounts", turns::every_small_forest),
    campaign(Part::Turn, "turns: every single-word change", turns::single_changes),
    campaign(Part::Turn, "turns: several changes, careless forests", turns::several_changes),
    campaign(Part::Turn, "turns: each call on turned stores", turns::calls_on_turned_stores),
    campaign(Part::Turn, "turns: sheets on turned stores", turns::sheets_on_turned_stores),
    campaign(Part::Turn, "turns: large stores", turns::large_stores),
    campaign(Part::Feed, "feed: worked run", feeds::worked),
    campaign(Part::Feed, "feed: worked windows", windows::worked),
    campaign(Part::Feed, "feed: worked ties", ties::worked),
    campaign(Part::Feed, "feed: worked numbers of spans", span_counts::worked),
    campaign(Part::Feed, "feed: worked ceilings", ceilings::worked),
    campaign(Part::Feed, "feed: lengths of the list of joints", lengths::joints),
    campaign(Part::Feed, "feed: lengths of the store", lengths::store),
    campaign(Part::Feed, "feed: two faulty spans, open or closed", windows::span_faults),
    campaign(Part::Feed, "feed: every choice of faults at once", feeds::several_faults),
    campaign(Part::Feed, "feed: codes 14 to 24 at their limits", feeds::limits),
    campaign(Part::Feed, "feed: windows open at every minute", windows::always_open),
    campaign(Part::Feed, "feed: random ties", ties::random_maps),
    campaign(Part::Feed, "feed: random ties with windows", ties::at_minutes),
    campaign(Part::Feed, "feed: sparse maps", span_counts::sparse_maps),
    campaign(Part::Feed, "feed: every map of three places", span_counts::every_map_of_three),
    campaign(Part::Feed, "feed: every map of four places", ties::every_map_of_four),
    campaign(Part::Feed, "feed: every map of five places", ties::every_map_of_five),
    campaign(Part::Feed, "feed: random maps with windows", windows::random_maps),
    campaign(Part::Feed, "feed: random maps", feeds::random_maps),
    campaign(Part::Feed, "feed: faulty spans", feeds::faulty_spans),
    campaign(Part::Feed, "feed: dense maps", ceilings::dense_maps),
    campaign(Part::Feed, "feed: stars and chains", ceilings::stars_and_chains),
    campaign(Part::Feed, "feed: large maps", feeds::large_maps),
    campaign(Part::Feed, "feed: large maps, numbers of spans", span_counts::large_maps),
    campaign(Part::Feed, "feed: large maps with windows", windows::large_maps),
    campaign(Part::Feed, "feed: large maps full of ties", ties::large_maps),
    campaign(Part::Feed, "feed: four spans a place", ceilings::four_a_place),
    campaign(Part::Budget, "budget: worked runs", budgets::worked),
    campaign(Part::Budget, "budget: worked windows", windows::worked_within),
    campaign(Part::Budget, "budget: worked ties", ties::worked_within),
    campaign(Part::Budget, "budget: worked numbers of spans", span_counts::worked_within),
    campaign(Part::Budget, "budget: worked ceilings", ceilings::worked_within),
    campaign(Part::Budget, "budget: lengths of the list of joints", lengths::joints_within),
    campaign(Part::Budget, "budget: lengths of the store", lengths::store_within),
    campaign(Part::Budget, "budget: two faulty spans, open or closed", windows::span_faults_within),
    campaign(Part::Budget, "budget: codes 14 to 24 at their limits", budgets::limits),
    campaign(Part::Budget, "budget: every choice of faults at once", budgets::several_faults),
    campaign(Part::Budget, "budget: windows open at every minute", windows::always_open_within),
    campaign(Part::Budget, "budget: faulty spans, short lists", budgets::faulty_spans),
    campaign(Part::Budget, "budget: random ties, around every loss", ties::random_within),
    campaign(Part::Budget, "budget: sparse maps, around every loss", span_counts::sparse_within),
    campaign(Part::Budget, "budget: every map of three places", span_counts::every_map_of_three_within),
    campaign(Part::Budget, "budget: random ties with windows", ties::within_at_minutes),
    campaign(Part::Budget, "budget: ties on lists as found", ties::lists_as_found),
    campaign(Part::Budget, "budget: random maps with windows", windows::random_within),
    campaign(Part::Budget, "budget: random maps, around every loss", budgets::random_maps),
    campaign(Part::Budget, "budget: calls one after another", budgets::one_after_another),
    campaign(Part::Budget, "budget: dense maps", ceilings::dense_within),
    campaign(Part::Budget, "budget: stars and chains", ceilings::stars_and_chains_within),
    campaign(Part::Budget, "budget: large maps", budgets::large_maps),
    campaign(Part::Budget, "budget: large maps, numbers of spans", span_counts::large_within),
    campaign(Part::Budget, "budget: large maps with windows", windows::large_within),
    campaign(Part::Budget, "budget: large maps full of ties", ties::large_within),
    campaign(Part::Budget, "budget: four spans a place", ceilings::four_a_place_within),
    campaign(Part::Map, "map: numbers of a line", map_texts::lines),
    campaign(Part::Map, "map: one list shorter or longer", map_texts::one_list),
    campaign(Part::Map, "map: minutes and windows of any range", map_texts::ranges),
    campaign(Part::Map, "map: limits and malformed texts", map_texts::limits),
    campaign(Part::Map, "map: zeros before every number", numbers::maps),
    campaign(Part::Map, "map: random and damaged texts", map_texts::texts),
    campaign(Part::Map, "map: lengths of the lent lists", map_texts::lists),
    campaign(Part::QueueProgram, "queue program: raises", programs::queue_with_raises),
    campaign(Part::QueueProgram, "queue program", programs::queue),
    campaign(Part::QueueProgram, "queue program: zeros before every number", numbers::queue_program),
    campaign(Part::FeedProgram, "feed program: windows", programs::feed_at_minutes),
    campaign(Part::FeedProgram, "feed program: numbers of spans", span_counts::feed_program),
    campaign(Part::FeedProgram, "feed program: ceilings", ceilings::feed_program),
    campaign(Part::FeedProgram, "feed program: ties", programs::feed_with_ties),
    campaign(Part::FeedProgram, "feed program", programs::feed),
    campaign(Part::FeedProgram, "feed program: zeros before every number", numbers::feed_program),
];

/// The result of one campaign.
pub struct Outcome {
    pub name: &'static str,
    pub cases: u64,
    pub verdict: Verdict,
}

/// The parts that the engine lacks: their campaigns do not run.
pub fn missing(engine: &dyn Engine) -> Vec<Part> {
    let mut parts: Vec<Part> = ALL.iter().map(|campaign| campaign.part).filter(|&part| !engine.has(part)).collect();
    parts.dedup();
    parts
}

/// Runs the campaigns of the parts that the engine has; stops after a failure if `first_only`.
pub fn run(engine: &dyn Engine, first_only: bool, mut report: impl FnMut(&Outcome)) -> Vec<Outcome> {
    let mut outcomes = Vec::new();
    for campaign in ALL.iter().filter(|campaign| engine.has(campaign.part)) {
        let mut checker = Checker::new(engine);
        let verdict = (campaign.run)(&mut checker);
        let failed = verdict.is_err();
        outcomes.push(Outcome { name: campaign.name, cases: checker.cases, verdict });
        report(outcomes.last().expect("just pushed"));
        if failed && first_only {
            break;
        }
    }
    outcomes
}
