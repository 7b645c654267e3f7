//! The test of ceilings by itself: it comes before any comparison with the reference, so that a wrong engine which breaks a
//! ceiling fails there.

use driver::campaigns::{budgets, ceilings};
use driver::check::{Checker, FeedCall, Verdict};
use driver::engine::Part;
use driver::maps;
use driver::mock::Mock;
use driver::mock::Variant::{self, *};
use reference::NONE;

type Campaign = fn(&mut Checker) -> Verdict;

/// The campaign of each part that begins with the maps worked by hand.
const WORKED: [(Part, Campaign); 3] = [
    (Part::Feed, ceilings::worked),
    (Part::Budget, ceilings::worked_within),
    (Part::FeedProgram, ceilings::feed_program),
];

/// Variants that break a ceiling on the first of these maps on which they are wrong at all.
const BREAKING: [Variant; 9] = [
    LinksCountedFiveFold,
    CutsCountedTenFold,
    FeedTallyNotReset,
    LinksAtTheLargest,
    CutsLessLinks,
    OneAboveTheCeiling,
    OneSpanNotCounted,
    SpansOfTheStartNotCounted,
    StartNotReached,
];

fn engine(variant: Variant, part: Part) -> Mock {
    Mock { variant: Some(variant), only: Some(part) }
}

#[test]
fn a_broken_ceiling_is_the_first_failure() {
    for variant in BREAKING {
        for (part, campaign) in WORKED {
            let fault = campaign(&mut Checker::new(&engine(variant, part))).expect_err("a wrong variant");
            assert!(fault.contains("ceiling"), "{variant:?} in {part:?}: {fault}");
        }
    }
}

/// Links up to the ceiling itself are allowed: only the comparison with the reference shows them to be wrong.
#[test]
fn links_up_to_the_ceiling_are_allowed() {
    for (part, campaign) in WORKED {
        let fault = campaign(&mut Checker::new(&engine(AtTheCeiling, part))).expect_err("a wrong variant");
        assert!(!fault.contains("ceiling"), "{part:?}: {fault}");
    }
}

/// One call of a part.
fn called(checker: &mut Checker, part: Part, call: &FeedCall) -> Verdict {
    match part {
        Part::Feed => checker.feed(call).map(|_| ()),
        Part::Budget => checker.budget(&budgets::call(call, NONE, 0)).map(|_| ()),
        _ => checker.feed_program(&maps::text_of(call, false)),
    }
}

/// All roots in one tree: the table is right, but on a star each taking of a place links all that wait.
#[test]
fn more_work_than_allowed() {
    let star = maps::call(64, 0, &maps::star(1..=63));
    for (part, _) in WORKED {
        let right = Mock { variant: None, only: Some(part) };
        assert_eq!(called(&mut Checker::new(&right), part, &star), Ok(()));
        let wrong = engine(EveryRootLinkedAtATaking, part);
        let fault = called(&mut Checker::new(&wrong), part, &star).expect_err("a wrong variant");
        // 61 links when place 1 is taken, and one less at each taking after it: 61 * 62 / 2.
        assert!(fault.contains("1891 links and 0 cuts are above "), "{part:?}: {fault}");
        assert!(fault.contains("the ceiling of"), "{part:?}: {fault}");
    }
}
