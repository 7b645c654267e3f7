//! Runs all campaigns and prints the number of cases of each.
//!
//! The reference as an engine must pass, every wrong variant of it must be caught; then the plain C
//! version and, where it is linked, the real engine must pass.

use driver::campaigns::{self, Outcome};
use driver::engine::{Engine, Part};
use driver::linked::Linked;
use driver::mock::{Mock, Variant, VARIANTS};
use driver::plain::Plain;
use std::process::ExitCode;

/// Runs every campaign of an engine and prints each; true if all pass.
fn passes(name: &str, engine: &dyn Engine) -> bool {
    println!("\n{name}");
    let outcomes = campaigns::run(engine, false, |outcome| match &outcome.verdict {
        Ok(()) => println!("  {:<42} {:>8} cases", outcome.name, outcome.cases),
        Err(fault) => println!("  {:<42} FAILED after {} cases: {fault}", outcome.name, outcome.cases),
    });
    let cases: u64 = outcomes.iter().map(|outcome| outcome.cases).sum();
    let failed = outcomes.iter().filter(|outcome| outcome.verdict.is_err()).count();
    println!("  {} campaigns, {cases} cases, {failed} failed", outcomes.len());
    if !campaigns::missing(engine).is_empty() {
        println!("  not there, so not tried: {:?}", campaigns::missing(engine));
    }
    failed == 0 && !outcomes.is_empty()
}

/// True if every wrong variant is caught in each part that it touches; prints where.
fn variants_are_caught() -> bool {
    println!("\nwrong variants, caught by");
    let (mut total, mut missed) = (0, 0);
    for (parts, variants) in VARIANTS {
        for &variant in *variants {
            total += 1;
            missed += parts.iter().filter(|&&part| !is_caught(variant, part)).count();
        }
    }
    println!("  {total} variants, {missed} times one was not caught");
    missed == 0
}

fn is_caught(variant: Variant, part: Part) -> bool {
    let wrong = Mock { variant: Some(variant), only: Some(part) };
    let outcomes = campaigns::run(&wrong, true, |_| {});
    let name = format!("{variant:?}");
    match outcomes.last() {
        Some(Outcome { name: campaign, cases, verdict: Err(_) }) => {
            println!("  {name:<32} {campaign}, case {cases}");
            true
        }
        _ => {
            println!("  {name:<32} NOT CAUGHT in {part:?}");
            false
        }
    }
}

fn main() -> ExitCode {
    let linked = Linked::from_environment();
    let mut good = passes("reference as an engine", &Mock { variant: None, only: None });
    good &= variants_are_caught();
    good &= passes("plain C version", &Plain);
    if linked.is_absent() {
        println!("\nreal engine: not linked");
    } else {
        good &= passes("real engine", &linked);
    }
    println!("\n{}", if good { "all as expected" } else { "FAILED" });
    if good {
        ExitCode::SUCCESS
    } else {
        ExitCode::FAILURE
    }
}
