//! How many random cases a test runs, and from which seed. TAPERMOSS_CASES gives the number for every test instead of
//! the short run's, TAPERMOSS_SEED another seed. Some tests want to have met every outcome: below some 20,000 cases they
//! may not.

use reference::sample::Rng;
use std::env;

fn number(variable: &str) -> Option<u64> {
    let text = env::var(variable).ok()?;
    Some(text.parse().unwrap_or_else(|_| panic!("{variable}={text} is not a number")))
}

/// The number of cases: TAPERMOSS_CASES, or else the test's own.
pub fn cases(by_default: u64) -> u64 {
    number("TAPERMOSS_CASES").unwrap_or(by_default)
}

/// The number of cases in rounds of so many each; 50 rounds however few cases are asked for.
pub fn rounds(by_default: u64, each: u64) -> u64 {
    (cases(by_default) / each).max(50)
}

/// Whether a long run was asked for.
pub fn long_run() -> bool {
    number("TAPERMOSS_CASES").is_some()
}

/// The random numbers of one test; `test` keeps the tests apart.
pub fn rng(test: u64) -> Rng {
    Rng::new(number("TAPERMOSS_SEED").unwrap_or(0).wrapping_mul(1_000_003).wrapping_add(test))
}
