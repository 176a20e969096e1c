//! The script check: through operations it answers as the independent program's, whose verdicts courses confirm.

mod common;

use common::operations::{compare, text_of};
use common::{counts, handed_over};
use independent::course::confirm::confirm;
use independent::random::deep::{Case, Scripts};

/// Seeds of random scripts, and how many of each.
const SEEDS: [u64; 4] = [1, 2, 3, 4];
const SCRIPTS_PER_SEED: usize = 5_000;

/// Seeds of small scripts with random courses, how many of each, and how many courses of a script.
const COURSE_SEEDS: [u64; 2] = [1, 2];
const SCRIPTS_WITH_COURSES: usize = 500;
const COURSES_PER_SCRIPT: usize = 200;

/// The words for a number of verdicts.
const AGREE: &str = "verdicts on random scripts agree";

/// Random scripts, lawful nearly to their end, as check operations.
#[test]
fn random_scripts_are_checked_alike() {
    let compared = SEEDS.map(|seed| compare_random(seed, SCRIPTS_PER_SEED));
    counts::say(compared.into_iter().sum(), AGREE);
}

/// Compares the check of random scripts; how many verdicts agree.
fn compare_random(seed: u64, count: usize) -> usize {
    let operations = text_of(Scripts::new(seed).take(count).map(Case::operation));
    compare(&format!("scripts, seed {seed}"), &operations).answers
}

/// The independent program's verdicts are those that courses of its own module come to.
#[test]
fn courses_confirm_the_check_of_random_scripts() {
    for seed in COURSE_SEEDS {
        match confirm(seed, SCRIPTS_WITH_COURSES, COURSES_PER_SCRIPT) {
            Ok(tally) => println!("seed {seed}: {tally}"),
            Err(why) => panic!("courses, seed {seed}: a verdict of the independent program is not confirmed\n{why}"),
        }
    }
}

/// As many random scripts as one likes, from any seed.
#[test]
#[ignore = "tests/run --more-scripts SEED COUNT runs it"]
fn more_random_scripts_are_checked_alike() {
    counts::say(compare_random(handed_over("MORE_SEED"), handed_over("MORE_COUNT")), AGREE);
}
