//! Claims as they ought to be, and with one thing wrong at a time.

use super::*;

const VALUE: &str =
    "-- Rounding: §4.1 and §4.2.\n-- halves go away from zero\nabbrev pub rounded : ℕ → ℕ\nrounded n = n\n\
    pub record Exact (n : ℕ) : Type 0 where\n  pub over : ℕ\nunfoldable whole-of : ℕ\npub data Kind : Type 0 where\n";
const TEXT: &str = "-- §4.2\npub text : ℕ\n";

const GOOD: &str = "# Claims\n\n| Clause | Definitions | Theorems | Wrong programs |\n|---|---|---|---|\n\
    | 4.1 | `number/specs/Value.antt`: `rounded`, `whole-of` | - | - |\n\
    | 4.2 | `number/specs/Value.antt`: `Kind`; `format/specs/Text.antt`: `text` | `number/specs/Value.antt`: `Exact` | \
    `number/halves`, `format/signs` |\n";

/// A tree of two files of definitions and two wrong programs.
fn tree() -> Tree {
    let specs = [("number/specs/Value.antt", VALUE), ("format/specs/Text.antt", TEXT)];
    Tree {
        specs: specs.map(|(path, text)| (path.to_string(), text.to_string())).into(),
        edits: ["number/halves", "format/signs"].map(String::from).into(),
    }
}

/// What is said of the good claims with one part replaced.
fn wrong(old: &str, new: &str) -> Vec<String> {
    assert!(GOOD.contains(old));
    let clauses = ["4.1", "4.2"].map(|text| Clause::read(text).unwrap());
    rows(&GOOD.replacen(old, new, 1), &clauses, &tree())
}

/// Nothing is said of claims as they ought to be.
#[test]
fn good_claims_pass() {
    assert!(wrong("# Claims", "# Claims").is_empty());
}

/// Definitions, records and data are declared; fields, words of the language and comments are not.
#[test]
fn declarations_are_found_at_the_start_of_a_line() {
    for name in ["rounded", "Exact", "whole-of", "Kind"] {
        assert!(declares(VALUE, name), "{name}");
    }
    for name in ["over", "pub", "abbrev", "record", "n", "halves", "round", ""] {
        assert!(!declares(VALUE, name), "{name}");
    }
}

/// Each clause has a row.
#[test]
fn a_clause_without_a_row_is_told() {
    assert_eq!(wrong("| 4.1 |", "4.1 |"), ["clause 4.1 has no row in the claims"]);
}

/// Each row has a clause.
#[test]
fn a_row_without_a_clause_is_told() {
    let expected = [
        "row 4.3: the manual has no such clause",
        "row 4.3: number/specs/Value.antt does not cite §4.3",
        "clause 4.1 has no row in the claims",
    ];
    assert_eq!(wrong("| 4.1 |", "| 4.3 |"), expected);
}

/// A clause has one row only.
#[test]
fn a_second_row_is_told() {
    let again = "|---|---|---|---|\n| 4.1 | `number/specs/Value.antt`: `Kind` | - | - |\n";
    assert_eq!(wrong("|---|---|---|---|\n", again), ["clause 4.1 has two rows in the claims"]);
}

/// Files of definitions and of theorems are looked up.
#[test]
fn a_file_that_is_not_there_is_told() {
    assert_eq!(wrong("format/specs/Text", "format/specs/Texts"), ["row 4.2: there is no file format/specs/Texts.antt"]);
    let theorem = wrong("| `number/specs/Value.antt`: `Exact`", "| `number/Value.antt`: `Exact`");
    assert_eq!(theorem, ["row 4.2: there is no file number/Value.antt"]);
}

/// Names of definitions and of theorems are looked up in their file.
#[test]
fn a_name_that_is_not_declared_is_told() {
    assert_eq!(wrong("`rounded`", "`round`"), ["row 4.1: number/specs/Value.antt does not declare round"]);
    assert_eq!(wrong("`Exact`", "`over`"), ["row 4.2: number/specs/Value.antt does not declare over"]);
}

/// A file that defines a clause cites it.
#[test]
fn a_definition_whose_file_does_not_cite_the_clause_is_told() {
    let other = wrong("`rounded`, `whole-of` |", "`rounded`; `format/specs/Text.antt`: `text` |");
    assert_eq!(other, ["row 4.1: format/specs/Text.antt does not cite §4.1"]);
}

/// Wrong programs are looked up.
#[test]
fn a_wrong_program_that_is_not_there_is_told() {
    assert_eq!(wrong("`number/halves`", "`number/half`"), ["row 4.2: there is no wrong program number/half"]);
}

/// A row in another form is not passed over, and counts for no clause.
#[test]
fn rows_that_cannot_be_read_are_told() {
    for (old, new) in [
        ("| 4.1 |", "| 4.1. |"),
        ("| - | - |", "| - |"),
        ("| - | - |", "| - | none |"),
        ("| - | - |", "|  | - |"),
        ("`number/specs/Value.antt`: `rounded`, `whole-of`", "-"),
        ("`rounded`, `whole-of`", "`rounded` `whole-of`"),
        ("`rounded`, `whole-of`", "rounded"),
        ("`number/specs/Value.antt`: ", "number/specs/Value.antt: "),
    ] {
        let wrong = wrong(old, new);
        assert!(wrong[0].starts_with("the claims: a row that cannot be read: | 4.1"), "{new}: {wrong:?}");
        assert_eq!(wrong[1..], ["clause 4.1 has no row in the claims"], "{new}");
    }
}
