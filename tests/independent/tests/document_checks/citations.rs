//! Where definitions cite the manual: in their comments, lines that start with `--`, as `§N.M`.

use super::manual::Clause;
use super::Tree;
use std::collections::BTreeSet;

/// The clauses that the comments of a file cite.
pub fn cited(text: &str) -> BTreeSet<Clause> {
    citations(text).into_iter().flatten().collect()
}

/// Each citation in a file's comments, or the text after a `§` that is no clause's number.
fn citations(text: &str) -> Vec<Result<Clause, String>> {
    let comments = text.lines().map(str::trim_start).filter(|line| line.starts_with("--"));
    comments.flat_map(|line| line.split('§').skip(1)).map(citation).collect()
}

/// The clause whose number a text begins with. A point behind it may end a sentence.
fn citation(text: &str) -> Result<Clause, String> {
    let end = text.find(|letter: char| !letter.is_ascii_digit() && letter != '.').unwrap_or(text.len());
    let number = text[..end].strip_suffix('.').unwrap_or(&text[..end]);
    Clause::read(number).ok_or_else(|| text.chars().take(20).collect())
}

/// Every clause is cited by a file of definitions, and every clause that is cited is there.
pub fn citing(clauses: &[Clause], tree: &Tree) -> Vec<String> {
    let mut wrong = Vec::new();
    let mut found = BTreeSet::new();
    for (path, text) in &tree.specs {
        for citation in citations(text) {
            match citation {
                Ok(clause) if clauses.contains(&clause) => {
                    found.insert(clause);
                }
                Ok(clause) => wrong.push(format!("{path} cites §{clause}, which the manual does not have")),
                Err(text) => wrong.push(format!("{path} has a § without a clause's number: §{text}")),
            }
        }
    }
    let missing = clauses.iter().filter(|clause| !found.contains(clause));
    wrong.extend(missing.map(|clause| format!("no definition cites clause {clause}")));
    wrong
}

#[cfg(test)]
mod tests {
    use super::*;

    const TEXT: &str =
        "-- Rounding (§4.2, §4.3 and §4.10).\n-- See §5.1.\nabbrev pub x : ℕ\n  -- §6.2: of fields\nx = 1 -- §9.9\n";

    /// What is said of a manual of these clauses and one file of definitions.
    fn wrong(clauses: &[&str], text: &str) -> Vec<String> {
        let clauses: Vec<Clause> = clauses.iter().map(|text| Clause::read(text).unwrap()).collect();
        let mut tree = Tree::default();
        tree.specs.insert("number/specs/Value.antt".to_string(), text.to_string());
        citing(&clauses, &tree)
    }

    /// All clauses of a comment count, at the start of a line or not; what is no comment does not.
    #[test]
    fn comments_cite_clauses() {
        let texts: Vec<String> = cited(TEXT).iter().map(Clause::to_string).collect();
        assert_eq!(texts, ["4.2", "4.3", "4.10", "5.1", "6.2"]);
        assert!(wrong(&["4.2", "4.3", "4.10", "5.1", "6.2"], TEXT).is_empty());
    }

    /// Each clause has a definition that cites it, by its whole number.
    #[test]
    fn a_clause_that_nothing_cites_is_told() {
        assert_eq!(wrong(&["4.2", "4.20"], "-- §4.2\n"), ["no definition cites clause 4.20"]);
        assert_eq!(wrong(&["4.2"], "x : §4.2\n"), ["no definition cites clause 4.2"]);
    }

    /// A definition may cite only what the manual has.
    #[test]
    fn a_cited_clause_that_is_not_there_is_told() {
        let expected = ["number/specs/Value.antt cites §4.3, which the manual does not have"];
        assert_eq!(wrong(&["4.2"], "-- §4.2 and §4.3\n"), expected);
    }

    /// A § that no clause number follows is not passed over.
    #[test]
    fn citations_in_another_form_are_told() {
        for text in ["-- §4.2, §4\n", "-- §4.2; § 4.2\n", "-- §4.2.1, §4.2\n", "-- §4.2 §four\n"] {
            let wrong = wrong(&["4.2"], text);
            assert!(wrong.len() == 1 && wrong[0].contains("has a § without a clause's number"), "{wrong:?}");
        }
    }
}
