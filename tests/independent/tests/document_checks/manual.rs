//! The manual: sections are headings `## N Title`, and a clause is a line that starts with its number, `**N.M** `.

use std::fmt;

/// The number of a clause: its section, and its place there.
#[derive(Clone, Copy, Debug, PartialEq, Eq, PartialOrd, Ord)]
pub struct Clause {
    pub section: usize,
    pub place: usize,
}

impl fmt::Display for Clause {
    /// As it is written everywhere: `4.2`.
    fn fmt(&self, f: &mut fmt::Formatter) -> fmt::Result {
        write!(f, "{}.{}", self.section, self.place)
    }
}

impl Clause {
    /// The clause of a text that is exactly its number.
    pub fn read(text: &str) -> Option<Clause> {
        let (section, place) = text.split_once('.')?;
        let clause = Clause { section: section.parse().ok()?, place: place.parse().ok()? };
        Some(clause).filter(|clause| clause.to_string() == text)
    }
}

/// A line of the manual that has a number.
#[derive(Clone, Copy, Debug, PartialEq, Eq)]
enum Numbered {
    /// The heading of a section.
    Section(usize),
    /// The first line of a clause.
    Clause(Clause),
}

/// The number of a line; nothing where it has none, and an error where it looks like one and is none.
fn numbered(line: &str) -> Result<Option<Numbered>, String> {
    let (mark, rest) = match (line.strip_prefix("## "), line.strip_prefix("**")) {
        (Some(heading), _) => (" ", heading),
        (_, Some(text)) => ("** ", text),
        _ => return Ok(None),
    };
    if !rest.starts_with(|letter: char| letter.is_ascii_digit()) {
        return Ok(None);
    }
    let number = rest.split_once(mark).and_then(|(number, _)| match mark {
        " " => number.parse().ok().map(Numbered::Section),
        _ => Clause::read(number).map(Numbered::Clause),
    });
    number.map(Some).ok_or_else(|| format!("the manual: no section or clause has its number so: {line}"))
}

/// The clauses of the manual, in their order.
pub fn clauses(manual: &str) -> Vec<Clause> {
    let numbers = manual.lines().filter_map(|line| numbered(line).ok().flatten());
    let clause = |number| match number {
        Numbered::Clause(clause) => Some(clause),
        Numbered::Section(_) => None,
    };
    numbers.filter_map(clause).collect()
}

/// Sections rise, and so do the clauses of each, which stand under their section's heading; none has another's number.
pub fn numbering(manual: &str) -> Vec<String> {
    let mut wrong = Vec::new();
    let mut last = Clause { section: 0, place: 0 };
    for line in manual.lines() {
        match numbered(line) {
            Err(why) => wrong.push(why),
            Ok(None) => {}
            Ok(Some(Numbered::Section(section))) => {
                if section <= last.section {
                    wrong.push(format!("the manual: section {section} comes after section {}", last.section));
                }
                last = Clause { section, place: 0 };
            }
            Ok(Some(Numbered::Clause(clause))) => {
                if clause.section != last.section {
                    wrong.push(format!("the manual: clause {clause} stands in section {}", last.section));
                } else if clause <= last {
                    wrong.push(format!("the manual: clause {clause} comes after clause {last}"));
                }
                last.place = clause.place;
            }
        }
    }
    wrong.extend(twice(clauses(manual)).into_iter().map(|clause| format!("the manual: clause {clause} stands twice")));
    if clauses(manual).is_empty() {
        wrong.push("the manual: it has no clause".to_string());
    }
    wrong
}

/// Those that stand more than once.
pub fn twice(mut clauses: Vec<Clause>) -> Vec<Clause> {
    clauses.sort_unstable();
    let mut repeated: Vec<Clause> = clauses.windows(2).filter(|pair| pair[0] == pair[1]).map(|pair| pair[0]).collect();
    repeated.dedup();
    repeated
}

#[cfg(test)]
mod tests {
    use super::*;

    const GOOD: &str =
        "# Manual\n\n## 1 Lines\n\n**1.1** A line ends.\nMore of it.\n**1.2** So.\n\n## Words\n**bold**\n\
        ## 3 Points\n**3.1** A point.\n**3.10** Another.\n";

    /// What is said of the good text with one part replaced.
    fn wrong(old: &str, new: &str) -> Vec<String> {
        assert!(GOOD.contains(old));
        numbering(&GOOD.replacen(old, new, 1))
    }

    /// Lines with a clause number are clauses; other bold words and headings are none.
    #[test]
    fn clauses_are_read_in_their_order() {
        let texts: Vec<String> = clauses(GOOD).iter().map(Clause::to_string).collect();
        assert_eq!(texts, ["1.1", "1.2", "3.1", "3.10"]);
        assert!(numbering(GOOD).is_empty());
    }

    /// A number is two plain numbers with a point between them.
    #[test]
    fn texts_that_are_no_clause_number() {
        for text in ["", "4", "4.", ".2", "4.2.", "4.2.1", "04.2", "4.02", "+4.2", "4.-2", " 4.2", "4,2", "x.y"] {
            assert_eq!(Clause::read(text), None, "{text}");
        }
    }

    /// No two clauses have the same number.
    #[test]
    fn a_clause_number_is_unique() {
        let expected = ["the manual: clause 1.1 comes after clause 1.1", "the manual: clause 1.1 stands twice"];
        assert_eq!(wrong("**1.2**", "**1.1**"), expected);
    }

    /// A later clause or section has a higher number.
    #[test]
    fn clauses_and_sections_rise() {
        assert_eq!(wrong("**3.1**", "**3.11**"), ["the manual: clause 3.10 comes after clause 3.11"]);
        let section = wrong("## 3 Points\n**3.1** A point.\n**3.10** Another.", "## 1 Points");
        assert_eq!(section, ["the manual: section 1 comes after section 1"]);
    }

    /// A clause has the number of the section that it stands in.
    #[test]
    fn a_clause_stands_in_its_section() {
        assert_eq!(wrong("**1.2**", "**2.2**"), ["the manual: clause 2.2 stands in section 1"]);
    }

    /// What looks like a number of a clause or section, and is not written as one, is not passed over.
    #[test]
    fn numbers_in_another_form_are_told() {
        for (old, new) in
            [("**1.2** So", "**1.2**So"), ("**1.2**", "**1.2.**"), ("## 3 P", "## 3. P"), ("**1.2**", "**1**")]
        {
            let wrong = wrong(old, new);
            assert!(wrong[0].starts_with("the manual: no section or clause has its number so: "), "{wrong:?}");
        }
    }

    /// A manual without clauses is none.
    #[test]
    fn a_manual_has_clauses() {
        assert_eq!(numbering("# Manual\n## 1 Lines\n"), ["the manual: it has no clause"]);
    }
}
