//! The claims: a table with a row for each clause, `| N.M | definitions | theorems | wrong programs |`. Definitions and
//! theorems are names by file, `` `number/specs/Value.antt`: `rounded`, `wholeOf` ``, files divided by `; `; wrong
//! programs are a list, `` `number/range_after_rounding` ``. For no theorem or no wrong program stands `-`.

use super::citations::cited;
use super::manual::{twice, Clause};
use super::Tree;

/// A row of the table.
#[derive(Debug, PartialEq, Eq)]
struct Row {
    clause: Clause,
    definitions: Vec<InFile>,
    theorems: Vec<InFile>,
    /// The wrong programs.
    edits: Vec<String>,
}

/// Names of one file.
#[derive(Debug, PartialEq, Eq)]
struct InFile {
    file: String,
    names: Vec<String>,
}

/// The row of a line; nothing where it is none, and an error where it cannot be read.
fn row(line: &str) -> Result<Option<Row>, String> {
    let is_row = line.strip_prefix('|').is_some_and(|rest| rest.trim_start().starts_with(|c: char| c.is_ascii_digit()));
    if !is_row {
        return Ok(None);
    }
    let cells: Vec<&str> = line.trim_end().trim_matches('|').split('|').map(str::trim).collect();
    let row = match cells[..] {
        [clause, definitions, theorems, edits] => read_row(clause, definitions, theorems, edits),
        _ => None,
    };
    row.map(Some).ok_or_else(|| format!("the claims: a row that cannot be read: {line}"))
}

/// The row of four cells.
fn read_row(clause: &str, definitions: &str, theorems: &str, edits: &str) -> Option<Row> {
    Some(Row {
        clause: Clause::read(clause)?,
        definitions: files(definitions)?,
        theorems: if theorems == "-" { Vec::new() } else { files(theorems)? },
        edits: if edits == "-" { Vec::new() } else { quoted(edits)? },
    })
}

/// The names of a cell by their files.
fn files(cell: &str) -> Option<Vec<InFile>> {
    cell.split("; ").map(in_file).collect()
}

/// The names of one file.
fn in_file(text: &str) -> Option<InFile> {
    let (file, names) = text.split_once(": ")?;
    match &quoted(file)?[..] {
        [file] => Some(InFile { file: file.clone(), names: quoted(names)? }),
        _ => None,
    }
}

/// The words of a list, each between back quotes.
fn quoted(list: &str) -> Option<Vec<String>> {
    let word = |text: &str| {
        let word = text.trim().strip_prefix('`')?.strip_suffix('`')?;
        Some(word.to_string()).filter(|word| !word.is_empty() && !word.contains(['`', ' ']))
    };
    list.split(',').map(word).collect()
}

/// Whether a file declares a name: a line starts with it and ` :`, with `record`, `data` and the like before it or not.
fn declares(text: &str, name: &str) -> bool {
    text.lines().filter_map(declared).any(|declared| declared == name)
}

/// The name that a line declares.
fn declared(line: &str) -> Option<&str> {
    if line.starts_with([' ', '-']) {
        return None;
    }
    let mut words = line.split(' ').skip_while(|word| ["abbrev", "unfoldable", "pub"].contains(word));
    match (words.next()?, words.next()?) {
        ("record" | "data", name) => Some(name),
        (name, ":") => Some(name),
        _ => None,
    }
}

/// Every clause has one row, every row a clause; what a row names is there, and its definitions' files cite the clause.
pub fn rows(claims: &str, clauses: &[Clause], tree: &Tree) -> Vec<String> {
    let mut wrong = Vec::new();
    let mut with_row = Vec::new();
    for line in claims.lines() {
        match row(line) {
            Ok(None) => {}
            Ok(Some(row)) => {
                wrong.extend(test_row(&row, clauses, tree).iter().map(|why| format!("row {}: {why}", row.clause)));
                with_row.push(row.clause);
            }
            Err(why) => wrong.push(why),
        }
    }
    let missing = clauses.iter().filter(|clause| !with_row.contains(clause));
    wrong.extend(missing.map(|clause| format!("clause {clause} has no row in the claims")));
    wrong.extend(twice(with_row).iter().map(|clause| format!("clause {clause} has two rows in the claims")));
    wrong
}

/// What is wrong with a row.
fn test_row(row: &Row, clauses: &[Clause], tree: &Tree) -> Vec<String> {
    let mut wrong = Vec::new();
    if !clauses.contains(&row.clause) {
        wrong.push("the manual has no such clause".to_string());
    }
    for InFile { file, names } in row.definitions.iter().chain(&row.theorems) {
        match tree.specs.get(file) {
            None => wrong.push(format!("there is no file {file}")),
            Some(text) => {
                let undeclared = names.iter().filter(|name| !declares(text, name));
                wrong.extend(undeclared.map(|name| format!("{file} does not declare {name}")));
            }
        }
    }
    for InFile { file, .. } in &row.definitions {
        if tree.specs.get(file).is_some_and(|text| !cited(text).contains(&row.clause)) {
            wrong.push(format!("{file} does not cite §{}", row.clause));
        }
    }
    let missing = row.edits.iter().filter(|edit| !tree.edits.contains(*edit));
    wrong.extend(missing.map(|edit| format!("there is no wrong program {edit}")));
    wrong
}

#[cfg(test)]
mod tests;
