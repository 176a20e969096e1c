//! The documents: the manual's clauses, the definitions that cite them and the claims about them belong together, and
//! no link leads nowhere.

mod common;
mod document_checks;

use common::{contents, root};
use document_checks::manual::{clauses, numbering};
use document_checks::{citations, claims, links, Tree};
use std::fs;
use std::path::{Path, PathBuf};

/// Clause numbers are unique, and sections and clauses rise.
#[test]
fn the_manual_is_numbered_in_rising_order() {
    assert_right(&numbering(&text("docs/MANUAL.md")));
}

/// Every clause is cited by a definition, and every clause that is cited is in the manual.
#[test]
fn definitions_cite_every_clause_and_no_other() {
    assert_right(&citations::citing(&clauses(&text("docs/MANUAL.md")), &tree()));
}

/// Every clause has its row of claims, and what a row names is there.
#[test]
fn every_clause_has_claims_that_name_what_is_there() {
    assert_right(&claims::rows(&text("docs/CLAIMS.md"), &clauses(&text("docs/MANUAL.md")), &tree()));
}

/// Every relative link of the documents names a file that is there.
#[test]
fn no_link_leads_nowhere() {
    let documents = [vec![root().join("README.md")], files(&root().join("docs"), "md", false)].concat();
    assert!(documents.len() > 1, "there are no documents");
    let dead = |path: &PathBuf| {
        let folder = path.parent().expect("a file is in a folder");
        links::dead(&from_root(path), &read(path), |target| folder.join(target).exists())
    };
    assert_right(&documents.iter().flat_map(dead).collect::<Vec<String>>());
}

/// Fails the test where something is wrong, and says what.
fn assert_right(wrong: &[String]) {
    assert!(wrong.is_empty(), "\n{}", wrong.join("\n"));
}

/// The text of a file of the repository.
fn text(path: &str) -> String {
    read(&root().join(path))
}

/// The text of a file.
fn read(path: &Path) -> String {
    String::from_utf8(contents(path)).unwrap_or_else(|error| panic!("{}: {error}", path.display()))
}

/// A path from the repository's folder on.
fn from_root(path: &Path) -> String {
    path.strip_prefix(root()).expect("it is in the repository").display().to_string()
}

/// The definitions and wrong programs of the repository.
fn tree() -> Tree {
    let mut tree = Tree::default();
    for folder in folders(&root().join("crates")) {
        let name = folder.file_name().expect("a crate has a name").to_string_lossy().into_owned();
        for path in files(&folder.join("specs"), "antt", true) {
            let from_crates = path.strip_prefix(root().join("crates")).expect("it is there").display().to_string();
            tree.specs.insert(from_crates, read(&path));
        }
        let edits = files(&folder.join("must-fail"), "edit", false);
        let names = edits.iter().filter_map(|path| path.file_stem()).map(|stem| stem.to_string_lossy());
        tree.edits.extend(names.map(|edit| format!("{name}/{edit}")));
    }
    assert!(!tree.specs.is_empty() && !tree.edits.is_empty(), "there are no definitions or no wrong programs");
    tree
}

/// What is in a folder, in order; nothing where there is no folder.
fn entries(folder: &Path) -> Vec<PathBuf> {
    let Ok(found) = fs::read_dir(folder) else { return Vec::new() };
    let mut paths: Vec<PathBuf> = found.map(|entry| entry.expect("the folder can be read").path()).collect();
    paths.sort();
    paths
}

/// The folders in a folder.
fn folders(folder: &Path) -> Vec<PathBuf> {
    entries(folder).into_iter().filter(|path| path.is_dir()).collect()
}

/// The files of a folder with an extension, and of the folders in it where those are wanted too.
fn files(folder: &Path, extension: &str, deep: bool) -> Vec<PathBuf> {
    let inner = folders(folder).into_iter().filter(|_| deep).flat_map(|inner| files(&inner, extension, deep));
    let here = entries(folder).into_iter().filter(|path| path.is_file());
    here.filter(|path| path.extension().is_some_and(|found| found == extension)).chain(inner).collect()
}
