//! What the documents are held to, as functions over their texts. Each gives what is wrong, a line each; nothing where
//! all is right.

pub mod citations;
pub mod claims;
pub mod links;
pub mod manual;

use std::collections::{BTreeMap, BTreeSet};

/// What the claims may name.
#[derive(Default)]
pub struct Tree {
    /// The texts of the files of definitions, by their paths from `crates/` on: `number/specs/Value.antt`.
    pub specs: BTreeMap<String, String>,
    /// The wrong programs, by crate and name: `number/range_after_rounding`.
    pub edits: BTreeSet<String>,
}
