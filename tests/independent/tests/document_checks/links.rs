//! Links in the documents, `[words](path)`.

/// The relative paths that a text links to, without a part behind `#` or a title.
pub fn relative(text: &str) -> Vec<&str> {
    let targets = text.lines().flat_map(|line| line.split("](").skip(1)).filter_map(|rest| rest.split_once(')'));
    let paths = targets.map(|(target, _)| target.split(['#', ' ']).next().unwrap_or_default());
    paths.filter(|path| !path.is_empty() && !path.contains(':') && !path.starts_with('/')).collect()
}

/// Every relative link names a file that is there.
pub fn dead(document: &str, text: &str, is_there: impl Fn(&str) -> bool) -> Vec<String> {
    let paths = relative(text).into_iter().filter(|path| !is_there(path));
    paths.map(|path| format!("{document} links to {path}, which is not there")).collect()
}

#[cfg(test)]
mod tests {
    use super::*;

    const TEXT: &str = "[a](docs/A.md), [b](B.md#part) and [c](#part),\n[d](https://example.org/d.md) ![e](e/f.png).";

    /// Links to other sites and within a document are no relative ones.
    #[test]
    fn relative_links_are_found() {
        assert_eq!(relative(TEXT), ["docs/A.md", "B.md", "e/f.png"]);
        assert!(relative("a[i](no end\n(docs/A.md) [x] (y)").is_empty());
    }

    /// A link is named with the document that has it.
    #[test]
    fn a_link_to_nothing_is_told() {
        assert!(dead("README.md", TEXT, |_| true).is_empty());
        assert_eq!(dead("README.md", TEXT, |path| path != "B.md"), ["README.md links to B.md, which is not there"]);
    }
}
