//! How a test says what it has compared. It prints lines, which `tests/run` puts behind the test's name:
//! - `COUNT WORDS`: shown there, and added up over all tests with the same words;
//! - `in all: COUNT WORDS`: only added up.

/// Prints how much has agreed, held or the like.
pub fn say(count: usize, words: &str) {
    println!("{} {words}", with_commas(count));
}

/// Prints a count that is of interest only as a sum over all tests.
pub fn say_in_all(count: usize, words: &str) {
    println!("in all: {} {words}", with_commas(count));
}

/// A number with its digits in threes.
fn with_commas(number: usize) -> String {
    let digits = number.to_string();
    let threes: Vec<&str> = digits
        .as_bytes()
        .rchunks(3)
        .rev()
        .map(|three| std::str::from_utf8(three).expect("digits are letters"))
        .collect();
    threes.join(",")
}
