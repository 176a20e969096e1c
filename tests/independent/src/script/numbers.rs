//! Sets of numbers, of points or of frequencies, as disjoint spans in rising order.

/// A set of numbers.
#[derive(Clone, Debug, Default, PartialEq, Eq)]
pub struct Numbers {
    /// The least and the largest number of each span.
    spans: Vec<(usize, usize)>,
}

impl Numbers {
    /// The empty set.
    pub fn none() -> Numbers {
        Numbers::default()
    }

    /// The set of one number.
    pub fn one(number: usize) -> Numbers {
        Numbers::span(number, number)
    }

    /// The numbers from `low` to `high`; none where `low` is larger.
    pub fn span(low: usize, high: usize) -> Numbers {
        Numbers { spans: if low <= high { vec![(low, high)] } else { Vec::new() } }
    }

    /// Whether there is no number in it.
    pub fn is_empty(&self) -> bool {
        self.spans.is_empty()
    }

    /// The least number.
    pub fn least(&self) -> Option<usize> {
        self.spans.first().map(|&(low, _)| low)
    }

    /// The largest number.
    pub fn most(&self) -> Option<usize> {
        self.spans.last().map(|&(_, high)| high)
    }

    /// Whether a number is in it.
    pub fn contains(&self, number: usize) -> bool {
        self.spans.iter().any(|&(low, high)| (low..=high).contains(&number))
    }

    /// The numbers in either set.
    pub fn or(&self, other: &Numbers) -> Numbers {
        let mut all = [&self.spans[..], &other.spans].concat();
        all.sort_unstable();
        let mut spans: Vec<(usize, usize)> = Vec::new();
        for (low, high) in all {
            match spans.last_mut() {
                Some((_, end)) if low <= *end + 1 => *end = high.max(*end),
                _ => spans.push((low, high)),
            }
        }
        Numbers { spans }
    }

    /// Each number plus one.
    pub fn plus_one(&self) -> Numbers {
        Numbers { spans: self.spans.iter().map(|&(low, high)| (low + 1, high + 1)).collect() }
    }

    /// The numbers from `least` on.
    pub fn from(&self, least: usize) -> Numbers {
        let above = self.spans.iter().filter(|&&(_, high)| high >= least);
        Numbers { spans: above.map(|&(low, high)| (low.max(least), high)).collect() }
    }

    /// The numbers up to `most`.
    pub fn up_to(&self, most: usize) -> Numbers {
        let below = self.spans.iter().filter(|&&(low, _)| low <= most);
        Numbers { spans: below.map(|&(low, high)| (low, high.min(most))).collect() }
    }
}

#[cfg(test)]
mod tests {
    use super::*;

    /// The numbers below 20 in a set.
    fn members(numbers: &Numbers) -> Vec<usize> {
        (0..20).filter(|&number| numbers.contains(number)).collect()
    }

    /// Each operation on sets of a few numbers.
    #[test]
    fn sets() {
        let some = Numbers::one(7).or(&Numbers::span(1, 3)).or(&Numbers::one(4)).or(&Numbers::span(9, 8));
        assert_eq!(some.spans, [(1, 4), (7, 7)]);
        assert_eq!(members(&some), [1, 2, 3, 4, 7]);
        assert_eq!(members(&some.plus_one()), [2, 3, 4, 5, 8]);
        assert_eq!(members(&some.up_to(3)), [1, 2, 3]);
        assert_eq!(members(&some.up_to(7)), members(&some));
        assert_eq!(some.up_to(0), Numbers::none());
        assert_eq!(members(&some.from(3)), [3, 4, 7]);
        assert_eq!(members(&some.from(5)), [7]);
        assert_eq!(members(&some.from(0)), members(&some));
        assert_eq!(some.from(8), Numbers::none());
        assert_eq!((some.least(), Numbers::none().least()), (Some(1), None));
        assert_eq!((some.most(), Numbers::none().most()), (Some(7), None));
        assert_eq!(members(&Numbers::span(0, 5).or(&Numbers::span(2, 3))), [0, 1, 2, 3, 4, 5]);
    }
}
