//! The external frequencies that courses can have in each range.
//!
//! After *RST there is one, and the range is upper. Events change them only where FMOD is 0. Then whatever is from the
//! least frequency to the limit divided by the harmonic can be measured: with each harmonic some of these come above
//! the band and some below it. So events bring a course into either range, and there to every frequency with which
//! that range stands. The ones that courses had before are among these, for they were in force.

use super::numbers::Numbers;
use crate::frequency::{beside_band, Range, BAND_HIGH, BAND_LOW, HERTZ, LEAST, LIMIT};

/// The external frequencies of the courses in each range; none where no course is in it.
#[derive(Clone, Debug, PartialEq, Eq)]
pub struct Externals {
    upper: Numbers,
    lower: Numbers,
}

impl Externals {
    /// The one of all courses after *RST.
    pub fn after_reset() -> Externals {
        Externals { upper: Numbers::one(1_000 * HERTZ as usize), lower: Numbers::none() }
    }

    /// All that events can lead to where the external frequency is in force.
    pub fn measured(harmonic: i64) -> Externals {
        let [below, inside, above] = around_band(&measurable(harmonic), None, harmonic);
        Externals { upper: above.or(&inside), lower: below.or(&inside) }
    }

    /// The frequencies of the courses in a range.
    fn of(&self, range: Range) -> &Numbers {
        match range {
            Range::Upper => &self.upper,
            Range::Lower => &self.lower,
        }
    }

    /// Whether some course is in a range.
    pub fn is_met(&self, range: Range) -> bool {
        !self.of(range).is_empty()
    }

    /// The highest of all courses.
    pub fn highest(&self) -> i64 {
        self.upper.or(&self.lower).most().expect("there is a course") as i64
    }

    /// Whether some course in a range has this one.
    #[cfg(test)]
    pub fn contains(&self, range: Range, external: i64) -> bool {
        self.of(range).contains(external as usize)
    }

    /// The courses with another harmonic, or another internal frequency where that is in force.
    pub fn settled(&self, internal: Option<i64>, harmonic: i64) -> Externals {
        let [below, _, above] = around_band(&self.upper.or(&self.lower), internal, harmonic);
        let stays = |numbers: &Numbers| around_band(numbers, internal, harmonic)[1].clone();
        Externals { upper: above.or(&stays(&self.upper)), lower: below.or(&stays(&self.lower)) }
    }
}

/// What can be measured and taken.
fn measurable(harmonic: i64) -> Numbers {
    Numbers::span(LEAST as usize, (LIMIT / harmonic) as usize)
}

/// The external frequencies with which the detection frequency is below the band, inside it, and above it.
fn around_band(externals: &Numbers, internal: Option<i64>, harmonic: i64) -> [Numbers; 3] {
    let Some(internal) = internal else {
        let [below, first, last, above] = beside_band(harmonic).map(|frequency| frequency as usize);
        return [externals.up_to(below), externals.from(first).up_to(last), externals.from(above)];
    };
    let detection = harmonic * internal;
    let (is_below, is_above) = (detection < BAND_LOW, detection > BAND_HIGH);
    let where_so = |is_so: bool| if is_so { externals.clone() } else { Numbers::none() };
    [where_so(is_below), where_so(!is_below && !is_above), where_so(is_above)]
}

#[cfg(test)]
mod tests {
    use super::*;
    use Range::{Lower, Upper};

    const MOST_HARMONIC: i64 = 19_999;

    /// So events can lead from each range to the other.
    #[test]
    fn every_harmonic_has_frequencies_below_inside_and_above_the_band() {
        for harmonic in 1..=MOST_HARMONIC {
            let parts = around_band(&measurable(harmonic), None, harmonic);
            assert!(parts.iter().all(|part| !part.is_empty()), "{harmonic}");
        }
    }

    /// With harmonic 2 the band is from 99.605 to 101.56 Hz.
    #[test]
    fn measured_frequencies_meet_both_ranges_inside_the_band() {
        let externals = Externals::measured(2);
        for (external, in_upper, in_lower) in [
            (9, false, false),
            (10, false, true),
            (996_049, false, true),
            (996_050, true, true),
            (1_015_600, true, true),
            (1_015_601, true, false),
            (510_000_000, true, false),
            (510_000_001, false, false),
        ] {
            let found = (externals.contains(Upper, external), externals.contains(Lower, external));
            assert_eq!(found, (in_upper, in_lower), "{external}");
        }
    }

    /// They all have the same detection frequency.
    #[test]
    fn a_command_moves_all_courses_or_none_of_the_internal_reference() {
        let reset = Externals::after_reset();
        assert!(reset.is_met(Upper) && !reset.is_met(Lower));
        assert_eq!(reset.settled(Some(BAND_LOW), 1), reset);
        let lower = reset.settled(Some(BAND_LOW - 100), 1);
        assert!(lower.is_met(Lower) && !lower.is_met(Upper));
        assert_eq!(lower.settled(Some(BAND_HIGH), 1), lower);
        assert_eq!(lower.settled(Some(BAND_HIGH + 100), 1), reset);
        assert_eq!(lower.settled(None, 1), reset);
        assert_eq!((reset.highest(), Externals::measured(3).highest()), (10_000_000, 340_000_000));
    }

    /// With the external reference the courses part.
    #[test]
    fn a_harmonic_moves_the_courses_that_it_takes_over_an_end() {
        let both = Externals::measured(2).settled(None, 1);
        for (external, in_upper, in_lower) in [
            (1_015_600, false, true),
            (1_992_099, false, true),
            (1_992_100, true, false),
            (2_031_200, true, false),
            (2_031_201, true, false),
        ] {
            assert_eq!((both.contains(Upper, external), both.contains(Lower, external)), (in_upper, in_lower));
        }
    }
}
