//! Arguments: their ranges, and how an exact value becomes the whole number of units that is taken.

use crate::frequency;
use crate::number::Number;

/// One degree of phase in its units of 0.01 degrees.
pub const DEGREE: i64 = 100;

/// How a value within its range becomes the one that is taken.
#[derive(Clone, Copy, Debug, PartialEq, Eq)]
pub enum Rule {
    /// It must be whole.
    Whole,
    /// It is rounded to a step of that many units.
    Step(i64),
    /// It is rounded to a unit and then brought within half a turn by whole turns.
    Phase,
    /// It is rounded to the step that FREQ has at the value.
    Frequency,
}

/// The range of an argument, in units of ten to the power minus `decimals`, and its rule.
#[derive(Clone, Copy, Debug, PartialEq, Eq)]
pub struct Argument {
    pub low: i64,
    pub high: i64,
    pub decimals: usize,
    pub rule: Rule,
}

impl Argument {
    /// A whole number from `low` to `high`.
    pub const fn whole(low: i64, high: i64) -> Argument {
        Argument { low, high, decimals: 0, rule: Rule::Whole }
    }

    /// A value that is rounded to a step; ends and step are in units of ten to the power minus `decimals`.
    pub const fn stepped(low: i64, high: i64, decimals: usize, step: i64) -> Argument {
        Argument { low, high, decimals, rule: Rule::Step(step) }
    }

    /// PHAS's value: from -360.00 to 729.99 degrees.
    pub const fn phase() -> Argument {
        Argument { low: -360 * DEGREE, high: 729 * DEGREE + 99, decimals: 2, rule: Rule::Phase }
    }

    /// FREQ's value: from 0.001 Hz to 102 kHz.
    pub const fn frequency() -> Argument {
        Argument { low: frequency::LEAST, high: frequency::LIMIT, decimals: frequency::DECIMALS, rule: Rule::Frequency }
    }

    /// The value taken for an exact one, or nothing where it is out of range or not whole.
    pub fn take(&self, exact: &Number) -> Option<i64> {
        let low = Number::from_units(self.low, self.decimals);
        let high = Number::from_units(self.high, self.decimals);
        if *exact < low || *exact > high {
            return None;
        }
        match self.rule {
            Rule::Whole => exact.whole(),
            Rule::Step(step) => exact.rounded(self.decimals, step),
            Rule::Phase => exact.rounded(self.decimals, 1).map(within_half_turn),
            Rule::Frequency => exact.rounded(self.decimals, frequency::step(exact)),
        }
    }

    /// The step at a value, in units.
    pub fn step_at(&self, units: i64) -> i64 {
        match self.rule {
            Rule::Whole | Rule::Phase => 1,
            Rule::Step(step) => step,
            Rule::Frequency => frequency::step(&Number::from_units(units, self.decimals)),
        }
    }
}

/// The phase that differs by whole turns and lies above -180.00 and at most at 180.00 degrees.
fn within_half_turn(mut phase: i64) -> i64 {
    while phase > 180 * DEGREE {
        phase -= 360 * DEGREE;
    }
    while phase <= -180 * DEGREE {
        phase += 360 * DEGREE;
    }
    phase
}

#[cfg(test)]
mod tests {
    use super::*;

    /// The value taken for a number text.
    fn taken(argument: Argument, text: &str) -> Option<i64> {
        argument.take(&Number::read(text.as_bytes()).unwrap())
    }

    /// Texts at the ends of the range and of the turn, with the phase taken.
    #[test]
    fn phases() {
        for (text, expected) in [
            ("-180", Some(18_000)),
            ("180", Some(18_000)),
            ("180.005", Some(-17_999)),
            ("180.0049", Some(18_000)),
            ("-179.994", Some(-17_999)),
            ("-179.995", Some(18_000)),
            ("541", Some(-17_900)),
            ("540", Some(18_000)),
            ("729.99", Some(999)),
            ("729.991", None),
            ("-360", Some(0)),
            ("-360.0001", None),
            ("-0.004", Some(0)),
        ] {
            assert_eq!(taken(Argument::phase(), text), expected, "{text}");
        }
    }

    /// Texts at the ends of the range and beside a change of step, with the frequency taken.
    #[test]
    fn frequencies() {
        for (text, expected) in [
            ("1234.56", Some(12_346_000)),
            ("12345.5", Some(123_460_000)),
            ("102000", Some(1_020_000_000)),
            ("102000.1", None),
            ("101995", Some(1_020_000_000)),
            ("0.001", Some(10)),
            ("0.0009999", None),
            ("9.99995", Some(100_000)),
            ("9.99994", Some(99_999)),
            ("99.9995", Some(1_000_000)),
            ("99999.5", Some(1_000_000_000)),
            ("100005", Some(1_000_100_000)),
            ("100004.999", Some(1_000_000_000)),
        ] {
            assert_eq!(taken(Argument::frequency(), text), expected, "{text}");
        }
    }

    /// Harmonics in range, out of it and not whole.
    #[test]
    fn whole_numbers() {
        let harmonic = Argument::whole(1, 19_999);
        assert_eq!(taken(harmonic, "102"), Some(102));
        assert_eq!(taken(harmonic, "5.4"), None);
        assert_eq!(taken(harmonic, "0"), None);
        assert_eq!(taken(harmonic, "20000"), None);
        assert_eq!(taken(harmonic, "1E99"), None);
        assert_eq!(taken(harmonic, "1.9999E4"), Some(19_999));
    }

    #[test]
    fn range_is_tested_before_rounding() {
        let amplitude = Argument::stepped(4, 5_000, 3, 2);
        assert_eq!(taken(amplitude, "1.001"), Some(1_002));
        assert_eq!(taken(amplitude, "5.0001"), None);
        assert_eq!(taken(amplitude, "0.0039999"), None);
        assert_eq!(taken(amplitude, "0.004"), Some(4));
        assert_eq!(taken(amplitude, "4.999"), Some(5_000));
    }
}
