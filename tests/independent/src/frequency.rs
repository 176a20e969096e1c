//! Frequencies in units of 0.1 mHz: the steps of FREQ, the 102 kHz limit, and the band that moves the range.

use crate::number::Number;

/// Decimals of a frequency in Hz: one unit is 0.0001 Hz.
pub const DECIMALS: usize = 4;

/// One Hz.
pub const HERTZ: i64 = 10_000;

/// The least reference frequency, 0.001 Hz.
pub const LEAST: i64 = 10;

/// The largest reference frequency, and the limit of the detection frequency: 102 kHz.
pub const LIMIT: i64 = 102_000 * HERTZ;

/// The ends of the band, 199.21 and 203.12 Hz; both are inside.
pub const BAND_LOW: i64 = 1_992_100;
pub const BAND_HIGH: i64 = 2_031_200;

/// The longest time constant of the upper range, and the next one, which it does not take.
pub const UPPER_MOST_TIME_CONSTANT: i64 = 13;
pub const FIRST_LONG_TIME_CONSTANT: i64 = UPPER_MOST_TIME_CONSTANT + 1;

/// LIA bits: the range changed, the time constant was changed.
pub const LIA_RANGE_BIT: u8 = 1 << 4;
pub const LIA_TIME_CONSTANT_BIT: u8 = 1 << 5;

/// The step of FREQ below each of these frequencies (in Hz), in units.
pub const STEPS_BELOW: [(i64, i64); 5] = [(10, 1), (100, 10), (1_000, 100), (10_000, 1_000), (100_000, 10_000)];

/// The step of FREQ from 100 kHz on.
pub const LAST_STEP: i64 = 100_000;

/// The step of FREQ at an exact frequency in Hz.
pub fn step(exact: &Number) -> i64 {
    STEPS_BELOW.iter().find(|(hertz, _)| exact < &Number::from_units(*hertz, 0)).map_or(LAST_STEP, |&(_, step)| step)
}

/// Whether a frequency lies on the step of FREQ at that frequency.
pub fn on_step(units: i64) -> bool {
    units % step(&Number::from_units(units, DECIMALS)) == 0
}

/// What decides the detection frequency.
#[derive(Clone, Copy, Debug, PartialEq, Eq)]
pub struct Reference {
    /// Whether the internal frequency is in force, FMOD 1, or else the external one.
    pub is_internal: bool,
    /// The internal frequency, which FREQ sets.
    pub internal: i64,
    /// The external frequency, as it was last measured.
    pub external: i64,
    /// HARM's value.
    pub harmonic: i64,
}

impl Reference {
    /// The reference frequency in force.
    pub fn in_force(&self) -> i64 {
        if self.is_internal {
            self.internal
        } else {
            self.external
        }
    }

    /// The harmonic times the frequency in force.
    pub fn detection(&self) -> i64 {
        self.harmonic * self.in_force()
    }

    /// Whether the detection frequency is at most 102 kHz.
    pub fn is_within_limit(&self) -> bool {
        self.detection() <= LIMIT
    }
}

/// The range that a state is in.
#[derive(Clone, Copy, Debug, PartialEq, Eq, Hash)]
pub enum Range {
    /// The long time constants are refused.
    Upper,
    /// Every time constant is taken.
    Lower,
}

impl Range {
    /// Both ranges.
    pub const ALL: [Range; 2] = [Range::Upper, Range::Lower];

    /// The range that this one becomes at a detection frequency: inside the band it stays.
    pub fn at(self, detection: i64) -> Range {
        if detection > BAND_HIGH {
            Range::Upper
        } else if detection < BAND_LOW {
            Range::Lower
        } else {
            self
        }
    }

    /// Whether a state may be in this range at a detection frequency.
    pub fn stands_at(self, detection: i64) -> bool {
        match self {
            Range::Upper => detection >= BAND_LOW,
            Range::Lower => detection <= BAND_HIGH,
        }
    }

    /// Whether a time constant is allowed in this range.
    pub fn allows(self, time_constant: i64) -> bool {
        self == Range::Lower || time_constant <= UPPER_MOST_TIME_CONSTANT
    }
}

/// The frequencies next to the band's ends with a harmonic: the last below, the first and last inside, the first above.
pub fn beside_band(harmonic: i64) -> [i64; 4] {
    let [below, inside] = [BAND_LOW - 1, BAND_HIGH].map(|detection| detection / harmonic);
    [below, below + 1, inside, inside + 1]
}

/// What another detection frequency makes of a state.
#[derive(Clone, Copy, Debug, PartialEq, Eq)]
pub struct Settled {
    /// The range at the detection frequency.
    pub range: Range,
    /// The time constant, shortened where the range does not take it.
    pub time_constant: i64,
    /// The LIA bits that are set with this.
    pub lia_bits: u8,
}

/// The range, the time constant and the LIA bits set at a detection frequency, from the range before it.
pub fn settle(before: Range, detection: i64, time_constant: i64) -> Settled {
    let range = before.at(detection);
    let mut settled = Settled { range, time_constant, lia_bits: 0 };
    if range != before {
        settled.lia_bits |= LIA_RANGE_BIT;
    }
    if !range.allows(time_constant) {
        settled.time_constant = UPPER_MOST_TIME_CONSTANT;
        settled.lia_bits |= LIA_TIME_CONSTANT_BIT;
    }
    settled
}

#[cfg(test)]
mod tests {
    use super::*;

    #[test]
    fn steps_change_at_the_powers_of_ten() {
        for (text, expected) in [
            ("0.001", 1),
            ("9.99999999999999", 1),
            ("10", 10),
            ("99.9999999999999", 10),
            ("100", 100),
            ("1000", 1_000),
            ("9999.99", 1_000),
            ("1E4", 10_000),
            ("99999.9999999999", 10_000),
            ("100000", 100_000),
            ("102000", 100_000),
        ] {
            let exact = Number::read(text.as_bytes()).unwrap();
            assert_eq!(step(&exact), expected, "{text}");
        }
        assert!(on_step(12_346_000));
        assert!(!on_step(12_345_678));
    }

    #[test]
    fn harmonic_102_is_within_the_limit_at_1_khz_and_103_is_not() {
        let start = Reference { is_internal: true, internal: 1_000 * HERTZ, external: 1_000 * HERTZ, harmonic: 102 };
        assert!(start.is_within_limit());
        assert!(!Reference { harmonic: 103, ..start }.is_within_limit());
    }

    /// The band's ends change no range and let both stand; the next unit outside does not.
    #[test]
    fn both_ends_of_the_band_are_inside() {
        assert_eq!((BAND_LOW, BAND_HIGH), (19_921 * HERTZ / 100, 20_312 * HERTZ / 100));
        for range in Range::ALL {
            for inside in [BAND_LOW, BAND_LOW + 1, 200 * HERTZ, BAND_HIGH - 1, BAND_HIGH] {
                assert_eq!((range.at(inside), range.stands_at(inside)), (range, true), "{inside}");
            }
            for below in [LEAST, BAND_LOW - 1] {
                assert_eq!((range.at(below), range.stands_at(below)), (Range::Lower, range == Range::Lower));
            }
            for above in [BAND_HIGH + 1, LIMIT] {
                assert_eq!((range.at(above), range.stands_at(above)), (Range::Upper, range == Range::Upper));
            }
        }
    }

    /// With every harmonic there are frequencies below, inside and above the band.
    #[test]
    fn frequencies_beside_the_band() {
        assert_eq!(beside_band(1), [1_992_099, 1_992_100, 2_031_200, 2_031_201]);
        assert_eq!(beside_band(2), [996_049, 996_050, 1_015_600, 1_015_601]);
        for harmonic in 1..=19_999 {
            let [below, first, last, above] = beside_band(harmonic).map(|frequency| frequency * harmonic);
            assert!(below < BAND_LOW && BAND_LOW <= first && last <= BAND_HIGH && BAND_HIGH < above, "{harmonic}");
            assert!(first <= last && above <= LIMIT, "{harmonic}");
        }
    }

    /// The lower range takes them all.
    #[test]
    fn the_upper_range_takes_time_constants_up_to_13() {
        assert!(Range::Upper.allows(13) && !Range::Upper.allows(14) && !Range::Upper.allows(19));
        assert!(Range::Lower.allows(13) && Range::Lower.allows(14) && Range::Lower.allows(19));
    }

    /// From each range to below, inside and above the band.
    #[test]
    fn bit_4_marks_a_change_of_range_and_bit_5_a_shortened_time_constant() {
        use Range::{Lower, Upper};
        for (before, detection, constant, range, after, bits) in [
            (Lower, BAND_HIGH + 1, 14, Upper, 13, 48),
            (Lower, BAND_HIGH + 1, 19, Upper, 13, 48),
            (Lower, BAND_HIGH + 1, 13, Upper, 13, 16),
            (Lower, BAND_HIGH, 19, Lower, 19, 0),
            (Lower, BAND_LOW, 19, Lower, 19, 0),
            (Lower, BAND_LOW - 1, 19, Lower, 19, 0),
            (Upper, BAND_LOW - 1, 13, Lower, 13, 16),
            (Upper, BAND_LOW, 13, Upper, 13, 0),
            (Upper, BAND_HIGH, 0, Upper, 0, 0),
            (Upper, BAND_HIGH + 1, 0, Upper, 0, 0),
        ] {
            let expected = Settled { range, time_constant: after, lia_bits: bits };
            assert_eq!(settle(before, detection, constant), expected, "{before:?} {detection} {constant}");
        }
    }
}
