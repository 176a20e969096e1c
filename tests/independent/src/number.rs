//! Number texts and the exact values that they stand for.

use crate::natural::Natural;
use std::cmp::Ordering;

/// The most digits before the exponent, zeros included.
pub const MOST_DIGITS: usize = 15;

/// The most digits of an exponent.
pub const MOST_EXPONENT_DIGITS: usize = 2;

/// Every number text has its value a whole number of units of ten to the power minus this: the
/// exponent is at least -99, and all digits may stand after the point.
const PLACES: usize = 99 + MOST_DIGITS;

/// An exact value: a sign and a whole number of units of ten to the power minus `PLACES`. Zero is
/// never negative.
#[derive(Clone, Debug, PartialEq, Eq)]
pub struct Number {
    negative: bool,
    magnitude: Natural,
}

impl Number {
    /// Reads a number text in capitals: an optional sign, 1 to 15 digits with at most one point, and
    /// optionally E, an optional sign and one or two digits.
    pub fn read(text: &[u8]) -> Option<Number> {
        let (mantissa, exponent) = match text.iter().position(|&byte| byte == b'E') {
            Some(at) => (&text[..at], read_exponent(&text[at + 1..])?),
            None => (text, 0),
        };
        let (negative, mantissa) = split_sign(mantissa);
        let (before, after) = match mantissa.iter().position(|&byte| byte == b'.') {
            Some(at) => (&mantissa[..at], &mantissa[at + 1..]),
            None => (mantissa, &[][..]),
        };
        let digits = read_digits(&[before, after].concat())?;
        if digits.is_empty() || digits.len() > MOST_DIGITS {
            return None;
        }
        // digits * 10^(exponent - fraction digits), in units of 10^-PLACES
        let power = PLACES as i64 + exponent - after.len() as i64;
        let power = usize::try_from(power).expect("the exponent and the digits are bounded");
        Some(Number::new(negative, Natural::from_digits(&digits).times_power_of_ten(power)))
    }

    /// The value of `units` times ten to the power minus `decimals`.
    pub fn from_units(units: i64, decimals: usize) -> Number {
        let magnitude = Natural::from(units.unsigned_abs());
        Number::new(units < 0, magnitude.times_power_of_ten(PLACES - decimals))
    }

    /// The value of a sign and a magnitude; zero loses its minus.
    fn new(negative: bool, magnitude: Natural) -> Number {
        Number { negative: negative && !magnitude.is_zero(), magnitude }
    }

    /// The value where it is whole (and of a size that any range could hold).
    pub fn whole(&self) -> Option<i64> {
        if !self.magnitude.ends_in_zeros(PLACES) {
            return None;
        }
        self.signed(self.magnitude.without_last_digits(PLACES).to_i64()?)
    }

    /// The value rounded to a multiple of `step`, halves away from zero; the value returned and the
    /// step count units of ten to the power minus `decimals`.
    pub fn rounded(&self, decimals: usize, step: i64) -> Option<i64> {
        // steps = floor(magnitude / step + 1/2) = floor((2 * magnitude + step) / (2 * step))
        let unit = PLACES - decimals;
        let exact_step = Natural::from(step.unsigned_abs()).times_power_of_ten(unit);
        let twice = self.magnitude.plus(&self.magnitude);
        let numerator = twice.plus(&exact_step).without_last_digits(unit);
        let steps = numerator.to_i64()? / (2 * step);
        self.signed(steps * step)
    }

    /// A magnitude with this number's sign.
    fn signed(&self, magnitude: i64) -> Option<i64> {
        Some(if self.negative { -magnitude } else { magnitude })
    }
}

impl Ord for Number {
    fn cmp(&self, other: &Self) -> Ordering {
        match (self.negative, other.negative) {
            (false, false) => self.magnitude.cmp(&other.magnitude),
            (true, true) => other.magnitude.cmp(&self.magnitude),
            (false, true) => Ordering::Greater,
            (true, false) => Ordering::Less,
        }
    }
}

impl PartialOrd for Number {
    fn partial_cmp(&self, other: &Self) -> Option<Ordering> {
        Some(self.cmp(other))
    }
}

/// Takes one leading sign off; true where it is a minus.
fn split_sign(text: &[u8]) -> (bool, &[u8]) {
    match text.first() {
        Some(b'-') => (true, &text[1..]),
        Some(b'+') => (false, &text[1..]),
        _ => (false, text),
    }
}

/// The values of digits, where there is nothing but digits.
fn read_digits(text: &[u8]) -> Option<Vec<u8>> {
    text.iter().map(|byte| byte.is_ascii_digit().then(|| byte - b'0')).collect()
}

/// What follows the E: an optional sign and one or two digits.
fn read_exponent(text: &[u8]) -> Option<i64> {
    let (negative, text) = split_sign(text);
    let digits = read_digits(text)?;
    if digits.is_empty() || digits.len() > MOST_EXPONENT_DIGITS {
        return None;
    }
    let magnitude = digits.iter().fold(0, |value, &digit| value * 10 + i64::from(digit));
    Some(if negative { -magnitude } else { magnitude })
}

#[cfg(test)]
mod tests {
    use super::*;

    /// The value of a text that is a number.
    fn value(text: &str) -> Number {
        Number::read(text.as_bytes()).unwrap_or_else(|| panic!("{text:?} is a number"))
    }

    #[test]
    fn spellings_of_one_value() {
        let five = Number::from_units(5, 0);
        for text in [
            "5",
            "5.0",
            ".5E1",
            "+5",
            "5.",
            "05",
            "5E0",
            "5E+00",
            "50E-1",
            "500000000000000E-14",
            "0.00000000000005E14",
            "000000000000005",
            "+.5E+01",
            "5.00000000000000",
            "0.05E2",
        ] {
            assert_eq!(value(text), five, "{text}");
        }
        assert_eq!(value("-0"), value("0E99"));
        assert_eq!(value("-0.00E-99"), Number::from_units(0, 2));
    }

    #[test]
    fn texts_that_are_no_numbers() {
        for text in [
            "",
            ".",
            "+",
            "-",
            "E5",
            "1E",
            "1E+",
            "1E001",
            "1E+001",
            "1E1.0",
            "+-1",
            "--1",
            "1-",
            "1.2.3",
            "1E2E3",
            ".E1",
            "+.",
            "1,2",
            "1 2",
            "\t1",
            "1\0",
            "1e2",
            "X",
            "1X",
            "0X10",
            "INF",
            "NAN",
            "1234567890123456",
            "0000000000000000",
            "0.123456789012345",
            "..1",
            "1..",
        ] {
            assert_eq!(Number::read(text.as_bytes()), None, "{text:?}");
        }
        assert_eq!(Number::read(&[b'1', 200]), None);
    }

    #[test]
    fn order_is_by_exact_value() {
        let rising = [
            "-1E99",
            "-360.0001",
            "-360",
            "-359.99999999999",
            "-1E-99",
            "0",
            ".000000000000001E-99",
            "1E-99",
            "1",
            "1.00000000000001",
            "729.99",
            "729.990000000001",
            "729.991",
            "102000",
            "102000.00000001",
            "1E98",
            "999999999999999E99",
        ];
        for (i, a) in rising.iter().enumerate() {
            for (j, b) in rising.iter().enumerate() {
                assert_eq!(value(a).cmp(&value(b)), i.cmp(&j), "{a} {b}");
            }
        }
    }

    #[test]
    fn halves_go_away_from_zero() {
        for (text, decimals, step, expected) in [
            ("0.005", 2, 1, 1),
            ("-0.005", 2, 1, -1),
            ("0.00499999999999", 2, 1, 0),
            ("-0.0049", 2, 1, 0),
            ("1.001", 3, 2, 1002),
            ("1.003", 3, 2, 1004),
            ("1.00099999999999", 3, 2, 1000),
            ("0.005", 3, 2, 6),
            ("1234.55", 4, 1000, 12_346_000),
            ("12345.5", 4, 10_000, 123_460_000),
            ("1E-99", 3, 1, 0),
        ] {
            assert_eq!(value(text).rounded(decimals, step), Some(expected), "{text}");
        }
    }

    /// However they are spelled; none for a fraction or a value too large.
    #[test]
    fn whole_values() {
        assert_eq!(value("50E-1").whole(), Some(5));
        assert_eq!(value("-0").whole(), Some(0));
        assert_eq!(value("5.4").whole(), None);
        assert_eq!(value("1E-99").whole(), None);
        assert_eq!(value("1E99").whole(), None);
        assert_eq!(value("-16383.0").whole(), Some(-16383));
    }
}
