//! Decimal values to be spelled as number texts.

/// A value: `mantissa` times ten to the power minus `places`.
#[derive(Clone, Copy, Debug, PartialEq, Eq)]
pub struct Decimal {
    pub mantissa: i128,
    pub places: usize,
}

impl Decimal {
    /// The value of a mantissa with so many decimal places.
    pub fn new(mantissa: i128, places: usize) -> Decimal {
        Decimal { mantissa, places }
    }

    /// The same value with `extra` more places.
    pub fn finer(self, extra: usize) -> Decimal {
        Decimal { mantissa: self.mantissa * 10i128.pow(extra as u32), places: self.places + extra }
    }

    /// The value with `offset` added to its last digit.
    pub fn plus(self, offset: i128) -> Decimal {
        Decimal { mantissa: self.mantissa + offset, places: self.places }
    }

    /// Places added until the magnitude has `digits` digits.
    pub fn with_digits(self, digits: u32) -> Decimal {
        let mut decimal = self;
        while decimal.mantissa != 0 && decimal.mantissa.unsigned_abs() < 10u128.pow(digits - 1) {
            decimal = decimal.finer(1);
        }
        decimal
    }

    /// The text without an exponent, one digit at least before the point.
    pub fn plain(self) -> String {
        let sign = if self.mantissa < 0 { "-" } else { "" };
        let digits = format!("{:0width$}", self.mantissa.unsigned_abs(), width = self.places + 1);
        let (whole, fraction) = digits.split_at(digits.len() - self.places);
        match fraction {
            "" => format!("{sign}{whole}"),
            _ => format!("{sign}{whole}.{fraction}"),
        }
    }

    /// The text as a whole number and an exponent.
    pub fn scientific(self) -> String {
        format!("{}E-{}", self.mantissa, self.places)
    }

    /// How many digits the plain text has.
    pub fn plain_digits(self) -> usize {
        self.plain().bytes().filter(u8::is_ascii_digit).count()
    }
}

#[cfg(test)]
mod tests {
    use super::*;

    /// Values, also with places and offsets added, as plain and as scientific texts.
    #[test]
    fn texts() {
        assert_eq!(Decimal::new(-3_600_001, 4).plain(), "-360.0001");
        assert_eq!(Decimal::new(5, 3).plain(), "0.005");
        assert_eq!(Decimal::new(-5, 0).plain(), "-5");
        assert_eq!(Decimal::new(0, 2).plain(), "0.00");
        assert_eq!(Decimal::new(72_999, 2).finer(1).plus(1).plain(), "729.991");
        assert_eq!(Decimal::new(10, 4).with_digits(15).scientific(), "100000000000000E-17");
        assert_eq!(Decimal::new(10, 4).plain_digits(), 5);
    }
}
