//! Natural numbers of any size, kept as their decimal digits.

use std::cmp::Ordering;

/// A natural number. The digits go from the most significant on, without leading zeros; zero has none.
#[derive(Clone, Debug, PartialEq, Eq)]
pub struct Natural {
    digits: Vec<u8>,
}

impl Natural {
    /// The number that decimal digits (0 to 9, most significant first) spell.
    pub fn from_digits(digits: &[u8]) -> Self {
        let leading = digits.iter().take_while(|&&digit| digit == 0).count();
        Natural { digits: digits[leading..].to_vec() }
    }

    /// Whether it is 0.
    pub fn is_zero(&self) -> bool {
        self.digits.is_empty()
    }

    /// This number times ten to the power `n`.
    pub fn times_power_of_ten(&self, n: usize) -> Self {
        let mut digits = self.digits.clone();
        digits.resize(digits.len() + n, 0);
        Natural::from_digits(&digits)
    }

    /// The whole part of this number divided by ten to the power `n`.
    pub fn without_last_digits(&self, n: usize) -> Self {
        let kept = self.digits.len().saturating_sub(n);
        Natural { digits: self.digits[..kept].to_vec() }
    }

    /// Whether ten to the power `n` divides this number.
    pub fn ends_in_zeros(&self, n: usize) -> bool {
        self.digits.iter().rev().take(n).all(|&digit| digit == 0)
    }

    /// The sum, digit by digit with a carry.
    pub fn plus(&self, other: &Natural) -> Self {
        let length = self.digits.len().max(other.digits.len()) + 1;
        let mut sum = vec![0; length];
        let mut carry = 0;
        for place in 0..length {
            let total = self.digit(place) + other.digit(place) + carry;
            sum[length - 1 - place] = total % 10;
            carry = total / 10;
        }
        Natural::from_digits(&sum)
    }

    /// The digit that counts ten to the power `place`.
    fn digit(&self, place: usize) -> u8 {
        self.digits.iter().rev().nth(place).copied().unwrap_or(0)
    }

    /// The number as an `i64`, where that holds it.
    pub fn to_i64(&self) -> Option<i64> {
        self.digits.iter().try_fold(0i64, |value, &digit| value.checked_mul(10)?.checked_add(i64::from(digit)))
    }
}

impl From<u64> for Natural {
    fn from(value: u64) -> Self {
        let digits: Vec<u8> = value.to_string().bytes().map(|byte| byte - b'0').collect();
        Natural::from_digits(&digits)
    }
}

impl Ord for Natural {
    fn cmp(&self, other: &Self) -> Ordering {
        let by_length = self.digits.len().cmp(&other.digits.len());
        by_length.then_with(|| self.digits.cmp(&other.digits))
    }
}

impl PartialOrd for Natural {
    fn partial_cmp(&self, other: &Self) -> Option<Ordering> {
        Some(self.cmp(other))
    }
}

#[cfg(test)]
mod tests {
    use super::*;

    #[test]
    fn agrees_with_machine_arithmetic() {
        let samples = [0u64, 1, 9, 10, 11, 99, 100, 101, 909, 999, 1000, 123_456_789, 999_999_999];
        for a in samples {
            for b in samples {
                assert_eq!(Natural::from(a).plus(&Natural::from(b)), Natural::from(a + b));
                assert_eq!(Natural::from(a).cmp(&Natural::from(b)), a.cmp(&b));
            }
            for n in 0..6 {
                let power = 10u64.pow(n);
                let n = n as usize;
                assert_eq!(Natural::from(a).times_power_of_ten(n), Natural::from(a * power));
                assert_eq!(Natural::from(a).without_last_digits(n), Natural::from(a / power));
                assert_eq!(Natural::from(a).ends_in_zeros(n), a % power == 0);
            }
            assert_eq!(Natural::from(a).to_i64(), i64::try_from(a).ok());
        }
        assert_eq!(Natural::from(u64::MAX).to_i64(), None);
        assert_eq!(Natural::from(i64::MAX as u64).to_i64(), Some(i64::MAX));
    }
}
