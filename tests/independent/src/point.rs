//! Trace points: words of a signed m and an exponent e, of value m times 2 to the power (e - 124).

/// The largest exponent of a legal point.
pub const MOST_EXPONENT: u8 = 236;

/// The exponent at which a point's value is m itself.
pub const UNIT_EXPONENT: i32 = 124;

/// What TRCB sends for a word that is no legal point.
pub const NOT_A_POINT: [u8; 4] = [0x00, 0x00, 0xc0, 0x7f];

/// A word of a trace, legal or not.
#[derive(Clone, Copy, Debug, PartialEq, Eq)]
pub struct Point {
    pub word: u32,
}

impl Point {
    /// The legal word of m and e.
    pub fn new(m: i16, e: u8) -> Point {
        let [low, high] = m.to_le_bytes();
        Point { word: u32::from_le_bytes([low, high, e, 0]) }
    }

    /// The signed number in its two low bytes.
    pub fn m(self) -> i16 {
        let [low, high, _, _] = self.word.to_le_bytes();
        i16::from_le_bytes([low, high])
    }

    /// The exponent, in the byte above these.
    pub fn e(self) -> u8 {
        self.word.to_le_bytes()[2]
    }

    /// Whether its top byte is 0 and its exponent at most 236.
    pub fn is_legal(self) -> bool {
        self.word.to_le_bytes()[3] == 0 && self.e() <= MOST_EXPONENT
    }

    /// The value, by doubling or halving m; every step is exact.
    fn value(self) -> f64 {
        let power = i32::from(self.e()) - UNIT_EXPONENT;
        let factor = if power < 0 { 0.5 } else { 2.0 };
        (0..power.abs()).fold(f64::from(self.m()), |value, _| value * factor)
    }

    /// What TRCL sends.
    pub fn trcl_bytes(self) -> [u8; 4] {
        self.word.to_le_bytes()
    }

    /// What TRCB sends.
    pub fn trcb_bytes(self) -> [u8; 4] {
        if !self.is_legal() {
            return NOT_A_POINT;
        }
        (self.value() as f32).to_le_bytes()
    }
}

#[cfg(test)]
mod tests {
    use super::*;

    /// Points with the bytes that TRCB sends of them.
    #[test]
    fn worked_examples() {
        for (m, e, expected) in [
            (1, 124, [0x00, 0x00, 0x80, 0x3f]),
            (-3, 123, [0x00, 0x00, 0xc0, 0xbf]),
            (32_767, 124, [0x00, 0xfe, 0xff, 0x46]),
            (-32_768, 236, [0x00, 0x00, 0x00, 0xff]),
            (0, 0, [0, 0, 0, 0]),
            (0, 236, [0, 0, 0, 0]),
        ] {
            let point = Point::new(m, e);
            assert!(point.is_legal());
            assert_eq!(point.trcb_bytes(), expected, "{m} {e}");
        }
    }

    #[test]
    fn every_legal_point_is_an_exact_single_float() {
        for e in 0..=MOST_EXPONENT {
            for m in i16::MIN..=i16::MAX {
                let point = Point::new(m, e);
                assert_eq!((point.m(), point.e()), (m, e));
                let single = f32::from_le_bytes(point.trcb_bytes());
                let exact = f64::from(m) * f64::from_bits(((1023 + u64::from(e)) - 124) << 52);
                assert_eq!(f64::from(single), exact);
                assert!(m == 0 || single.is_normal());
            }
        }
    }

    #[test]
    fn illegal_words() {
        for word in [0x00ed_0000, 0x00ed_0001, 0x0100_0000, 0xff7c_0001, 0x00ff_ffff] {
            let point = Point { word };
            assert!(!point.is_legal());
            assert_eq!(point.trcb_bytes(), NOT_A_POINT);
            assert_eq!(point.trcl_bytes(), word.to_le_bytes());
        }
    }
}
