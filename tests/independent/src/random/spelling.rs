//! Random number texts.

use super::generator::Generator;
use crate::argument::{Argument, Rule};
use crate::decimal::Decimal;
use crate::frequency::{HERTZ, STEPS_BELOW};
use crate::number::MOST_DIGITS;

/// A number text for an argument: mostly near what decides, in any spelling.
pub fn number(generator: &mut Generator, argument: &Argument) -> String {
    if generator.chance(4) {
        return any_number(generator);
    }
    let value = match argument.rule {
        Rule::Whole => whole_value(generator, argument),
        _ => stepped_value(generator, argument),
    };
    spelled(generator, value)
}

/// A value for a whole-number argument: mostly whole and in range, or just beside.
fn whole_value(generator: &mut Generator, argument: &Argument) -> Decimal {
    let value = match generator.below(10) {
        0 => argument.low - 1,
        1 => argument.low,
        2 => argument.high,
        3 => argument.high + 1,
        4 => generator.between(-300, 20_000),
        _ => generator.between(argument.low, argument.high),
    };
    let value = Decimal::new(i128::from(value), 0);
    match generator.below(10) {
        0 => {
            let extra = generator.below(15);
            value.finer(extra).plus(i128::from(generator.between(-1, 1)))
        }
        1 => value.finer(1).plus(i128::from(generator.between(-9, 9))),
        _ => value,
    }
}

/// A value for a rounded argument: near the ends, near zero, near a change of step, or anywhere, and
/// there on a step, at a tie, just beside one, or anywhere between.
fn stepped_value(generator: &mut Generator, argument: &Argument) -> Decimal {
    let base = base(generator, argument);
    let step = argument.step_at(base);
    let on_step = base - base % step;
    let extra = generator.below(9);
    let value = Decimal::new(i128::from(on_step), argument.decimals).finer(extra);
    let fine_step = i128::from(step) * 10i128.pow(extra as u32);
    let sign = generator.pick(&[-1, 1]);
    let offset = match generator.below(8) {
        0 | 1 => 0,
        2 => 1,
        3 | 4 => fine_step / 2,
        5 => fine_step / 2 + 1,
        6 => fine_step / 2 - 1,
        _ => i128::from(generator.bits()) % fine_step,
    };
    value.plus(sign * offset)
}

/// A number of units: near an end, zero, a change of step or a half turn, or anywhere.
fn base(generator: &mut Generator, argument: &Argument) -> i64 {
    let near = generator.between(-3, 3);
    let width = argument.high - argument.low;
    match (generator.below(10), argument.rule) {
        (0, _) => argument.low + near,
        (1, _) => argument.high + near,
        (2, _) => near,
        (3 | 4, Rule::Frequency) => {
            let (hertz, below) = generator.pick(&STEPS_BELOW);
            hertz * HERTZ + near * below
        }
        (5 | 6, Rule::Frequency) => argument.low + generator.of_any_size(width),
        (3..=6, Rule::Phase) => 18_000 * generator.between(-2, 4) + near,
        (7, _) => generator.between(argument.low - width / 4, argument.high + width / 4),
        _ => generator.between(argument.low, argument.high),
    }
}

/// Digits and an exponent without regard to any range.
fn any_number(generator: &mut Generator) -> String {
    let length = 1 + generator.below(MOST_DIGITS + 1);
    let mut text: String = (0..length).map(|_| digit(generator)).collect();
    if generator.chance(50) {
        text.insert(generator.below(length + 1), '.');
    }
    let sign = generator.pick(&["", "+", "-"]);
    let exponent_sign = generator.pick(&["", "+", "-"]);
    let exponent = generator.below(110);
    match generator.below(3) {
        0 => format!("{sign}{text}"),
        1 => format!("{sign}{text}E{exponent_sign}{exponent}"),
        _ => format!("{sign}{text}E{exponent_sign}{:02}", exponent % 20),
    }
}

/// A digit, 0 more often than others.
fn digit(generator: &mut Generator) -> char {
    if generator.chance(30) {
        return '0';
    }
    char::from(b'0' + generator.below(10) as u8)
}

/// One of the many texts of a value.
fn spelled(generator: &mut Generator, value: Decimal) -> String {
    let sign = match (value.mantissa < 0, generator.chance(8)) {
        (true, _) => "-",
        (false, true) => "+",
        (false, false) => "",
    };
    let mut digits = value.mantissa.unsigned_abs().to_string();
    let mut places = value.places as i64;
    if generator.chance(15) {
        while places > 0 && digits.len() > 1 && digits.ends_with('0') {
            digits.pop();
            places -= 1;
        }
    }
    if generator.chance(10) {
        let zeros = generator.below(4);
        digits.push_str(&"0".repeat(zeros));
        places += zeros as i64;
    }
    if generator.chance(10) {
        digits.insert_str(0, &"0".repeat(generator.below(4)));
    }
    if generator.chance(4) {
        let most = MOST_DIGITS + generator.below(2);
        let zeros = most.saturating_sub(digits.len());
        digits.push_str(&"0".repeat(zeros));
        places += zeros as i64;
    }
    let fraction =
        if generator.chance(70) { usize::try_from(places).unwrap_or(0) } else { generator.below(digits.len() + 3) };
    let text = pointed(generator, digits, fraction);
    format!("{sign}{text}{}", exponent(generator, fraction as i64 - places))
}

/// The digits with a point before the last `fraction` of them.
fn pointed(generator: &mut Generator, mut digits: String, fraction: usize) -> String {
    if fraction > digits.len() {
        digits.insert_str(0, &"0".repeat(fraction - digits.len()));
    }
    if fraction == digits.len() && generator.chance(70) {
        digits.insert(0, '0');
    }
    if fraction > 0 || generator.chance(8) {
        digits.insert(digits.len() - fraction, '.');
    }
    digits
}

/// The text of an exponent, in one of its forms; of none, mostly nothing.
fn exponent(generator: &mut Generator, power: i64) -> String {
    if power == 0 && generator.chance(85) {
        return String::new();
    }
    let letter = generator.pick(&['E', 'E', 'e']);
    let sign = match (power < 0, generator.chance(40)) {
        (true, _) => "-",
        (false, true) => "+",
        (false, false) => "",
    };
    let magnitude = power.abs();
    if generator.chance(30) {
        format!("{letter}{sign}{magnitude:02}")
    } else {
        format!("{letter}{sign}{magnitude}")
    }
}

#[cfg(test)]
mod tests {
    use super::*;
    use crate::number::Number;

    #[test]
    fn a_spelling_keeps_the_value() {
        let mut generator = Generator::new(5);
        let mut read = 0;
        for _ in 0..5_000 {
            let argument = Argument::frequency();
            let value = stepped_value(&mut generator, &argument);
            let text = spelled(&mut generator, value).to_uppercase();
            let plain = Number::read(value.plain().as_bytes());
            if let (Some(spelled), Some(plain)) = (Number::read(text.as_bytes()), plain) {
                assert_eq!(spelled, plain, "{text} {}", value.plain());
                read += 1;
            }
        }
        assert!(read > 3_000);
    }
}
