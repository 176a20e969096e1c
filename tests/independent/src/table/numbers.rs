//! Worked numbers: ends of ranges, ties at the step, spellings, and texts that are no numbers.

use crate::argument::{Argument, Rule};
use crate::command::{Form, FORMS};
use crate::decimal::Decimal;
use crate::frequency;
use crate::number::MOST_DIGITS;

/// All lines of worked numbers.
pub fn lines() -> Vec<Vec<u8>> {
    let mut texts = Vec::new();
    for form in FORMS.iter() {
        for place in 0..form.arguments.len() {
            for number in around_ends(&form.arguments[place]) {
                texts.push(command_text(form, place, &number));
            }
            for number in ties(&form.arguments[place]) {
                texts.push(command_text(form, place, &number));
            }
        }
    }
    texts.extend(frequency_steps().iter().map(|number| format!("FREQ {number}")));
    texts.extend(PHASES.iter().map(|number| format!("PHAS {number}")));
    texts.extend(NAMED_VALUES.iter().map(ToString::to_string));
    for spelling in SPELLINGS {
        texts.push(format!("HARM {spelling};SENS {spelling};PHAS {spelling};AUXV 1,{spelling}"));
    }
    for text in NO_NUMBERS {
        texts.push(format!("HARM {text};PHAS {text};DDEF 1,{text},1;OEXP? {text}"));
    }
    let mut lines: Vec<Vec<u8>> = texts.into_iter().map(String::into_bytes).collect();
    lines.push(b"HARM 5\xc8;HARM \xc85;HARM \xb5".to_vec());
    lines
}

/// A command of this form with a number at one place and 1 at the others.
fn command_text(form: &Form, place: usize, number: &str) -> String {
    let mark = if form.is_query { "?" } else { "" };
    let mut arguments = vec!["1"; form.arguments.len()];
    arguments[place] = number;
    format!("{}{mark} {}", form.name, arguments.join(","))
}

/// The value with as many places as a text without exponent can show.
fn finest(value: Decimal) -> Decimal {
    value.finer(MOST_DIGITS - value.plain_digits())
}

/// Both ends of a range, and values just past them and just within.
fn around_ends(argument: &Argument) -> Vec<String> {
    match argument.rule {
        Rule::Whole => around_whole_ends(argument),
        _ => around_stepped_ends(argument),
    }
}

/// The ends of a whole-number range, whole numbers and fractions just beside them, and a half.
fn around_whole_ends(argument: &Argument) -> Vec<String> {
    let mut texts = Vec::new();
    for (end, outwards) in [(argument.low, -1), (argument.high, 1)] {
        let end = Decimal::new(i128::from(end), 0);
        texts.extend([0, outwards].map(|offset| end.plus(offset).plain()));
        texts.extend([-1, 1].map(|offset| finest(end).plus(offset).plain()));
    }
    let middle = Decimal::new(i128::from(argument.low), 0).finer(1).plus(5);
    texts.push(middle.plain());
    texts
}

/// The ends of a rounded range, and values just beside them with more and more places.
fn around_stepped_ends(argument: &Argument) -> Vec<String> {
    let mut texts = Vec::new();
    for end in [argument.low, argument.high] {
        let end = Decimal::new(i128::from(end), argument.decimals);
        let mut values = [0, 1, 2, 4].map(|extra| end.finer(extra)).to_vec();
        values.push(finest(end));
        for value in values {
            texts.extend([-1, 0, 1].map(|offset| value.plus(offset).plain()));
        }
        let value = end.with_digits(MOST_DIGITS as u32);
        texts.extend([-1, 0, 1].map(|offset| value.plus(offset).scientific()));
    }
    texts
}

/// A tie, and the values just below and just above it.
fn around_tie(tie: Decimal) -> Vec<String> {
    let fine = finest(tie);
    vec![fine.plus(-1).plain(), tie.plain(), fine.plus(1).plain()]
}

/// Ties at the step: near both ends, around zero, and at each half turn.
fn ties(argument: &Argument) -> Vec<String> {
    if argument.rule == Rule::Whole {
        return Vec::new();
    }
    let mut texts = Vec::new();
    for start in [argument.low, -18_000, -2, -1, 0, 1, 998, 1_000, 18_000, argument.high] {
        let step = argument.step_at(start);
        for base in [start - step, start] {
            // base + step / 2
            let tie = Decimal::new(i128::from(base), argument.decimals).finer(1).plus(5 * i128::from(step));
            texts.extend(around_tie(tie));
        }
    }
    texts
}

/// FREQ where its step changes: exactly there, beside it, and the ties beside it.
fn frequency_steps() -> Vec<String> {
    let mut texts = Vec::new();
    let mut above = frequency::LAST_STEP;
    for (hertz, below) in frequency::STEPS_BELOW.into_iter().rev() {
        let boundary = Decimal::new(i128::from(hertz * frequency::HERTZ), frequency::DECIMALS);
        texts.push(Decimal::new(i128::from(hertz), 0).plain());
        texts.extend([-1, 1].map(|offset| boundary.plus(offset).plain()));
        texts.extend([-1, 1].map(|offset| finest(boundary).plus(offset).plain()));
        for half_steps in [-3 * below, -below, above, 3 * above] {
            texts.extend(around_tie(boundary.finer(1).plus(5 * i128::from(half_steps))));
        }
        for step in [below, above] {
            texts.extend([-step, step].map(|offset| boundary.plus(i128::from(offset)).plain()));
        }
        above = below;
    }
    texts
}

/// Phases around half turns and whole turns.
const PHASES: &[&str] = &[
    "-360", "-359.995", "-359.994", "-270", "-180.01", "-180.005", "-180.004", "-180", "-179.996", "-179.995",
    "-179.994", "-179.99", "-90", "-0.01", "-0.005", "-0.004", "-0", "0", "0.004", "0.005", "0.015", "90", "179.99",
    "179.994", "179.995", "180", "180.004", "180.005", "180.01", "270", "359.99", "359.995", "360", "360.01", "539.99",
    "540", "540.004", "540.005", "541", "720",
];

/// Values that are easily taken wrongly.
const NAMED_VALUES: &[&str] = &[
    "PHAS 729.99",
    "PHAS 729.991",
    "PHAS 729.9900001",
    "PHAS 729.995",
    "PHAS 730",
    "PHAS -360",
    "PHAS -360.0001",
    "PHAS -360.004",
    "PHAS -360.01",
    "PHAS 0.005",
    "PHAS -0.005",
    "PHAS 45.674999999999",
    "PHAS 45.675",
    "FREQ 102000",
    "FREQ 102000.1",
    "FREQ 102000.00000001",
    "FREQ 101995",
    "FREQ 101994.999999999",
    "FREQ 101999.9",
    "FREQ 0.001",
    "FREQ 0.0009999",
    "FREQ 0.00104",
    "FREQ 0.00105",
    "FREQ .00095",
    "FREQ 999999999999999E-18",
    "FREQ 0",
    "FREQ -1000",
    "FREQ 12345.5",
    "FREQ 12345.4999999999",
    "FREQ 1234.55",
    "FREQ 1234.5499999999",
    "FREQ 1234.65",
    "FREQ 99.9995",
    "FREQ 99.99949",
    "FREQ 9.99995",
    "FREQ 999.995",
    "FREQ 9999.95",
    "FREQ 99999.5",
    "FREQ 100005",
    "FREQ 100004.9",
    "FREQ 100015",
    "SLVL 0.004",
    "SLVL 0.0039999",
    "SLVL 0.003",
    "SLVL 0.005",
    "SLVL 0.0049999",
    "SLVL 5.000",
    "SLVL 5.0001",
    "SLVL 5.001",
    "SLVL 4.999",
    "SLVL 4.9989",
    "SLVL 1.001",
    "SLVL 1.0009999",
    "SLVL 1.003",
    "SLVL 1.0029999",
    "SLVL -1",
    "OEXP 1,-105,0",
    "OEXP 1,-105.004,0",
    "OEXP 1,-0.005,0",
    "OEXP 1,-0.00499999999999,0",
    "OEXP 1,105.001,0",
    "AUXV 1,-10.5",
    "AUXV 1,-10.5004",
    "AUXV 1,10.5004",
    "AUXV 1,-0.0005",
    "AUXV 1,-0.0004",
    "AUXV 1,-1E-99",
];

/// Spellings of small values: points, exponents, signs, zeros, the most digits.
const SPELLINGS: &[&str] = &[
    "5",
    "5.0",
    ".5E1",
    "5E0",
    "50E-1",
    "500000000000000E-14",
    "5.",
    "05",
    "+5",
    "+5.",
    "+05.0",
    "005.00",
    "5E+0",
    "5E-0",
    "5E00",
    "5E+00",
    "5E-00",
    "5e0",
    "5.E0",
    ".05E2",
    ".05E+2",
    ".05E02",
    ".05E+02",
    "+.5E01",
    "0.5E1",
    "500E-2",
    "500E-02",
    "5.00000000000000",
    "000000000000005",
    "00000000000000.5E1",
    ".000000000000005E15",
    "50000000000000.0E-13",
    "0",
    "-0",
    "+0",
    "0.0",
    ".0",
    "0.",
    "-0.",
    "-.0",
    "0E99",
    "0E-99",
    "-0E99",
    "-0.0E-99",
    "000000000000000",
    ".000000000000000",
    ".000000000000000E99",
    "1",
    "-1",
    "1.5",
    "1.0000000000000",
    "1.00000000000001",
    "0.99999999999999",
    ".999999999999999",
    "-.999999999999999",
    "1E99",
    "-1E99",
    "1E-99",
    "-1E-99",
    "1E9",
    "1E20",
    "1E63",
    "1E64",
    "18446744073709E6",
    "999999999999999",
    "-999999999999999",
    "999999999999999E99",
    "-999999999999999E99",
    ".000000000000001E-99",
    "-.000000000000001E-99",
    "999999999999999E-99",
    "4.99999999999999E-3",
    "-4.99999999999999E-3",
];

/// Texts that are no numbers.
const NO_NUMBERS: &[&str] = &[
    "",
    ".",
    "+",
    "-",
    "+.",
    "-.",
    "E",
    "E5",
    "+E5",
    ".E5",
    "-.E5",
    "1E",
    "1E+",
    "1E-",
    "1E001",
    "1E+001",
    "1E-001",
    "1E000",
    "1E100",
    "1E+-1",
    "1E1+",
    "1E1.",
    "1E.1",
    "1E1.0",
    "1E2E3",
    "1EE2",
    "+-1",
    "-+1",
    "--1",
    "++1",
    "1+",
    "1-",
    "1-1",
    "1+1",
    "1.2.3",
    "1..2",
    "..1",
    "1..",
    ".1.",
    "0000000000000000",
    "0000000000000001",
    "1.000000000000000",
    "0.000000000000001",
    "0.000000000000005E15",
    "1234567890123456",
    "1234567890123456E-15",
    "-1234567890.123456",
    ".0000000000000001",
    "0.0000000000000000000000000000005E31",
    "11111111111111111111111111111111111111111",
    "X",
    "1X",
    "X1",
    "0X1",
    "#H1",
    "1F",
    "1D0",
    "1/2",
    "1:",
    "1*2",
    "(1)",
    "1%",
    "\"1\"",
    "INF",
    "NAN",
    "1\t",
    "1\x00",
];

#[cfg(test)]
mod tests {
    use super::*;
    use crate::number::Number;

    #[test]
    fn spellings_are_numbers_and_the_others_are_not() {
        for text in SPELLINGS {
            assert!(Number::read(text.to_uppercase().as_bytes()).is_some(), "{text}");
        }
        for text in NO_NUMBERS {
            assert!(Number::read(text.as_bytes()).is_none(), "{text}");
        }
    }

    #[test]
    fn values_around_ends_and_ties_are_numbers() {
        for argument in FORMS.iter().flat_map(|form| &form.arguments) {
            for text in around_ends(argument).into_iter().chain(ties(argument)) {
                assert!(Number::read(text.as_bytes()).is_some(), "{text}");
            }
        }
        for text in frequency_steps() {
            assert!(Number::read(text.as_bytes()).is_some(), "{text}");
        }
    }
}
