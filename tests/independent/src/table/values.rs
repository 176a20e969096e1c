//! Worked values other than lines: replies, allowed settings, frequencies, the band, points.

use super::{alter, line, ranged, start, with_points};
use crate::frequency::{beside_band, Range, BAND_HIGH, BAND_LOW, HERTZ, LEAST, LIMIT};
use crate::ops::field::{Place, Value};
use crate::ops::Operation;
use crate::point::Point;
use crate::setting::{query, Settings, FMOD, FREQ, HARM, OFLT, VALUES};

/// The entries with decimals, besides FREQ.
const PHAS: usize = 0;
const SLVL: usize = 5;
const OEXP: usize = 21;
const AUXV: usize = 27;

/// The largest frequency tried.
const MOST_FREQUENCY: i64 = 2_000_000_000;

/// All of them.
pub fn operations() -> Vec<Operation> {
    [replies(), single_settings(), combined_settings(), detections(), band(), points()].concat()
}

/// Another value in an entry.
fn setting(entry: usize, units: i64) -> Operation {
    alter(Place::Entry(entry), Value::Number(units))
}

/// Each setting's reply at and just outside the ends of what is kept; then small values and powers of
/// ten for each kind of value with decimals.
fn replies() -> Vec<Operation> {
    let mut replies = Vec::new();
    for (entry, value) in VALUES.iter().enumerate() {
        for units in [value.kept_low - 1, value.kept_low, value.kept_high, value.kept_high + 1, value.start] {
            replies.extend(reply(entry, units));
        }
    }
    for entry in [PHAS, FREQ, SLVL, OEXP, AUXV] {
        let most = VALUES[entry].kept_high;
        for units in [0, 1, 2, 9, 10, 11, 98, 99, 100, 998, 999, 1_000, 1_001, 1_002, 1_234, 9_999, 10_000] {
            if units <= most {
                replies.extend([units, -units].map(|units| reply(entry, units)).concat());
            }
        }
    }
    for units in [99_990, 99_999, 100_000, 100_001, 100_010, 999_990, 999_999, 1_000_000, 1_000_010, 1_000_100] {
        replies.extend(reply(FREQ, units));
    }
    for units in [9_999_900, 10_000_100, 10_001_000, 12_345_678, 12_346_000, 99_999_000, 100_001_000, 123_460_000] {
        replies.extend(reply(FREQ, units));
    }
    for units in [999_990_000, 1_000_000_000, 1_000_010_000, 1_000_100_000, 1_019_900_000] {
        replies.extend(reply(FREQ, units));
    }
    replies
}

/// The reply of an entry, in the range that its value leads to; nothing where it does not hold the number.
fn reply(entry: usize, units: i64) -> Vec<Operation> {
    let (low, high) = crate::ops::field::entry(entry).ends();
    if !(low..=high).contains(&units) {
        return Vec::new();
    }
    let mut settings = Settings::start();
    settings.entries[entry] = units;
    let range = settings.range.at(settings.reference().detection());
    vec![start(1), setting(entry, units), ranged(range), line(&query(entry)), Operation::Poll]
}

/// The start settings with some entries changed, in each range.
fn changed(changes: &[(usize, i64)], external: i64) -> Vec<Operation> {
    let mut operations = Vec::new();
    for range in Range::ALL {
        operations.push(start(1));
        operations.extend(changes.iter().map(|&(entry, units)| setting(entry, units)));
        operations.extend([alter(Place::External, Value::Number(external)), ranged(range)]);
        operations.extend([line("FREQ?"), Operation::Poll, Operation::Dump]);
    }
    operations
}

/// Values of single settings at and beside their steps and limits.
const SINGLE_VALUES: &[(usize, i64)] = &[
    (SLVL, 5),
    (SLVL, 6),
    (SLVL, 999),
    (SLVL, 1_001),
    (SLVL, 1_002),
    (SLVL, 4_999),
    (SLVL, 5_002),
    (FREQ, 0),
    (FREQ, 11),
    (FREQ, 99_999),
    (FREQ, 100_000),
    (FREQ, 100_001),
    (FREQ, 100_010),
    (FREQ, 999_990),
    (FREQ, 999_999),
    (FREQ, 1_000_010),
    (FREQ, 1_000_100),
    (FREQ, 9_999_900),
    (FREQ, 9_999_990),
    (FREQ, 10_000_100),
    (FREQ, 10_001_000),
    (FREQ, 12_345_678),
    (FREQ, 12_346_000),
    (FREQ, 99_999_000),
    (FREQ, 99_999_900),
    (FREQ, 100_001_000),
    (FREQ, 100_010_000),
    (FREQ, 999_990_000),
    (FREQ, 999_999_000),
    (FREQ, 1_000_000_000),
    (FREQ, 1_000_010_000),
    (FREQ, 1_000_100_000),
    (FREQ, MOST_FREQUENCY),
    (FMOD, 2),
    (HARM, 102),
    (HARM, 103),
    (OFLT, 13),
    (OFLT, 14),
];

/// The start settings, with each setting in turn at, beside and off the ends of what is kept.
fn single_settings() -> Vec<Operation> {
    let start = Settings::start();
    let mut operations = changed(&[], start.external);
    for (entry, value) in VALUES.iter().enumerate() {
        for units in [value.kept_low - 1, value.kept_low, value.kept_high, value.kept_high + 1] {
            operations.extend(changed(&[(entry, units)], start.external));
        }
    }
    for &(entry, units) in SINGLE_VALUES {
        operations.extend(changed(&[(entry, units)], start.external));
    }
    for external in [0, LEAST - 1, LEAST, LEAST + 1, LIMIT - 1, LIMIT, LIMIT + 1, MOST_FREQUENCY] {
        for fmod in [0, 1] {
            operations.extend(changed(&[(FMOD, fmod)], external));
        }
    }
    operations
}

/// Settings that meet or break the 102 kHz limit, and the ranges and time constants at the band.
fn combined_settings() -> Vec<Operation> {
    let free = 1_000 * HERTZ;
    let mut operations = Vec::new();
    // The limit met exactly and exceeded by one unit or one step, by the frequency in force.
    for (harmonic, frequency) in [
        (2, LIMIT / 2),
        (2, LIMIT / 2 + 10_000),
        (10, LIMIT / 10),
        (10, LIMIT / 10 + 10_000),
        (102, LIMIT / 102),
        (102, LIMIT / 102 + 1_000),
        (1_020, LIMIT / 1_020),
        (1_020, LIMIT / 1_020 + 100),
        (10_200, LIMIT / 10_200),
        (10_200, LIMIT / 10_200 + 10),
        (10_201, LIMIT / 10_200),
        (19_999, 51_000),
        (19_999, 51_002),
        (19_999, 51_003),
        (19_999, LEAST),
    ] {
        operations.extend(changed(&[(HARM, harmonic), (FREQ, frequency)], free));
        operations.extend(changed(&[(HARM, harmonic), (FMOD, 0)], frequency));
    }
    for (harmonic, external) in [
        (1, LIMIT),
        (1, LIMIT + 1),
        (2, LIMIT / 2 + 1),
        (3, LIMIT / 3),
        (3, LIMIT / 3 + 1),
        (7, LIMIT / 7),
        (7, LIMIT / 7 + 1),
        (19_998, 51_005),
        (19_998, 51_006),
    ] {
        operations.extend(changed(&[(HARM, harmonic), (FMOD, 0)], external));
    }
    [operations, free_settings(), band_settings()].concat()
}

/// The frequency that is not in force is free of the limit, but not of its own ends and step.
fn free_settings() -> Vec<Operation> {
    let free = 1_000 * HERTZ;
    let mut operations = changed(&[(HARM, 102)], LIMIT);
    operations.extend(changed(&[(HARM, 102), (FMOD, 0), (FREQ, LIMIT)], free));
    operations.extend(changed(&[(FMOD, 0), (FREQ, 12_345_678)], free));
    operations.extend(changed(&[(FMOD, 0), (FREQ, LIMIT + 100_000)], free));
    operations.extend(changed(&[(FMOD, 0), (FREQ, LEAST - 1)], free));
    operations
}

/// Time constants inside the band, at its ends, and one step or unit outside.
fn band_settings() -> Vec<Operation> {
    let free = 1_000 * HERTZ;
    let mut operations = Vec::new();
    for time_constant in [13, 14, 19] {
        for (harmonic, frequency) in [
            (1, BAND_LOW - 100),
            (1, BAND_LOW),
            (1, 200 * HERTZ),
            (1, BAND_HIGH),
            (1, BAND_HIGH + 100),
            (2, BAND_LOW / 2 - 10),
            (2, BAND_LOW / 2),
            (2, BAND_HIGH / 2),
            (2, BAND_HIGH / 2 + 100),
            (199, HERTZ),
            (200, HERTZ),
            (203, HERTZ),
            (204, HERTZ),
            (19_999, 99),
            (19_999, 100),
            (19_999, 101),
            (19_999, 102),
        ] {
            operations.extend(changed(&[(OFLT, time_constant), (HARM, harmonic), (FREQ, frequency)], free));
        }
        for harmonic in [1, 2, 3, 7, 19_999] {
            for external in beside_band(harmonic) {
                operations.extend(changed(&[(OFLT, time_constant), (HARM, harmonic), (FMOD, 0)], external));
            }
        }
        operations.extend(changed(&[(OFLT, time_constant), (FREQ, LEAST), (FMOD, 0)], free));
    }
    operations
}

/// Frequencies in force and harmonics that meet the limit, miss it, or run over 32 bits.
fn detections() -> Vec<Operation> {
    let mut operations = Vec::new();
    for (internal, external, harmonic) in [
        (LEAST, LEAST, 0),
        (10, 20, 30),
        (1_000 * HERTZ, 137 * HERTZ, 1),
        (1_000 * HERTZ, 999 * HERTZ, 102),
        (1_000 * HERTZ, 1_001 * HERTZ, 102),
        (1_000 * HERTZ, 999 * HERTZ, 103),
        (LIMIT, LIMIT + 1, 1),
        (LIMIT - 1, LIMIT, 1),
        (LIMIT / 2, LIMIT / 2 + 1, 2),
        (LIMIT / 19_999, LIMIT / 19_999 + 1, 19_999),
        (LIMIT, LEAST, 19_999),
        (LEAST, LIMIT, 19_999),
        (LIMIT, LIMIT, 5),
        (214_748, 214_749, 19_999),
        (214_750, 214_760, 20_000),
        (429_496_000, 429_496_730, 10),
    ] {
        for fmod in [0, 1] {
            operations.extend(changed(&[(FMOD, fmod), (FREQ, internal), (HARM, harmonic)], external));
        }
    }
    operations
}

/// Measured frequencies, and FREQ and HARM, that come above the band, below it or inside it, from each range.
fn band() -> Vec<Operation> {
    let mut operations = Vec::new();
    for range in Range::ALL {
        for time_constant in [13, 14] {
            operations.extend(measured_pairs(range, time_constant));
            operations.extend(set_pairs(range, time_constant));
        }
        for time_constant in 0..=20 {
            operations.extend(steps_through(range, time_constant));
        }
    }
    operations
}

/// Each measured frequency beside the band after each other one.
fn measured_pairs(range: Range, time_constant: i64) -> Vec<Operation> {
    let around = [&[LEAST][..], &beside_band(1), &[LIMIT]].concat();
    let mut operations = Vec::new();
    for &old in &around {
        for &new in &around {
            operations.extend([start(1), setting(FMOD, 0), alter(Place::External, Value::Number(old)), ranged(range)]);
            operations.extend([setting(OFLT, time_constant), Operation::Measured(new as u32), Operation::Dump]);
        }
    }
    operations
}

/// Each internal frequency beside the band after each other one.
fn set_pairs(range: Range, time_constant: i64) -> Vec<Operation> {
    let around = [LEAST, BAND_LOW - 100, BAND_LOW, BAND_HIGH, BAND_HIGH + 100, LIMIT];
    let mut operations = Vec::new();
    for old in around {
        for new in around {
            operations.extend([start(1), setting(FREQ, old), ranged(range), setting(OFLT, time_constant)]);
            let command = format!("FREQ {}.{:04}", new / HERTZ, new % HERTZ);
            operations.extend([line(&command), Operation::Dump]);
        }
    }
    operations
}

/// Harmonics and measured frequencies that lead from inside the band out of it and back, shown one by one.
fn steps_through(range: Range, time_constant: i64) -> Vec<Operation> {
    let standing = [ranged(range), setting(OFLT, time_constant)];
    let mut operations = vec![start(1), setting(FREQ, 100 * HERTZ), setting(HARM, 2)];
    operations.extend(standing.clone());
    for command in ["HARM 3", "HARM 2", "HARM 1", "HARM 2", "HARM 3"] {
        operations.extend([line(command), Operation::Dump]);
    }
    operations.extend([start(1), setting(FMOD, 0), alter(Place::External, Value::Number(BAND_HIGH))]);
    operations.extend(standing);
    for frequency in [BAND_HIGH + 1, BAND_HIGH, BAND_LOW, BAND_LOW - 1, BAND_LOW, BAND_HIGH, BAND_HIGH + 1] {
        operations.extend([Operation::Measured(frequency as u32), Operation::Dump]);
    }
    operations
}

/// Each word as an event, in both traces, and as a trace read sends it.
fn points() -> Vec<Operation> {
    let mut points = Vec::new();
    for (m, e) in [(1, 124), (-3, 123), (32_767, 124), (-32_768, 236)] {
        points.push(Point::new(m, e));
    }
    for e in 0..=255 {
        for m in [0, 1, -1, 3, 32_767, -32_768] {
            points.push(Point::new(m, e));
        }
    }
    for power in 0..=15 {
        let value = 1i32 << power;
        for m in [value - 1, value, value + 1, -value - 1, -value, 1 - value] {
            if let Ok(m) = i16::try_from(m) {
                points.push(Point::new(m, 124));
            }
        }
    }
    for word in [0x0100_0000, 0x017c_0001, 0x807c_0001, 0xff7c_0001, 0xffff_ffff, 0x8000_0000, 0x7fc0_0000] {
        points.push(Point { word });
    }
    let mut operations = vec![start(1)];
    operations.extend(with_points(1));
    for Point { word } in points {
        operations.extend([0, 1].map(|trace| Operation::Poke { trace, slot: 0, word }));
        operations.push(line("TRCL?1,0,1;TRCB?1,0,1;TRCB?2,0,1"));
        operations.push(Operation::Pair([word, 0]));
    }
    operations
}
