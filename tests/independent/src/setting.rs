//! The settings: their table, the values that a state may hold, and their replies.

use crate::argument::{Argument, Rule};
use crate::frequency::{self, Range, Reference};
use std::sync::LazyLock;

/// A value of a setting: what a command may name, the ends of what is kept, and the start.
#[derive(Clone, Copy, Debug)]
pub struct Value {
    pub argument: Argument,
    pub kept_low: i64,
    pub kept_high: i64,
    pub start: i64,
}

impl Value {
    /// A value that is kept in the range in which a command may name it.
    const fn new(argument: Argument, start: i64) -> Value {
        Value { argument, kept_low: argument.low, kept_high: argument.high, start }
    }

    /// A whole number from `low` to `high`.
    const fn whole(low: i64, high: i64, start: i64) -> Value {
        Value::new(Argument::whole(low, high), start)
    }

    /// PHAS's value, kept above -180.00 and at most at 180.00 degrees.
    const fn phase() -> Value {
        Value { argument: Argument::phase(), kept_low: -17_999, kept_high: 18_000, start: 0 }
    }

    /// Whether a state may hold this number of units: it is in range and on its step.
    pub fn allows(&self, units: i64) -> bool {
        let on_step = match self.argument.rule {
            Rule::Whole | Rule::Phase => true,
            Rule::Step(step) => units % step == 0,
            Rule::Frequency => frequency::on_step(units),
        };
        self.kept_low <= units && units <= self.kept_high && on_step
    }

    /// The reply for a number of units.
    pub fn reply(&self, units: i64) -> String {
        let minus = if units < 0 { "-" } else { "" };
        let magnitude = units.unsigned_abs();
        match self.argument.decimals {
            0 => format!("{minus}{magnitude}"),
            decimals => {
                let unit = 10u64.pow(decimals as u32);
                let (whole, fraction) = (magnitude / unit, magnitude % unit);
                format!("{minus}{whole}.{fraction:0decimals$}")
            }
        }
    }
}

/// A row of the table: a command, how many channels it has (0 where none is named), and the values
/// of each channel.
#[derive(Clone, Copy, Debug)]
pub struct Setting {
    pub name: &'static str,
    pub channels: i64,
    pub values: &'static [Value],
}

impl Setting {
    /// How far the entries of the channel named are after the setting's first one.
    pub fn channel_offset(&self, arguments: &[i64]) -> usize {
        match self.channels {
            0 => 0,
            _ => (arguments[0] - 1) as usize * self.values.len(),
        }
    }

    /// How many values a state keeps for it.
    pub fn entries(&self) -> usize {
        self.channels.max(1) as usize * self.values.len()
    }
}

/// The setting of a name, with its first entry.
pub fn find(name: &str) -> Option<(usize, &'static Setting)> {
    let at = SETTINGS.iter().position(|setting| setting.name == name)?;
    Some((SETTINGS[..at].iter().map(Setting::entries).sum(), &SETTINGS[at]))
}

/// The query that replies with an entry.
pub fn query(entry: usize) -> String {
    let mut first = 0;
    for setting in &SETTINGS {
        let count = setting.entries();
        if entry < first + count {
            let channel = (entry - first) / setting.values.len() + 1;
            return match setting.channels {
                0 => format!("{}?", setting.name),
                _ => format!("{}?{channel}", setting.name),
            };
        }
        first += count;
    }
    unreachable!("entry {entry}")
}

/// A setting without channels.
const fn single(name: &'static str, values: &'static [Value]) -> Setting {
    Setting { name, channels: 0, values }
}

/// A setting with these values in each channel.
const fn channelled(name: &'static str, channels: i64, values: &'static [Value]) -> Setting {
    Setting { name, channels, values }
}

/// Every setting, in document 01's order.
pub static SETTINGS: [Setting; 22] = [
    single("PHAS", &[Value::phase()]),
    single("FMOD", &[Value::whole(0, 1, 1)]),
    single("FREQ", &[Value::new(Argument::frequency(), 1_000 * frequency::HERTZ)]),
    single("RSLP", &[Value::whole(0, 2, 0)]),
    single("HARM", &[Value::whole(1, 19_999, 1)]),
    single("SLVL", &[Value::new(Argument::stepped(4, 5_000, 3, 2), 1_000)]),
    single("ISRC", &[Value::whole(0, 3, 0)]),
    single("ILIN", &[Value::whole(0, 3, 0)]),
    single("OFSL", &[Value::whole(0, 3, 1)]),
    single("IGND", &[Value::whole(0, 1, 0)]),
    single("ICPL", &[Value::whole(0, 1, 0)]),
    single("SYNC", &[Value::whole(0, 1, 0)]),
    single("SENS", &[Value::whole(0, 26, 26)]),
    single("RMOD", &[Value::whole(0, 2, 2)]),
    single("OFLT", &[Value::whole(0, 19, 8)]),
    channelled("DDEF", 2, &[Value::whole(0, 4, 0), Value::whole(0, 2, 0)]),
    channelled("FPOP", 2, &[Value::whole(0, 1, 0)]),
    channelled("OEXP", 3, &[Value::new(Argument::stepped(-10_500, 10_500, 2, 1), 0), Value::whole(0, 2, 0)]),
    channelled("AUXV", 4, &[Value::new(Argument::stepped(-10_500, 10_500, 3, 1), 0)]),
    single("SRAT", &[Value::whole(0, 14, 4)]),
    single("SEND", &[Value::whole(0, 1, 1)]),
    single("TSTR", &[Value::whole(0, 1, 0)]),
];

/// How many values a state keeps, channel by channel.
pub const ENTRIES: usize = 34;

/// The entries that decide the detection frequency and what it allows.
pub const FMOD: usize = 1;
pub const FREQ: usize = 2;
pub const HARM: usize = 4;
pub const OFLT: usize = 14;

/// The entries that decide how points are stored.
pub const SRAT: usize = 31;
pub const SEND: usize = 32;
pub const TSTR: usize = 33;

/// The values that a state keeps: the table's, channel by channel.
pub static VALUES: LazyLock<Vec<Value>> = LazyLock::new(|| {
    SETTINGS.iter().flat_map(|setting| (0..setting.channels.max(1)).flat_map(|_| setting.values)).copied().collect()
});

/// All settings of a state, the last measured external frequency, and the range that these have led to.
#[derive(Clone, Debug, PartialEq, Eq, Hash)]
pub struct Settings {
    /// The values by entry, each in its units.
    pub entries: [i64; ENTRIES],
    /// The external frequency in units of 0.1 mHz.
    pub external: i64,
    pub range: Range,
}

impl Settings {
    /// Those of a start and of *RST.
    pub fn start() -> Settings {
        Settings {
            entries: std::array::from_fn(|entry| VALUES[entry].start),
            external: 1_000 * frequency::HERTZ,
            range: Range::Upper,
        }
    }

    /// What decides the detection frequency.
    pub fn reference(&self) -> Reference {
        Reference {
            is_internal: self.entries[FMOD] == 1,
            internal: self.entries[FREQ],
            external: self.external,
            harmonic: self.entries[HARM],
        }
    }

    /// Whether a state may hold these: each by itself, the detection frequency, the range and the time constant.
    pub fn are_allowed(&self) -> bool {
        let each_allowed = self.entries.iter().zip(VALUES.iter()).all(|(&units, value)| value.allows(units));
        let external_allowed = (frequency::LEAST..=frequency::LIMIT).contains(&self.external);
        let reference = self.reference();
        each_allowed
            && external_allowed
            && reference.is_within_limit()
            && self.range.stands_at(reference.detection())
            && self.range.allows(self.entries[OFLT])
    }
}

#[cfg(test)]
mod tests {
    use super::*;

    /// Names are found at their entries, and queries by them.
    #[test]
    fn entries_stand_in_order() {
        assert_eq!(VALUES.len(), ENTRIES);
        assert_eq!(SETTINGS[FMOD].name, "FMOD");
        assert_eq!(SETTINGS[FREQ].name, "FREQ");
        assert_eq!(SETTINGS[HARM].name, "HARM");
        assert_eq!(SETTINGS[OFLT].name, "OFLT");
        for (entry, name) in [(0, "PHAS"), (15, "DDEF"), (21, "OEXP"), (SRAT, "SRAT"), (SEND, "SEND"), (TSTR, "TSTR")] {
            assert_eq!(find(name).map(|(entry, setting)| (entry, setting.name)), Some((entry, name)));
        }
        assert!(find("STRT").is_none());
        for (entry, text) in
            [(0, "PHAS?"), (16, "DDEF?1"), (17, "DDEF?2"), (25, "OEXP?3"), (30, "AUXV?4"), (33, "TSTR?")]
        {
            assert_eq!(query(entry), text);
        }
        let names: Vec<String> = SETTINGS
            .iter()
            .flat_map(|setting| {
                (1..=setting.channels.max(1))
                    .flat_map(move |channel| setting.values.iter().map(move |_| format!("{}{channel}", setting.name)))
            })
            .collect();
        for (entry, name) in [
            (15, "DDEF1"),
            (16, "DDEF1"),
            (17, "DDEF2"),
            (18, "DDEF2"),
            (19, "FPOP1"),
            (20, "FPOP2"),
            (21, "OEXP1"),
            (22, "OEXP1"),
            (26, "OEXP3"),
            (27, "AUXV1"),
            (30, "AUXV4"),
            (31, "SRAT1"),
            (32, "SEND1"),
            (33, "TSTR1"),
        ] {
            assert_eq!(names[entry], name);
        }
    }

    /// Values of each kind in units, with their replies.
    #[test]
    fn replies() {
        for (entry, units, expected) in [
            (0, -17_900, "-179.00"),
            (0, 18_000, "180.00"),
            (0, -1, "-0.01"),
            (0, 0, "0.00"),
            (2, 10_000_000, "1000.0000"),
            (2, 10, "0.0010"),
            (4, 19_999, "19999"),
            (5, 1_002, "1.002"),
            (21, -10_500, "-105.00"),
            (22, 2, "2"),
            (27, -1, "-0.001"),
            (27, 10_500, "10.500"),
        ] {
            assert_eq!(VALUES[entry].reply(units), expected);
        }
    }

    /// Those of a start, a refused start and *RST.
    #[test]
    fn start_settings_are_allowed_and_upper() {
        assert!(Settings::start().are_allowed());
        assert_eq!(Settings::start().range, Range::Upper);
    }

    /// The start settings at an internal frequency, in a range, with a time constant.
    fn ranged(internal: i64, range: Range, time_constant: i64) -> Settings {
        let mut settings = Settings { range, ..Settings::start() };
        settings.entries[FREQ] = internal;
        settings.entries[OFLT] = time_constant;
        settings
    }

    /// The lower range with any time constant.
    #[test]
    fn inside_the_band_both_ranges_are_allowed() {
        for inside in [frequency::BAND_LOW, 200 * frequency::HERTZ, frequency::BAND_HIGH] {
            assert!(ranged(inside, Range::Upper, 13).are_allowed(), "{inside}");
            for time_constant in [0, 13, 14, 19] {
                assert!(ranged(inside, Range::Lower, time_constant).are_allowed(), "{inside} {time_constant}");
            }
        }
    }

    /// Each alone, beside settings that have none.
    #[test]
    fn the_three_faults_of_a_range() {
        let [below, above] = [frequency::BAND_LOW - 100, frequency::BAND_HIGH + 100];
        assert!(ranged(above, Range::Upper, 13).are_allowed());
        assert!(ranged(below, Range::Lower, 19).are_allowed());
        assert!(!ranged(above, Range::Lower, 13).are_allowed(), "above the band in lower");
        assert!(!ranged(below, Range::Upper, 13).are_allowed(), "below the band in upper");
        for frequency in [above, frequency::BAND_HIGH, frequency::BAND_LOW] {
            assert!(!ranged(frequency, Range::Upper, 14).are_allowed(), "{frequency}: a long time constant in upper");
        }
    }

    #[test]
    fn the_frequency_not_in_force_is_free_of_the_limit_but_not_of_its_step() {
        let mut settings = Settings::start();
        settings.entries[HARM] = 102;
        settings.external = frequency::LIMIT;
        assert!(settings.are_allowed());
        settings.entries[FMOD] = 0;
        assert!(!settings.are_allowed());
        settings.external = 10_000_000;
        assert!(settings.are_allowed());
        settings.entries[FREQ] = 12_345_678;
        assert!(!settings.are_allowed());
    }
}
