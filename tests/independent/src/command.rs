//! Commands: every lawful form, and how a line is read into them.

use crate::argument::Argument;
use crate::number::Number;
use crate::refusal::Refusal;
use crate::setting::SETTINGS;
use std::fmt;
use std::sync::LazyLock;

/// The most bytes of a line before its end.
pub const MOST_LINE_BYTES: usize = 256;

/// The length of every command name.
pub const NAME_LENGTH: usize = 4;

const BIT: Argument = Argument::whole(0, 7);
const FLAG: Argument = Argument::whole(0, 1);
const BYTE: Argument = Argument::whole(0, 255);
const TRACE: Argument = Argument::whole(1, 2);
const FIRST_BIN: Argument = Argument::whole(0, 16_383);
const BIN_COUNT: Argument = Argument::whole(1, 16_383);

/// A lawful form of a command: its name, whether it is a query, and its arguments.
#[derive(Clone, Debug, PartialEq, Eq)]
pub struct Form {
    pub name: &'static str,
    pub is_query: bool,
    pub arguments: Vec<Argument>,
}

/// Every lawful form of every command.
pub static FORMS: LazyLock<Vec<Form>> = LazyLock::new(|| {
    let mut forms = Vec::new();
    for setting in &SETTINGS {
        let channel: Vec<Argument> =
            (setting.channels > 0).then(|| Argument::whole(1, setting.channels)).into_iter().collect();
        let values = setting.values.iter().map(|value| value.argument);
        let all: Vec<Argument> = channel.iter().copied().chain(values).collect();
        forms.push(form(setting.name, false, &all));
        forms.push(form(setting.name, true, &channel));
    }
    for action in ["STRT", "PAUS", "REST", "TRIG", "*RST", "*CLS"] {
        forms.push(form(action, false, &[]));
    }
    for query in ["SPTS", "*IDN"] {
        forms.push(form(query, true, &[]));
    }
    for trace_read in ["TRCL", "TRCB"] {
        forms.push(form(trace_read, true, &[TRACE, FIRST_BIN, BIN_COUNT]));
    }
    for status in ["*ESR", "LIAS", "ERRS", "*STB"] {
        forms.push(form(status, true, &[]));
        forms.push(form(status, true, &[BIT]));
    }
    for enable in ["*ESE", "*SRE", "LIAE", "ERRE"] {
        forms.push(form(enable, false, &[BYTE]));
        forms.push(form(enable, false, &[BIT, FLAG]));
        forms.push(form(enable, true, &[]));
        forms.push(form(enable, true, &[BIT]));
    }
    forms
});

/// The form of a name, as a query or not, with these arguments.
fn form(name: &'static str, is_query: bool, arguments: &[Argument]) -> Form {
    Form { name, is_query, arguments: arguments.to_vec() }
}

/// Every command name, once each.
pub fn names() -> Vec<&'static str> {
    let mut names: Vec<&str> = FORMS.iter().map(|form| form.name).collect();
    names.dedup();
    names
}

/// A command with its arguments as taken: within their ranges, in whole units.
#[derive(Clone, Debug, PartialEq, Eq)]
pub struct Command {
    pub name: &'static str,
    pub is_query: bool,
    pub arguments: Vec<i64>,
}

impl fmt::Display for Command {
    fn fmt(&self, f: &mut fmt::Formatter) -> fmt::Result {
        let verb = if self.is_query { '?' } else { '=' };
        write!(f, "{} {verb}", self.name)?;
        self.arguments.iter().try_for_each(|argument| write!(f, " {argument}"))
    }
}

/// What stands at one place of a line.
#[derive(Clone, Debug, PartialEq, Eq)]
pub enum Reading {
    /// No byte but spaces and CR.
    Empty,
    /// A text that is refused by 1 or 2.
    Refused(Refusal),
    /// A well-formed command with its values in range.
    Command(Command),
}

/// Reads each place of a line.
pub fn read_line(line: &[u8]) -> Vec<Reading> {
    let text: Vec<u8> =
        line.iter().filter(|&&byte| byte != b' ' && byte != b'\r').map(u8::to_ascii_uppercase).collect();
    text.split(|&byte| byte == b';').map(read_place).collect()
}

/// Reads one place, in capitals and without spaces.
fn read_place(text: &[u8]) -> Reading {
    if text.is_empty() {
        return Reading::Empty;
    }
    match read_command(text) {
        Ok(command) => Reading::Command(command),
        Err(refusal) => Reading::Refused(refusal),
    }
}

/// Reads one command, in capitals and without spaces: first its whole form, then its values from
/// left to right.
fn read_command(text: &[u8]) -> Result<Command, Refusal> {
    let (name, rest) = text.split_at_checked(NAME_LENGTH).ok_or(Refusal::Form)?;
    let (is_query, rest) = match rest.strip_prefix(b"?") {
        Some(rest) => (true, rest),
        None => (false, rest),
    };
    let texts: Vec<&[u8]> = match rest {
        [] => Vec::new(),
        _ => rest.split(|&byte| byte == b',').collect(),
    };
    let form = FORMS
        .iter()
        .find(|form| form.name.as_bytes() == name && form.is_query == is_query && form.arguments.len() == texts.len())
        .ok_or(Refusal::Form)?;
    let numbers: Vec<Number> = texts.into_iter().map(Number::read).collect::<Option<_>>().ok_or(Refusal::Form)?;
    let arguments = form
        .arguments
        .iter()
        .zip(&numbers)
        .map(|(argument, number)| argument.take(number))
        .collect::<Option<_>>()
        .ok_or(Refusal::Value)?;
    Ok(Command { name: form.name, is_query, arguments })
}

#[cfg(test)]
mod tests {
    use super::*;

    /// The reading of a line as text, its places divided by ";".
    fn read(line: &[u8]) -> String {
        let places: Vec<String> = read_line(line)
            .into_iter()
            .map(|reading| match reading {
                Reading::Empty => "empty".to_string(),
                Reading::Refused(refusal) => refusal.number().to_string(),
                Reading::Command(command) => command.to_string(),
            })
            .collect();
        places.join(";")
    }

    /// Lines with the commands and values read from them.
    #[test]
    fn worked_examples() {
        for (line, expected) in [
            ("PHAS -180", "PHAS = 18000"),
            ("PHAS 541", "PHAS = -17900"),
            ("PHAS 729.99", "PHAS = 999"),
            ("PHAS 729.991", "2"),
            ("FREQ 1234.56", "FREQ = 12346000"),
            ("FREQ 12345.5", "FREQ = 123460000"),
            ("FREQ 102000.1", "2"),
            ("FREQ1E5", "FREQ = 1000000000"),
            ("HARM 102", "HARM = 102"),
            ("HARM 5.4", "2"),
            ("SLVL 1.001;SLVL?", "SLVL = 1002;SLVL ?"),
            ("FREQ 100;HARM 2;OFLT 14", "FREQ = 1000000;HARM = 2;OFLT = 14"),
            ("*RST;SRAT 14;STRT;TRIG;TRIG", "*RST =;SRAT = 14;STRT =;TRIG =;TRIG ="),
            ("TRCB?1,0,2", "TRCB ? 1 0 2"),
            ("*IDN?", "*IDN ?"),
            ("*ESR? 4", "*ESR ? 4"),
            ("*ESE 3,1", "*ESE = 3 1"),
            ("*ESE 8,1", "2"),
            ("OEXP 1,-105,2", "OEXP = 1 -10500 2"),
            ("oexp?1", "OEXP ? 1"),
            ("DDEF 9,X,0", "1"),
            ("DDEF 9,0,0", "2"),
        ] {
            assert_eq!(read(line.as_bytes()), expected, "{line}");
        }
    }

    /// Empty places count, and each place is read by itself.
    #[test]
    fn places() {
        assert_eq!(read(b""), "empty");
        assert_eq!(read(b";"), "empty;empty");
        assert_eq!(read(b" \r; ;*rs t\r"), "empty;empty;*RST =");
        assert_eq!(read(b"HARM;HARM?;HARM 0"), "1;HARM ?;2");
    }

    #[test]
    fn only_space_and_cr_are_dropped_and_only_letters_folded() {
        assert_eq!(read(b"h a\rrM 1\r0 2"), "HARM = 102");
        assert_eq!(read(b"FREQ 1e3"), "FREQ = 10000000");
        for line in [&b"HARM\t5"[..], b"HARM 5\n", b"HARM 5\0", b"\xc8ARM 5", b"HARM \xb5", b"HAR\xcd 5"] {
            assert_eq!(read(line), "1");
        }
    }

    #[test]
    fn forms_that_are_refused() {
        for line in [
            "OUTX",
            "*PSC",
            "FAST",
            "*LIAE 1",
            "HAR",
            "HARMO 1",
            "FRE",
            "PHA",
            "RST",
            "*RST?",
            "*RST 1",
            "SPTS",
            "SPTS? 1",
            "STRT?",
            "STRT 0",
            "TRCL 1,0,1",
            "TRCL? 1,0",
            "TRCB? 1,0,1,1",
            "*ESR",
            "*ESE",
            "*ESE?1,1",
            "*ESE 1,1,1",
            "HARM 1,",
            "HARM ,1",
            "HARM ,",
            "HARM 1,2",
            "HARM?1",
            "HARM 1?",
            "HARM ?? ",
            "DDEF?",
            "DDEF? 1,0",
            "DDEF 1,0",
            "?",
            "*",
            "HARM'",
            "H?RM 1",
        ] {
            assert_eq!(read(line.as_bytes()), "1", "{line}");
        }
    }

    #[test]
    fn every_name_has_four_bytes_and_stands_once() {
        let mut names = names();
        assert_eq!(names.len(), 40);
        assert!(names.iter().all(|name| name.len() == NAME_LENGTH));
        names.sort_unstable();
        names.dedup();
        assert_eq!(names.len(), 40);
    }
}
