//! Replies: what a query writes, and what its reading clears.

use super::Module;
use crate::command::Command;
use crate::refusal::Refusal;
use crate::setting::{self, Setting};

impl Module {
    /// The bytes of a query's reply with its end; trace reads have no end.
    pub(super) fn reply(&self, query: &Command, reply_waiting: bool) -> Result<Vec<u8>, Refusal> {
        if matches!(query.name, "TRCL" | "TRCB") {
            return self.trace_bytes(query);
        }
        let mut bytes = self.reply_text(query, reply_waiting).into_bytes();
        bytes.push(self.port.terminator());
        Ok(bytes)
    }

    /// The text of a query's reply, without its end.
    fn reply_text(&self, query: &Command, reply_waiting: bool) -> String {
        if let Some((entry, setting)) = setting::find(query.name) {
            return self.setting_text(entry, setting, &query.arguments);
        }
        let mut registers = self.registers;
        match query.name {
            "*IDN" => format!("LOCKIN,M1,s/n{:05},ver1.000", self.serial),
            "SPTS" => self.storage.held().to_string(),
            "*STB" => byte_text(registers.status_byte(self.phase(), reply_waiting), &query.arguments),
            "*ESR" | "LIAS" | "ERRS" => byte_text(*registers.events(query.name), &query.arguments),
            "*ESE" | "*SRE" | "LIAE" | "ERRE" => byte_text(*registers.enables(query.name), &query.arguments),
            name => unreachable!("{name} is no query"),
        }
    }

    /// The values of a setting, of one channel where it has several. FREQ is the frequency in force.
    fn setting_text(&self, entry: usize, setting: &Setting, arguments: &[i64]) -> String {
        if setting.name == "FREQ" {
            return setting.values[0].reply(self.settings.reference().in_force());
        }
        let entry = entry + setting.channel_offset(arguments);
        let texts: Vec<String> = setting
            .values
            .iter()
            .zip(&self.settings.entries[entry..])
            .map(|(value, &units)| value.reply(units))
            .collect();
        texts.join(",")
    }

    /// Four bytes for each bin of a trace read; 3 refuses it where a bin is not held.
    fn trace_bytes(&self, query: &Command) -> Result<Vec<u8>, Refusal> {
        let [trace, first, count] =
            query.arguments[..].try_into().map(|values: [i64; 3]| values.map(|value| value as usize)).expect("three");
        if first + count > self.storage.held() {
            return Err(Refusal::State);
        }
        let points = (first..first + count).map(|bin| self.traces[trace - 1][self.storage.slot(bin)]);
        let bytes = points.map(|point| if query.name == "TRCL" { point.trcl_bytes() } else { point.trcb_bytes() });
        Ok(bytes.flatten().collect())
    }

    /// Clears the register, or the bit of it, that a reply was about.
    pub(super) fn after_reply(&mut self, query: &Command) {
        if matches!(query.name, "*ESR" | "LIAS" | "ERRS") {
            let replied = query.arguments.first().map_or(u8::MAX, |&bit| 1 << bit);
            *self.registers.events(query.name) &= !replied;
        }
    }
}

/// A register's value, or the one bit named.
fn byte_text(byte: u8, arguments: &[i64]) -> String {
    match arguments {
        [] => byte.to_string(),
        [bit, ..] => (byte >> bit & 1).to_string(),
    }
}
