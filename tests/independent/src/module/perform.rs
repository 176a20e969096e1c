//! Commands that write no reply: settings, storage, enables, resets.

use super::status::LIA_TRIGGERED;
use super::storage::{Phase, Storage};
use super::Module;
use crate::command::Command;
use crate::refusal::Refusal;
use crate::setting::{self, Setting, Settings, OFLT, SRAT, TSTR};

/// The rate at which triggers store.
pub const TRIGGERED_RATE: i64 = 14;

impl Module {
    /// Has the effect of a command that is no query, unless 3 refuses it.
    pub(super) fn carry_out(&mut self, command: &Command) -> Result<(), Refusal> {
        if let Some((entry, setting)) = setting::find(command.name) {
            return self.set(entry, setting, &command.arguments);
        }
        let is_one_shot = self.is_one_shot();
        match command.name {
            "STRT" => {
                self.storage.run(is_one_shot);
            }
            "PAUS" => self.storage.pause(is_one_shot),
            "REST" => self.empty_storage(),
            "TRIG" => self.trigger(),
            "*RST" => {
                self.settings = Settings::start();
                self.empty_storage();
            }
            "*CLS" => self.registers.clear_events(),
            name => self.enable(name, &command.arguments),
        }
        Ok(())
    }

    /// Sets a setting, unless the state forbids it.
    fn set(&mut self, entry: usize, setting: &Setting, arguments: &[i64]) -> Result<(), Refusal> {
        let values = &arguments[arguments.len() - setting.values.len()..];
        let entry = entry + setting.channel_offset(arguments);
        let mut settings = self.settings.clone();
        settings.entries[entry..entry + values.len()].copy_from_slice(values);
        let reference = settings.reference();
        let is_allowed = match setting.name {
            "FREQ" => reference.is_internal && reference.is_within_limit(),
            "HARM" | "FMOD" => reference.is_within_limit(),
            "OFLT" => settings.range.allows(settings.entries[OFLT]),
            "SEND" => self.phase() == Phase::Reset,
            _ => true,
        };
        if !is_allowed {
            return Err(Refusal::State);
        }
        self.adopt(settings);
        Ok(())
    }

    /// Sets all enables of a command, or the one bit named.
    fn enable(&mut self, name: &str, arguments: &[i64]) {
        let old = *self.registers.enables(name);
        let new = match *arguments {
            [value] => value as u8,
            [bit, 0] => old & !(1 << bit),
            [bit, _] => old | 1 << bit,
            _ => unreachable!("enables have one or two arguments"),
        };
        self.registers.enable(name, new);
    }

    /// Resets storage, so that no point is held; the words of the traces stay.
    fn empty_storage(&mut self) {
        self.storage = Storage::empty(self.storage.capacity());
    }

    /// Starts where TSTR is 1, then stores where triggers do.
    pub(super) fn trigger(&mut self) {
        let starts = self.settings.entries[TSTR] == 1 && self.storage.run(self.is_one_shot());
        let stores = self.settings.entries[SRAT] == TRIGGERED_RATE && self.store_latest();
        if starts || stores {
            self.registers.lia.events |= LIA_TRIGGERED;
        }
    }

    /// Stores the latest pair where storage is running; true where it did.
    pub(super) fn store_latest(&mut self) -> bool {
        if self.phase() != Phase::Running {
            return false;
        }
        let slot = self.storage.take_slot();
        for (trace, point) in self.traces.iter_mut().zip(self.latest) {
            trace[slot] = point;
        }
        true
    }
}
