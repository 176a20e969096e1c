//! Events: a new latest pair, ticks, triggers, measured frequencies, raised bits, other writers.

use super::perform::TRIGGERED_RATE;
use super::status::LIA_NOT_TAKEN;
use super::Module;
use crate::frequency;
use crate::point::Point;
use crate::refusal::Refusal;
use crate::setting::SRAT;

/// The bits that an event may raise.
pub const LIA_RAISABLE: u8 = 0b0000_1111;
pub const ERR_RAISABLE: u8 = 0b1111_0110;

impl Module {
    /// Takes a new latest pair; 6 refuses it where a point is not legal.
    pub fn pair(&mut self, pair: [Point; 2]) -> Result<(), Refusal> {
        if !pair.iter().all(|point| point.is_legal()) {
            return Err(Refusal::Event);
        }
        self.latest = pair;
        Ok(())
    }

    /// A tick: stores the latest pair, save at the rate at which triggers store.
    pub fn tick_event(&mut self) {
        if self.settings.entries[SRAT] != TRIGGERED_RATE {
            self.store_latest();
        }
    }

    /// A trigger from outside: has the effect of TRIG.
    pub fn trigger_event(&mut self) {
        self.trigger();
    }

    /// A measured frequency in units of 0.1 mHz.
    pub fn measured(&mut self, frequency: u32) {
        if self.settings.reference().is_internal {
            return;
        }
        let mut settings = self.settings.clone();
        settings.external = i64::from(frequency);
        let in_range = (frequency::LEAST..=frequency::LIMIT).contains(&settings.external);
        if in_range && settings.reference().is_within_limit() {
            self.adopt(settings);
        } else {
            self.registers.lia.events |= LIA_NOT_TAKEN;
        }
    }

    /// Sets LIA and ERR bits; 6 refuses all where an event may not raise one of them.
    pub fn raise(&mut self, lia: u8, err: u8) -> Result<(), Refusal> {
        if lia & !LIA_RAISABLE != 0 || err & !ERR_RAISABLE != 0 {
            return Err(Refusal::Event);
        }
        self.registers.lia.events |= lia;
        self.registers.err.events |= err;
        Ok(())
    }

    /// Somebody else writes a word; a slot that is not there: nothing.
    pub fn poke(&mut self, trace: usize, slot: usize, point: Point) {
        if let Some(place) = self.traces[trace].get_mut(slot) {
            *place = point;
        }
    }
}
