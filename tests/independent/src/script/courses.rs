//! All courses at once: what any course of events can have that decides a refusal.
//!
//! A refusal by 3 is decided by FMOD, FREQ, HARM, the external frequency, the range, the phase of
//! storage and the points held. Only commands change the first three and SRAT, SEND and TSTR, so they
//! are the same in every course that no command was refused in. The rest is kept as sets, each exactly
//! the values that some course has:
//! - the external frequencies, for each range. Each command and event takes one range with its
//!   frequency to another, whatever is stored.
//! - the points held, for each phase of storage. Each command and event takes one phase with its
//!   points to another, whatever the external frequency and the range are.
//!
//! The time constant differs from course to course too, but no refusal depends on it, nor on whatever
//! else a state has.

use super::externals::Externals;
use super::numbers::Numbers;
use crate::command::Command;
use crate::frequency::{self, Range, Reference};
#[cfg(test)]
use crate::module::storage::Phase;
use crate::refusal::Refusal;

const TRIGGERED_RATE: i64 = 14;

/// What all courses have alike.
#[derive(Clone, Debug)]
struct Alike {
    /// FMOD is 1: the internal frequency is in force.
    is_internal: bool,
    /// FREQ's value, in units of 0.1 mHz.
    internal: i64,
    /// HARM's value.
    harmonic: i64,
    /// SRAT's value.
    rate: i64,
    /// SEND is 0: storage ends when it is full.
    is_one_shot: bool,
    /// TSTR is 1: a trigger starts storage.
    is_started_by_trigger: bool,
}

/// The points that can be held in each phase of storage; none where no course is in that phase.
#[derive(Clone, Debug, PartialEq, Eq)]
struct Points {
    reset: Numbers,
    running: Numbers,
    paused: Numbers,
    done: Numbers,
}

/// All courses of a script so far.
#[derive(Clone, Debug)]
pub struct Courses {
    capacity: usize,
    alike: Alike,
    externals: Externals,
    points: Points,
}

impl Courses {
    /// All courses right after *RST.
    pub fn after_reset(capacity: usize) -> Courses {
        Courses {
            capacity,
            alike: Alike {
                is_internal: true,
                internal: 1_000 * frequency::HERTZ,
                harmonic: 1,
                rate: 4,
                is_one_shot: false,
                is_started_by_trigger: false,
            },
            externals: Externals::after_reset(),
            points: Points::empty(),
        }
    }

    /// Any finite list of events, none included.
    pub fn let_events_fall(&mut self) {
        if !self.alike.is_internal {
            self.externals = Externals::measured(self.alike.harmonic);
        }
        if self.alike.is_started_by_trigger {
            let mut triggered = self.points.clone();
            self.trigger(&mut triggered);
            self.points = self.points.or(&triggered);
        }
        // A running storage has an event that stores, at each rate, and it can come any number of times.
        if let Some(fewest) = self.points.running.least() {
            let storing = Numbers::span(fewest, self.capacity);
            self.points.running = if self.alike.is_one_shot { storing.up_to(self.capacity - 1) } else { storing };
            if self.alike.is_one_shot {
                self.points.done = Numbers::one(self.capacity);
            }
        }
    }

    /// Runs a command that is well formed and in range, or refuses it where some course does.
    pub fn run(&mut self, command: &Command) -> Result<(), Refusal> {
        match (command.name, command.is_query, &command.arguments[..]) {
            ("TRCL" | "TRCB", true, &[_, first, count]) => self.need((first + count) as usize <= self.fewest_held()),
            (_, true, _) => Ok(()),
            ("FREQ", _, &[internal]) => {
                self.need(self.alike.is_internal)?;
                self.change(Alike { internal, ..self.alike.clone() })
            }
            ("FMOD", _, &[mode]) => self.change(Alike { is_internal: mode == 1, ..self.alike.clone() }),
            ("HARM", _, &[harmonic]) => self.change(Alike { harmonic, ..self.alike.clone() }),
            ("OFLT", _, &[time_constant]) => {
                self.need(Range::ALL.into_iter().all(|range| range.allows(time_constant) || !self.can_be(range)))
            }
            ("SEND", _, &[mode]) => {
                self.need(self.points.all_reset())?;
                self.alike.is_one_shot = mode == 0;
                Ok(())
            }
            ("SRAT", _, &[rate]) => {
                self.alike.rate = rate;
                Ok(())
            }
            ("TSTR", _, &[mode]) => {
                self.alike.is_started_by_trigger = mode == 1;
                Ok(())
            }
            (action, _, _) => {
                self.act(action);
                Ok(())
            }
        }
    }

    /// What decides the detection frequency, in the courses with the highest external frequency.
    pub fn reference(&self) -> Reference {
        self.highest(&self.alike)
    }

    /// Whether some course is in a range.
    pub fn can_be(&self, range: Range) -> bool {
        self.externals.is_met(range)
    }

    /// The fewest points that a course holds.
    pub fn fewest_held(&self) -> usize {
        self.points.phases().into_iter().filter_map(Numbers::least).min().expect("there is a course")
    }

    /// Refuses by 3 what is not allowed.
    fn need(&self, is_allowed: bool) -> Result<(), Refusal> {
        if is_allowed {
            Ok(())
        } else {
            Err(Refusal::State)
        }
    }

    /// Takes what decides the detection frequency, unless the course with the highest is then over the limit.
    fn change(&mut self, alike: Alike) -> Result<(), Refusal> {
        self.need(self.highest(&alike).is_within_limit())?;
        let internal = Some(alike.internal).filter(|_| alike.is_internal);
        self.externals = self.externals.settled(internal, alike.harmonic);
        self.alike = alike;
        Ok(())
    }

    /// The reference of the courses with the highest external frequency.
    fn highest(&self, alike: &Alike) -> Reference {
        Reference {
            is_internal: alike.is_internal,
            internal: alike.internal,
            external: self.externals.highest(),
            harmonic: alike.harmonic,
        }
    }

    /// What the storage commands do; all others change nothing that is kept here.
    fn act(&mut self, action: &str) {
        let mut points = self.points.clone();
        match action {
            "STRT" => points.run(),
            "PAUS" => points.pause(),
            "REST" => points = Points::empty(),
            "TRIG" => self.trigger(&mut points),
            _ => {}
        }
        self.points = points;
    }

    /// What a trigger makes of these points.
    fn trigger(&self, points: &mut Points) {
        if self.alike.is_started_by_trigger {
            points.run();
        }
        if self.alike.rate == TRIGGERED_RATE {
            points.store(self.capacity, self.alike.is_one_shot);
        }
    }

    /// Whether some course is in a range with an external frequency.
    #[cfg(test)]
    pub fn can_have(&self, range: Range, external: i64) -> bool {
        self.externals.contains(range, external)
    }

    /// Whether some course is in a phase with `held` points.
    #[cfg(test)]
    pub fn can_hold(&self, phase: Phase, held: usize) -> bool {
        let numbers = match phase {
            Phase::Reset => &self.points.reset,
            Phase::Running => &self.points.running,
            Phase::Paused => &self.points.paused,
            Phase::Done => &self.points.done,
        };
        numbers.contains(held)
    }
}

impl Points {
    /// Those where storage is reset in every course.
    fn empty() -> Points {
        Points { reset: Numbers::one(0), running: Numbers::none(), paused: Numbers::none(), done: Numbers::none() }
    }

    /// The points of each phase.
    fn phases(&self) -> [&Numbers; 4] {
        [&self.reset, &self.running, &self.paused, &self.done]
    }

    /// Whether storage is reset in every course.
    fn all_reset(&self) -> bool {
        [&self.running, &self.paused, &self.done].into_iter().all(Numbers::is_empty)
    }

    /// The points of these courses and of others.
    fn or(&self, other: &Points) -> Points {
        Points {
            reset: self.reset.or(&other.reset),
            running: self.running.or(&other.running),
            paused: self.paused.or(&other.paused),
            done: self.done.or(&other.done),
        }
    }

    /// Storage starts where it is reset or paused.
    fn run(&mut self) {
        self.running = self.running.or(&self.reset).or(&self.paused);
        self.reset = Numbers::none();
        self.paused = Numbers::none();
    }

    /// Storage pauses where it is running.
    fn pause(&mut self) {
        self.paused = self.paused.or(&self.running);
        self.running = Numbers::none();
    }

    /// A point more where storage is running.
    fn store(&mut self, capacity: usize, is_one_shot: bool) {
        let more = self.running.plus_one();
        let fills = more.contains(capacity) || more.contains(capacity + 1);
        self.running = more.up_to(capacity);
        if fills {
            self.running = self.running.or(&Numbers::one(capacity));
        }
        if is_one_shot && fills {
            self.running = self.running.up_to(capacity - 1);
            self.done = Numbers::one(capacity);
        }
    }
}
