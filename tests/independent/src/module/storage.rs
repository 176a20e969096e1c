//! Storage of points. What is kept is the number of points since the last emptying; the points held,
//! the slots and whether storage is done follow from it.

/// What storage does with the next point.
#[derive(Clone, Copy, Debug, PartialEq, Eq, Hash)]
pub enum Phase {
    /// It holds no point, and takes none before it is started.
    Reset,
    /// Ticks or triggers store points.
    Running,
    /// It keeps its points, and takes no more before it is started again.
    Paused,
    /// It is full in one shot, and takes no more before it is reset.
    Done,
}

/// What was last asked of storage.
#[derive(Clone, Copy, Debug, PartialEq, Eq)]
enum Asked {
    /// Neither a start nor a pause since the last emptying.
    Nothing,
    /// To start, by STRT or a trigger.
    ToRun,
    /// To pause, by PAUS.
    ToPause,
}

/// What decides where the next point goes, and which points are held.
#[derive(Clone, Copy, Debug, PartialEq, Eq)]
pub struct Storage {
    /// The length of both traces.
    capacity: usize,
    asked: Asked,
    /// The points since the last emptying, those that a loop has overwritten too.
    points: usize,
}

impl Storage {
    /// Storage that is reset.
    pub fn empty(capacity: usize) -> Storage {
        Storage { capacity, asked: Asked::Nothing, points: 0 }
    }

    /// Storage in a phase, `points` points after its last emptying. In one shot it has no more than its
    /// capacity, and is done with these.
    pub fn in_phase(capacity: usize, phase: Phase, points: usize) -> Storage {
        match phase {
            Phase::Reset => Storage::empty(capacity),
            Phase::Running => Storage { capacity, asked: Asked::ToRun, points },
            Phase::Paused => Storage { capacity, asked: Asked::ToPause, points },
            Phase::Done => Storage { capacity, asked: Asked::ToRun, points: capacity },
        }
    }

    /// The length of both traces.
    pub fn capacity(&self) -> usize {
        self.capacity
    }

    /// Storage is done exactly when it is full in one shot.
    pub fn phase(&self, is_one_shot: bool) -> Phase {
        match self.asked {
            _ if is_one_shot && self.points >= self.capacity => Phase::Done,
            Asked::Nothing => Phase::Reset,
            Asked::ToRun => Phase::Running,
            Asked::ToPause => Phase::Paused,
        }
    }

    /// The points held.
    pub fn held(&self) -> usize {
        self.points.min(self.capacity)
    }

    /// The slot of the next point.
    pub fn next(&self) -> usize {
        self.points % self.capacity
    }

    /// The slot of a bin; bin 0 is the oldest point held.
    pub fn slot(&self, bin: usize) -> usize {
        (self.points - self.held() + bin) % self.capacity
    }

    /// Starts from reset or paused; true where it did.
    pub fn run(&mut self, is_one_shot: bool) -> bool {
        let starts = matches!(self.phase(is_one_shot), Phase::Reset | Phase::Paused);
        if starts {
            self.asked = Asked::ToRun;
        }
        starts
    }

    /// Pauses a running one.
    pub fn pause(&mut self, is_one_shot: bool) {
        if self.phase(is_one_shot) == Phase::Running {
            self.asked = Asked::ToPause;
        }
    }

    /// Counts one more point and gives its slot.
    pub fn take_slot(&mut self) -> usize {
        let slot = self.next();
        self.points += 1;
        slot
    }

    /// Leaves out how often a loop has turned.
    #[cfg(test)]
    pub fn forget_turns(&mut self) {
        self.points = self.held();
    }
}

#[cfg(test)]
mod tests {
    use super::*;

    #[test]
    fn a_loop_that_has_turned_holds_its_capacity_from_the_oldest_on() {
        let mut storage = Storage::empty(3);
        assert!(storage.run(false));
        let slots: Vec<usize> = (0..5).map(|_| storage.take_slot()).collect();
        assert_eq!(slots, [0, 1, 2, 0, 1]);
        assert_eq!((storage.held(), storage.next()), (3, 2));
        assert_eq!([0, 1, 2].map(|bin| storage.slot(bin)), [2, 0, 1]);
        assert_eq!(storage.phase(false), Phase::Running);
    }

    #[test]
    fn one_shot_is_done_when_full() {
        let mut storage = Storage::empty(2);
        assert_eq!(storage.phase(true), Phase::Reset);
        storage.pause(true);
        assert_eq!(storage.phase(true), Phase::Reset);
        storage.run(true);
        storage.pause(true);
        assert_eq!(storage.phase(true), Phase::Paused);
        storage.run(true);
        storage.take_slot();
        assert_eq!(storage.phase(true), Phase::Running);
        storage.take_slot();
        assert_eq!((storage.phase(true), storage.held(), storage.next()), (Phase::Done, 2, 0));
        assert!(!storage.run(true));
        storage.pause(true);
        assert_eq!(storage.phase(true), Phase::Done);
    }
}
