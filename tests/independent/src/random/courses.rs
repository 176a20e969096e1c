//! Random courses: an allowed state, and before each line events that are drawn as the course goes on.

use super::generator::Generator;
use super::{operations, states};
use crate::course::{refusal_of, Course};
use crate::frequency::{beside_band, LIMIT};
use crate::ops::{Operation, Session};
use crate::setting::HARM;

/// A course through a script's lines, up to the first line that it refuses something of.
pub fn course(generator: &mut Generator, capacity: usize, lines: &[&[u8]]) -> Course {
    let start = states::module(generator, capacity);
    let mut session = Session::of(start.clone());
    let most_events = generator.pick(&[0, 1, 1, 2, 2, 9]);
    let mut course = Course { start, events: Vec::new(), refused: None };
    for (text, line) in lines.iter().zip(1..) {
        course.events.push(let_events_fall(generator, &mut session, most_events));
        course.refused = refusal_of(&mut session.module, line, text);
        if course.refused.is_some() {
            break;
        }
    }
    course
}

/// At most `most` events.
pub fn let_events_fall(generator: &mut Generator, session: &mut Session, most: usize) -> Vec<Operation> {
    let count = generator.below(most + 1);
    (0..count)
        .map(|_| {
            let event = event(generator, session);
            session.perform(&event);
            event
        })
        .collect()
}

/// An event, legal or not; often the highest frequency that is taken, one beside the band, or a trigger.
fn event(generator: &mut Generator, session: &Session) -> Operation {
    let harmonic = session.module.settings.entries[HARM];
    match generator.below(14) {
        0..=3 => Operation::Measured((LIMIT / harmonic) as u32),
        4 | 5 => Operation::Measured(generator.pick(&beside_band(harmonic)) as u32),
        6 | 7 => operations::measured(generator, session),
        8..=10 => Operation::Trigger,
        11 => Operation::Tick,
        12 => operations::pair(generator),
        _ => operations::raise(generator),
    }
}
