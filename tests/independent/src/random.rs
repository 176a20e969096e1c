//! Random operations, scripts, courses and states from a seed.

mod alterations;
pub mod bench;
pub mod courses;
pub mod damaged;
pub mod deep;
pub mod generator;
mod lines;
mod near;
pub mod operations;
mod runs;
pub mod scripts;
mod settings;
mod spelling;
mod states;

use crate::point::{Point, MOST_EXPONENT};
use generator::Generator;

/// A word of a trace, legal or not.
fn point(generator: &mut Generator) -> Point {
    match generator.below(8) {
        0 => Point { word: generator.bits() as u32 },
        1 => Point::new(0, generator.bits() as u8),
        2 => Point::new(generator.bits() as i16, generator.bits() as u8),
        3 => Point { word: generator.bits() as u32 >> generator.below(32) },
        4 => {
            let m = generator.bits() as i16 >> generator.below(16);
            Point::new(m, generator.between(MOST_EXPONENT.into(), 255) as u8)
        }
        _ => {
            let m = generator.bits() as i16 >> generator.below(16);
            Point::new(m, generator.between(0, MOST_EXPONENT.into()) as u8)
        }
    }
}
