//! The independent program: a module and a script check written apart from the proved ones, what makes operations and
//! scripts for both, and what compares their answers.

pub mod argument;
pub mod bench;
pub mod command;
pub mod course;
pub mod decimal;
pub mod frequency;
pub mod hex;
pub mod module;
pub mod natural;
pub mod number;
pub mod ops;
pub mod point;
pub mod random;
pub mod refusal;
pub mod script;
pub mod setting;
pub mod table;
