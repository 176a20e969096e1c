//! What the comparisons share: where the proved programs are, how they are run, and how it is said what was compared.
#![allow(dead_code)] // Each file of tests uses a part of this.

pub mod console;
pub mod counts;
pub mod operations;
pub mod running;
pub mod scratch;
pub mod verdicts;

use std::env;
use std::fs;
use std::os::unix::fs::PermissionsExt;
use std::path::{Path, PathBuf};
use std::str::FromStr;

/// The repository.
pub fn root() -> PathBuf {
    let root = Path::new(env!("CARGO_MANIFEST_DIR")).join("../..");
    root.canonicalize().expect("the repository is there")
}

/// The bytes of a worked example.
pub fn example(name: &str) -> Vec<u8> {
    contents(&root().join("tests/examples").join(name))
}

/// The bytes of a file.
pub fn contents(path: &Path) -> Vec<u8> {
    fs::read(path).unwrap_or_else(|error| panic!("{}: {error}", path.display()))
}

/// The proved program that answers operations.
pub fn ops() -> PathBuf {
    proved("OPS", "ops")
}

/// The proved program that feeds its input to a module.
pub fn bench() -> PathBuf {
    proved("BENCH", "bench")
}

/// The proved program that checks a script.
pub fn script_check() -> PathBuf {
    proved("SCRIPT_CHECK", "script_check")
}

/// The proved program that checks a script and writes a course that shows a refusal by 3.
pub fn script_why() -> PathBuf {
    proved("SCRIPT_WHY", "script_why")
}

/// The value of an environment variable; nothing where it is not set or empty.
pub fn variable(name: &str) -> Option<PathBuf> {
    env::var_os(name).filter(|value| !value.is_empty()).map(PathBuf::from)
}

/// The program that an environment variable names, or else the one that `tests/build` puts there.
fn proved(name: &str, built: &str) -> PathBuf {
    let program = variable(name).unwrap_or_else(|| root().join("target/bin").join(built));
    assert!(is_program(&program), "{} is no program; tests/build puts it there", program.display());
    program
}

/// Whether a path is a file that may be run.
fn is_program(path: &Path) -> bool {
    fs::metadata(path).is_ok_and(|file| file.is_file() && file.permissions().mode() & 0o111 != 0)
}

/// A number that `tests/run` hands over in an environment variable to a test that is run by itself.
pub fn handed_over<T: FromStr>(name: &str) -> T {
    let text = env::var(name).unwrap_or_default();
    text.parse().unwrap_or_else(|_| panic!("{name} is {text:?} and not a number"))
}
