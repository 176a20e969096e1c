//! The independent program's command line: it answers operations and scripts, and makes them.

use independent::{bench, course, ops, random, script};
use std::fs;
use std::io::{self, BufRead, BufWriter, Read, Write};
use std::process::ExitCode;
use std::str::FromStr;

const USAGE: &str = "usage: independent COMMAND
  ops                        answers the operations on standard input, each at once
  ops-random SEED COUNT      prints COUNT random operations
  ops-damaged SEED COUNT     prints COUNT lines that are mostly no operations
  ops-show OPS               prints a file of operations with the texts that their hex stands for
  ops-shrink PROGRAM OPS     prints a short stream of operations that PROGRAM answers differently
  bench                      feeds standard input to a module and writes its replies
  bench-random SEED COUNT    prints COUNT random lines for the bench program
  check-program              checks a script: its capacity on line one of standard input, then the script
  why-program                says the same, and after a refusal by 3 the operations of a course that shows it
  scripts-random SEED COUNT  prints COUNT random scripts, as check operations
  script-long SEED BYTES     prints a script of BYTES bytes that passes at capacity 4
  courses SEED COUNT TRIES   confirms the check of COUNT random scripts by TRIES random courses each";

/// Does what the arguments ask for.
fn main() -> ExitCode {
    let words: Vec<String> = std::env::args().skip(1).collect();
    let words: Vec<&str> = words.iter().map(String::as_str).collect();
    match run(&words) {
        Ok(()) => ExitCode::SUCCESS,
        Err(message) => {
            eprintln!("{message}");
            ExitCode::FAILURE
        }
    }
}

/// One command with its arguments; what went wrong, or the usage.
fn run(words: &[&str]) -> Result<(), String> {
    match words {
        ["bench"] => bench::bench(io::stdin().lock(), &mut BufWriter::new(io::stdout().lock())).map_err(told),
        ["bench-random", seed, count] => write(&random::bench::input(number(seed)?, number(count)?)),
        [command, ..] if command.starts_with("ops") => run_operations(words),
        _ => run_scripts(words),
    }
}

/// A command that has to do with operations.
fn run_operations(words: &[&str]) -> Result<(), String> {
    match words {
        ["ops"] => answer(&mut ops::Session::new()),
        ["ops-random", seed, count] => print(random::operations::Operations::new(number(seed)?).take(number(count)?)),
        ["ops-damaged", seed, count] => print(random::damaged::Lines::new(number(seed)?).take(number(count)?)),
        ["ops-show", operations] => {
            let operations = contents(operations)?;
            let texts = ops::compare::lines(&operations).into_iter();
            print(texts.map(|text| ops::compare::readable(text).into_bytes()))
        }
        ["ops-shrink", program, operations] => shrink(program, operations),
        _ => Err(USAGE.to_string()),
    }
}

/// A command that has to do with scripts.
fn run_scripts(words: &[&str]) -> Result<(), String> {
    match words {
        ["check-program"] => write((script::text(&script::program::verdict(&input()?)) + "\n").as_bytes()),
        ["why-program"] => write(course::witness::why(&input()?)?.as_bytes()),
        ["scripts-random", seed, count] => {
            let scripts = random::deep::Scripts::new(number(seed)?).take(number(count)?);
            print(scripts.map(|case| case.operation().to_string().into_bytes()))
        }
        ["script-long", seed, bytes] => {
            write(&random::deep::long(number(seed)?, number(bytes)?).ok_or("no script is so short")?)
        }
        ["courses", seed, count, tries] => {
            println!("{}", course::confirm::confirm(number(seed)?, number(count)?, number(tries)?)?);
            Ok(())
        }
        _ => Err(USAGE.to_string()),
    }
}

/// An error in words.
fn told(error: io::Error) -> String {
    error.to_string()
}

/// An argument that is a number.
fn number<T: FromStr>(word: &str) -> Result<T, String> {
    word.parse().map_err(|_| USAGE.to_string())
}

/// All of standard input.
fn input() -> Result<Vec<u8>, String> {
    let mut bytes = Vec::new();
    io::stdin().lock().read_to_end(&mut bytes).map_err(told)?;
    Ok(bytes)
}

/// Writes bytes on standard output.
fn write(bytes: &[u8]) -> Result<(), String> {
    io::stdout().write_all(bytes).map_err(told)
}

/// The bytes of a file.
fn contents(path: &str) -> Result<Vec<u8>, String> {
    fs::read(path).map_err(|error| format!("{path}: {error}"))
}

/// Answers each line of standard input, at once.
fn answer(session: &mut ops::Session) -> Result<(), String> {
    let mut input = io::stdin().lock();
    let mut output = BufWriter::new(io::stdout().lock());
    let mut line = Vec::new();
    while input.read_until(b'\n', &mut line).map_err(told)? > 0 {
        let operation = line.strip_suffix(b"\n").unwrap_or(&line);
        if let Some(answer) = session.answer(operation) {
            writeln!(output, "{answer}").and_then(|()| output.flush()).map_err(told)?;
        }
        line.clear();
    }
    Ok(())
}

/// Prints lines, each with its LF.
fn print(lines: impl IntoIterator<Item = Vec<u8>>) -> Result<(), String> {
    let mut output = BufWriter::new(io::stdout().lock());
    lines
        .into_iter()
        .try_for_each(|line| output.write_all(&line).and_then(|()| output.write_all(b"\n")))
        .and_then(|()| output.flush())
        .map_err(told)
}

/// Prints the short stream on standard output, and beside it what it means and both last answers.
fn shrink(program: &str, operations: &str) -> Result<(), String> {
    match ops::shrink::shrink(&ops::shrink::Other { program }, &contents(operations)?)? {
        None => Err("the two programs agree".to_string()),
        Some(difference) => {
            let readable: Vec<String> = difference.operations.iter().map(|text| ops::compare::readable(text)).collect();
            eprintln!("{}\n{}", readable.join("\n"), ops::compare::answers(&difference));
            print(difference.operations)
        }
    }
}
