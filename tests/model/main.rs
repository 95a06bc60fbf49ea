//! The reference model's program. `list` reads a sheet from standard input
//! and prints what the lister prints; `self` runs the model's own checks;
//! `trials-in` and `trials-out` print what the program `trials` reads and what
//! it has to print.

#[path = "model.rs"]
mod model;

mod check_buffers;
mod check_refusals;
mod check_sheets;
mod check_tables;
mod check_vectors;
mod hand;
mod trials;

use std::io::{Read, Write};
use std::panic::catch_unwind;
use std::process::ExitCode;

/// A group of checks answers what it looked at; a failed one panics.
const GROUPS: [(&str, fn() -> String); 13] = [
    ("numbers to check by hand", hand::numbers),
    ("the printed sheet", hand::printed_sheet),
    ("vectors of the requests", check_vectors::vectors),
    ("refusals", check_refusals::refusals),
    ("lent buffers", check_buffers::lent),
    ("fences", check_tables::fences),
    ("round trips", check_sheets::round_trips),
    ("damaged sheets", check_sheets::damaged_sheets),
    ("demand 3 by all walks", check_tables::walks),
    ("exact covers at p = 0", check_tables::exact),
    ("larger requests", check_tables::larger),
    ("damaged tables", check_tables::damaged_tables),
    ("the C call and the lister", check_sheets::c_call),
];

fn self_checks() -> ExitCode {
    let mut failed = 0;
    for (name, group) in GROUPS {
        match catch_unwind(group) {
            Ok(told) => println!("ok: {name}: {told}"),
            Err(_) => {
                println!("FAILED: {name}");
                failed += 1;
            }
        }
    }
    println!(
        "model: {} groups passed, {failed} failed",
        GROUPS.len() - failed
    );
    if failed == 0 {
        ExitCode::SUCCESS
    } else {
        ExitCode::FAILURE
    }
}

fn list() -> std::io::Result<()> {
    let mut sheet = Vec::new();
    std::io::stdin().read_to_end(&mut sheet)?;
    std::io::stdout().write_all(&model::listing::lister(&sheet))
}

fn exit_code(printed: std::io::Result<()>) -> ExitCode {
    match printed {
        Ok(()) => ExitCode::SUCCESS,
        Err(error) => {
            eprintln!("model: {error}");
            ExitCode::FAILURE
        }
    }
}

fn main() -> ExitCode {
    let mode = std::env::args().nth(1).unwrap_or_default();
    match mode.as_str() {
        "self" => self_checks(),
        "list" => exit_code(list()),
        "trials-in" => exit_code(std::io::stdout().write_all(&trials::input())),
        "trials-out" => exit_code(std::io::stdout().write_all(&trials::output())),
        _ => {
            eprintln!("model: give `list` (a sheet on standard input), `self`, `trials-in` or `trials-out`");
            ExitCode::FAILURE
        }
    }
}
