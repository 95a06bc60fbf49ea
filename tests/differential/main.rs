//! Compares the planner's calls with the reference model on generated inputs:
//! `driver COMMAND ..`, where the command runs the harness. Everything comes
//! from fixed seeds. The last line says what was compared; a disagreement is
//! told on the smallest input found for it, and the status is not 0.

#[allow(dead_code, unused_imports)]
#[path = "../model/model.rs"]
mod model;

mod case;
mod listings;
mod pipe;
mod routes;
mod sheets;
mod tables;

use case::{run, Seen};
use pipe::Planner;
use std::process::ExitCode;
use std::time::Instant;

/// A part: its name, the numbers that its answers must have among them, and
/// its run. A part that compares another call is one more line here, and one
/// more case of harness.c.
type Part = (
    &'static str,
    &'static [usize],
    fn(&mut Planner) -> Result<Seen, String>,
);

const PARTS: [Part; 8] = [
    ("sheets read", &[0, 1, 12, 13], |planner| {
        run(planner, 101, 24_000, sheets::to_read)
    }),
    ("sheets written", &[0, 3, 7, 11, 12, 13], |planner| {
        run(planner, 102, 24_000, sheets::to_write)
    }),
    (
        "tables built",
        &[0, 2, 3, 4, 5, 6, 7, 8, 9, 10, 13, 17],
        |planner| run(planner, 103, 6_000, tables::to_build),
    ),
    (
        "labels read back",
        &[0, 2, 3, 4, 5, 6, 7, 8, 9, 10, 13, 14, 15, 16, 17],
        |planner| run(planner, 104, 24_000, routes::to_read_back),
    ),
    (
        "sheets listed",
        &[0, 1, 2, 4, 5, 6, 8, 9, 10, 12, 13, 17],
        |planner| run(planner, 105, 24_000, listings::to_list),
    ),
    ("vector f9, read", &[0], |planner| {
        run(planner, 0, 1, sheets::loop_to_read)
    }),
    ("vector f9, written", &[0], |planner| {
        run(planner, 0, 1, sheets::loop_to_write)
    }),
    ("vector f10, read back", &[17], |planner| {
        run(planner, 0, 1, routes::loop_to_read_back)
    }),
];

/// The counts in words.
fn told(seen: &Seen) -> String {
    let refusals: Vec<String> = (1..seen.len())
        .filter(|&number| seen[number] > 0)
        .map(|number| format!("{number}: {}", seen[number]))
        .collect();
    let refused = if refusals.is_empty() {
        "none".to_string()
    } else {
        refusals.join(", ")
    };
    format!("{} done; refused {refused}", seen[0])
}

fn main() -> ExitCode {
    let command: Vec<String> = std::env::args().skip(1).collect();
    if command.is_empty() {
        eprintln!("differential: give the command that runs the harness");
        return ExitCode::FAILURE;
    }
    let mut planner = match Planner::start(&command) {
        Ok(planner) => planner,
        Err(error) => {
            eprintln!("differential: {}: {error}", command[0]);
            return ExitCode::FAILURE;
        }
    };
    for (name, numbers, part) in PARTS {
        let begun = Instant::now();
        let seen = match part(&mut planner) {
            Ok(seen) => seen,
            Err(told) => {
                println!("FAILED: {name}: {told}");
                return ExitCode::FAILURE;
            }
        };
        let all: usize = seen.iter().sum();
        println!(
            "ok: {all} {name} alike ({}) in {:.1} s",
            told(&seen),
            begun.elapsed().as_secs_f32()
        );
        if let Some(number) = numbers.iter().find(|&&number| seen[number] == 0) {
            println!("FAILED: {name}: no answer had number {number}");
            return ExitCode::FAILURE;
        }
    }
    ExitCode::SUCCESS
}
