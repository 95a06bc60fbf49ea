//! A reference model of the route planner, written from document 01 and the
//! requests of document 02 alone: slow, obvious, plain Rust. A disagreement
//! with the planner is a fault in one of the two. Each file holds one idea and
//! quotes the sentences that it follows.

/// Read-back of a label as a route.
pub mod back;
/// Damage done to sheets and to label tables.
pub mod damage;
/// Fences, positions, bucket counts and ladders.
pub mod fences;
/// Generated requests.
pub mod gen;
/// Generated sheets.
pub mod gen_sheets;
/// The listing and the C call.
pub mod listing;
/// The request, its sizes and rows 2 to 10 and 17.
pub mod request;
/// Numbers from a fixed seed.
pub mod rng;
/// The rounds and the build.
pub mod rounds;
/// The sheet's reader and writer.
pub mod sheet;
/// Worked inputs of document 02's requests.
pub mod vectors;
/// All walks of a small graph, and demand 3 checked on them.
pub mod walks;
