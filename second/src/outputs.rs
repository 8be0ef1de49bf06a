//! What each program must print for a given standard input.

mod check_values;
mod desk_run;
mod listings;
mod numbers;
mod plant;
mod replay;
mod saturation;
mod written;

use crate::Program;

pub use listings::saturated;
pub use replay::MOST_TURNS;
pub use saturation::MOST_TEMPERATURES;

/// The text that `program` must print.
pub fn of(program: Program, input: &[u8]) -> String {
    match program {
        Program::Arithmetic => numbers::listing(input),
        Program::CheckValues => check_values::listing(),
        Program::Saturation => saturation::listing(input),
        Program::Regions => listings::regions(input),
        Program::Answers => listings::answers(input),
        Program::Quotients => listings::quotients(input),
        Program::DeskRun => desk_run::listing(),
        Program::Replay => replay::listing(input),
        Program::Plant => plant::listing(),
        Program::Written => String::from_utf8_lossy(&written::sheet(input)).into_owned(),
    }
}

/// The bytes that `program` must print: those of its text, and where it is no text those
/// of the sheet.
pub fn bytes(program: Program, input: &[u8]) -> Vec<u8> {
    match program {
        Program::Written => written::sheet(input),
        _ => of(program, input).into_bytes(),
    }
}

/// The most bytes of standard input that `program` takes.
pub fn most_bytes(program: Program) -> usize {
    match program {
        Program::Arithmetic => numbers::LIMIT,
        Program::Saturation => saturation::LIMIT,
        Program::Regions | Program::Answers | Program::Quotients => listings::LONGEST,
        Program::Replay => replay::LIMIT,
        Program::Written => written::LIMIT,
        Program::CheckValues | Program::DeskRun | Program::Plant => 0,
    }
}

/// An f64 as the 16 lower-case hex digits of its bits; any NaN as `nan`.
fn hex(x: f64) -> String {
    if x.is_nan() {
        "nan".to_string()
    } else {
        format!("{:016x}", x.to_bits())
    }
}
