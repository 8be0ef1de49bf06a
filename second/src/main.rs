//! The independent second program. It knows the documents and none of the proved
//! code, makes inputs for each program and says what each program must print.
//!
//!     second inputs NAME SEED COUNT [MANNER] > file
//!     second outputs NAME < file
//!     second saturated < file
//!
//! NAME is a program's. MANNER is whole (if none is given), damaged, empty, cut,
//! oversized or random; of regions, answers and quotients also dense, hot or near; of
//! replay also one or other, the two runs of a pair, or tour. The last counts the rows of a
//! sheet that are answered in one phase at Ts(p).

// Printed decimals stay as they are printed.
#![allow(clippy::approx_constant, clippy::excessive_precision)]

mod answers;
mod arithmetic;
mod backward;
mod basic;
mod derivatives;
mod desk;
mod helmholtz;
mod inputs;
mod outputs;
mod refusals;
mod regions;
mod saturation;
mod sheets;
mod sums;
mod tables;

use inputs::Manner;
use std::env;
use std::io::{self, Read, Write};
use std::process::ExitCode;

const USAGE: &str = "usage: second inputs NAME SEED COUNT [MANNER]
       second outputs NAME
       second saturated
names: arithmetic check_values saturation regions answers quotients written desk_run replay plant
manners: whole damaged empty cut oversized random;
         of regions, answers, quotients also dense hot near; of replay also one other tour";

/// The programs that are compared, by the names they are built under.
#[derive(Clone, Copy, PartialEq, Eq)]
pub enum Program {
    Arithmetic,
    CheckValues,
    Saturation,
    Regions,
    Answers,
    Quotients,
    Written,
    DeskRun,
    Replay,
    Plant,
}

impl Program {
    fn named(name: &str) -> Option<Program> {
        match name {
            "arithmetic" => Some(Program::Arithmetic),
            "check_values" => Some(Program::CheckValues),
            "saturation" => Some(Program::Saturation),
            "regions" => Some(Program::Regions),
            "answers" => Some(Program::Answers),
            "quotients" => Some(Program::Quotients),
            "written" => Some(Program::Written),
            "desk_run" => Some(Program::DeskRun),
            "replay" => Some(Program::Replay),
            "plant" => Some(Program::Plant),
            _ => None,
        }
    }

    fn reads_input(self) -> bool {
        !matches!(self, Program::CheckValues | Program::DeskRun | Program::Plant)
    }
}

fn main() -> ExitCode {
    let words: Vec<String> = env::args().skip(1).collect();
    let words: Vec<&str> = words.iter().map(String::as_str).collect();
    let Some(bytes) = answer(&words) else {
        eprintln!("{USAGE}");
        return ExitCode::from(2);
    };
    match bytes.and_then(|bytes| io::stdout().write_all(&bytes)) {
        Ok(()) => ExitCode::SUCCESS,
        Err(error) => {
            eprintln!("second: {error}");
            ExitCode::FAILURE
        }
    }
}

/// The bytes asked for, or nothing if the words are not a known command.
fn answer(words: &[&str]) -> Option<io::Result<Vec<u8>>> {
    match words {
        ["inputs", name, seed, count] => made(name, seed, count, "whole"),
        ["inputs", name, seed, count, manner] => made(name, seed, count, manner),
        ["outputs", name] => {
            let program = Program::named(name)?;
            let input = if program.reads_input() { standard_input() } else { Ok(Vec::new()) };
            Some(input.map(|input| outputs::bytes(program, &input)))
        }
        ["saturated"] => {
            let count = |input: Vec<u8>| format!("{}\n", outputs::saturated(&input)).into_bytes();
            Some(standard_input().map(count))
        }
        _ => None,
    }
}

fn made(name: &str, seed: &str, count: &str, manner: &str) -> Option<io::Result<Vec<u8>>> {
    let (seed, count) = (seed.parse().ok()?, count.parse().ok()?);
    let program = Program::named(name)?;
    Some(Ok(inputs::of(program, seed, count, Manner::named(manner, program)?)))
}

fn standard_input() -> io::Result<Vec<u8>> {
    let mut input = Vec::new();
    io::stdin().read_to_end(&mut input)?;
    Ok(input)
}
