//! Standard input for each program, made anew from a seed. Equal seeds, sizes and
//! manners give equal bytes.

mod damage;
mod dense;
mod hot;
mod near;
mod numbers;
mod pairs;
mod papers;
mod points;
mod random;
mod runs;
mod temperatures;
mod tours;
mod writings;

use crate::outputs::most_bytes;
use crate::Program;
use pairs::Side;
use papers::Area;
use random::Random;

/// How an input stands to what its program asks for.
#[derive(Clone, Copy, Debug, PartialEq, Eq)]
pub enum Manner {
    /// As the program asks, whatever numbers it holds.
    Whole,
    /// Whole, or with something in it changed, missing or added.
    Damaged,
    Empty,
    /// Ended before its last byte.
    Cut,
    /// Longer than the program takes.
    Oversized,
    /// Bytes without any meaning.
    Random,
    /// Rows in one region and next to it, or near the saturation line, for `regions`,
    /// `answers` and `quotients`.
    About(Area),
    /// One of the two runs of a pair, in which one model does the same; for `replay` alone.
    Pair(Side),
    /// A run that shows each rule on the number of halvings; for `replay` alone.
    Tour,
}

impl Manner {
    /// The manner of that name, if there are such inputs for the program.
    pub fn named(name: &str, program: Program) -> Option<Manner> {
        match name {
            "whole" => Some(Manner::Whole),
            "damaged" => Some(Manner::Damaged),
            "empty" => Some(Manner::Empty),
            "cut" => Some(Manner::Cut),
            "oversized" => Some(Manner::Oversized),
            "random" => Some(Manner::Random),
            "dense" if reads_queries(program) => Some(Manner::About(Area::Dense)),
            "hot" if reads_queries(program) => Some(Manner::About(Area::Hot)),
            "near" if reads_queries(program) => Some(Manner::About(Area::Near)),
            "one" if program == Program::Replay => Some(Manner::Pair(Side::One)),
            "other" if program == Program::Replay => Some(Manner::Pair(Side::Other)),
            "tour" if program == Program::Replay => Some(Manner::Tour),
            _ => None,
        }
    }
}

/// Input for `program`: `count` is the number of random records (`arithmetic`), of
/// temperatures (`saturation`), of rows of a sheet (`regions`, `answers`, `quotients`; of a
/// damaged one the most) or to be written (`written`; of a damaged input the most), or of
/// desk calls (`replay`; of a run of a pair, of its model's calls; of a tour, of the calls
/// at random that end it). The programs
/// `check_values`, `desk_run` and `plant` read nothing.
pub fn of(program: Program, seed: u64, count: usize, manner: Manner) -> Vec<u8> {
    let mut random = Random::new(!seed);
    match manner {
        _ if most_bytes(program) == 0 => Vec::new(),
        Manner::Whole => whole(program, seed, count),
        Manner::Damaged => damaged(program, seed, count, &mut random),
        Manner::Empty => Vec::new(),
        Manner::Cut => damage::cut(whole(program, seed, count), &mut random),
        Manner::Oversized => oversized(program, seed, count, &mut random),
        Manner::Random => damage::meaningless(most_bytes(program), &mut random),
        Manner::About(area) if program == Program::Quotients => {
            papers::triples_about(area, seed, count)
        }
        Manner::About(area) => papers::queries_about(area, seed, count),
        Manner::Pair(side) => pairs::records(seed, count, side),
        Manner::Tour => tours::records(seed, count),
    }
}

/// Whether the program answers the rows of a sheet.
fn reads_queries(program: Program) -> bool {
    matches!(program, Program::Regions | Program::Answers | Program::Quotients)
}

fn whole(program: Program, seed: u64, count: usize) -> Vec<u8> {
    match program {
        Program::Arithmetic => numbers::records(seed, count),
        Program::Saturation => temperatures::words(seed, count),
        Program::Regions | Program::Answers => papers::queries(seed, count),
        Program::Quotients => papers::triples(seed, count),
        Program::Replay => runs::records(seed, count),
        Program::Written => writings::whole(seed, count),
        Program::CheckValues | Program::DeskRun | Program::Plant => Vec::new(),
    }
}

fn damaged(program: Program, seed: u64, count: usize, random: &mut Random) -> Vec<u8> {
    match program {
        Program::Regions | Program::Answers | Program::Quotients => {
            let triples = matches!(program, Program::Quotients);
            damage::sheet(papers::small(seed, count, triples), random)
        }
        Program::Written => writings::damaged(seed, count, random),
        // One word at least, so that there is something to change.
        Program::Saturation => damage::words(whole(program, seed, count.max(1)), random),
        _ => damage::words(whole(program, seed, count), random),
    }
}

fn oversized(program: Program, seed: u64, count: usize, random: &mut Random) -> Vec<u8> {
    let most = most_bytes(program);
    match program {
        Program::Replay => damage::longer(runs::past_the_end(seed), most, random),
        Program::Saturation => temperatures::too_many(seed, count.max(1), random),
        _ => damage::longer(whole(program, seed, count), most, random),
    }
}

#[cfg(test)]
mod tests {
    use super::*;
    use crate::outputs;

    const PROGRAMS: [Program; 6] = [
        Program::Arithmetic,
        Program::Saturation,
        Program::Regions,
        Program::Answers,
        Program::Quotients,
        Program::Replay,
    ];

    #[test]
    fn manners_are_what_they_say() {
        for program in PROGRAMS {
            let most = most_bytes(program);
            for seed in 1..9 {
                let of = |manner| of(program, seed, 20, manner);
                assert_eq!(of(Manner::Whole), whole(program, seed, 20));
                assert!(of(Manner::Whole).len() <= most);
                assert!(of(Manner::Empty).is_empty());
                assert!(whole(program, seed, 20).starts_with(&of(Manner::Cut)));
                assert!(of(Manner::Cut).len() < of(Manner::Whole).len());
                assert!(of(Manner::Oversized).len() > most);
            }
        }
    }

    #[test]
    fn an_input_one_byte_too_long_is_among_the_oversized() {
        for program in PROGRAMS {
            let lengths = (1..9).map(|seed| of(program, seed, 20, Manner::Oversized).len());
            assert!(lengths.min() == Some(most_bytes(program) + 1));
        }
    }

    /// Every program ends with a line, whatever it is given.
    #[test]
    fn every_input_has_an_output_that_ends_in_a_line() {
        let manners =
            [Manner::Damaged, Manner::Empty, Manner::Cut, Manner::Oversized, Manner::Random];
        for program in PROGRAMS {
            for (manner, seed) in
                manners.into_iter().flat_map(|manner| (1..9).map(move |seed| (manner, seed)))
            {
                let text = outputs::of(program, &of(program, seed, 20, manner));
                assert!(text.ends_with('\n') && !text.contains("\n\n"));
            }
        }
    }

    #[test]
    fn sheets_about_an_area_are_for_programs_that_answer_queries() {
        for (name, area) in [("dense", Area::Dense), ("hot", Area::Hot), ("near", Area::Near)] {
            let named = |program| Manner::named(name, program);
            assert_eq!(named(Program::Answers), Some(Manner::About(area)));
            assert!([Program::Replay, Program::Arithmetic, Program::Saturation, Program::Written]
                .into_iter()
                .all(|program| named(program).is_none()));
        }
    }

    #[test]
    fn oversized_runs_and_sheets_end_as_such() {
        for seed in 1..5 {
            let text = |program| outputs::of(program, &of(program, seed, 20, Manner::Oversized));
            assert!(text(Program::Replay).ends_with(" bad record\n"));
            assert_eq!(text(Program::Answers), "refused 23\n");
            assert_eq!(text(Program::Arithmetic).lines().count(), 4097);
            assert_eq!(text(Program::Saturation), "bad input\n");
        }
    }
}
