//! Sheets of queries for `regions`, `answers` and `quotients`.

use super::points::{any, ties, Query};
use super::random::Random;
use super::{dense, hot, near};
use crate::sheets::{write, NOTE, ROWS, TRAILER};

/// What has sheets of its own: a region, whose queries lie in it and next to it, or the
/// saturation line, whose queries lie near it.
#[derive(Clone, Copy, Debug, PartialEq, Eq)]
pub enum Area {
    /// Region 3.
    Dense,
    /// Region 5.
    Hot,
    /// The saturation line between regions 1 and 2.
    Near,
}

impl Area {
    fn ties(self) -> Vec<Query> {
        match self {
            Area::Dense => dense::ties(),
            Area::Hot => hot::ties(),
            Area::Near => near::ties(),
        }
    }

    /// How a query there is drawn.
    fn any(self) -> fn(&mut Random) -> Query {
        match self {
            Area::Dense => dense::any,
            Area::Hot => hot::any,
            Area::Near => near::any,
        }
    }
}

/// A sheet of `count` queries, at most 1,000, with some note. A quarter of the rows are
/// ties; sheets of consecutive seeds go through all of them.
pub fn queries(seed: u64, count: usize) -> Vec<u8> {
    let mut random = Random::new(seed);
    let note = note(&mut random);
    sheet(&note, &rows(&ties(), any, seed, count, count / 4, &mut random))
}

/// A sheet of `count` queries, half of them ties, whose note holds 32 triples of property
/// numbers. Sixteen consecutive seeds go through all 512, a few of them made unknown.
pub fn triples(seed: u64, count: usize) -> Vec<u8> {
    let mut random = Random::new(seed);
    let note = numbered(seed.wrapping_mul(32), 32, &mut random);
    sheet(&note, &rows(&ties(), any, seed, count, count / 2, &mut random))
}

/// A sheet of `count` queries in an area and next to it, a quarter of them ties, without a
/// note.
pub fn queries_about(area: Area, seed: u64, count: usize) -> Vec<u8> {
    let mut random = Random::new(seed);
    sheet(&[], &rows(&area.ties(), area.any(), seed, count, count / 4, &mut random))
}

/// A sheet of `count` queries in an area and next to it, half of them ties, whose note
/// holds 8 triples of property numbers: those of one z and x. Sixty-four consecutive seeds
/// go through all.
pub fn triples_about(area: Area, seed: u64, count: usize) -> Vec<u8> {
    let mut random = Random::new(seed);
    let first = seed.wrapping_mul(8);
    let note: Vec<u8> = (0..8).flat_map(|step| triple(first.wrapping_add(step))).collect();
    sheet(&note, &rows(&area.ties(), area.any(), seed, count, count / 2, &mut random))
}

/// The triple of property numbers of an index; there are 512.
fn triple(index: u64) -> [u8; 3] {
    [index / 64, index / 8, index].map(|digits| (digits % 8) as u8 + 1)
}

/// The `count` triples of property numbers from the one of index `first` on, a few of
/// them made unknown.
fn numbered(first: u64, count: usize, random: &mut Random) -> Vec<u8> {
    let mut note = Vec::new();
    for index in (0..count as u64).map(|step| first.wrapping_add(step)) {
        let mut triple = triple(index);
        if random.below(12) == 0 {
            triple[random.below(3)] = random.pick(&[0, 9, 10, 128, 255]);
        }
        note.extend(triple);
    }
    note
}

/// A whole sheet of up to `count` queries and a note of a few triples or of any bytes.
pub fn small(seed: u64, count: usize, triples: bool) -> Vec<u8> {
    let mut random = Random::new(seed);
    let mut note = note(&mut random);
    if triples {
        note = numbered(seed, random.below(14), &mut random);
        let more = random.pick(&[0, 0, 0, 1, 2]);
        note.extend(random.bytes(more));
    }
    let count = random.below(count + 1);
    sheet(&note, &rows(&ties(), any, seed, count, count / 4, &mut random))
}

fn sheet(note: &[u8], rows: &[u8]) -> Vec<u8> {
    let mut room = vec![0; note.len() + rows.len() + TRAILER];
    write(note, rows, &mut room).expect("a note and rows within the limits");
    room
}

/// A note of no, few or many bytes, now and then the longest.
fn note(random: &mut Random) -> Vec<u8> {
    let length = match random.below(8) {
        0 | 1 => 0,
        2 => NOTE,
        3 => random.below(NOTE),
        _ => random.below(40),
    };
    random.bytes(length)
}

/// Rows of `count` queries: first `tied` of the ties, going on where those of the seed
/// before ended, then drawn ones.
fn rows(
    ties: &[Query],
    drawn: fn(&mut Random) -> Query,
    seed: u64,
    count: usize,
    tied: usize,
    random: &mut Random,
) -> Vec<u8> {
    let first = (seed % ties.len() as u64) as usize * tied;
    let mut bytes = Vec::new();
    for index in 0..count.min(ROWS) {
        let query = if index < tied { ties[(first + index) % ties.len()] } else { drawn(random) };
        append(&mut bytes, query);
    }
    bytes
}

fn append(bytes: &mut Vec<u8>, (kind, first, second): Query) {
    for word in [kind, first.to_bits(), second.to_bits()] {
        bytes.extend(word.to_le_bytes());
    }
}

#[cfg(test)]
mod tests {
    use super::super::points::in_region;
    use super::*;
    use crate::sheets::read;
    use std::collections::BTreeSet;

    #[test]
    fn whole_sheets_read_with_as_many_rows_as_asked() {
        for seed in 0..20 {
            assert_eq!(read(&queries(seed, 100)).unwrap().rows().count(), 100);
            let sheet = triples(seed, 10);
            let sheet = read(&sheet).unwrap();
            assert_eq!((sheet.note.len(), sheet.rows().count()), (96, 10));
        }
        assert!(read(&queries(0, 1000)).is_ok());
    }

    #[test]
    fn sheets_about_an_area_go_through_all_ties_and_triples() {
        for (area, count) in [(Area::Dense, 16), (Area::Hot, 8), (Area::Near, 42)] {
            let (mut rows, mut triples) = (BTreeSet::new(), BTreeSet::new());
            for seed in 1..=64 {
                let sheet = triples_about(area, seed, count);
                let sheet = read(&sheet).unwrap();
                assert_eq!((sheet.note.len(), sheet.rows().count()), (24, count));
                rows.extend(sheet.rows().map(|(_, p, t)| (p.to_bits(), t.to_bits())));
                triples.extend(sheet.note.chunks_exact(3).map(<[u8]>::to_vec));
            }
            let ties = area.ties();
            assert!(ties.iter().all(|(_, p, t)| rows.contains(&(p.to_bits(), t.to_bits()))));
            assert_eq!(triples.len(), 512);
            assert_eq!(read(&queries_about(area, 1, 1000)).unwrap().rows().count(), 1000);
        }
    }

    #[test]
    fn most_queries_about_a_region_lie_in_it() {
        for (area, region, most) in [(Area::Dense, 3, 3400), (Area::Hot, 5, 3000)] {
            let mut random = Random::new(5);
            let found = in_region(region, (0..4000).map(|_| area.any()(&mut random)));
            assert!(found.len() > most, "{}", found.len());
            let (ties, all) = (in_region(region, area.ties().into_iter()).len(), area.ties().len());
            assert!(2 * ties > all, "{ties} of {all}");
        }
    }

    #[test]
    fn consecutive_seeds_go_through_all_ties() {
        let all: BTreeSet<_> = ties().iter().map(|query| (query.0, query.1.to_bits())).collect();
        let mut seen = BTreeSet::new();
        for seed in 0..=ties().len() as u64 / 50 {
            let sheet = queries(seed, 200);
            let rows = read(&sheet).unwrap();
            seen.extend(rows.rows().map(|query| (query.0, query.1.to_bits())));
        }
        assert!(all.is_subset(&seen));
    }
}
