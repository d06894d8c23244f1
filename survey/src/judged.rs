//! What the library is asked about blocks and fixtures, and its refusals with the names of files.

use crate::explained;
use crate::failure::Failure;
use crate::fixtures::Fixtures;
use crate::grid::Grid;
use crate::layers_of::changed_points;
use bed::{Block, FixtureRefusal};
use std::path::Path;

/// What the library's call needs on this block of the grid.
pub fn accepted(
    grid: &Grid,
    block: &Block,
    place: impl Fn() -> String,
) -> Result<bed::Counts, Failure> {
    let counted = grid.distances.counts(grid.header.dims, block);
    counted.map_err(|refusal| {
        let words = explained::of_a_block(refusal, grid, block);
        Failure::refused(place(), refusal.number(), words)
    })
}

/// A block in words.
pub fn named_block(grid: &Path, plan: &Path, line: usize) -> String {
    format!(
        "{}: the block of {}, line {line}",
        grid.display(),
        plan.display()
    )
}

/// Cuts fixtures out of a grid of floats, layer by layer, and tells how many points changed. Refusals of the grid name the grid.
pub fn cut_out(fixtures: &Fixtures, name: &Path, grid: &mut Grid) -> Result<u64, Failure> {
    let (header, count) = (grid.header, grid.distances.len());
    let floats = grid.distances.floats();
    let floats = floats.expect("a grid that fixtures are cut out of is read as floats");
    let refused = |refusal| match refusal {
        FixtureRefusal::Dimensions => {
            Failure::refused(name.display(), 1, FixtureRefusal::Dimensions)
        }
        FixtureRefusal::GridLength => {
            Failure::refused(name.display(), 3, explained::length(&header, count as u64))
        }
        other => fixtures.refused(other),
    };
    // A grid of another length has no layers: the whole call refuses it, and changes nothing.
    if count as u128 != header.points() || count == 0 {
        return bed::cut_fixtures(&fixtures.records, header.dims, floats)
            .map(|()| 0)
            .map_err(refused);
    }
    let (mut before, mut points) = (Vec::new(), 0);
    for (z, layer) in (0..).zip(floats.chunks_exact_mut(header.plane() as usize)) {
        before.clear();
        before.extend_from_slice(layer);
        bed::cut_fixtures_layer(&fixtures.records, header.dims, z, layer).map_err(refused)?;
        points += changed_points(&before, layer);
    }
    Ok(points)
}

/// Asks the library whether these are the records of fixtures, by cutting them out of a grid of one point.
pub fn are_fixtures(fixtures: &Fixtures) -> Result<(), Failure> {
    bed::cut_fixtures(&fixtures.records, [1; 3], &mut [0.0])
        .map_err(|refusal| fixtures.refused(refusal))
}
