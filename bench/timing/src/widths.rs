//! Whole-number distances (document 02, request 5): the calls over 16 and 8 bits beside the float call on the same
//! numbers.

use crate::page::{Whole, WidthsRow};
use crate::runners::{self, Dims, Library, Mesh, Runner};
use crate::{grids, median, ratio, take_turns, warm_up};

/// A ball's distances are taken in twentieths of a grid step. What is past an end of a width's range becomes that end.
const STEPS: f32 = 20.0;

/// Times balls and random signs in the numbers of both widths.
pub fn measure() -> Vec<WidthsRow> {
    let balls = [66, 130, 258].map(|side| {
        let steps = grids::ball(side).into_iter();
        row("ball", side, steps.map(|d| (d * STEPS).round()).collect())
    });
    let signs = row("random signs", 66, grids::random_signs(66));
    balls.into_iter().chain([signs]).collect()
}

fn row(grid_name: &'static str, side: u32, grid: Vec<f32>) -> WidthsRow {
    let dims = [side; 3];
    let shorts: Vec<i16> = grid.iter().map(|&d| d as i16).collect();
    let bytes: Vec<i8> = grid.iter().map(|&d| d as i8).collect();
    WidthsRow {
        grid_name,
        side,
        short: times(dims, shorts, bed::surface_nets_lent::<i16>),
        byte: times(dims, bytes, bed::surface_nets_lent::<i8>),
    }
}

/// The float call and the call over whole numbers, in turns.
fn times<D: Copy + Into<f32> + 'static>(dims: Dims, grid: Vec<D>, mesh: Mesh<D>) -> Whole {
    let floats: Vec<f32> = grid.iter().map(|&number| number.into()).collect();
    let mut library = Library::default();
    library.make_room(&floats, dims);
    let whole = runners::Whole::beside(&library, grid, mesh);
    let mut runners: Vec<Box<dyn Runner>> = vec![Box::new(library), Box::new(whole)];
    warm_up(&mut runners, &floats, dims);
    let times = take_turns(&mut runners, &floats, dims);
    Whole {
        seconds: median(&times[1]),
        ratio: ratio(&times[1], &times[0]),
    }
}
