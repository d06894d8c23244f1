//! Prints, for beds whose truth is known, how far volume and level are from it: closed, meshed and weighed by the library, at four sizes and three
//! widths. One row a bed; for each size the volume's error in hundredths of a percent of the truth, and the largest error of a column's level in grid
//! steps. The tank is as wide as long and half as high. It fails where a volume or a level is further off than it may be.

mod beds;

use bed::{MaxPlane, SurfaceNetsBuffer};
use beds::Bed;
use std::process::ExitCode;

const SIZES: [u32; 4] = [33, 65, 129, 257];

#[derive(Clone, Copy)]
enum Width {
    Float32,
    Int16,
    Int8,
}

impl Width {
    fn name(self) -> &'static str {
        match self {
            Width::Float32 => "float32, a unit a grid step",
            Width::Int16 => "int16, 256 units a grid step",
            Width::Int8 => "int8, 16 units a grid step",
        }
    }
}

/// A bed's distances in grid steps, x innermost.
struct Grid {
    dims: [u32; 3],
    steps: Vec<f64>,
}

impl Grid {
    fn of(bed: &Bed, size: u32) -> Self {
        let dims = [size, size, size.div_ceil(2)];
        let step = 1.0 / f64::from(size - 1);
        let mut steps = Vec::new();
        for z in 0..dims[2] {
            for y in 0..dims[1] {
                for x in 0..dims[0] {
                    let place = [x, y, z].map(|n| f64::from(n) * step);
                    steps.push(bed.shape.distance(place) / step);
                }
            }
        }
        Self { dims, steps }
    }

    /// Closed, meshed and weighed: the volume in cubed grid steps; and the level of each column.
    fn told(&self, width: Width) -> (f64, Vec<f32>) {
        let scaled = |units: f64| self.steps.iter().map(move |steps| (steps * units).round());
        match width {
            Width::Float32 => {
                let numbers: Vec<f32> = self.steps.iter().map(|&steps| steps as f32).collect();
                self.worked_out(&numbers)
            }
            // `as` takes what is too large for the width as its largest number
            Width::Int16 => {
                self.worked_out(&scaled(256.0).map(|steps| steps as i16).collect::<Vec<_>>())
            }
            Width::Int8 => {
                self.worked_out(&scaled(16.0).map(|steps| steps as i8).collect::<Vec<_>>())
            }
        }
    }

    fn worked_out<D: bed::Distance>(&self, numbers: &[D]) -> (f64, Vec<f32>) {
        let wall = bed::wall_for(bed::deepest(0.0, numbers));
        let mut closed = Vec::new();
        let dims = bed::close(numbers, self.dims, wall, &mut closed).expect("the grid is accepted");
        let mut mesh = SurfaceNetsBuffer::default();
        bed::surface_nets(
            &closed,
            dims,
            [0; 3],
            dims.map(|n| n - 1),
            MaxPlane::NONE,
            &mut mesh,
        )
        .expect("the closed grid is accepted");
        let weight = bed::weigh(mesh.positions.as_flattened(), 0, &mesh.indices)
            .expect("every mesh can be weighed");
        let levels = bed::levels(numbers, self.dims, [0; 3], self.dims.map(|n| n - 1))
            .expect("the grid is accepted");
        (weight.sum as f64 / (6.0 * 256f64.powi(3)), levels)
    }
}

/// The relative error of the volume, and the largest error of a level, in grid steps.
fn errors(bed: &Bed, size: u32, width: Width) -> (f64, f64) {
    let grid = Grid::of(bed, size);
    let (volume, levels) = grid.told(width);
    let scale = f64::from(size - 1);
    let truth = bed.volume * scale.powi(3);
    let mut worst = 0.0f64;
    for (number, &level) in levels.iter().enumerate() {
        let (x, y) = (number as u32 % size, number as u32 / size);
        let [x, y] = [x, y].map(|n| f64::from(n) / scale);
        match (bed.shape.level(x, y), level >= 0.0) {
            (Some(truth), true) => worst = worst.max((f64::from(level) - truth * scale).abs()),
            (None, false) => {}
            // sludge that is told where none is, or the other way round, by how high it is
            (truth, _) => {
                worst = worst.max((f64::from(level) - truth.unwrap_or(0.0) * scale).abs())
            }
        }
    }
    (volume / truth - 1.0, worst)
}

/// What may not be: a slope more than 0.05 % off at 129 points, any bed more than 0.15 %; any volume more than 0.03 steps of mean level over the tank; floats whose volume is not ten times as near at 257 points as at 33;
/// and a level of a height more than a unit of its distances off.
fn too_far(bed: &Bed, width: Width, found: &[(f64, f64); 4]) -> bool {
    let slope = bed.name == "slope" && found[2].0.abs() > 0.0005;
    let volume = found[2].0.abs() > 0.0015;
    let mean_level =
        |(&(volume, _), size): (&(f64, f64), u32)| volume * bed.volume * f64::from(size - 1);
    let mean = found
        .iter()
        .zip(SIZES)
        .map(mean_level)
        .any(|level| level.abs() > 0.03);
    let falls = 10.0 * found[3].0.abs() <= found[0].0.abs();
    let unit = match width {
        Width::Float32 => 0.001,
        Width::Int16 => 1.0 / 256.0,
        Width::Int8 => 1.0 / 16.0,
    };
    let straight = matches!(bed.shape, beds::Shape::Height(_));
    let level = straight && found.iter().any(|&(_, level)| level > unit);
    slope || volume || mean || level || matches!(width, Width::Float32) && !falls
}

fn main() -> ExitCode {
    let mut good = true;
    for width in [Width::Float32, Width::Int16, Width::Int8] {
        println!("**{}**\n", width.name());
        let heads: Vec<String> = SIZES
            .iter()
            .map(|size| format!("{size} x {size} x {}", size.div_ceil(2)))
            .collect();
        println!("| bed | {} |", heads.join(" | "));
        println!("|---|{}", "---|".repeat(SIZES.len()));
        for bed in beds::all() {
            let found = SIZES.map(|size| errors(&bed, size, width));
            let cells =
                found.map(|(volume, level)| format!("{:+.4} %, {level:.3}", volume * 100.0));
            println!("| {} | {} |", bed.name, cells.join(" | "));
            if too_far(&bed, width, &found) {
                eprintln!("{}, {}: further off than it may be", bed.name, width.name());
                good = false;
            }
        }
        println!();
    }
    if good {
        ExitCode::SUCCESS
    } else {
        ExitCode::FAILURE
    }
}
