//! Where the volumes of many closed beds lie between the two numbers that three counts make: beds of random signs and sizes, and smooth ones, each closed, counted,
//! meshed and weighed by the library.
//!
//! Of each bed the share (volume - low) / (high - low) is taken, where low is a - I/36 and high a + V + I/36; it is proved to lie from 0 to 1. Of each kind the
//! least and the most of the shares are printed, with the bed that has it. The beds are made with a fixed seed. An argument is the number of beds, a million
//! where there is none. Exit status 0: all lay within; 1: one did not, or a call was refused.

#[path = "../../compare/src/random.rs"]
#[allow(dead_code)]
mod random;

use bed::{MaxPlane, SurfaceNetsBuffer};
use random::Random;
use std::process::ExitCode;

const SEED: u64 = 0xBED0_0036;

/// An open bed: dimensions and distances.
struct Bed {
    dims: [u32; 3],
    sdf: Vec<f32>,
}

/// How far a point is from zero.
fn depth(random: &mut Random, unlike: bool) -> f32 {
    if unlike {
        // from 2^-20 to 2^20, so that crossings stand at the ends of their edges
        f32::exp2(random.signed(20.0))
    } else {
        1.0
    }
}

/// Random signs, all of one depth or of very unlike ones.
fn signs(random: &mut Random, unlike: bool) -> Bed {
    let most = random.pick(&[2, 3, 4, 6]);
    let dims = [0; 3].map(|_| random.coordinate(1, most));
    let share = random.between(1, 9);
    let points = dims.iter().product::<u32>();
    let sdf = (0..points)
        .map(|_| {
            let size = depth(random, unlike);
            if random.between(0, 9) < share {
                -size
            } else {
                size
            }
        })
        .collect();
    Bed { dims, sdf }
}

/// A bed with a smooth surface on the floor and against the walls.
fn smooth(random: &mut Random) -> Bed {
    let dims = [0; 3].map(|_| random.coordinate(4, 10));
    let [across, along, up] = dims.map(|n| n as usize);
    let level = 0.2 + 0.6 * random.signed_unit().abs();
    let mut wave = || (random.signed(0.8), random.signed(0.8), random.signed(3.1));
    let waves = [wave(), wave(), wave()];
    let mut sdf = Vec::with_capacity(across * along * up);
    for z in 0..up {
        for y in 0..along {
            for x in 0..across {
                let swell: f32 = waves
                    .iter()
                    .map(|(a, b, c)| (a * x as f32 + b * y as f32 + c).sin())
                    .sum();
                sdf.push(z as f32 - level * up as f32 - 0.1 * up as f32 * swell);
            }
        }
    }
    Bed { dims, sdf }
}

/// The least and the most share, and whose it is.
struct Seen {
    name: &'static str,
    beds: u64,
    empty: u64,
    outside: u64,
    least: (f64, String),
    most: (f64, String),
}

impl Seen {
    fn of(name: &'static str) -> Self {
        Self {
            name,
            beds: 0,
            empty: 0,
            outside: 0,
            least: (f64::INFINITY, String::new()),
            most: (f64::NEG_INFINITY, String::new()),
        }
    }

    fn look(&mut self, bed: &Bed, wall: f32, closed: &mut Vec<f32>, mesh: &mut SurfaceNetsBuffer) {
        let dims = bed::close(&bed.sdf, bed.dims, wall, closed).expect("a bed can be closed");
        let max = dims.map(|n| n - 1);
        let (none, low) = (MaxPlane::NONE, [0; 3]);
        assert_eq!(bed::is_enclosed(closed, dims, low, max), Ok(true));
        let counts = bed::tally(closed, dims, low, max, none).expect("a closed bed is counted");
        bed::surface_nets(closed, dims, low, max, none, mesh).expect("a closed bed is meshed");
        let weight = bed::weigh(mesh.positions.as_flattened(), 0, &mesh.indices);
        let sum = weight.expect("a mesh is weighed").sum;
        let (low, high) = counts.bounds();
        self.beds += 1;
        self.outside += u64::from(sum < low || high < sum);
        if low == high {
            self.empty += 1;
            return;
        }
        let share = (sum - low) as f64 / (high - low) as f64;
        let whose = || {
            format!(
                "{:?} points, a {}, V {}, I {}, volume {:.4}",
                bed.dims,
                counts.whole,
                counts.vertices,
                counts.indices,
                sum as f64 / (6.0 * 256.0 * 256.0 * 256.0)
            )
        };
        if share < self.least.0 {
            self.least = (share, whose());
        }
        if share > self.most.0 {
            self.most = (share, whose());
        }
    }

    fn print(&self) {
        println!(
            "{}: {} beds, {} of them without sludge, {} outside their bounds",
            self.name, self.beds, self.empty, self.outside
        );
        println!("    least share {:.4}: {}", self.least.0, self.least.1);
        println!("    most share {:.4}: {}", self.most.0, self.most.1);
    }
}

fn main() -> ExitCode {
    let asked = std::env::args().nth(1);
    let beds: u64 = asked.map_or(1_000_000, |n| n.parse().expect("a number of beds"));
    println!("seed {SEED:#x}");
    let mut random = Random::new(SEED);
    let (mut closed, mut mesh) = (Vec::new(), SurfaceNetsBuffer::default());
    let mut seen = [
        Seen::of("random signs, all one step from zero"),
        Seen::of("random signs, depths from 2^-20 to 2^20"),
        Seen::of("smooth beds on the floor"),
        Seen::of("random signs, depths and wall from 2^-20 to 2^20"),
    ];
    for turn in 0..beds {
        // one in ten is smooth, and larger; half of them have a wall that is not far, so that the border bulges
        let (kind, bed) = match turn % 10 {
            0 => (2, smooth(&mut random)),
            1 | 2 => (0, signs(&mut random, false)),
            3 | 4 => (1, signs(&mut random, true)),
            _ => (3, signs(&mut random, true)),
        };
        let wall = match kind {
            3 => depth(&mut random, true),
            _ => bed::wall_for(bed::deepest(0.0, &bed.sdf)),
        };
        seen[kind].look(&bed, wall, &mut closed, &mut mesh);
    }
    seen.iter().for_each(Seen::print);
    if seen.iter().all(|kind| kind.outside == 0 && kind.beds > 0) {
        println!("ALL WITHIN");
        ExitCode::SUCCESS
    } else {
        println!("NOT ALL WITHIN");
        ExitCode::FAILURE
    }
}
