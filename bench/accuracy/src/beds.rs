//! Beds whose volume and level are known in closed form, in a tank of length 1 and width 1. Lengths are in the tank's; the floor is z = 0.

use std::f64::consts::PI;

pub struct Bed {
    pub name: &'static str,
    /// The sludge's volume in the tank.
    pub volume: f64,
    pub shape: Shape,
}

pub enum Shape {
    /// The sludge's height at a place; the distance is taken straight down to it.
    Height(fn(f64, f64) -> f64),
    /// A ball round a point; the distance is the true one.
    Ball { centre: [f64; 3], radius: f64 },
}

impl Shape {
    /// The signed distance at a point.
    pub fn distance(&self, [x, y, z]: [f64; 3]) -> f64 {
        match self {
            Shape::Height(height) => z - height(x, y),
            Shape::Ball {
                centre: [a, b, c],
                radius,
            } => ((x - a).powi(2) + (y - b).powi(2) + (z - c).powi(2)).sqrt() - radius,
        }
    }

    /// The level at a place, or none where there is no sludge.
    pub fn level(&self, x: f64, y: f64) -> Option<f64> {
        match self {
            Shape::Height(height) => Some(height(x, y)),
            Shape::Ball {
                centre: [a, b, c],
                radius,
            } => {
                let squared = radius.powi(2) - (x - a).powi(2) - (y - b).powi(2);
                let level = c + squared.max(0.0).sqrt();
                (squared > 0.0 && level >= 0.0).then_some(level)
            }
        }
    }
}

/// A paraboloid of this height over a disc; its volume is half of its height times the disc.
fn heap(x: f64, y: f64, [a, b]: [f64; 2], radius: f64, height: f64) -> f64 {
    let squared = ((x - a).powi(2) + (y - b).powi(2)) / radius.powi(2);
    height * (1.0 - squared).max(0.0)
}

fn half_heap(radius: f64, height: f64) -> f64 {
    PI * radius.powi(2) * height / 4.0
}

pub fn all() -> Vec<Bed> {
    vec![
        Bed {
            name: "level floor",
            volume: 0.2317,
            shape: Shape::Height(|_, _| 0.2317),
        },
        Bed {
            name: "slope",
            volume: 0.1 + 0.17 / 2.0 + 0.11 / 2.0,
            shape: Shape::Height(|x, y| 0.1 + 0.17 * x + 0.11 * y),
        },
        Bed {
            name: "paraboloid heap",
            volume: 0.08 + 2.0 * half_heap(0.3, 0.3),
            shape: Shape::Height(|x, y| 0.08 + heap(x, y, [0.45, 0.55], 0.3, 0.3)),
        },
        Bed {
            name: "heap against a wall",
            volume: 0.08 + half_heap(0.35, 0.3),
            shape: Shape::Height(|x, y| 0.08 + heap(x, y, [0.0, 0.5], 0.35, 0.3)),
        },
        Bed {
            name: "two heaps",
            volume: 0.06 + 2.0 * half_heap(0.2, 0.25) + 2.0 * half_heap(0.25, 0.18),
            shape: Shape::Height(|x, y| {
                0.06 + heap(x, y, [0.3, 0.25], 0.2, 0.25) + heap(x, y, [0.65, 0.7], 0.25, 0.18)
            }),
        },
        Bed {
            name: "trench",
            // a parabola's segment is two thirds of the rectangle round it
            volume: 0.3 - 2.0 / 3.0 * 0.4 * 0.2,
            shape: Shape::Height(|x, _| 0.3 - 0.2 * (1.0 - ((x - 0.5) / 0.2).powi(2)).max(0.0)),
        },
        Bed {
            name: "sphere cap",
            // of a ball of radius R the part of height h is pi h^2 (3 R - h) / 3
            volume: PI * 0.3f64.powi(2) * (3.0 * 0.4 - 0.3) / 3.0,
            shape: Shape::Ball {
                centre: [0.5, 0.5, -0.1],
                radius: 0.4,
            },
        },
    ]
}
