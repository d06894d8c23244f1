//! Metres: how long a grid step is on each axis, and where the grid's point 0,0,0 stands.

#[derive(Clone, Copy, Debug, PartialEq)]
pub struct Scale {
    /// Metres of a grid step.
    pub step: [f64; 3],
    /// Metres of the grid's point 0,0,0.
    pub origin: [f64; 3],
}

impl Scale {
    /// Where so many steps on an axis stand, in metres.
    pub fn place(&self, axis: usize, steps: f64) -> f64 {
        self.origin[axis] + steps * self.step[axis]
    }

    /// How many steps on an axis metres are.
    pub fn steps(&self, axis: usize, metres: f64) -> f64 {
        (metres - self.origin[axis]) / self.step[axis]
    }

    /// Cubed grid steps in cubic metres.
    pub fn volume(&self, steps: f64) -> f64 {
        steps * self.step.iter().product::<f64>()
    }

    /// The scale of a mesh whose point 0,0,0 stands so many steps from the grid's.
    pub fn moved(&self, offset: [i64; 3]) -> Self {
        let origin = std::array::from_fn(|axis| self.place(axis, offset[axis] as f64));
        Self { origin, ..*self }
    }
}

#[cfg(test)]
mod tests {
    use super::*;

    #[test]
    fn each_axis_by_its_own() {
        let scale = Scale {
            step: [0.5, 0.25, 2.0],
            origin: [100.0, -3.0, 7.0],
        };
        assert_eq!(scale.place(0, 3.0), 101.5);
        assert_eq!(scale.place(1, 3.0), -2.25);
        assert_eq!(scale.place(2, -1.0), 5.0);
        assert_eq!(scale.steps(1, -2.25), 3.0);
        assert_eq!(scale.volume(8.0), 2.0);
        assert_eq!(scale.moved([-1, 2, 0]).origin, [99.5, -2.5, 7.0]);
    }
}
