//! The test for a skin without a hole, of a grid that comes layer by layer.
//!
//! The library's test asks that every point of the box below zero lies from min + 1 to max - 2 on each axis. A point lies in
//! one layer, and the library tests one layer too: its answers for all layers of the box make up that for the grid, which is
//! proved.

use bed::{Block, EnclosedRefusal};

pub struct Enclosing {
    dims: [u32; 3],
    block: Block,
    /// Whether the layers so far are as the test asks.
    pub enclosed: bool,
}

impl Enclosing {
    pub fn of(dims: [u32; 3], block: Block) -> Self {
        Self {
            dims,
            block,
            enclosed: true,
        }
    }

    pub fn add(&mut self, z: u32, layer: &[f32]) -> Result<(), EnclosedRefusal> {
        let Block { min, max, .. } = self.block;
        self.enclosed = self.enclosed && bed::is_enclosed_layer(layer, self.dims, min, max, z)?;
        Ok(())
    }
}

#[cfg(test)]
mod tests {
    use super::*;

    /// Every box of a small grid with one point below zero, or two.
    #[test]
    fn layers_answer_as_the_whole() {
        let dims = [5, 4, 6];
        let [x, y, z] = dims;
        let plane = (x * y) as usize;
        let (mut yes, mut no) = (0, 0);
        for point in 0..plane * z as usize {
            let mut grid = vec![1.0; plane * z as usize];
            grid[point] = -1.0;
            grid[point * 7 % (plane * z as usize)] = -f32::MIN_POSITIVE / 8.0;
            grid[point * 11 % (plane * z as usize)] = f32::NAN;
            for corners in boxes(dims) {
                let mut enclosing = Enclosing::of(dims, corners);
                for (place, layer) in grid.chunks(plane).enumerate() {
                    if (corners.min[2]..=corners.max[2]).contains(&(place as u32)) {
                        enclosing.add(place as u32, layer).unwrap();
                    }
                }
                let whole = bed::is_enclosed(&grid, dims, corners.min, corners.max);
                assert_eq!(Ok(enclosing.enclosed), whole, "{point} {corners:?}");
                *(if enclosing.enclosed {
                    &mut yes
                } else {
                    &mut no
                }) += 1;
            }
        }
        assert!(yes > 1000 && no > 1000);
    }

    fn boxes(dims: [u32; 3]) -> Vec<Block> {
        let pairs =
            |size: u32| (0..size).flat_map(move |low| (low..size).map(move |high| (low, high)));
        let mut boxes = Vec::new();
        for (x0, x1) in pairs(dims[0]) {
            for (y0, y1) in pairs(dims[1]) {
                for (z0, z1) in pairs(dims[2]) {
                    boxes.push(Block {
                        min: [x0, y0, z0],
                        max: [x1, y1, z1],
                        ..Block::default()
                    });
                }
            }
        }
        boxes
    }
}
