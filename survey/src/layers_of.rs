//! Where the layers of a bed come from: a grid that stays in its file, one in memory, either with fixtures cut out of it, or closed by the library.

use crate::failure::Failure;
use crate::fixtures::Fixtures;
use crate::grid::{Grid, Layer, Stored};
use crate::numbers::{Header, Numbers};
use bed::Block;

/// A grid that gives one layer at a time, as floats.
pub trait Layered: Sync {
    fn header(&self) -> Header;

    /// How many numbers there are.
    fn length(&self) -> u64;

    /// Reads the layer at z, which is one of the grid's.
    fn read_layer(&self, z: u32, layer: &mut Layer) -> Result<(), Failure>;

    /// What is said where two readings differ.
    fn changed(&self) -> Failure;
}

impl Layered for Stored {
    fn header(&self) -> Header {
        self.header
    }

    fn length(&self) -> u64 {
        self.length
    }

    fn read_layer(&self, z: u32, layer: &mut Layer) -> Result<(), Failure> {
        Stored::read_layer(self, z, layer)
    }

    fn changed(&self) -> Failure {
        Stored::changed(self)
    }
}

impl Layered for Grid {
    fn header(&self) -> Header {
        self.header
    }

    fn length(&self) -> u64 {
        self.distances.len() as u64
    }

    fn read_layer(&self, z: u32, layer: &mut Layer) -> Result<(), Failure> {
        let plane = self.header.plane() as usize;
        layer.distances.clear();
        self.distances
            .add_part(z as usize * plane, plane, &mut layer.distances);
        Ok(())
    }

    fn changed(&self) -> Failure {
        Failure::File {
            place: "the grid in memory".into(),
            reason: "gave two meshes; nothing is written".into(),
        }
    }
}

/// How many points a box has on each axis.
pub fn sizes(block: &Block) -> [u32; 3] {
    std::array::from_fn(|axis| block.max[axis] - block.min[axis] + 1)
}

/// The points of a box in a layer of a grid of these dimensions.
pub fn boxed(layer: &[f32], dims: [u32; 3], block: &Block, out: &mut Vec<f32>) {
    out.clear();
    let across = dims[0] as usize;
    for y in block.min[1]..=block.max[1] {
        let row = y as usize * across;
        out.extend(&layer[row + block.min[0] as usize..=row + block.max[0] as usize]);
    }
}

/// A box of a grid as a grid of its own, closed by a wall.
pub struct Closed<'a> {
    pub open: &'a dyn Layered,
    pub whole: Block,
    pub wall: f32,
}

impl Layered for Closed<'_> {
    fn header(&self) -> Header {
        Header {
            dims: sizes(&self.whole).map(|size| size + 3),
            numbers: Numbers::Float32,
        }
    }

    fn length(&self) -> u64 {
        self.header().points() as u64
    }

    fn read_layer(&self, z: u32, layer: &mut Layer) -> Result<(), Failure> {
        let (sizes, header) = (sizes(&self.whole), self.header());
        let mut own = Vec::new();
        if (1..=sizes[2]).contains(&z) {
            self.open.read_layer(self.whole.min[2] + z - 1, layer)?;
            boxed(
                &layer.distances,
                self.open.header().dims,
                &self.whole,
                &mut own,
            );
        }
        layer.distances.resize(header.plane() as usize, 0.0);
        bed::close_layer(&own, sizes, z, self.wall, &mut layer.distances)
            .map_err(|refusal| Failure::refused("the closed bed", refusal.number(), refusal))
    }

    fn changed(&self) -> Failure {
        self.open.changed()
    }
}

/// A grid with fixtures cut out of each layer as it is read.
pub struct Raked<'a> {
    pub open: &'a dyn Layered,
    pub fixtures: &'a Fixtures,
}

impl Layered for Raked<'_> {
    fn header(&self) -> Header {
        Header {
            numbers: Numbers::Float32,
            ..self.open.header()
        }
    }

    fn length(&self) -> u64 {
        self.open.length()
    }

    fn read_layer(&self, z: u32, layer: &mut Layer) -> Result<(), Failure> {
        self.open.read_layer(z, layer)?;
        let dims = self.open.header().dims;
        bed::cut_fixtures_layer(&self.fixtures.records, dims, z, &mut layer.distances)
            .map_err(|refusal| self.fixtures.refused(refusal))
    }

    fn changed(&self) -> Failure {
        self.open.changed()
    }
}

impl Raked<'_> {
    /// How many points of the grid the fixtures change: each layer is read once more, and compared.
    pub fn points_cut(&self) -> Result<u64, Failure> {
        let (mut open, mut cut) = (Layer::default(), Layer::default());
        let mut points = 0;
        for z in 0..self.open.header().dims[2] {
            self.open.read_layer(z, &mut open)?;
            self.read_layer(z, &mut cut)?;
            points += changed_points(&open.distances, &cut.distances);
        }
        Ok(points)
    }
}

/// In how many points two layers differ: a distance that is kept keeps its bits.
pub fn changed_points(before: &[f32], after: &[f32]) -> u64 {
    let both = before.iter().zip(after);
    both.filter(|(old, new)| old.to_bits() != new.to_bits())
        .count() as u64
}
