//! The distances of a grid in memory, as its file holds them: floats, or whole numbers of 16 or 8 bits, each meaning the
//! float of the same value. The library meshes each kind as it stands.

use crate::numbers::Numbers;
use bed::{
    Block, CellCounts, CloseRefusal, Counts, LevelRefusal, Refusal, SurfaceNetsBuffer, TallyRefusal,
};

pub enum Distances {
    Float32(Vec<f32>),
    Int16(Vec<i16>),
    Int8(Vec<i8>),
}

impl Distances {
    /// None yet, of this kind, or of floats of the same values; with room for so many, where there is so much.
    pub fn empty(numbers: Numbers, floats: bool, count: usize) -> Self {
        match numbers {
            Numbers::Int16 if !floats => Distances::Int16(room(count)),
            Numbers::Int8 if !floats => Distances::Int8(room(count)),
            _ => Distances::Float32(room(count)),
        }
    }

    /// Adds the numbers of a file's bytes, the lowest byte first. Bytes after the last whole number are left out.
    pub fn add(&mut self, bytes: &[u8], numbers: Numbers) {
        match self {
            Distances::Float32(list) => add_floats(bytes, numbers, list),
            Distances::Int16(list) => list.extend(shorts(bytes)),
            Distances::Int8(list) => list.extend(bytes.iter().map(|&one| one as i8)),
        }
    }

    pub fn len(&self) -> usize {
        match self {
            Distances::Float32(list) => list.len(),
            Distances::Int16(list) => list.len(),
            Distances::Int8(list) => list.len(),
        }
    }

    /// The call with a buffer that grows.
    pub fn mesh(
        &self,
        dims: [u32; 3],
        block: &Block,
        buffer: &mut SurfaceNetsBuffer,
    ) -> Result<(), Refusal> {
        let (min, max, flags) = (block.min, block.max, block.max_plane);
        match self {
            Distances::Float32(sdf) => bed::surface_nets(sdf, dims, min, max, flags, buffer),
            Distances::Int16(sdf) => bed::surface_nets(sdf, dims, min, max, flags, buffer),
            Distances::Int8(sdf) => bed::surface_nets(sdf, dims, min, max, flags, buffer),
        }
    }

    /// What a call needs room for, or why it is refused: 1, 2, 3 or 5. Nothing is lent.
    pub fn counts(&self, dims: [u32; 3], block: &Block) -> Result<Counts, Refusal> {
        let (min, max, flags) = (block.min, block.max, block.max_plane);
        match self {
            Distances::Float32(sdf) => bed::counts(sdf, dims, min, max, flags),
            Distances::Int16(sdf) => bed::counts(sdf, dims, min, max, flags),
            Distances::Int8(sdf) => bed::counts(sdf, dims, min, max, flags),
        }
    }

    /// Whether the mesh of a box has no hole.
    pub fn is_enclosed(
        &self,
        dims: [u32; 3],
        min: [u32; 3],
        max: [u32; 3],
    ) -> Result<bool, Refusal> {
        match self {
            Distances::Float32(sdf) => bed::is_enclosed(sdf, dims, min, max),
            Distances::Int16(sdf) => bed::is_enclosed(sdf, dims, min, max),
            Distances::Int8(sdf) => bed::is_enclosed(sdf, dims, min, max),
        }
    }

    /// The cells of a box below and on the surface, as the library counts them.
    pub fn tally(&self, dims: [u32; 3], block: &Block) -> Result<CellCounts, TallyRefusal> {
        let Block {
            min,
            max,
            max_plane,
        } = *block;
        match self {
            Distances::Float32(sdf) => bed::tally(sdf, dims, min, max, max_plane),
            Distances::Int16(sdf) => bed::tally(sdf, dims, min, max, max_plane),
            Distances::Int8(sdf) => bed::tally(sdf, dims, min, max, max_plane),
        }
    }

    /// Adds so many of the numbers, as floats of the same values.
    pub fn add_part(&self, from: usize, count: usize, list: &mut Vec<f32>) {
        match self {
            Distances::Float32(own) => list.extend(&own[from..from + count]),
            Distances::Int16(own) => {
                list.extend(own[from..from + count].iter().copied().map(f32::from))
            }
            Distances::Int8(own) => {
                list.extend(own[from..from + count].iter().copied().map(f32::from))
            }
        }
    }

    /// The points of a box, as a list of its own.
    pub fn boxed(&self, dims: [u32; 3], block: &Block) -> Self {
        match self {
            Distances::Float32(list) => Distances::Float32(points_of(list, dims, block)),
            Distances::Int16(list) => Distances::Int16(points_of(list, dims, block)),
            Distances::Int8(list) => Distances::Int8(points_of(list, dims, block)),
        }
    }

    /// The grid of three more points on each axis that is closed by a wall, and its dimensions.
    pub fn close(&self, dims: [u32; 3], wall: f32) -> Result<(Vec<f32>, [u32; 3]), CloseRefusal> {
        let mut closed = Vec::new();
        let dims = match self {
            Distances::Float32(list) => bed::close(list, dims, wall, &mut closed),
            Distances::Int16(list) => bed::close(list, dims, wall, &mut closed),
            Distances::Int8(list) => bed::close(list, dims, wall, &mut closed),
        }?;
        Ok((closed, dims))
    }

    /// The level of each column of a box.
    pub fn levels(&self, dims: [u32; 3], block: &Block) -> Result<Vec<f32>, LevelRefusal> {
        let (min, max) = (block.min, block.max);
        match self {
            Distances::Float32(list) => bed::levels(list, dims, min, max),
            Distances::Int16(list) => bed::levels(list, dims, min, max),
            Distances::Int8(list) => bed::levels(list, dims, min, max),
        }
    }

    /// The floats, where they are floats: a grid that fixtures are cut out of is read so.
    pub fn floats(&mut self) -> Option<&mut Vec<f32>> {
        match self {
            Distances::Float32(list) => Some(list),
            _ => None,
        }
    }
}

fn points_of<D: Copy>(list: &[D], dims: [u32; 3], block: &Block) -> Vec<D> {
    let [across, along, _] = dims.map(|size| size as usize);
    let mut points = Vec::new();
    for z in block.min[2]..=block.max[2] {
        for y in block.min[1]..=block.max[1] {
            let row = (z as usize * along + y as usize) * across;
            points.extend(&list[row + block.min[0] as usize..=row + block.max[0] as usize]);
        }
    }
    points
}

fn room<D>(count: usize) -> Vec<D> {
    let mut list = Vec::new();
    // Without it the list grows as it is filled.
    let _ = list.try_reserve_exact(count);
    list
}

/// Adds floats of the same values: the library takes a bed layer by layer as floats, and cuts fixtures out of floats.
pub fn add_floats(bytes: &[u8], numbers: Numbers, list: &mut Vec<f32>) {
    match numbers {
        Numbers::Float32 => list.extend(
            bytes
                .chunks_exact(4)
                .map(|four| f32::from_le_bytes([four[0], four[1], four[2], four[3]])),
        ),
        Numbers::Int16 => list.extend(shorts(bytes).map(f32::from)),
        Numbers::Int8 => list.extend(bytes.iter().map(|&one| f32::from(one as i8))),
    }
}

fn shorts(bytes: &[u8]) -> impl Iterator<Item = i16> + '_ {
    bytes
        .chunks_exact(2)
        .map(|two| i16::from_le_bytes([two[0], two[1]]))
}

#[cfg(test)]
mod tests {
    use super::*;

    fn read(bytes: &[u8], numbers: Numbers, floats: bool) -> Distances {
        let mut read = Distances::empty(numbers, floats, 0);
        read.add(bytes, numbers);
        read
    }

    fn floats(bytes: &[u8], numbers: Numbers) -> Vec<f32> {
        read(bytes, numbers, true).floats().unwrap().clone()
    }

    #[test]
    fn every_whole_number_keeps_its_value() {
        for value in i16::MIN..=i16::MAX {
            let bytes = value.to_le_bytes();
            let read = read(&bytes, Numbers::Int16, false);
            assert!(matches!(read, Distances::Int16(list) if list == [value]));
            assert_eq!(floats(&bytes, Numbers::Int16), [f32::from(value)]);
        }
        for value in i8::MIN..=i8::MAX {
            let bytes = value.to_le_bytes();
            let read = read(&bytes, Numbers::Int8, false);
            assert!(matches!(read, Distances::Int8(list) if list == [value]));
            assert_eq!(floats(&bytes, Numbers::Int8), [f32::from(value)]);
        }
    }

    #[test]
    fn a_box_of_its_own() {
        let all = Distances::Int16((0..4 * 3 * 5).collect());
        let block = Block {
            min: [1, 0, 2],
            max: [2, 1, 3],
            ..Block::default()
        };
        let Distances::Int16(points) = all.boxed([4, 3, 5], &block) else {
            panic!("another kind");
        };
        assert_eq!(points, [25, 26, 29, 30, 37, 38, 41, 42]);
        let mut part = Vec::new();
        all.add_part(25, 2, &mut part);
        assert_eq!(part, [25.0, 26.0]);
    }

    #[test]
    fn floats_keep_their_bits() {
        for bits in [0, 0x8000_0000, 1, 0x7F80_0000, 0x7FC0_0001, 0xFFFF_FFFF] {
            let read = floats(&u32::to_le_bytes(bits), Numbers::Float32);
            assert_eq!(read[0].to_bits(), bits);
        }
    }
}
