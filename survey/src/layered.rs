//! A block of a grid that stays in its file, meshed layer by layer (document 02, request 1). The library keeps two layers;
//! beside them there is the layer that is offered and what it brings out. So memory goes with one layer, whatever the grid.
//!
//! A mesh file has all vertices before the first triangle. The layers are therefore offered twice: the first time the
//! vertices are written, the second time the triangles, and the vertices that come out again are compared with those
//! in the file. What is written is then the mesh of the grid as it was read the second time.

use crate::explained::{self, Bad};
use crate::failure::Failure;
use crate::grid;
use crate::kept::{Beside, Part};
use crate::layers_of::Layered;
use crate::mesh::Lists;
use crate::progress::Steps;
use crate::records::Records;
use bed::{Block, Counts, FileRefusal, Kept, LayerLent, LayerRefusal, Layers, Refusal};
use std::path::Path;

/// A block of a grid whose layers are taken one by one.
pub struct Work<'a> {
    pub grid: &'a dyn Layered,
    pub block: Block,
    /// The block in words.
    pub place: String,
    /// Is told of each layer that is done, with its new vertices.
    pub report: &'a dyn Fn(usize),
}

/// A layer that was taken, and what it brought out.
pub struct Taken<'a> {
    pub z: u32,
    pub distances: &'a [f32],
    pub lists: Lists<'a>,
}

/// The steps of reading the layers of these blocks so many times.
pub fn steps(times: u64, blocks: &[Block]) -> Steps {
    let layers = |block: &Block| u64::from(block.max[2].saturating_sub(block.min[2])) + 1;
    Steps {
        count: times * blocks.iter().map(layers).sum::<u64>(),
        name: "layers",
    }
}

impl Work<'_> {
    /// Offers every layer of the block and shows what each brings out.
    pub fn walk(
        &self,
        mut show: impl FnMut(&Taken) -> Result<(), Failure>,
    ) -> Result<Counts, Failure> {
        let mut memory = self.memory()?;
        let mut layers = self.start(&memory.kept())?;
        let mut layer = grid::Layer::default();
        let mut room = Room::default();
        let mut all = Counts::default();
        for z in self.block.min[2]..=self.block.max[2] {
            self.grid.read_layer(z, &mut layer)?;
            let counts = room
                .offer(&mut layers, &layer.distances, &mut memory.kept())
                .map_err(|refusal| match refusal {
                    LayerRefusal::Distance => self.bad_distances(z),
                    other => self.refused(other.number(), format!("{other}, z {z}")),
                })?;
            all.vertices += counts.vertices;
            all.indices += counts.indices;
            show(&Taken {
                z,
                distances: &layer.distances,
                lists: room.lists(counts),
            })?;
        }
        Ok(all)
    }

    /// Answer 5 to the layer at z, with what is found in it and in those after it.
    fn bad_distances(&self, z: u32) -> Failure {
        let (mut bad, mut layer) = (Bad::default(), grid::Layer::default());
        for z in z..=self.block.max[2] {
            if let Err(failure) = self.grid.read_layer(z, &mut layer) {
                return failure;
            }
            bad.add(z, &layer.distances, &self.grid.header(), &self.block);
        }
        self.refused(LayerRefusal::Distance.number(), bad.words())
    }

    pub fn refused(&self, number: u32, words: impl ToString) -> Failure {
        Failure::refused(&self.place, number, words)
    }

    fn start(&self, kept: &Kept) -> Result<Layers, Failure> {
        let Block {
            min,
            max,
            max_plane,
        } = self.block;
        Layers::start(self.grid.header().dims, min, max, max_plane, kept)
            .map_err(|refusal| self.refused(refusal.number(), refusal))
    }

    /// Memory for the layers, once the grid's answers 1 to 3 are out of the way. The library judges dimensions and box before
    /// it measures memory, and sees one layer at a time: how many there are in the file is asked here.
    fn memory(&self) -> Result<Memory, Failure> {
        let short = LayerRefusal::MemoryShort.number();
        match self.start(&Kept::default()) {
            Err(Failure::Refused { number, .. }) if number == short => {}
            Err(failure) => return Err(failure),
            Ok(_) => {}
        }
        let header = self.grid.header();
        let [x, y, z] = header.dims.map(u64::from);
        if self.grid.length() != x * y * z {
            let words = explained::length(&header, self.grid.length());
            return Err(self.refused(Refusal::GridLength.number(), words));
        }
        Ok(Memory::of((x * y) as usize))
    }

    /// The first time over the layers: the vertices go to a file beside this name.
    pub fn vertices(&self, name: &Path) -> Result<Begun, Failure> {
        let part = Part::create(name)?;
        let mut records = Records::to(|bytes| part.write(bytes));
        let counts = self.walk(|taken| {
            records.vertices(&taken.lists)?;
            (self.report)(taken.lists.vertices());
            Ok(())
        })?;
        records.finish()?;
        let refusal = FileRefusal::Lists;
        let fits = |count: u64| {
            u32::try_from(count)
                .map_err(|_| Failure::refused(name.display(), refusal.number(), refusal))
        };
        Ok(Begun {
            vertices: fits(counts.vertices)?,
            triangles: fits(counts.indices / 3)?,
            part,
        })
    }

    /// The second time: the triangles follow, and the closing record. What each layer brings out is also shown to `also`.
    pub fn triangles(
        &self,
        begun: Begun,
        mut also: impl FnMut(&Taken) -> Result<(), Failure>,
    ) -> Result<Beside, Failure> {
        let Begun {
            vertices,
            triangles,
            part,
        } = begun;
        let mut compared = 0;
        let mut again = Records::to(|bytes| {
            let same = part.holds(compared, bytes)?;
            compared += bytes.len() as u64;
            same.then_some(()).ok_or_else(|| self.grid.changed())
        });
        let mut records = Records::to(|bytes| part.write(bytes));
        let counts = self.walk(|taken| {
            again.vertices(&taken.lists)?;
            records.triangles(&taken.lists)?;
            also(taken)?;
            (self.report)(0);
            Ok(())
        })?;
        again.finish()?;
        if (counts.vertices, counts.indices / 3) != (vertices.into(), triangles.into()) {
            return Err(self.grid.changed());
        }
        records.closing(vertices, triangles)?;
        records.finish()?;
        part.synced()
    }
}

/// A mesh file that has its vertices, beside its name.
pub struct Begun {
    pub vertices: u32,
    pub triangles: u32,
    part: Part,
}

/// What the library keeps between two layers.
struct Memory {
    distances: Vec<f32>,
    map: Vec<u32>,
    positions: Vec<f32>,
}

impl Memory {
    /// For layers of so many points.
    fn of(points: usize) -> Self {
        Self {
            distances: vec![0.0; 2 * points],
            map: vec![0; 2 * points],
            positions: vec![0.0; 3 * points],
        }
    }

    fn kept(&mut self) -> Kept<'_> {
        Kept {
            distances: &mut self.distances,
            map: &mut self.map,
            positions: &mut self.positions,
        }
    }
}

/// Lists for what one layer brings out.
#[derive(Default)]
struct Room {
    positions: Vec<f32>,
    normals: Vec<f32>,
    cells: Vec<u32>,
    strides: Vec<u32>,
    crossings: Vec<u8>,
    indices: Vec<u32>,
}

impl Room {
    /// Offers a layer, and once more if the lists had to grow.
    fn offer(
        &mut self,
        layers: &mut Layers,
        layer: &[f32],
        kept: &mut Kept,
    ) -> Result<Counts, LayerRefusal> {
        match layers.offer(layer, kept, &mut self.lent()) {
            Err(LayerRefusal::VerticesShort(needed) | LayerRefusal::IndicesShort(needed)) => {
                self.grow(needed);
                layers.offer(layer, kept, &mut self.lent())
            }
            other => other,
        }
    }

    /// Room for this much and a quarter more, so that layers that grow slowly seldom have to be offered twice.
    fn grow(&mut self, needed: Counts) {
        let more = |count: u64| (count + count / 4) as usize;
        let (vertices, indices) = (more(needed.vertices), more(needed.indices));
        lengthen(&mut self.positions, 3 * vertices);
        lengthen(&mut self.normals, 3 * vertices);
        lengthen(&mut self.cells, 3 * vertices);
        lengthen(&mut self.strides, vertices);
        lengthen(&mut self.crossings, vertices);
        lengthen(&mut self.indices, indices);
    }

    fn lent(&mut self) -> LayerLent<'_> {
        LayerLent {
            positions: &mut self.positions,
            normals: &mut self.normals,
            cells: &mut self.cells,
            strides: &mut self.strides,
            crossings: &mut self.crossings,
            indices: &mut self.indices,
        }
    }

    fn lists(&self, counts: Counts) -> Lists<'_> {
        let (vertices, indices) = (counts.vertices as usize, counts.indices as usize);
        Lists {
            positions: &self.positions[..3 * vertices],
            normals: &self.normals[..3 * vertices],
            indices: &self.indices[..indices],
            crossings: Some(&self.crossings[..vertices]),
        }
    }
}

/// Makes a list at least this long; what it held is not needed any more.
fn lengthen<T: Clone + Default>(list: &mut Vec<T>, length: usize) {
    if list.len() < length {
        // The old list goes before the new one comes.
        *list = Vec::new();
        *list = vec![T::default(); length];
    }
}

#[cfg(test)]
mod tests {
    use super::*;
    use crate::grid::Stored;
    use crate::numbers::{Header, Numbers};
    use bed::{MaxPlane, SurfaceNetsBuffer};
    use std::fs;
    use std::path::PathBuf;

    const DIMS: [u32; 3] = [6, 5, 7];
    const BLOCK: Block = Block {
        min: [0; 3],
        max: [5, 4, 6],
        max_plane: MaxPlane::ALL,
    };

    /// A new folder for a test; it is gone with this.
    struct Folder(PathBuf);

    impl Folder {
        fn of(test: &str) -> Self {
            let name = format!("bed-{test}-{}", std::process::id());
            let folder = std::env::temp_dir().join(name);
            fs::create_dir_all(&folder).unwrap();
            Self(folder)
        }

        fn put(&self, distances: &[f32]) -> PathBuf {
            let path = self.0.join("grid");
            let bytes: Vec<u8> = distances.iter().flat_map(|one| one.to_le_bytes()).collect();
            fs::write(&path, bytes).unwrap();
            path
        }
    }

    impl Drop for Folder {
        fn drop(&mut self) {
            let _ = fs::remove_dir_all(&self.0);
        }
    }

    fn some_grid() -> Vec<f32> {
        let numbers = (0..6 * 5 * 7).map(|number: i32| number * 37 % 23 - 9);
        numbers.map(|number| number as f32 + 0.5).collect()
    }

    fn stored(path: &Path) -> Stored {
        let header = Header {
            dims: DIMS,
            numbers: Numbers::Float32,
        };
        let source = grid::open(path, Some(header), false).unwrap();
        source.stored().unwrap()
    }

    fn work(grid: &Stored) -> Work<'_> {
        Work {
            grid,
            block: BLOCK,
            place: "grid".into(),
            report: &|_| (),
        }
    }

    fn whole(grid: &[f32]) -> SurfaceNetsBuffer {
        let mut buffer = SurfaceNetsBuffer::default();
        let Block {
            min,
            max,
            max_plane,
        } = BLOCK;
        bed::surface_nets(grid, DIMS, min, max, max_plane, &mut buffer).unwrap();
        buffer
    }

    #[test]
    fn the_whole_call_s_file_and_volume() {
        let folder = Folder::of("same");
        let grid = some_grid();
        let stored = stored(&folder.put(&grid));
        let work = work(&stored);
        let name = folder.0.join("mesh");
        let mut volume = crate::weighing::InLayers::default();
        let begun = work.vertices(&name).unwrap();
        let beside = work.triangles(begun, |taken| {
            volume.add(&taken.lists);
            Ok(())
        });
        crate::kept::rename(vec![beside.unwrap()]).unwrap();
        let buffer = whole(&grid);
        let lists = crate::mesh::of_call(&buffer);
        assert!(lists.triangles() > 100);
        assert!(fs::read(&name).unwrap() == lists.file(&name).unwrap());
        assert_eq!(volume.weight, crate::weighing::of(&lists));
    }

    /// Between the two times the file becomes another: nothing is written, and nothing is left.
    #[test]
    fn a_file_that_changes() {
        let folder = Folder::of("changes");
        let grid = some_grid();
        let name = folder.0.join("mesh");
        fs::write(&name, "old").unwrap();
        let fewer = vec![1.0; grid.len()];
        let more: Vec<f32> = grid.iter().map(|one| one - 4.0).collect();
        // The same signs, so that counts and triangles are the same.
        let moved: Vec<f32> = grid.iter().map(|one| one * (one.abs() + 1.0)).collect();
        let mut one_number = grid.clone();
        one_number[0] *= 2.0;
        let short = &grid[..grid.len() - 1];
        assert_eq!(whole(&moved).indices.len(), whole(&grid).indices.len());
        for (number, other) in [&fewer[..], &more, &moved, &one_number, short]
            .iter()
            .enumerate()
        {
            let path = folder.put(&grid);
            let stored = stored(&path);
            let work = work(&stored);
            let begun = work.vertices(&name).unwrap();
            folder.put(other);
            let failure = work.triangles(begun, |_| Ok(())).err().unwrap();
            let words = failure.to_string();
            assert!(
                words.contains("changed while it was read"),
                "{number}: {words}"
            );
            assert_eq!(failure.status(), 2);
            assert_eq!(fs::read(&name).unwrap(), b"old");
            assert_eq!(fs::read_dir(&folder.0).unwrap().count(), 2);
        }
    }
}
