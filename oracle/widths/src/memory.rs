//! Lent memory for calls over one kind of distance: the grid and each list lie against a page that nobody may touch,
//! at addresses that are odd where lengths are, with marks on their other side.

use crate::fenced::Fenced;
use crate::width::Width;
use bed::raw::BedBox;
use oracle::call::{Call, Room, BUFFERS};
use oracle::enclosed::Enclosed;
use oracle::expected::Contents;
use oracle::model::Verdict;

/// What a list may be longer than the largest call needs.
const SPARE: usize = 128;

pub struct Memory<D> {
    grid: Fenced<D>,
    positions: Fenced<u32>,
    normals: Fenced<u32>,
    cells: Fenced<u32>,
    strides: Fenced<u32>,
    crossings: Fenced<u8>,
    map: Fenced<u32>,
    indices: Fenced<u32>,
}

impl<D: Width> Memory<D> {
    /// Room for calls with dimensions to `longest`.
    pub fn new(longest: u32) -> Self {
        let points = (longest as usize).pow(3) + SPARE;
        let most = Room::exact(points as u64, 18 * points as u64, points);
        Self {
            grid: Fenced::new(points),
            positions: Fenced::new(most.positions),
            normals: Fenced::new(most.normals),
            cells: Fenced::new(most.cells),
            strides: Fenced::new(most.strides),
            crossings: Fenced::new(most.crossings),
            map: Fenced::new(most.map),
            indices: Fenced::new(most.indices),
        }
    }

    /// Holds a grid and what the lists hold before a call, against the upper pages or the lower ones.
    pub fn hold(&mut self, grid: &[D], contents: &Contents, upper: bool) {
        self.grid.hold(grid, upper);
        self.positions.hold(&contents.positions, upper);
        self.normals.hold(&contents.normals, upper);
        self.cells.hold(&contents.cells, upper);
        self.strides.hold(&contents.strides, upper);
        self.crossings.hold(&bytes(&contents.crossings), upper);
        self.map.hold(&contents.map, upper);
        self.indices.hold(&contents.indices, upper);
    }

    /// Meshes what is held; of the call its grid is not looked at. The counts begin as marks, so that a call that
    /// leaves them shows.
    pub fn mesh(&mut self, call: &Call) -> Verdict {
        let (dims, min, max) = (call.dims, call.min, call.max);
        let block = BedBox {
            max_plane: call.max_plane.0.map(u32::from),
            ..BedBox::with(dims, min, max)
        };
        let (mut vertices, mut indices) = (u64::MAX - 5, u64::MAX - 7);
        let grid = self.grid.lent();
        let lent = [
            self.positions.lent(),
            self.normals.lent(),
            self.cells.lent(),
            self.strides.lent(),
            self.map.lent(),
            self.indices.lent(),
        ];
        let [positions, normals, cells, strides, map, triangles] = lent;
        let crossings = self.crossings.lent();
        // SAFETY: each pointer and length come from one slice, and the slices stand apart; u32 and f32 have the
        // same size and alignment and no invalid bit pattern.
        let answer = unsafe {
            D::SURFACE_NETS(
                grid.as_ptr(),
                grid.len(),
                &block,
                positions.as_mut_ptr().cast(),
                positions.len(),
                normals.as_mut_ptr().cast(),
                normals.len(),
                cells.as_mut_ptr(),
                cells.len(),
                strides.as_mut_ptr(),
                strides.len(),
                crossings.as_mut_ptr(),
                crossings.len(),
                map.as_mut_ptr(),
                map.len(),
                triangles.as_mut_ptr(),
                triangles.len(),
                &mut vertices,
                &mut indices,
            )
        };
        Verdict {
            answer,
            vertices,
            indices,
        }
    }

    /// Tests the grid that is held for holes, with a yes or a no standing there before.
    pub fn is_enclosed(&mut self, call: &Call, before: bool) -> Enclosed {
        let (dims, min, max) = (call.dims, call.min, call.max);
        let mut enclosed = before;
        let grid = self.grid.lent();
        // SAFETY: pointer and length of a slice, and a variable of its own.
        let answer = unsafe {
            D::IS_ENCLOSED(
                grid.as_ptr(),
                grid.len(),
                &BedBox::with(dims, min, max),
                &mut enclosed,
            )
        };
        Enclosed { answer, enclosed }
    }

    /// What the lists hold; the crossings a word each.
    pub fn contents(&mut self) -> Contents {
        Contents {
            positions: self.positions.lent().to_vec(),
            normals: self.normals.lent().to_vec(),
            cells: self.cells.lent().to_vec(),
            strides: self.strides.lent().to_vec(),
            crossings: words(self.crossings.lent()),
            map: self.map.lent().to_vec(),
            indices: self.indices.lent().to_vec(),
        }
    }

    /// Whether the grid is as it was and every mark beside it and the lists stands.
    pub fn kept(&mut self, grid: &[D]) -> bool {
        let beside = [
            &self.positions,
            &self.normals,
            &self.cells,
            &self.strides,
            &self.map,
            &self.indices,
        ];
        beside.into_iter().all(Fenced::marks_kept)
            && self.crossings.marks_kept()
            && self.grid.marks_kept()
            && self.grid.lent() == grid
    }
}

fn bytes(words: &[u32]) -> Vec<u8> {
    words.iter().map(|&word| word as u8).collect()
}

fn words(bytes: &[u8]) -> Vec<u32> {
    bytes.iter().map(|&byte| byte.into()).collect()
}

/// The first number that is not as wanted, in words.
pub fn difference(is: &Contents, wanted: &Contents) -> Option<String> {
    let lists = is
        .by_ref()
        .in_order()
        .into_iter()
        .zip(wanted.by_ref().in_order());
    BUFFERS
        .into_iter()
        .zip(lists)
        .find_map(|(name, (is, wanted))| {
            let mut places = is.iter().zip(wanted).enumerate();
            let (place, (is, wanted)) = places.find(|(_, (is, wanted))| is != wanted)?;
            Some(format!("{name}[{place}] is {is:#010x}, not {wanted:#010x}"))
        })
}
