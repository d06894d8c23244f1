//! Those who are timed: the proved library over lent buffers, builds of the original, and a plain loop that
//! moves the same numbers and does nothing with them.

use bed::{surface_nets_lent, Counts, Kept, LayerLent, Layers, Lent, MaxPlane, Refusal};
use std::ffi::{c_char, c_int, c_void, CString};
use std::hint::black_box;

/// How many points a grid has along each axis.
pub type Dims = [u32; 3];

/// One who meshes a whole grid into warm memory.
pub trait Runner {
    fn mesh(&mut self, grid: &[f32], dims: Dims);
    /// The last mesh's indices, to see that all made the same; none of one who makes no mesh.
    fn indices(&self) -> Option<Vec<u32>>;
}

/// The crate's call over one kind of distance.
pub type Mesh<D> =
    fn(&[D], [u32; 3], [u32; 3], [u32; 3], MaxPlane, &mut Lent) -> Result<Counts, Refusal>;

/// The proved library, with exactly the room that the grid at hand needs.
#[derive(Clone, Default)]
pub struct Library {
    floats: [Vec<f32>; 2],
    words: [Vec<u32>; 4],
    crossings: Vec<u8>,
}

impl Library {
    /// Lends room for a grid: asks how much is needed, then makes it.
    pub fn make_room(&mut self, grid: &[f32], dims: Dims) {
        self.words[2].resize(grid.len(), 0);
        self.lend(&Counts::default());
        let needed = match self.call(grid, dims) {
            Err(Refusal::VerticesShort(needed)) => needed,
            other => panic!("a lack of room was awaited, not {other:?}"),
        };
        self.lend(&needed);
    }

    fn lend(&mut self, room: &Counts) {
        let vertices = room.vertices as usize;
        self.floats
            .iter_mut()
            .for_each(|list| list.resize(3 * vertices, 0.0));
        self.words[0].resize(3 * vertices, 0);
        self.words[1].resize(vertices, 0);
        self.crossings.resize(vertices, 0);
        self.words[3].resize(room.indices as usize, 0);
    }

    fn call(&mut self, grid: &[f32], dims: Dims) -> Result<Counts, Refusal> {
        self.call_over(surface_nets_lent, grid, dims)
    }

    fn call_over<D>(&mut self, mesh: Mesh<D>, grid: &[D], dims: Dims) -> Result<Counts, Refusal> {
        let [positions, normals] = &mut self.floats;
        let [cells, strides, stride_to_index, indices] = &mut self.words;
        let mut lent = Lent {
            positions,
            normals,
            cells,
            strides,
            crossings: &mut self.crossings,
            stride_to_index,
            indices,
        };
        let max = dims.map(|side| side - 1);
        mesh(grid, dims, [0; 3], max, MaxPlane::NONE, &mut lent)
    }
}

impl Runner for Library {
    fn mesh(&mut self, grid: &[f32], dims: Dims) {
        self.call(grid, dims).expect("there is room");
    }

    fn indices(&self) -> Option<Vec<u32>> {
        Some(self.words[3].clone())
    }
}

/// The proved library over whole numbers (document 02, request 5): a grid of its own, of the same numbers as the floats
/// that the others are given.
pub struct Whole<D> {
    room: Library,
    grid: Vec<D>,
    mesh: Mesh<D>,
}

impl<D> Whole<D> {
    /// Over lists of its own, as long as those that are lent to the library.
    pub fn beside(library: &Library, grid: Vec<D>, mesh: Mesh<D>) -> Self {
        Self {
            room: library.clone(),
            grid,
            mesh,
        }
    }
}

impl<D> Runner for Whole<D> {
    fn mesh(&mut self, _: &[f32], dims: Dims) {
        let made = self.room.call_over(self.mesh, &self.grid, dims);
        made.expect("there is room");
    }

    fn indices(&self) -> Option<Vec<u32>> {
        self.room.indices()
    }
}

/// The proved library fed layer by layer (document 02, request 1): the same mesh, into the same lists, a part of them a layer.
pub struct ByLayers {
    room: Library,
    distances: Vec<f32>,
    map: Vec<u32>,
    positions: Vec<f32>,
}

impl ByLayers {
    /// Over lists of its own, as long as those that are lent to the library.
    pub fn beside(library: &Library, dims: Dims) -> Self {
        let plane = (dims[0] * dims[1]) as usize;
        Self {
            room: library.clone(),
            distances: vec![0.0; 2 * plane],
            map: vec![0; 2 * plane],
            positions: vec![0.0; 3 * plane],
        }
    }
}

impl Runner for ByLayers {
    fn mesh(&mut self, grid: &[f32], dims: Dims) {
        let mut kept = Kept {
            distances: &mut self.distances,
            map: &mut self.map,
            positions: &mut self.positions,
        };
        let max = dims.map(|side| side - 1);
        let mut state = Layers::start(dims, [0; 3], max, MaxPlane::NONE, &kept)
            .expect("the memory is long enough");
        let [positions, normals] = &mut self.room.floats;
        let [cells, strides, _, indices] = &mut self.room.words;
        let crossings = &mut self.room.crossings;
        let (mut v, mut i) = (0, 0);
        for layer in grid.chunks((dims[0] * dims[1]) as usize) {
            let mut lent = LayerLent {
                positions: &mut positions[3 * v..],
                normals: &mut normals[3 * v..],
                cells: &mut cells[3 * v..],
                strides: &mut strides[v..],
                crossings: &mut crossings[v..],
                indices: &mut indices[i..],
            };
            let made = state
                .offer(layer, &mut kept, &mut lent)
                .expect("there is room");
            v += made.vertices as usize;
            i += made.indices as usize;
        }
    }

    fn indices(&self) -> Option<Vec<u32>> {
        self.room.indices()
    }
}

/// What no mesher can be quicker than: each distance read once, each map entry and each number of the
/// mesh written once, in lists as long as the library's.
pub struct PlainLoop(Library);

impl PlainLoop {
    /// Over lists of its own, as long as those that are lent to the library.
    pub fn beside(library: &Library) -> Self {
        Self(library.clone())
    }
}

impl Runner for PlainLoop {
    fn mesh(&mut self, grid: &[f32], _: Dims) {
        let [cells, strides, map, indices] = &mut self.0.words;
        for (entry, distance) in map.iter_mut().zip(grid) {
            *entry = u32::from(*distance < 0.0);
        }
        for list in &mut self.0.floats {
            list.fill(black_box(0.5));
        }
        for list in [cells, strides, indices] {
            list.fill(black_box(7));
        }
        self.0.crossings.fill(black_box(7));
        black_box(&mut self.0);
    }

    fn indices(&self) -> Option<Vec<u32>> {
        None
    }
}

type MeshGrid = unsafe extern "C" fn(*const f32, *const u32, bool);
type Indices = unsafe extern "C" fn(*mut *const u32) -> usize;

/// A build of the original, with dimensions known to the compiler or not.
#[derive(Clone, Copy)]
pub struct Original {
    mesh_grid: MeshGrid,
    indices: Indices,
    shape_is_constant: bool,
}

impl Original {
    /// Loads a build from its shared library.
    pub fn load(path: &str) -> Self {
        let library = open(path);
        // SAFETY: the shared library is the package beside this one, whose two functions have these types.
        unsafe {
            Self {
                mesh_grid: std::mem::transmute::<*mut c_void, MeshGrid>(find(
                    library,
                    "original_mesh",
                )),
                indices: std::mem::transmute::<*mut c_void, Indices>(find(
                    library,
                    "original_indices",
                )),
                shape_is_constant: false,
            }
        }
    }

    pub fn with_constant_shape(self) -> Self {
        Self {
            shape_is_constant: true,
            ..self
        }
    }
}

impl Runner for Original {
    fn mesh(&mut self, grid: &[f32], dims: Dims) {
        assert_eq!(
            grid.len(),
            dims.iter().map(|&side| side as usize).product::<usize>()
        );
        // SAFETY: the grid has as many floats as the dimensions say.
        unsafe { (self.mesh_grid)(grid.as_ptr(), dims.as_ptr(), self.shape_is_constant) };
    }

    fn indices(&self) -> Option<Vec<u32>> {
        let mut first = std::ptr::null();
        // SAFETY: the list stays as it is until the next mesh, and is copied before.
        let mesh = unsafe {
            let length = (self.indices)(&mut first);
            std::slice::from_raw_parts(first, length)
        };
        Some(mesh.to_vec())
    }
}

extern "C" {
    fn dlopen(path: *const c_char, mode: c_int) -> *mut c_void;
    fn dlsym(library: *mut c_void, name: *const c_char) -> *mut c_void;
}

fn open(path: &str) -> *mut c_void {
    const RESOLVE_NOW: c_int = 2;
    let name = CString::new(path).expect("a path has no zero byte");
    // SAFETY: the name ends with a zero byte; the library's own start-up code is trusted.
    let library = unsafe { dlopen(name.as_ptr(), RESOLVE_NOW) };
    assert!(!library.is_null(), "{path} cannot be loaded");
    library
}

fn find(library: *mut c_void, name: &str) -> *mut c_void {
    let text = CString::new(name).expect("a name has no zero byte");
    // SAFETY: the library was opened and is never closed; the name ends with a zero byte.
    let function = unsafe { dlsym(library, text.as_ptr()) };
    assert!(!function.is_null(), "{name} is not in the library");
    function
}
