//! What a survey tells of the bed itself, the mesh files apart: the bed closed by the library, meshed and weighed; the levels of its columns; and, counted here by
//! code that shares nothing with the library, what the distances alone say of the volume.

use crate::budget::InMemory;
use crate::columns::{self, Columns};
use crate::counting::{Counting, Counts, Standing};
use crate::distances::Distances;
use crate::enclosing::Enclosing;
use crate::failure::Failure;
use crate::grid::{Grid, Layer};
use crate::layered::Work;
use crate::layers_of::{boxed, sizes, Closed, Layered};
use crate::levelled::Levels;
use crate::mesh::{self, Lists};
use crate::numbers::{Header, Numbers};
use crate::said::{NO_VOLUME, WRONG};
use crate::weighing;
use bed::{
    Block, CellCounts, LevelRefusal, MaxPlane, SurfaceNetsBuffer, TallyRefusal, WeighError, Weight,
};

/// What the distances of a box say.
pub struct Looked {
    pub counts: Counts,
    pub columns: columns::Found,
    pub levels: Levels,
    /// How far below zero the deepest point of the box lies.
    pub deepest: f32,
    /// The points of the box.
    pub points: u64,
    /// Points below zero that are none of the box's.
    pub outside: u64,
    /// Whether the levels were told layer by layer.
    pub by_layers: bool,
}

/// A number and words of the library.
pub type Refused = (u32, String);

/// The closed bed.
pub struct ClosedBed {
    pub wall: f32,
    pub vertices: u64,
    pub triangles: u64,
    pub enclosed: bool,
    pub weight: Result<Weight, WeighError>,
    /// The library's own counts of its cells, which bound the volume.
    pub cells: CellCounts,
    /// How many of its vertices lie beyond the outermost points of the box.
    pub beyond: u64,
    /// Whether it was closed, meshed and weighed layer by layer.
    pub by_layers: bool,
}

/// What a survey tells of the bed.
pub struct Measured {
    pub looked: Looked,
    /// Or why the library does not close it; nothing where that was not asked.
    pub closed: Option<Result<ClosedBed, Refused>>,
}

impl Measured {
    /// Six times the volume, where there is one to tell.
    pub fn volume(&self) -> Option<i128> {
        let closed = self.closed.as_ref()?.as_ref().ok()?;
        let weight = closed.weight.ok()?;
        closed.enclosed.then_some(weight.sum)
    }

    /// What the library counted of the closed bed.
    pub fn cells(&self) -> Option<CellCounts> {
        Some(self.closed.as_ref()?.as_ref().ok()?.cells)
    }

    /// Whether the library's counts are those of this command, which share no code.
    pub fn counts_agree(&self) -> Option<bool> {
        self.cells().map(|cells| self.looked.counts.agree(&cells))
    }

    /// How the volume stands to what was counted: outside where the two countings differ too.
    pub fn standing(&self) -> Option<Standing> {
        let sum = self.volume()?;
        if self.counts_agree() != Some(true) {
            return Some(Standing::Outside);
        }
        Some(self.looked.counts.standing(sum))
    }

    /// The volume, where nothing that was counted contradicts it.
    pub fn trusted(&self) -> Option<i128> {
        let outside = self.standing() == Some(Standing::Outside);
        self.volume().filter(|_| !outside)
    }

    /// The exit status of a survey that found this.
    pub fn status(&self) -> u8 {
        match self.standing() {
            None => NO_VOLUME,
            Some(Standing::Outside) => WRONG,
            Some(Standing::Sharp | Standing::Within) => 0,
        }
    }
}

/// How many vertices lie beyond the outermost points of a box of these sizes, which the closed grid has from 1 to its size on each axis.
fn beyond(lists: &Lists, sizes: [u32; 3]) -> u64 {
    let outside = |position: &&[f32]| {
        let beyond =
            |(&place, size): (&f32, u32)| place < 1.0 || f64::from(place) > f64::from(size);
        position.iter().zip(sizes).any(beyond)
    };
    lists.positions.chunks_exact(3).filter(outside).count() as u64
}

fn told(refusal: LevelRefusal, place: &str) -> Failure {
    Failure::refused(place, refusal.number(), refusal)
}

/// Looks at every layer of a grid; `levels` are those of the box where one call told them.
pub fn look(
    grid: &dyn Layered,
    whole: &Block,
    levels: Option<Vec<f32>>,
    place: &str,
    report: &dyn Fn(usize),
) -> Result<Looked, Failure> {
    let dims = grid.header().dims;
    let [across, along, up] = sizes(whole).map(|size| size as usize);
    let by_layers = levels.is_none();
    let mut levels = levels.unwrap_or_else(|| vec![0.0; across * along]);
    let mut counting = Counting::of(across, along);
    let mut columns = Columns::of(across, across * along);
    let (mut layer, mut below) = (Layer::default(), Vec::new());
    let mut own = Vec::new();
    let (mut all, mut deepest) = (0, 0.0);
    for z in 0..dims[2] {
        let inside = (whole.min[2]..=whole.max[2]).contains(&z);
        grid.read_layer(z, &mut layer)?;
        all += layer.distances.iter().filter(|&&one| one < 0.0).count() as u64;
        if inside {
            if by_layers {
                let (min, max) = (whole.min, whole.max);
                bed::levels_layer(&below, &layer.distances, dims, min, max, z, &mut levels)
                    .map_err(|refusal| told(refusal, place))?;
                below.clear();
                below.extend(&layer.distances);
            }
            boxed(&layer.distances, dims, whole, &mut own);
            deepest = bed::deepest(deepest, &own);
            counting.add(&own);
            columns.add(&own);
        }
        report(0);
    }
    let counts = counting.finished();
    Ok(Looked {
        counts,
        columns: columns.found(),
        levels: Levels {
            whole: *whole,
            columns: levels,
        },
        deepest,
        points: (across * along * up) as u64,
        outside: all - counts.points,
        by_layers,
    })
}

/// The whole of the closed grid.
pub fn closed_whole(whole: &Block) -> Block {
    Block {
        min: [0; 3],
        max: sizes(whole).map(|size| size.saturating_add(2)),
        max_plane: MaxPlane::NONE,
    }
}

/// Whether the closed grid of a box is one that the library takes, asked of one layer of wall; else its refusal.
pub fn closable(whole: &Block, wall: f32) -> Result<(), Refused> {
    let sizes = sizes(whole);
    match bed::close_layer::<f32>(&[], sizes, 0, wall, &mut []) {
        // The room is asked last: all else is as it should be.
        Ok(()) | Err(bed::CloseRefusal::Room) => Ok(()),
        Err(refusal) => Err((refusal.number(), refusal.to_string())),
    }
}

/// The box closed, in memory.
pub fn closed_grid(grid: &Grid, whole: &Block, wall: f32) -> Result<Grid, Refused> {
    let dims = grid.header.dims;
    let everything = whole.min == [0; 3] && whole.max == grid.header.highest();
    let closed = if everything {
        grid.distances.close(dims, wall)
    } else {
        let own = grid.distances.boxed(dims, whole);
        own.close(sizes(whole), wall)
    };
    let (distances, dims) = closed.map_err(|refusal| (refusal.number(), refusal.to_string()))?;
    Ok(Grid {
        header: Header {
            dims,
            numbers: Numbers::Float32,
        },
        distances: Distances::Float32(distances),
        digest: None,
    })
}

/// What a closed grid takes, beside what else is in memory.
pub fn closed_budget(whole: &Block) -> InMemory {
    InMemory {
        count: sizes(whole)
            .map(|size| u128::from(size) + 3)
            .iter()
            .product(),
        numbers: Numbers::Float32,
        floats: true,
        viewed: false,
    }
}

/// Meshes a closed grid as one call, and weighs it as one.
pub fn weigh_in_memory(closed: &Grid, wall: f32) -> Result<ClosedBed, Failure> {
    let dims = closed.header.dims;
    let max = closed.header.highest();
    let refused =
        |refusal: bed::Refusal| Failure::refused("the closed bed", refusal.number(), refusal);
    let enclosed = closed
        .distances
        .is_enclosed(dims, [0; 3], max)
        .map_err(refused)?;
    let mut buffer = SurfaceNetsBuffer::default();
    let whole = Block {
        max,
        ..Block::default()
    };
    closed
        .distances
        .mesh(dims, &whole, &mut buffer)
        .map_err(refused)?;
    let lists = mesh::of_call(&buffer);
    let cells = closed.distances.tally(dims, &whole).map_err(uncounted)?;
    let sizes = dims.map(|size| size - 3);
    Ok(ClosedBed {
        wall,
        vertices: lists.vertices() as u64,
        triangles: lists.triangles() as u64,
        enclosed,
        weight: weighing::of(&lists),
        cells,
        beyond: beyond(&lists, sizes),
        by_layers: false,
    })
}

fn uncounted(refusal: TallyRefusal) -> Failure {
    Failure::refused("the closed bed", refusal.number(), refusal)
}

/// The same layer by layer.
pub fn weigh_by_layers(closed: &Closed, report: &dyn Fn(usize)) -> Result<ClosedBed, Failure> {
    let work = Work {
        grid: closed,
        block: closed_whole(&closed.whole),
        place: "the closed bed".into(),
        report,
    };
    let mut weight = weighing::InLayers::default();
    let mut enclosing = Enclosing::of(closed.header().dims, work.block);
    let (sizes, mut outside) = (sizes(&closed.whole), 0);
    let (mut cells, mut below) = (CellCounts::default(), Vec::new());
    let counts = work.walk(|taken| {
        weight.add(&taken.lists);
        outside += beyond(&taken.lists, sizes);
        report(taken.lists.vertices());
        let Block {
            min,
            max,
            max_plane,
        } = work.block;
        let dims = closed.header().dims;
        bed::tally_layer(
            &below,
            taken.distances,
            dims,
            min,
            max,
            max_plane,
            taken.z,
            &mut cells,
        )
        .map_err(uncounted)?;
        below.clear();
        below.extend(taken.distances);
        enclosing
            .add(taken.z, taken.distances)
            .map_err(|refusal| work.refused(refusal.number(), refusal))
    })?;
    Ok(ClosedBed {
        wall: closed.wall,
        vertices: counts.vertices,
        triangles: counts.indices / 3,
        enclosed: enclosing.enclosed,
        weight: weight.weight,
        cells,
        beyond: outside,
        by_layers: true,
    })
}

#[cfg(test)]
pub mod tests {
    use super::*;

    const WHOLE: Block = Block {
        min: [0; 3],
        max: [2, 2, 3],
        max_plane: MaxPlane::NONE,
    };

    /// A full tank of 3 x 3 x 4 points whose closed bed weighs so many sixths of a cubed step.
    pub fn full_tank(sixths: i128, enclosed: bool) -> Measured {
        let grid = full_grid();
        let looked = look(&grid, &WHOLE, None, "grid", &|_| ()).unwrap();
        let weight = Ok(Weight {
            sum: sixths * 256 * 256 * 256,
            shadow: 0,
        });
        let closed = ClosedBed {
            wall: 1.0,
            vertices: 0,
            triangles: 0,
            enclosed,
            weight,
            cells: CellCounts {
                whole: 12,
                vertices: 68,
                indices: 6 * 66,
            },
            beyond: 0,
            by_layers: false,
        };
        Measured {
            looked,
            closed: Some(Ok(closed)),
        }
    }

    fn full_grid() -> Grid {
        Grid {
            header: Header {
                dims: [3, 3, 4],
                numbers: Numbers::Int8,
            },
            distances: Distances::Int8(vec![-1; 36]),
            digest: None,
        }
    }

    /// Twelve cubed steps; 66 edges change sign, and 68 cells around it have some corner below zero.
    #[test]
    fn statuses() {
        assert_eq!(full_tank(6 * 12, true).status(), 0);
        assert_eq!(full_tank(6 * 13, true).status(), 0);
        assert_eq!(full_tank(6 * 12 - 66, true).status(), 0);
        assert_eq!(full_tank(6 * 12 - 67, true).status(), WRONG);
        assert_eq!(full_tank(6 * 12 - 67, true).trusted(), None);
        assert!(full_tank(6 * 12 - 66, true).trusted().is_some());
        assert_eq!(full_tank(6 * 80 + 66, true).status(), 0);
        assert_eq!(full_tank(6 * 80 + 67, true).status(), WRONG);
        assert_eq!(full_tank(6 * 12, false).status(), NO_VOLUME);
        let refused = Measured {
            closed: Some(Err((73, String::new()))),
            ..full_tank(0, true)
        };
        assert_eq!(refused.status(), NO_VOLUME);
        // a volume that lies well is not trusted where the two countings differ
        for spoil in [
            |cells: &mut CellCounts| cells.whole += 1,
            |cells: &mut CellCounts| cells.vertices -= 1,
            |cells: &mut CellCounts| cells.indices += 6,
        ] {
            let mut odd = full_tank(6 * 12, true);
            assert_eq!(odd.counts_agree(), Some(true));
            if let Some(Ok(closed)) = &mut odd.closed {
                spoil(&mut closed.cells);
            }
            assert_eq!(odd.counts_agree(), Some(false));
            assert_eq!((odd.status(), odd.trusted()), (WRONG, None));
        }
    }

    #[test]
    fn both_ways_weigh_the_same() {
        let grid = full_grid();
        let wall = bed::wall_for(1.0);
        let closed = closed_grid(&grid, &WHOLE, wall).unwrap();
        let one = weigh_in_memory(&closed, wall).unwrap();
        let source = Closed {
            open: &grid,
            whole: WHOLE,
            wall,
        };
        let other = weigh_by_layers(&source, &|_| ()).unwrap();
        assert_eq!(one.weight, other.weight);
        assert_eq!(one.cells, other.cells);
        assert_eq!((one.cells.whole, one.cells.vertices), (12, 68));
        assert_eq!(one.weight.unwrap().sum, 6 * 12 * 256 * 256 * 256);
        assert!(one.enclosed && other.enclosed);
        assert_eq!((one.beyond, other.beyond), (0, 0));
        // a wall that is not far lets the border's vertices out
        let near = closed_grid(&grid, &WHOLE, 1.0).unwrap();
        assert!(weigh_in_memory(&near, 1.0).unwrap().beyond > 0);
        assert_eq!(
            (one.vertices, one.triangles),
            (other.vertices, other.triangles)
        );
        let part = Block {
            min: [1, 0, 2],
            max: [2, 2, 3],
            ..WHOLE
        };
        let closed = closed_grid(&grid, &part, wall).unwrap();
        let weight = weigh_in_memory(&closed, wall).unwrap().weight;
        assert_eq!(weight.unwrap().sum, 6 * 2 * 256 * 256 * 256);
        let looked = look(&grid, &part, None, "grid", &|_| ()).unwrap();
        assert_eq!((looked.counts.points, looked.outside), (12, 24));
    }
}
