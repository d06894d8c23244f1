//! The published Rust over whole numbers: it takes any distance that says its float and whether it is negative, so
//! that it meshes the same grid with no conversion of ours. The library's call over that grid must make the same.

use crate::calls::accepted;
use crate::check::WholeCall;
use crate::numbers::numbers;
use crate::random::Random;
use crate::width::Whole;
use crate::wrapper::bits;
use bed::SurfaceNetsBuffer;
use ndshape::RuntimeShape;

const CALLS: u32 = 20_000;

/// A whole number as the Rust's distance.
#[derive(Clone, Copy)]
struct Own<D>(D);

impl<D: Whole> From<Own<D>> for f32 {
    fn from(number: Own<D>) -> Self {
        number.0.into()
    }
}

impl<D: Whole> original::SignedDistance for Own<D> {
    fn is_negative(self) -> bool {
        self.0 < D::ZERO
    }
}

/// Makes all calls, without max plane, and gives how many differ.
pub fn run<D: Whole>(random: &mut Random) -> u64 {
    let (mut differing, mut vertices) = (0, 0);
    for _ in 0..CALLS {
        let field = random.pick(&numbers::<D>());
        let WholeCall { floats: call, grid } = WholeCall::<D>::of(accepted(random, &field, 6));
        let own: Vec<Own<D>> = grid.iter().map(|&number| Own(number)).collect();
        let mut published = original::SurfaceNetsBuffer::default();
        let shape = RuntimeShape::new(call.dims);
        original::surface_nets(&own, &shape, call.min, call.max, &mut published);
        let mut proved = SurfaceNetsBuffer::default();
        let none = bed::MaxPlane::NONE;
        let answer = D::WRAPPED(&grid, call.dims, call.min, call.max, none, &mut proved);
        differing += u64::from(answer.is_err() || !same(&proved, &published));
        vertices += proved.positions.len();
    }
    println!("the Rust over the whole numbers themselves\n    accepted {CALLS}, V {vertices}");
    if differing > 0 {
        println!("    DIFFERENT: {differing} calls");
    }
    differing
}

/// Equal to the last bit, but for the map, which the Rust leaves otherwise (document 02, request 7).
fn same(proved: &SurfaceNetsBuffer, published: &original::SurfaceNetsBuffer) -> bool {
    bits(&proved.positions) == bits(&published.positions)
        && bits(&proved.normals) == bits(&published.normals)
        && proved.indices == published.indices
        && proved.surface_points == published.surface_points
        && proved.surface_strides == published.surface_strides
}
