//! The Rust wrapper over whole numbers against the wrapper over floats: one buffer on each side, used again for every
//! call.

use crate::calls::accepted;
use crate::check::WholeCall;
use crate::numbers::numbers;
use crate::random::Random;
use crate::width::Whole;
use bed::{MaxPlane, SurfaceNetsBuffer};

const CALLS: u32 = 10_000;

/// Makes all calls and gives how many differ.
pub fn run<D: Whole>(random: &mut Random) -> u64 {
    let (mut whole, mut floats) = <(SurfaceNetsBuffer, SurfaceNetsBuffer)>::default();
    let (mut differing, mut vertices) = (0, 0);
    for _ in 0..CALLS {
        let field = random.pick(&numbers::<D>());
        let call = WholeCall::<D>::of(accepted(random, &field, 6));
        let (dims, min, max) = (call.floats.dims, call.floats.min, call.floats.max);
        let [x, y, z] = call.floats.max_plane.0;
        let flags = MaxPlane { x, y, z };
        let one = D::WRAPPED(&call.grid, dims, min, max, flags, &mut whole);
        let other = bed::surface_nets(&call.floats.grid, dims, min, max, flags, &mut floats);
        let agree = one == Ok(()) && other == Ok(()) && same(&whole, &floats);
        differing += u64::from(!agree);
        vertices += whole.positions.len();
    }
    println!("the Rust wrapper, one buffer used again\n    accepted {CALLS}, V {vertices}");
    if differing > 0 {
        println!("    DIFFERENT: {differing} calls");
    }
    differing
}

/// Equal to the last bit: a zero's sign counts.
fn same(one: &SurfaceNetsBuffer, other: &SurfaceNetsBuffer) -> bool {
    one == other
        && bits(&one.positions) == bits(&other.positions)
        && bits(&one.normals) == bits(&other.normals)
}

pub fn bits(list: &[[f32; 3]]) -> Vec<[u32; 3]> {
    let rows = list.iter();
    rows.map(|numbers| numbers.map(f32::to_bits)).collect()
}
