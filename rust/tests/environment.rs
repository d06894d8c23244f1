//! The crate's calls in other floating-point environments: the same bits, and the environment as it was. The
//! library's own function gives other bits there, or the test could not see a guard that does nothing.
#![cfg(any(target_arch = "x86_64", target_arch = "aarch64"))]

use bed::raw::BedBox;
use bed::{counts, is_enclosed, raw, surface_nets_lent, Counts, Lent, MaxPlane, Refusal};

const SIDE: u32 = 6;
const POINTS: usize = (SIDE as usize).pow(3);
const CELLS: usize = (SIDE as usize - 1).pow(3);

#[cfg(target_arch = "x86_64")]
mod control {
    use std::arch::asm;

    pub type Word = u32;
    pub const DEFAULT: Word = 0x1F80;
    pub const SUBNORMALS_ARE_ZERO: Word = 0x1FC0;
    /// Flush to zero, denormals are zero, both; rounding down, up, toward zero; all of it.
    pub const OTHERS: [Word; 7] = [0x9F80, 0x1FC0, 0x9FC0, 0x3F80, 0x5F80, 0x7F80, 0xFFC0];
    /// The bits that say how to round.
    pub const ROUNDING: Word = 0x6000;
    /// Every trap on: without the guard the call would be killed.
    pub const TRAPS: [Word; 1] = [0];

    pub fn read() -> Word {
        let mut word = 0;
        // SAFETY: the register is written to a variable of its own.
        unsafe { asm!("stmxcsr [{}]", in(reg) &mut word, options(nostack)) };
        word
    }

    pub fn write(word: Word) {
        // SAFETY: until the default stands again this program does no arithmetic on floats.
        unsafe { asm!("ldmxcsr [{}]", in(reg) &word, options(nostack)) };
    }
}

#[cfg(target_arch = "aarch64")]
mod control {
    use std::arch::asm;

    pub type Word = u64;
    pub const DEFAULT: Word = 0;
    pub const SUBNORMALS_ARE_ZERO: Word = 1 << 24;
    /// Flush to zero; rounding up, down, toward zero; all of it.
    pub const OTHERS: [Word; 5] = [1 << 24, 1 << 22, 2 << 22, 3 << 22, 7 << 22];
    /// The bits that say how to round.
    pub const ROUNDING: Word = 3 << 22;
    /// Not every processor has traps.
    pub const TRAPS: [Word; 0] = [];

    pub fn read() -> Word {
        let word;
        // SAFETY: a register is read.
        unsafe { asm!("mrs {}, fpcr", out(reg) word, options(nostack)) };
        word
    }

    pub fn write(word: Word) {
        // SAFETY: until the default stands again this program does no arithmetic on floats.
        unsafe { asm!("msr fpcr, {}", in(reg) word, options(nostack)) };
    }
}

/// All that a call wrote, floats by their bits.
#[derive(Clone, Debug, PartialEq)]
struct Outcome {
    answer: Result<Counts, Refusal>,
    positions: Vec<u32>,
    normals: Vec<u32>,
    words: [Vec<u32>; 4],
}

/// A call in an environment, and the environment after it.
fn call_in(
    environment: control::Word,
    mesh: impl FnOnce(&mut Lent) -> Result<Counts, Refusal>,
) -> (Outcome, control::Word) {
    let (mut positions, mut normals) = (vec![0.0; 3 * CELLS], vec![0.0; 3 * CELLS]);
    let mut words = [3 * CELLS, CELLS, POINTS, 18 * CELLS].map(|length| vec![0; length]);
    let [cells, strides, stride_to_index, indices] = &mut words;
    let mut crossings = vec![0; CELLS];
    let mut lent = Lent {
        positions: &mut positions,
        normals: &mut normals,
        cells,
        strides,
        crossings: &mut crossings,
        stride_to_index,
        indices,
    };
    control::write(environment);
    let answer = mesh(&mut lent);
    let after = control::read();
    control::write(control::DEFAULT);
    let bits = |floats: &[f32]| floats.iter().map(|float| float.to_bits()).collect();
    let outcome = Outcome {
        answer,
        positions: bits(&positions),
        normals: bits(&normals),
        words,
    };
    (outcome, after)
}

/// The crate's call over one kind of distance.
type Guarded<D> =
    fn(&[D], [u32; 3], [u32; 3], [u32; 3], MaxPlane, &mut Lent) -> Result<Counts, Refusal>;

fn guarded_in<D>(environment: control::Word, crates: Guarded<D>, grid: &[D]) -> Outcome {
    let (outcome, after) = call_in(environment, |lent| {
        let max = [SIDE - 1; 3];
        crates(grid, [SIDE; 3], [0; 3], max, MaxPlane::ALL, lent)
    });
    assert_eq!(after, environment, "the environment is as it was");
    outcome
}

fn unguarded_in<D>(environment: control::Word, own: raw::SurfaceNets<D>, grid: &[D]) -> Outcome {
    call_in(environment, |lent| unguarded(own, grid, lent)).0
}

/// The library's own function.
fn unguarded<D>(own: raw::SurfaceNets<D>, grid: &[D], lent: &mut Lent) -> Result<Counts, Refusal> {
    let mut counts = Counts::default();
    // SAFETY: as in the crate: pointers and lengths of slices that do not overlap.
    let answer = unsafe {
        own(
            grid.as_ptr(),
            grid.len(),
            &BedBox::new([SIDE; 3], [0; 3], [SIDE - 1; 3], MaxPlane::ALL),
            lent.positions.as_mut_ptr(),
            lent.positions.len(),
            lent.normals.as_mut_ptr(),
            lent.normals.len(),
            lent.cells.as_mut_ptr(),
            lent.cells.len(),
            lent.strides.as_mut_ptr(),
            lent.strides.len(),
            lent.crossings.as_mut_ptr(),
            lent.crossings.len(),
            lent.stride_to_index.as_mut_ptr(),
            lent.stride_to_index.len(),
            lent.indices.as_mut_ptr(),
            lent.indices.len(),
            &mut counts.vertices,
            &mut counts.indices,
        )
    };
    assert_eq!(answer, 0);
    Ok(counts)
}

/// Words from a fixed seed.
fn words() -> impl Iterator<Item = u32> {
    let next = |state: &u32| {
        let mut state = *state;
        state ^= state << 13;
        state ^= state >> 17;
        state ^= state << 5;
        Some(state)
    };
    std::iter::successors(Some(0x0BED_5EED), next).skip(1)
}

/// Of both signs: subnormal, near the least normal number, and near one.
fn all_sizes() -> Vec<f32> {
    let distance = |word: u32| {
        let exponent = match word % 3 {
            0 => 0,
            1 => 1 + (word >> 8) % 3,
            _ => 125 + (word >> 8) % 4,
        };
        f32::from_bits(word & 0x8000_0000 | exponent << 23 | word >> 4 & 0x7F_FFFF)
    };
    words().take(POINTS).map(distance).collect()
}

/// The crate's call gives the same bits in every environment; the library's own gives others in those that `shows`.
fn same_bits_everywhere<D>(
    crates: Guarded<D>,
    own: raw::SurfaceNets<D>,
    grid: &[D],
    shows: impl Fn(control::Word) -> bool,
) {
    let wanted = unguarded_in(control::DEFAULT, own, grid);
    assert!(wanted.answer.is_ok_and(|counts| counts.indices > 0));
    let same = |environment| {
        let guarded = guarded_in(environment, crates, grid);
        assert_eq!(guarded, wanted, "{environment:#x}");
    };
    same(control::DEFAULT);
    control::TRAPS.into_iter().for_each(same);
    for environment in control::OTHERS {
        same(environment);
        let other = unguarded_in(environment, own, grid) != wanted;
        assert_eq!(other, shows(environment), "{environment:#x}");
    }
}

#[test]
fn every_environment_gives_the_same_bits() {
    same_bits_everywhere(
        surface_nets_lent,
        raw::bed_surface_nets,
        &all_sizes(),
        |_| true,
    );
}

/// Whole numbers make nothing subnormal, so that rounding alone shows.
#[test]
fn every_environment_gives_the_same_bits_of_whole_numbers() {
    let rounding = |environment| environment & control::ROUNDING != 0;
    let shorts: Vec<i16> = words().take(POINTS).map(|word| word as i16).collect();
    same_bits_everywhere(
        surface_nets_lent::<i16>,
        raw::bed_surface_nets_i16,
        &shorts,
        rounding,
    );
    let bytes: Vec<i8> = words().take(POINTS).map(|word| word as i8).collect();
    same_bits_everywhere(
        surface_nets_lent::<i8>,
        raw::bed_surface_nets_i8,
        &bytes,
        rounding,
    );
}

/// One subnormal distance below zero at the box's corner: where it counts as zero the box is enclosed and has
/// no vertex.
#[test]
fn a_subnormal_distance_is_seen() {
    let mut grid = [1.0; POINTS];
    grid[0] = f32::from_bits(0x800A_E398);
    let max = [SIDE - 1; 3];
    control::write(control::SUBNORMALS_ARE_ZERO);
    let enclosed = is_enclosed(&grid, [SIDE; 3], [0; 3], max);
    let counted = counts(&grid, [SIDE; 3], [0; 3], max, MaxPlane::ALL);
    let mut unguarded = false;
    // SAFETY: as in the crate.
    let answer = unsafe {
        raw::bed_is_enclosed(
            grid.as_ptr(),
            grid.len(),
            &BedBox::with([SIDE; 3], [0; 3], max),
            &mut unguarded,
        )
    };
    control::write(control::DEFAULT);
    assert_eq!(enclosed, Ok(false));
    assert_eq!(counted.map(|counts| counts.vertices), Ok(1));
    assert_eq!((answer, unguarded), (0, true));
}
