//! What the page says of the bed itself: the closed bed, its volume and what was counted beside it, the levels.

use crate::counting::Standing;
use crate::levelled::{At, Summary};
use crate::lines::Lines;
use crate::measuring::{ClosedBed, Measured};
use crate::scale::Scale;
use crate::weighing::{as_number, in_grid_steps};
use bed::Block;

/// 2^99: for a point as deep as this below zero the wall that `bed::wall_for` tells is still 2^25 times as far.
const FAR_ENOUGH: f32 = f32::from_bits((127 + 99) << 23);

pub struct Told<'a> {
    pub whole: &'a Block,
    pub blocks: &'a [Block],
    pub in_blocks: bool,
    pub scale: Option<&'a Scale>,
    pub measured: &'a Measured,
}

/// Blocks that stand over the same columns.
pub struct Footprint {
    /// Their numbers, from 1.
    pub numbers: Vec<usize>,
    pub block: Block,
}

/// The blocks of a plan by the columns that they stand over, in the order of their first.
pub fn footprints(blocks: &[Block]) -> Vec<Footprint> {
    let mut found: Vec<Footprint> = Vec::new();
    let seen = |block: &Block| (block.min[0], block.min[1], block.max[0], block.max[1]);
    for (place, block) in blocks.iter().enumerate() {
        match found.iter_mut().find(|one| seen(&one.block) == seen(block)) {
            Some(one) => one.numbers.push(place + 1),
            None => found.push(Footprint {
                numbers: vec![place + 1],
                block: *block,
            }),
        }
    }
    found
}

impl Told<'_> {
    /// What goes before everything else.
    pub fn first(&self, lines: &mut Lines) {
        if self.measured.standing() == Some(Standing::Outside) {
            lines.found(
                "WRONG",
                "the volume is none that these distances can have: see cross-check; do not act on it",
            );
        }
        let looked = &self.measured.looked;
        if looked.counts.points == looked.points {
            lines.found(
                "tank",
                "every point is below zero: a full tank, or a head that dropped out",
            );
        } else if looked.counts.points == 0 {
            lines.found(
                "tank",
                "no point is below zero: an empty tank, or a head that dropped out",
            );
        }
    }

    pub fn closed(&self, lines: &mut Lines) {
        let Some(closed) = &self.measured.closed else {
            lines.found("closed", "no: --open was asked");
            lines.found("hole", "not asked of an open bed");
            return;
        };
        match closed {
            Err((number, words)) => {
                lines.found("closed", format!("refused {number}: {words}"));
                lines.found("hole", "not ruled out: the bed was not closed");
            }
            Ok(closed) => self.skin(closed, lines),
        }
    }

    fn skin(&self, closed: &ClosedBed, lines: &mut Lines) {
        let ClosedBed {
            wall,
            vertices,
            triangles,
            ..
        } = closed;
        lines.found(
            "closed",
            format!("by a border of points of {}, one layer at min and two at max on each axis: {vertices} vertices, {triangles} triangles", f64::from(*wall)),
        );
        lines.rests("proved: inside the border every distance is the box's own, and everywhere else the wall's");
        lines.rests(if self.measured.looked.deepest <= FAR_ENOUGH {
            "proved: the vertices of the border's cells stand on the planes of the box's outermost points, bit for bit"
        } else {
            "not claimed: where the wall stands; a point lies deeper below zero than any wall that is taken is far enough for"
        });
        lines.rests(match closed.beyond {
            0 => "counted: no vertex lies beyond the box's outermost points".into(),
            some => {
                format!("counted: WARNING: {some} vertices lie beyond the box's outermost points")
            }
        });
        match closed.enclosed {
            true => {
                lines.found(
                    "hole",
                    "none, of the closed bed: every point below zero lies inside, from min + 1 to max - 2",
                );
                lines.rests("proved: each directed side of the closed bed's triangles occurs as often as its reverse");
            }
            false => lines.found("hole", "not ruled out, of the closed bed"),
        }
        if closed.by_layers {
            lines.rests(
                "not proved: that this command hands on the closed grid's layers in their order",
            );
        }
    }

    pub fn volume(&self, lines: &mut Lines) {
        let Some(sum) = self.measured.volume() else {
            let refusal = match &self.measured.closed {
                Some(Ok(closed)) => closed.weight.err(),
                _ => None,
            };
            lines.found("volume", "none is told");
            if let Some(refusal) = refusal {
                lines.rests(format!("refused {}: {refusal}", refusal.number()));
            }
            lines.rests("not claimed: any volume of an open bed, whose mesh is a sheet");
            self.below_zero(lines);
            return;
        };
        let mut words = format!("{} cubed grid steps", in_grid_steps(sum));
        if let Some(scale) = self.scale {
            words += &format!(", {:.3} m³", scale.volume(as_number(sum)));
        }
        lines.found(
            "volume",
            format!("{words}, of the closed bed; six-fold, in cubed 1/256 steps, {sum}"),
        );
        lines.rests("proved: the exact sum over the closed bed's triangles, coordinates rounded down to 1/256");
        if matches!(&self.measured.closed, Some(Ok(closed)) if closed.by_layers) {
            lines.rests("proved: the sums of the layers, each weighed from its own positions and those of the layer below, make up the whole's");
            lines.rests("counted: added up by this command");
        }
        lines.rests("not claimed: how far the rounded mesh is from the sludge; on the beds of docs/ACCURACY.md within 0.03 grid steps of mean level");
        self.below_zero(lines);
    }

    fn below_zero(&self, lines: &mut Lines) {
        let looked = &self.measured.looked;
        let mut words = format!(
            "{} points of the box's {}",
            looked.counts.points, looked.points
        );
        if self.in_blocks {
            words += &format!("; {} outside the plan's whole", looked.outside);
            if looked.outside > 0 {
                words += ", which are in no volume and no level here";
            }
        }
        lines.found("below zero", words);
    }

    pub fn cross_check(&self, lines: &mut Lines) {
        let counts = &self.measured.looked.counts;
        let (low, high) = counts.bounds();
        let (sharp_low, sharp_high) = counts.sharp_bounds();
        let words = match self.measured.standing() {
            None => "no volume to check".into(),
            Some(Standing::Sharp) => format!(
                "the volume lies from {} to {}, as the distances say",
                in_grid_steps(sharp_low),
                in_grid_steps(sharp_high)
            ),
            Some(Standing::Within) => format!(
                "WARNING: the volume lies from {} to {}, as every closed bed's does, yet not from {} to {}, as a tank's should",
                in_grid_steps(low),
                in_grid_steps(high),
                in_grid_steps(sharp_low),
                in_grid_steps(sharp_high)
            ),
            Some(Standing::Outside) if self.measured.counts_agree() == Some(false) => {
                "FAILED: the library and this command count different cells".into()
            }
            Some(Standing::Outside) => format!(
                "FAILED: the volume does not lie from {} to {}",
                in_grid_steps(low),
                in_grid_steps(high)
            ),
        };
        lines.found("cross-check", words);
        lines.rests(format!(
            "counted: {} cells with all corners below zero, {} with some, {} of those between points of the grid, {} edges that change sign; by code that shares nothing with the library",
            counts.below, counts.surface, counts.open_surface, counts.changes
        ));
        let Some(cells) = self.measured.cells() else {
            return;
        };
        lines.rests(format!(
            "{}: {} cells with all corners below zero, {} with some, {} faces, as the library counts them",
            if self.by_layers() { "counted" } else { "proved" },
            cells.whole,
            cells.vertices,
            cells.indices / 6
        ));
        let (low, high) = cells.bounds();
        let (low, high) = (in_grid_steps(low), in_grid_steps(high));
        let enclosed = matches!(&self.measured.closed, Some(Ok(closed)) if closed.enclosed);
        let agree = self.measured.counts_agree() == Some(true) && enclosed;
        lines.rests(match (agree, self.by_layers()) {
            (true, false) => format!("proved: the volume lies from {low} to {high}"),
            (true, true) => format!(
                "proved: the volume of a closed bed with these counts lies from {low} to {high}"
            ),
            (false, _) => format!("not claimed: that the volume lies from {low} to {high}"),
        });
    }

    /// Whether the closed bed came layer by layer.
    fn by_layers(&self) -> bool {
        matches!(&self.measured.closed, Some(Ok(closed)) if closed.by_layers)
    }

    pub fn levels(&self, lines: &mut Lines) {
        let levels = &self.measured.looked.levels;
        let found = &self.measured.looked.columns;
        match levels.summary(self.whole) {
            None => lines.found("level", "none: no column has a point below zero"),
            Some(summary) => lines.found("level", self.in_words(&summary)),
        }
        lines.rests("proved: a column's level is where the line from its highest point below zero to the next one crosses zero, and the top where that is below zero");
        if self.measured.looked.by_layers {
            lines.rests("not proved: that this command hands on the layers in their order");
        }
        lines.rests("counted: lowest and mean over the columns with a point below zero; the mean added up in 64 bits by this command");
        lines.rests(format!(
            "counted: {} columns at no point below zero, {} below zero at the top",
            found.columns - found.filled,
            found.at_top
        ));
        if let Some([x, y]) = found.first_several {
            let (x, y) = (x as u32 + self.whole.min[0], y as u32 + self.whole.min[1]);
            lines.rests(format!(
                "counted: {} columns with more than one change of sign, the first at x {x}, y {y}: an echo over the bed would be its level",
                found.several
            ));
        } else {
            lines.rests("counted: no column has more than one change of sign");
        }
        lines.rests("not claimed: that a column's highest point below zero is sludge");
    }

    /// A line for the blocks over each set of columns: the page's longest part.
    pub fn levels_of_blocks(&self, lines: &mut Lines) {
        if !self.in_blocks {
            return;
        }
        lines.found(
            "levels of the blocks",
            "over the columns that each stands over, whatever its z",
        );
        for footprint in footprints(self.blocks) {
            let numbers: Vec<_> = footprint
                .numbers
                .iter()
                .map(|number| format!("{number:03}"))
                .collect();
            let words = match self.measured.looked.levels.summary(&footprint.block) {
                None => "none".into(),
                Some(summary) => self.in_words(&summary),
            };
            lines.rests(format!("counted: {}: {words}", numbers.join(", ")));
        }
    }

    fn in_words(&self, summary: &Summary) -> String {
        let level = |steps: f64| match self.scale {
            None => format!("{steps:.3}"),
            Some(scale) => format!("{steps:.3} ({:.3} m)", scale.place(2, steps)),
        };
        let at = |at: &At| {
            let [x, y] = at.column;
            match self.scale {
                None => format!("{} at x {x}, y {y}", level(at.level)),
                Some(scale) => format!(
                    "{} at x {x}, y {y} ({:.3} m, {:.3} m)",
                    level(at.level),
                    scale.place(0, x.into()),
                    scale.place(1, y.into())
                ),
            }
        };
        let Summary {
            highest,
            lowest,
            mean,
            filled,
            columns,
        } = summary;
        format!(
            "highest {}; lowest {}; mean {}; over {filled} columns of {columns}",
            at(highest),
            at(lowest),
            level(*mean)
        )
    }
}

#[cfg(test)]
mod tests {
    use super::*;
    use crate::measuring::tests::full_tank;

    /// A volume that the distances contradict is said before anything else.
    #[test]
    fn a_wrong_volume_comes_first() {
        let text = |sixths| {
            let measured = full_tank(sixths, true);
            let whole = measured.looked.levels.whole;
            let told = Told {
                whole: &whole,
                blocks: &[],
                in_blocks: false,
                scale: None,
                measured: &measured,
            };
            let mut lines = Lines::default();
            told.first(&mut lines);
            told.volume(&mut lines);
            told.cross_check(&mut lines);
            lines.text()
        };
        let (good, odd, wrong) = (text(6 * 12), text(6 * 13), text(6 * 1000));
        assert!(good.starts_with("tank: every point is below zero"));
        assert!(good.contains("\ncross-check: the volume lies from 12.000 to 12.000"));
        // 12 - 66/6 and 80 + 66/6
        assert!(good.contains("\n    proved: the volume lies from 1.000 to 91.000\n"));
        assert!(odd.starts_with("tank: ") && odd.contains("\ncross-check: WARNING"));
        assert!(wrong.starts_with("WRONG: ") && wrong.contains("\ncross-check: FAILED"));
    }

    #[test]
    fn blocks_over_the_same_columns() {
        let block = |min, max| Block {
            min,
            max,
            ..Block::default()
        };
        let found = footprints(&[
            block([0, 0, 0], [4, 9, 5]),
            block([3, 0, 0], [9, 9, 5]),
            block([0, 0, 4], [4, 9, 9]),
        ]);
        let numbers: Vec<_> = found.into_iter().map(|one| one.numbers).collect();
        assert_eq!(numbers, [vec![1, 3], vec![2]]);
    }
}
