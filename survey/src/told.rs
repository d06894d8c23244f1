//! What a survey found, as JSON: every number of the page, and each claim with its standing.

use crate::counting::Standing;
use crate::json::Json;
use crate::levelled::{At, Summary};
use crate::lines::Lines;
use crate::page::Page;
use crate::sha256::Digest;
use crate::weighing::{as_number, in_grid_steps};
use crate::words::letters;
use bed::Block;
use std::path::Path;
use std::time::{SystemTime, UNIX_EPOCH};

/// What the page does not say of what was read and written.
pub struct Digests<'a> {
    pub grid: Option<Digest>,
    pub plan: Option<Digest>,
    pub fixtures: Option<Digest>,
    /// Of the mesh files.
    pub files: &'a [Digest],
}

pub fn json(page: &Page, lines: &Lines, digests: &Digests, status: u8) -> Json {
    let measured = page.measured;
    let volume = measured.volume();
    let steps = volume.map(as_number);
    let summary = measured.looked.levels.summary(&page.whole);
    let level = |steps: f64| page.scale.map_or(steps, |scale| scale.place(2, steps));
    let columns = &measured.looked.columns;
    let counts = &measured.looked.counts;
    let closed = measured
        .closed
        .as_ref()
        .and_then(|closed| closed.as_ref().ok());
    Json::Object(vec![
        ("volume_steps", steps.into()),
        (
            "volume_m3",
            page.scale
                .and_then(|scale| steps.map(|steps| scale.volume(steps)))
                .into(),
        ),
        (
            "level_highest",
            summary.map(|one| level(one.highest.level)).into(),
        ),
        (
            "level_lowest",
            summary.map(|one| level(one.lowest.level)).into(),
        ),
        ("level_mean", summary.map(|one| level(one.mean)).into()),
        ("cells_below", counts.below.into()),
        ("cells_surface", counts.surface.into()),
        (
            "cross_check",
            measured
                .standing()
                .map(|standing| match standing {
                    Standing::Sharp => "inside",
                    Standing::Within => "warning",
                    Standing::Outside => "outside",
                })
                .into(),
        ),
        (
            "hole",
            match closed {
                Some(closed) if closed.enclosed => "none",
                _ => "not ruled out",
            }
            .into(),
        ),
        ("closed", closed.is_some().into()),
        ("status", status.into()),
        ("time", now().into()),
        (
            "versions",
            Json::object([
                ("bed", env!("CARGO_PKG_VERSION").into()),
                ("library", library_version().into()),
            ]),
        ),
        ("archive", Json::object([("sha256", archive().into())])),
        (
            "grid",
            Json::object([
                ("name", name(page.name)),
                ("sha256", digest(digests.grid)),
                ("points", Json::list(page.header.dims)),
                ("numbers", page.header.numbers.name().into()),
            ]),
        ),
        ("plan", read(page.plan, digests.plan)),
        (
            "fixtures",
            read(page.fixtures.map(|(name, _)| name), digests.fixtures),
        ),
        ("points_cut", page.fixtures.map(|(_, points)| points).into()),
        ("box", corners(&page.whole)),
        (
            "step_m",
            page.scale.map(|scale| Json::list(scale.step)).into(),
        ),
        (
            "origin_m",
            page.scale.map(|scale| Json::list(scale.origin)).into(),
        ),
        ("by_layers", page.by_layers.into()),
        ("sixfold", volume.map(|sum| sum.to_string()).into()),
        ("volume_in_words", volume.map(in_grid_steps).into()),
        ("volume_standing", standing_of_a_sum(page, volume).into()),
        ("points_below_zero", counts.points.into()),
        ("points", measured.looked.points.into()),
        ("points_below_zero_outside", measured.looked.outside.into()),
        ("cells_surface_open", counts.open_surface.into()),
        ("edges_that_change", counts.changes.into()),
        ("cross_check_bounds", bounds(counts.bounds())),
        ("cross_check_sharp_bounds", bounds(counts.sharp_bounds())),
        (
            "library_counts",
            measured
                .cells()
                .map(|cells| {
                    Json::object([
                        ("cells_below", cells.whole.into()),
                        ("cells_surface", cells.vertices.into()),
                        ("faces", (cells.indices / 6).into()),
                    ])
                })
                .into(),
        ),
        ("counts_agree", measured.counts_agree().into()),
        (
            "proved_bounds",
            measured
                .volume()
                .filter(|_| measured.counts_agree() == Some(true))
                .and_then(|_| measured.cells())
                .map(|cells| bounds(cells.bounds()))
                .into(),
        ),
        (
            "closed_bed",
            closed
                .map(|closed| {
                    Json::object([
                        ("wall", f64::from(closed.wall).into()),
                        ("vertices", closed.vertices.into()),
                        ("triangles", closed.triangles.into()),
                        ("vertices_beyond_the_box", closed.beyond.into()),
                        ("by_layers", closed.by_layers.into()),
                    ])
                })
                .into(),
        ),
        (
            "closing_refused",
            measured
                .closed
                .as_ref()
                .and_then(|closed| closed.as_ref().err())
                .map(|(number, words)| {
                    Json::object([
                        ("number", (*number).into()),
                        ("words", words.as_str().into()),
                    ])
                })
                .into(),
        ),
        ("levels", summary.map(|one| level_of(page, &one)).into()),
        (
            "columns",
            Json::object([
                ("all", columns.columns.into()),
                ("below_zero_somewhere", columns.filled.into()),
                ("below_zero_at_the_top", columns.at_top.into()),
                ("several_changes_of_sign", columns.several.into()),
            ]),
        ),
        ("mesh", mesh(page, digests)),
        ("levels_file", page.levels.map(name).into()),
        ("manifest", page.manifest.map(name).into()),
        ("page", lines.json()),
    ])
}

/// A sum over several calls is added up by the command.
fn standing_of_a_sum(page: &Page, volume: Option<i128>) -> Option<&'static str> {
    volume?;
    let closed = page.measured.closed.as_ref()?.as_ref().ok()?;
    Some(if closed.by_layers {
        "counted"
    } else {
        "proved"
    })
}

fn mesh(page: &Page, digests: &Digests) -> Json {
    let sum =
        |number: fn(&crate::page::Weighed) -> usize| page.weighed.iter().map(number).sum::<usize>();
    let files = page
        .names
        .iter()
        .zip(page.weighed)
        .zip(digests.files)
        .enumerate();
    let files = files.map(|(place, ((file, weighed), digest))| {
        let block = page.blocks.get(place);
        let levels = block.and_then(|block| page.measured.looked.levels.summary(block));
        Json::object([
            ("name", name(file)),
            ("sha256", digest.to_string().into()),
            ("vertices", weighed.vertices.into()),
            ("triangles", weighed.triangles.into()),
            ("block", block.map(corners).into()),
            ("levels", levels.map(|one| level_of(page, &one)).into()),
        ])
    });
    Json::object([
        (
            "of",
            if page.closed_files { "closed" } else { "open" }.into(),
        ),
        ("enclosed", (page.closed_files || page.enclosed).into()),
        ("vertices", sum(|one| one.vertices).into()),
        ("triangles", sum(|one| one.triangles).into()),
        ("steps_to_the_grid", Json::list(page.offset)),
        (
            "origin_m",
            page.scale
                .map(|scale| Json::list(scale.moved(page.offset).origin))
                .into(),
        ),
        ("files", Json::List(files.collect())),
    ])
}

fn level_of(page: &Page, summary: &Summary) -> Json {
    let metres = |axis: usize, steps: f64| page.scale.map(|scale| scale.place(axis, steps));
    let at = |at: &At| {
        let [x, y] = at.column;
        Json::object([
            ("steps", at.level.into()),
            ("m", metres(2, at.level).into()),
            ("column", Json::list(at.column)),
            (
                "column_m",
                metres(0, x.into())
                    .zip(metres(1, y.into()))
                    .map(|(x, y)| Json::list([x, y]))
                    .into(),
            ),
        ])
    };
    Json::object([
        ("highest", at(&summary.highest)),
        ("lowest", at(&summary.lowest)),
        ("mean_steps", summary.mean.into()),
        ("mean_m", metres(2, summary.mean).into()),
        ("filled", summary.filled.into()),
        ("columns", summary.columns.into()),
    ])
}

fn bounds((low, high): (i128, i128)) -> Json {
    Json::list([as_number(low), as_number(high)])
}

fn corners(block: &Block) -> Json {
    Json::object([
        ("min", Json::list(block.min)),
        ("max", Json::list(block.max)),
        ("max_planes", letters(block.max_plane).into()),
    ])
}

fn read(path: Option<&Path>, sha256: Option<Digest>) -> Json {
    path.map(|path| Json::object([("name", name(path)), ("sha256", digest(sha256))]))
        .into()
}

/// The version that the linked library tells.
fn library_version() -> String {
    bed::version().map(|part| part.to_string()).join(".")
}

/// The digest of the archive that this command was linked with; see build.rs.
fn archive() -> Option<&'static str> {
    Some(env!("BED_ARCHIVE_SHA256")).filter(|digest| !digest.is_empty())
}

fn digest(digest: Option<Digest>) -> Json {
    digest.map(|digest| digest.to_string()).into()
}

fn name(path: &Path) -> Json {
    path.display().to_string().into()
}

/// Now, as 2026-01-31T23:59:59Z.
fn now() -> String {
    let passed = SystemTime::now().duration_since(UNIX_EPOCH);
    at(passed.map_or(0, |passed| passed.as_secs()))
}

/// So many seconds after the first of January 1970.
fn at(seconds: u64) -> String {
    let (mut days, rest) = (seconds / 86_400, seconds % 86_400);
    let leap = |year: u64| year % 4 == 0 && (year % 100 != 0 || year % 400 == 0);
    let mut year = 1970;
    while days >= 365 + u64::from(leap(year)) {
        days -= 365 + u64::from(leap(year));
        year += 1;
    }
    let lengths = [
        31,
        28 + u64::from(leap(year)),
        31,
        30,
        31,
        30,
        31,
        31,
        30,
        31,
        30,
        31,
    ];
    let mut month = 0;
    while days >= lengths[month] {
        days -= lengths[month];
        month += 1;
    }
    let (hour, minute, second) = (rest / 3600, rest / 60 % 60, rest % 60);
    format!(
        "{year}-{:02}-{:02}T{hour:02}:{minute:02}:{second:02}Z",
        month + 1,
        days + 1
    )
}

#[cfg(test)]
mod tests {
    use super::*;

    #[test]
    fn times() {
        // by `date -u -d @N`
        assert_eq!(at(0), "1970-01-01T00:00:00Z");
        assert_eq!(at(951_827_696), "2000-02-29T12:34:56Z");
        assert_eq!(at(1_709_251_199), "2024-02-29T23:59:59Z");
        assert_eq!(at(1_798_761_599), "2026-12-31T23:59:59Z");
        assert_eq!(at(4_107_542_400), "2100-03-01T00:00:00Z");
    }
}
