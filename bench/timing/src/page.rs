//! The figures as docs/BENCH.md holds them: the worst first, then every ratio, then every time.

use crate::runners::Dims;

/// The builds of the original, in the order in which the program is given them.
pub const BUILDS: [&str; 8] = [
    "default",
    "LTO",
    "lanes",
    "lanes LTO",
    "native",
    "lanes native",
    "scalar",
    "scalar LTO",
];

/// Each build twice: dimensions known as the program runs, then as the compiler knows them.
pub const ORIGINALS: usize = 2 * BUILDS.len();

/// The first of the scalar originals, which document 02's request 12 speaks of.
const FIRST_SCALAR: usize = ORIGINALS - 4;

/// Median seconds a mesh on one grid, and median ratios: of the layer form to the library, and of the library to each
/// original.
pub struct Row {
    pub grid_name: &'static str,
    pub dims: Dims,
    pub points: usize,
    pub library: f64,
    pub plain_loop: f64,
    pub by_layers: f64,
    pub by_layers_ratio: f64,
    pub originals: [f64; ORIGINALS],
    pub ratios: [f64; ORIGINALS],
}

impl Row {
    fn cells(&self) -> String {
        format!("| {} | {} |", self.grid_name, self.size())
    }

    /// The side of a cube, or the three sides.
    fn size(&self) -> String {
        let [x, y, z] = self.dims;
        if x == y && y == z {
            return x.to_string();
        }
        format!("{x} x {y} x {z}")
    }

    /// Of each build: the larger of its two ratios, and the lesser of its two times.
    fn ratios_by_build(&self) -> impl Iterator<Item = f64> + '_ {
        self.ratios.chunks(2).map(|two| two[0].max(two[1]))
    }

    fn times_by_build(&self) -> impl Iterator<Item = f64> + '_ {
        self.originals.chunks(2).map(|two| two[0].min(two[1]))
    }

    /// The original, from `first` on, that is the fastest here, by the medians.
    fn fastest_from(&self, first: usize) -> usize {
        (first..ORIGINALS)
            .min_by(|&a, &b| self.originals[a].total_cmp(&self.originals[b]))
            .expect("there are originals")
    }

    /// The original to which the library's ratio is the largest, by the medians of the ratios: it need not be the fastest.
    fn worst_original(&self) -> usize {
        (0..ORIGINALS)
            .max_by(|&a, &b| self.ratios[a].total_cmp(&self.ratios[b]))
            .expect("there are originals")
    }

    fn worst(&self) -> f64 {
        self.ratios[self.worst_original()]
    }
}

pub fn print(rows: &[Row], rounds: usize) {
    print_head(rows);
    println!(
        "\nThe library's time divided by each build's, medians of the ratios of {rounds} rounds. Each build was run with\n\
         dimensions known as the program runs and as the compiler knows them; the larger ratio stands here:\n"
    );
    print_titles(&["worst"], &BUILDS);
    for row in rows {
        let ratios = std::iter::once(row.worst()).chain(row.ratios_by_build());
        print_row(row, ratios, 2);
    }
    println!("\nMilliseconds a mesh, medians of the same rounds, the lesser of a build's two:\n");
    print_titles(&["library"], &BUILDS);
    for row in rows {
        let times = std::iter::once(row.library).chain(row.times_by_build());
        print_row(row, times.map(|seconds| 1e3 * seconds), 3);
    }
    println!("\nThe plain loop, and how many times as long the library and an original take:\n");
    print_titles(
        &[
            "plain loop, ms",
            "library",
            "original of the worst ratio",
            "library, ns a point",
        ],
        &[],
    );
    for row in rows {
        let worst = row.originals[row.worst_original()];
        println!(
            "{} {:.3} | {:.1} | {:.1} | {:.2} |",
            row.cells(),
            1e3 * row.plain_loop,
            row.library / row.plain_loop,
            worst / row.plain_loop,
            1e9 * row.library / row.points as f64,
        );
    }
    println!(
        "\nLayer by layer (request 1 of document 02), and its time divided by the whole call's:\n"
    );
    print_titles(&["layers, ms", "layers / whole call"], &[]);
    for row in rows {
        println!(
            "{} {:.3} | {:.2} |",
            row.cells(),
            1e3 * row.by_layers,
            row.by_layers_ratio
        );
    }
}

/// One grid of whole numbers: the median seconds a mesh of the call over them, and the median ratio to the float call on
/// the same numbers.
pub struct Whole {
    pub seconds: f64,
    pub ratio: f64,
}

/// One grid in the numbers of both widths.
pub struct WidthsRow {
    pub grid_name: &'static str,
    pub side: u32,
    pub short: Whole,
    pub byte: Whole,
}

pub fn print_widths(rows: &[WidthsRow]) {
    println!(
        "\nWhole-number distances (request 5 of document 02), and their time divided by the float call's on the same numbers:\n"
    );
    print_titles(
        &[
            "16 bits, ms",
            "16 bits / floats",
            "8 bits, ms",
            "8 bits / floats",
        ],
        &[],
    );
    for row in rows {
        let figures = [&row.short, &row.byte]
            .map(|one| format!(" {:.3} | {:.2} |", 1e3 * one.seconds, one.ratio));
        println!("| {} | {} |{}", row.grid_name, row.side, figures.concat());
    }
}

/// The worst ratio of all, and the figure that document 02's request 12 asks for.
fn print_head(rows: &[Row]) {
    let worst = rows
        .iter()
        .max_by(|a, b| a.worst().total_cmp(&b.worst()))
        .expect("there are rows");
    println!(
        "**The worst: the library takes {:.2} times the original's time** ({}, {}, to the build \"{}\").",
        worst.worst(),
        worst.grid_name,
        worst.size(),
        original_names()[worst.worst_original()],
    );
    let scalar: Vec<String> = rows
        .iter()
        .filter(|row| row.dims == [66; 3])
        .map(|row| {
            let fastest = row.fastest_from(FIRST_SCALAR);
            format!(
                "{:.2} on the {} (\"{}\": {:.3} ms, the library {:.3} ms)",
                row.ratios[fastest],
                row.grid_name,
                original_names()[fastest],
                1e3 * row.originals[fastest],
                1e3 * row.library,
            )
        })
        .collect();
    println!(
        "**Request 12 of document 02** asks at most 2 at side 66, to the Rust built scalar and optimised. To the\n\
         fastest of the four scalar builds it is\n{}.",
        scalar.join(" and\n")
    );
}

/// The originals by name, in their order.
fn original_names() -> Vec<String> {
    BUILDS
        .iter()
        .flat_map(|build| [build.to_string(), format!("{build} const")])
        .collect()
}

fn print_titles(own: &[&str], builds: &[&str]) {
    let titles: Vec<&str> = ["grid", "points a side"]
        .into_iter()
        .chain(own.iter().copied())
        .chain(builds.iter().copied())
        .collect();
    println!("| {} |", titles.join(" | "));
    println!("|{}", "---|".repeat(titles.len()));
}

fn print_row(row: &Row, numbers: impl Iterator<Item = f64>, digits: usize) {
    let numbers: String = numbers
        .map(|number| format!(" {number:.digits$} |"))
        .collect();
    println!("{}{numbers}", row.cells());
}
