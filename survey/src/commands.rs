//! The commands, each from its words to the text that it prints.

use crate::arguments::{before_files, Arguments};
use crate::asked::{apart, open_grid, options, scale};
use crate::failure::Failure;
use crate::judged::{accepted, are_fixtures, cut_out, named_block};
use crate::meshing::counted;
use crate::planned::held;
use crate::said::Said;
use crate::{fixtures, help, kept, mesh, meshing, npy, plan, ply, sheets, survey};
use std::ffi::OsString;
use std::path::Path;

pub fn run(words: &[OsString]) -> Result<Said, Failure> {
    let Some((command, rest)) = words.split_first() else {
        return Err(Failure::Use("a command is wanted; see bed --help".into()));
    };
    let command = command.to_str().unwrap_or("");
    match command {
        "--help" | "-h" | "help" => return Ok(help::ALL.to_string().into()),
        "--version" => return Ok(version().into()),
        _ => {}
    }
    let Some(text) = help::of(command) else {
        return Err(Failure::Use(format!(
            "no such command: {command}; see bed --help"
        )));
    };
    let said = before_files(rest);
    if said.iter().any(|word| word == "--help" || word == "-h") {
        return Ok(text.into());
    }
    if said.iter().any(|word| word == "--version") {
        return Ok(version().into());
    }
    match command {
        "survey" => survey::survey(rest),
        "mesh" => meshing::mesh(rest).map(Said::from),
        "info" => info(rest),
        "volume" => sheets::volume(rest),
        "ply" => view(rest).map(Said::from),
        "plan" => plan(rest).map(Said::from),
        "fixtures" => write_fixtures(rest).map(Said::from),
        "cut" => cut(rest).map(Said::from),
        _ => unreachable!("every command that has a help is here"),
    }
}

fn version() -> String {
    format!("bed {}\n", env!("CARGO_PKG_VERSION"))
}

/// One file, or a line for each of several, whatever is wrong with some.
fn info(words: &[OsString]) -> Result<Said, Failure> {
    let arguments = Arguments::read_files("info", words)?;
    if let [one] = arguments.files() {
        let (_, counts) = mesh::checked(one)?;
        return Ok(counted(counts.vertices, counts.triangles).into());
    }
    let mut said = Said::from(String::new());
    for name in arguments.files() {
        match mesh::checked(name) {
            Ok((_, counts)) => {
                let counts = counted(counts.vertices, counts.triangles);
                said.text += &format!("{}: {counts}", name.display());
            }
            Err(failure) => {
                said.text += &format!("{failure}\n");
                said.status = said.status.max(failure.status());
            }
        }
    }
    Ok(said)
}

fn view(words: &[OsString]) -> Result<String, Failure> {
    let arguments = Arguments::read("ply", words, 2, &[])?;
    let (name, output) = (arguments.file(0), arguments.file(1));
    apart(&arguments, [name], [output])?;
    let mesh = mesh::read(name)?;
    kept::write(output, &ply::written(&mesh.lists()))?;
    Ok(String::new())
}

fn plan(words: &[OsString]) -> Result<String, Failure> {
    // With --make there is one file, the grid; else the plan stands before it.
    let options = options(["--make", "-o", "--max-plane"]);
    let making = before_files(words)
        .iter()
        .any(|word| word.as_encoded_bytes().starts_with(b"--make"));
    let arguments = Arguments::read("plan", words, if making { 1 } else { 2 }, &options)?;
    match arguments.numbers("--make")? {
        Some(counts) => make_plan(&arguments, counts),
        None => check_plan(&arguments),
    }
}

fn check_plan(arguments: &Arguments) -> Result<String, Failure> {
    for option in ["-o", "--max-plane"] {
        if arguments.path(option).is_some() {
            return Err(arguments.wrong(format!("{option} is for --make")));
        }
    }
    let (path, name) = (arguments.file(0), arguments.file(1));
    let plan = plan::read(path)?;
    held(path, &plan)?;
    let grid = open_grid(arguments, 1, false)?.whole(false)?;
    let mut said = format!("plan yes blocks {}\n", plan.blocks.len());
    let whole = accepted(&grid, &plan.whole, || {
        format!("{}: the whole", name.display())
    })?;
    for (block, line) in plan.blocks.iter().zip(&plan.lines) {
        accepted(&grid, block, || named_block(name, path, *line))?;
    }
    said += &counted(whole.vertices, whole.indices / 3);
    Ok(said)
}

/// Writes a plan of a grid, or prints it, once the library has said that it is one.
fn make_plan(arguments: &Arguments, counts: [u32; 3]) -> Result<String, Failure> {
    let max_plane = arguments.max_plane()?;
    let output = arguments.path("-o");
    apart(arguments, [arguments.file(0)], output)?;
    let header = open_grid(arguments, 0, false)?.header;
    let text = plan::made(header.dims, counts, max_plane).map_err(|axis| {
        let (letter, cells) = (["x", "y", "z"][axis], header.dims[axis].saturating_sub(1));
        arguments.wrong(format!(
            "--make wants 1 to {} blocks on {letter}, where the grid has {cells} cells",
            cells.max(1)
        ))
    })?;
    let plan = plan::of_text(&text);
    held(output.unwrap_or(Path::new("--make")), &plan)?;
    match output {
        None => Ok(text),
        Some(output) => {
            kept::write(output, text.as_bytes())?;
            Ok(format!("plan yes blocks {}\n", plan.blocks.len()))
        }
    }
}

/// Writes fixtures that are given as text as the records that the library reads, once it has read them.
fn write_fixtures(words: &[OsString]) -> Result<String, Failure> {
    let arguments = Arguments::read("fixtures", words, 1, &["-o", "--step", "--origin"])?;
    let (name, output) = (arguments.file(0), arguments.output()?);
    apart(&arguments, [name], [output])?;
    let fixtures = fixtures::read(name, scale(&arguments)?.as_ref())?;
    are_fixtures(&fixtures)?;
    kept::write(output, &fixtures.records)?;
    Ok(format!(
        "fixtures records {}\n",
        fixtures.records.len() / 32
    ))
}

fn cut(words: &[OsString]) -> Result<String, Failure> {
    let arguments = Arguments::read("cut", words, 2, &options(["-o", "--step", "--origin"]))?;
    let (fixtures, name, output) = (arguments.file(0), arguments.file(1), arguments.output()?);
    apart(&arguments, [fixtures, name], [output])?;
    let fixtures = fixtures::read(fixtures, scale(&arguments)?.as_ref())?;
    let mut grid = open_grid(&arguments, 1, false)?.whole(true)?;
    cut_out(&fixtures, name, &mut grid)?;
    let dims = grid.header.dims;
    let floats = grid.distances.floats().map(|list| npy::written(dims, list));
    kept::write(output, &floats.unwrap_or_default())?;
    Ok(String::new())
}
