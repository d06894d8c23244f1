//! The words of a command line: files in their order, and options, each with a value.

use crate::failure::Failure;
use crate::machine;
use crate::words::{flags, number, size};
use bed::MaxPlane;
use std::ffi::{OsStr, OsString};
use std::os::unix::ffi::OsStrExt;
use std::path::{Path, PathBuf};

pub struct Arguments {
    command: &'static str,
    files: Vec<PathBuf>,
    options: Vec<(&'static str, OsString)>,
    /// Options without a value that were given.
    marks: Vec<&'static str>,
}

impl Arguments {
    /// Reads the words of a command that takes this many files and these options.
    pub fn read(
        command: &'static str,
        words: &[OsString],
        files: usize,
        options: &[&'static str],
    ) -> Result<Self, Failure> {
        Self::read_marked(command, words, files, options, &[])
    }

    /// The same, with options that have no value.
    pub fn read_marked(
        command: &'static str,
        words: &[OsString],
        files: usize,
        options: &[&'static str],
        marks: &[&'static str],
    ) -> Result<Self, Failure> {
        let read = Self::of(command, words, options, marks)?;
        if read.files.len() != files {
            let given = read.files.len();
            return Err(read.wrong(format!("{files} files are wanted, {given} are given")));
        }
        Ok(read)
    }

    /// Reads the words of a command that takes one file or more, and no option.
    pub fn read_files(command: &'static str, words: &[OsString]) -> Result<Self, Failure> {
        let read = Self::of(command, words, &[], &[])?;
        if read.files.is_empty() {
            return Err(read.wrong("a file is wanted"));
        }
        Ok(read)
    }

    fn of(
        command: &'static str,
        words: &[OsString],
        options: &[&'static str],
        marks: &[&'static str],
    ) -> Result<Self, Failure> {
        let mut read = Self {
            command,
            files: Vec::new(),
            options: Vec::new(),
            marks: Vec::new(),
        };
        let mut words = words.iter();
        while let Some(word) = words.next() {
            if word == "--" {
                read.files.extend(words.by_ref().map(PathBuf::from));
                break;
            }
            if !word.as_bytes().starts_with(b"-") {
                read.files.push(word.into());
                continue;
            }
            if let Some(&mark) = marks.iter().find(|&&mark| word == mark) {
                if read.marked(mark) {
                    return Err(read.wrong(format!("{mark} is given twice")));
                }
                read.marks.push(mark);
                continue;
            }
            let (name, given) = parted(word);
            let name = if name == "--output" {
                OsStr::new("-o")
            } else {
                name
            };
            let Some(&option) = options.iter().find(|&&option| name == option) else {
                return Err(read.wrong(format!("no such option: {}", word.to_string_lossy())));
            };
            if read.option(option).is_some() {
                return Err(read.wrong(format!("{option} is given twice")));
            }
            let Some(value) = given.or_else(|| words.next().map(OsString::as_os_str)) else {
                return Err(read.wrong(format!("{option} wants a value")));
            };
            read.options.push((option, value.to_os_string()));
        }
        Ok(read)
    }

    pub fn wrong(&self, reason: impl std::fmt::Display) -> Failure {
        let command = self.command;
        Failure::Use(format!("{command}: {reason}; see bed {command} --help"))
    }

    pub fn file(&self, place: usize) -> &Path {
        &self.files[place]
    }

    pub fn files(&self) -> &[PathBuf] {
        &self.files
    }

    pub fn marked(&self, name: &str) -> bool {
        self.marks.contains(&name)
    }

    fn option(&self, name: &str) -> Option<&OsStr> {
        let found = self.options.iter().find(|(option, _)| *option == name);
        found.map(|(_, value)| value.as_os_str())
    }

    pub fn path(&self, name: &str) -> Option<&Path> {
        self.option(name).map(Path::new)
    }

    pub fn output(&self) -> Result<&Path, Failure> {
        self.path("-o")
            .ok_or_else(|| self.wrong("-o and the name of the file to write are wanted"))
    }

    pub fn text(&self, name: &str) -> Option<&str> {
        self.option(name).map(|value| value.to_str().unwrap_or(""))
    }

    /// The numbers of an option, with commas between them.
    pub fn numbers<const N: usize>(&self, name: &str) -> Result<Option<[u32; N]>, Failure> {
        let Some(text) = self.text(name) else {
            return Ok(None);
        };
        let read: Option<Vec<u32>> = text.split(',').map(number).collect();
        match read.and_then(|list| list.try_into().ok()) {
            Some(numbers) => Ok(Some(numbers)),
            None => Err(self.wrong(format!("{name} wants {N} numbers with commas between them"))),
        }
    }

    /// Finite numbers of an option, with commas between them.
    pub fn reals(&self, name: &str) -> Option<Option<Vec<f64>>> {
        let number = |word: &str| word.parse().ok().filter(|number: &f64| number.is_finite());
        let read = |text: &str| text.split(',').map(number).collect();
        self.text(name).map(read)
    }

    /// How much memory the command may take, in bytes.
    pub fn memory(&self) -> Result<u128, Failure> {
        let Some(text) = self.text("--memory") else {
            return Ok(machine::memory().map_or(u128::MAX, |bytes| bytes / 2));
        };
        size(text).ok_or_else(|| {
            self.wrong("--memory wants a number of bytes, or one with K, M or G after it")
        })
    }

    pub fn max_plane(&self) -> Result<MaxPlane, Failure> {
        let letters = self.text("--max-plane").unwrap_or("-");
        flags(letters).ok_or_else(|| self.wrong("--max-plane wants letters of x, y and z, or -"))
    }
}

/// The words before `--`, of which alone `--help` may be one.
pub fn before_files(words: &[OsString]) -> &[OsString] {
    let end = words.iter().position(|word| word == "--");
    &words[..end.unwrap_or(words.len())]
}

/// An option of two dashes and the value that stands after `=`, where one does.
fn parted(word: &OsStr) -> (&OsStr, Option<&OsStr>) {
    let bytes = word.as_bytes();
    match bytes.iter().position(|&byte| byte == b'=') {
        Some(place) if bytes.starts_with(b"--") => (
            OsStr::from_bytes(&bytes[..place]),
            Some(OsStr::from_bytes(&bytes[place + 1..])),
        ),
        _ => (word, None),
    }
}
