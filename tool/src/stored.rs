//! Stored tables that a command reads: their kind and shape, given or described, and their bytes.

use crate::arguments::Arguments;
use crate::describe::{self, Described, Part};
use crate::failure::Failure;
use crate::files::{self, Input};
use crate::locate::{self, Walk};
use crate::pair::Pair;
use crate::watch::Watch;
use crate::words;
use durpaxeta::{decode, decode_interleaved, Array, Kind, RaggedValues, Refusal};
use std::ffi::OsStr;

pub fn given_kind(arguments: &Arguments) -> Result<Option<Kind>, Failure> {
    arguments.kind.as_ref().map(|text| words::kind(text).map_err(|failure| failure.about("--kind"))).transpose()
}

pub fn given_shape(arguments: &Arguments) -> Result<Option<Vec<u64>>, Failure> {
    arguments.shape.as_ref().map(|text| words::shape(text).map_err(|failure| failure.about("--shape"))).transpose()
}

pub fn missing_kind(why: &str) -> Failure {
    Failure::usage(format!("--kind is missing{why}; for example --kind \"depth 1, ragged, width 4, index at start\""))
}

pub fn missing_shape(why: &str) -> Failure {
    Failure::usage(format!("--shape is missing{why}; for example --shape 2x3"))
}

/// Cells of a shape that is accepted.
pub fn cells(shape: &[u64]) -> usize {
    shape.iter().product::<u64>() as usize
}

/// A stored table that is read: what it is, and its bytes.
pub struct Stored {
    pub kind: Kind,
    pub shape: Vec<u64>,
    pub input: Input,
    pub described: Option<Described>,
}

/// Kind and shape as they are given, and by what.
pub struct Given<'a> {
    pub kind: Option<Kind>,
    pub shape: Option<&'a [u64]>,
    pub shape_by: &'a str,
}

impl Given<'_> {
    /// Kind and shape where no description of these files says them.
    fn alone(&self, paths: &[&OsStr]) -> Result<(Kind, Vec<u64>), Failure> {
        let kind = self.kind.ok_or_else(|| missing_kind(&undescribed(paths)))?;
        Ok((kind, self.shape.ok_or_else(|| missing_shape(&undescribed(paths)))?.to_vec()))
    }
}

impl Stored {
    /// Takes a table that was read. Kind and shape are given, or its description says them. `damaged` takes a file that is not
    /// the one described, too.
    pub fn of(path: &OsStr, pair: Pair, given: Given<'_>, damaged: bool) -> Result<Stored, Failure> {
        let Pair { input, described } = pair;
        let (kind, shape) = match &described {
            Some(described) => (described.kind(given.kind, "--kind")?, described.shape(given.shape, given.shape_by)?),
            None => given.alone(&[path])?,
        };
        if let (Some(described), false) = (&described, damaged) {
            described.holds(&input)?;
        }
        Ok(Stored { kind, shape, input, described })
    }

    /// Reads the one table of a command line.
    pub fn named(arguments: &Arguments, damaged: bool, watch: &Watch) -> Result<Stored, Failure> {
        let (kind, shape) = (given_kind(arguments)?, given_shape(arguments)?);
        let given = Given { kind, shape: shape.as_deref(), shape_by: "--shape" };
        let path = &arguments.files[0];
        if !describe::is_beside(path) {
            given.alone(&[path])?;
        }
        Stored::of(path, Pair::read(path, watch)?, given, damaged)
    }

    /// Reads the two tables of a command line, which have one kind and one shape. Either description can say them.
    pub fn two(arguments: &Arguments, watch: &Watch) -> Result<[Stored; 2], Failure> {
        let (kind, shape) = (given_kind(arguments)?, given_shape(arguments)?);
        let given = Given { kind, shape: shape.as_deref(), shape_by: "--shape" };
        let paths = [0, 1].map(|number| arguments.files[number].as_os_str());
        if !paths.iter().any(|path| describe::is_beside(path)) {
            given.alone(&paths)?;
        }
        let (one, other) = (Pair::read(paths[0], watch)?, Pair::read(paths[1], watch)?);
        if let (Some(one), Some(other)) = (&one.described, &other.described) {
            one.alike(other)?;
        }
        let (kind, shape) = match one.described.as_ref().or(other.described.as_ref()).map(Described::says) {
            Some(says) => (kind.unwrap_or(says.kind), shape.clone().unwrap_or_else(|| says.shape.clone())),
            None => given.alone(&paths)?,
        };
        let given = || Given { kind: Some(kind), shape: Some(&shape), shape_by: "--shape" };
        let one = Stored::of(paths[0], one, given(), false)?;
        Ok([one, Stored::of(paths[1], other, given(), false)?])
    }

    /// Which part it is, if its description says so.
    pub fn part(&self) -> Option<&Part> {
        self.described.as_ref().and_then(Described::part)
    }

    /// The file, and its description.
    pub fn inputs(&self) -> impl Iterator<Item = &Input> {
        [&self.input].into_iter().chain(self.described.as_ref().map(|described| &described.input))
    }

    pub fn walk(&self) -> Walk {
        locate::table(self.kind, cells(&self.shape), &self.input.bytes)
    }

    pub fn decode(&self) -> Result<Array, Failure> {
        decode(self.kind, &self.shape, &self.input.bytes).map_err(|refusal| self.refused(refusal))
    }

    pub fn refused(&self, refusal: Refusal) -> Failure {
        Failure::refused(refusal, &self.input.name, stopped(refusal, &self.walk(), self.input.bytes.len()))
    }
}

/// Why kind and shape must be given: no file that is read has a description.
pub fn undescribed(paths: &[&OsStr]) -> String {
    let described = paths.iter().filter(|path| **path != "-").map(|path| describe::beside(path));
    let names: Vec<String> = described.map(|name| format!("no {}", files::name(&name, ""))).collect();
    match names.is_empty() {
        true => String::new(),
        false => format!(" and there is {}", names.join(" and ")),
    }
}

/// The older, interleaved form that is read: its shape, and its bytes.
pub struct Interleaved {
    pub shape: Vec<u64>,
    pub input: Input,
}

impl Interleaved {
    /// Reads the older form, as `by` asks for. A file that is described is a table, and so is none.
    pub fn read(path: &OsStr, by: &str, arguments: &Arguments, watch: &Watch) -> Result<Interleaved, Failure> {
        Interleaved::of(path, by, given_shape(arguments)?.ok_or_else(|| missing_shape(""))?, watch)
    }

    /// The same, of a shape that is known.
    pub fn of(path: &OsStr, by: &str, shape: Vec<u64>, watch: &Watch) -> Result<Interleaved, Failure> {
        let Pair { input, described } = Pair::read(path, watch)?;
        if let Some(described) = described {
            let kind = format!("\"{}\"", described.says().kind);
            return Err(describe::differ(by, "the older form", described.name(), &kind));
        }
        Ok(Interleaved { shape, input })
    }

    pub fn walk(&self) -> Walk {
        locate::interleaved(cells(&self.shape), &self.input.bytes)
    }

    pub fn decode(&self) -> Result<RaggedValues, Refusal> {
        decode_interleaved(cells(&self.shape) as u64, &self.input.bytes)
    }
}

/// Where reading stopped, in words.
pub fn stopped(refusal: Refusal, walk: &Walk, length: usize) -> String {
    match &walk.stop {
        Some(stop) if stop.refusal == refusal => {
            format!("Reading stopped at byte {} of {length}: {}", stop.at, stop.what)
        }
        _ => "The byte where reading stopped was not found".to_string(),
    }
}
