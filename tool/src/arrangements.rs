//! The command on small arrangements: one of them as a worksheet, how many there are, or all of them as a folder of stored tables.

use crate::arguments::Arguments;
use crate::failure::Failure;
use crate::output;
use crate::stored::{given_kind, missing_kind};
use crate::tables::number;
use crate::watch::Watch;
use crate::{literal, worksheet};
use durpaxeta::{arrangement, arrangement_count, arrangements, encode, Array, Cell, Kind, Refusal};
use std::ffi::OsStr;
use std::fmt::Write;

const TITLE: &str = "durpaxeta arrangements 1";

/// What is asked of the library, and the words in which it was.
struct Asked<'a> {
    kind: Kind,
    cells: u64,
    arguments: &'a Arguments,
}

impl Asked<'_> {
    fn refused(&self, refusal: Refusal) -> Failure {
        let typed = |given: &Option<String>| given.as_deref().unwrap_or_default().trim().to_string();
        let (cells, noun) = (typed(&self.arguments.cells), if self.cells == 1 { "cell" } else { "cells" });
        let detail = match refusal {
            Refusal::Arrangement => {
                let (number, depth) = (typed(&self.arguments.number), self.kind.depth);
                let count = arrangement_count(depth, self.cells);
                format!("The number is {number}; there are {count} arrangements of {cells} {noun} of depth {depth}")
            }
            _ => format!("The kind is {}, with {cells} {noun}", self.kind),
        };
        Failure::refused(refusal, "arrangement", detail)
    }
}

pub fn run(arguments: &Arguments, watch: &Watch) -> Result<u8, Failure> {
    let kind = given_kind(arguments)?.ok_or_else(|| missing_kind(""))?;
    let cells = number("--cells", &arguments.cells, "2")?;
    let asked = Asked { kind, cells, arguments };
    let all = || arrangements(kind, &[cells]).map_err(|refusal| asked.refused(refusal));
    match (&arguments.number, arguments.count, &arguments.all) {
        (Some(_), false, None) => {
            let number = number("--number", &arguments.number, "8")?;
            let one = arrangement(kind, &[cells], number).map_err(|refusal| asked.refused(refusal))?;
            output::print(&worksheet::write(&one, false), watch)?;
        }
        (None, true, None) => output::print(&format!("{}\n", all()?.len()), watch)?,
        (None, false, Some(folder)) => write_all(folder, &asked, all()?.collect(), watch)?,
        (None, false, None) => {
            return Err(Failure::usage("--number, --count or --all is missing; for example --number 8"));
        }
        _ => return Err(Failure::usage("give one of --number, --count and --all")),
    }
    Ok(0)
}

/// Stored tables, named by their numbers with as many digits as the last one has, and an index of them.
fn write_all(folder: &OsStr, asked: &Asked<'_>, all: Vec<Array>, watch: &Watch) -> Result<(), Failure> {
    if folder == "-" {
        return Err(Failure::usage("--all makes a folder, and standard output is none"));
    }
    watch.doing("encoding the arrangements");
    let digits = (all.len() - 1).to_string().len();
    let mut index = format!("{TITLE}\nkind: {}\nshape: {}\narrangements: {}\n", asked.kind, asked.cells, all.len());
    index.push_str("# number | file | masks, level by level | length of each cell | what each cell is\n");
    let mut files = Vec::new();
    for (number, array) in all.iter().enumerate() {
        let file = format!("{number:0digits$}.bin");
        let _ = writeln!(index, "{number} | {file} | {}", entry(array));
        files.push((file, encode(array).map_err(|refusal| asked.refused(refusal))?));
    }
    files.push(("index.txt".to_string(), index.into_bytes()));
    output::write_folder(folder, &files, watch)
}

/// Masks, lengths, and the cells in the words of a worksheet.
fn entry(array: &Array) -> String {
    let planes: Vec<String> = array.masks.chunks(array.cell_count()).map(literal::spaced).collect();
    let masks = if planes.is_empty() { "-".to_string() } else { planes.join(" / ") };
    let length = |cell: Cell<'_>| if let Cell::Value(value) = cell { value.len() } else { 0 };
    let lengths: Vec<String> = array.cells().map(|cell| length(cell).to_string()).collect();
    let cells: Vec<String> = array.cells().map(|cell| worksheet::what(cell, false)).collect();
    format!("{masks} | {} | {}", lengths.join(" "), cells.join(", "))
}
