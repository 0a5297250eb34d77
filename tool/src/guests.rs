//! The commands of guests: show, read, edit. Each is one call of the library, under a rights plane.

use crate::arguments::Arguments;
use crate::commands::{print_table, store};
use crate::failure::Failure;
use crate::files::{self, Input};
use crate::stored::{cells, Stored};
use crate::tables::{missing, Setting};
use crate::watch::Watch;
use crate::{words, worksheet};
use durpaxeta::{guest_read, Array, Refusal, Rights};
use std::ffi::OsStr;

/// A rights plane, and who says it: the option itself, or the file with it.
struct Plane {
    rights: Rights,
    by: String,
    input: Option<Input>,
}

impl Plane {
    fn read(arguments: &Arguments, watch: &Watch) -> Result<Plane, Failure> {
        match (&arguments.rights, &arguments.rights_file) {
            (Some(_), Some(_)) => {
                Err(Failure::usage("a guest has one plane: give --rights or --rights-file, not both"))
            }
            (Some(text), None) => {
                let by = "--rights".to_string();
                Ok(Plane { rights: words::rights(text, &by)?, by, input: None })
            }
            (None, Some(path)) => Plane::in_file(path, arguments, watch),
            (None, None) => Err(missing("--rights", "1,0,1,0")),
        }
    }

    fn in_file(path: &OsStr, arguments: &Arguments, watch: &Watch) -> Result<Plane, Failure> {
        if path == "-" && arguments.files[0] == "-" {
            return Err(Failure::usage("only one of the rights plane and the table can come from standard input"));
        }
        let input = files::read(path, watch)?;
        let rights = listed(&input.name, &input.bytes)?;
        Ok(Plane { rights, by: input.name.clone(), input: Some(input) })
    }

    /// Whether a refusal of the call is the plane's own: it has another count of cells than the table. Then the failure is told.
    fn refused(&self, refusal: Refusal, shape: &[u64]) -> Option<Failure> {
        let (own, wanted) = (self.rights.cell_count(), cells(shape));
        let (noun, shape) = (if own == 1 { "cell" } else { "cells" }, words::shape_text(shape));
        let detail = format!("The plane has {own} {noun}; the table is {shape} and has {wanted}");
        (refusal == Refusal::Content && own != wanted).then(|| Failure::refused(refusal, &self.by, detail))
    }
}

/// Reads a plane as text; behind a # stands a comment.
fn listed(name: &str, bytes: &[u8]) -> Result<Rights, Failure> {
    let text = words::text(name, bytes, "no rights plane")?;
    let mut shown = Vec::new();
    for (number, line) in text.lines().enumerate() {
        let said = line.split('#').next().unwrap_or("");
        let rights = words::rights(said, name).map_err(|failure| failure.in_line(name, number + 1))?;
        shown.extend((0..rights.cell_count()).map(|cell| rights.shows(cell)));
    }
    Ok(Rights::new(&shown))
}

/// A stored table, and what the guest sees of it.
struct Seen {
    stored: Stored,
    plane: Plane,
    array: Array,
}

impl Seen {
    fn read(arguments: &Arguments, watch: &Watch) -> Result<Seen, Failure> {
        let plane = Plane::read(arguments, watch)?;
        let stored = Stored::named(arguments, false, watch)?;
        let array = guest_read(&stored.decode()?, &plane.rights).map_err(|refusal| {
            let detail = (refusal == Refusal::NoMasks).then(|| format!("The kind is {}", stored.kind));
            let subject = stored.input.name.clone();
            plane.refused(refusal, &stored.shape).unwrap_or(Failure::Refused { refusal, subject, detail })
        })?;
        Ok(Seen { stored, plane, array })
    }
}

pub fn show(arguments: &Arguments, watch: &Watch) -> Result<u8, Failure> {
    print_table(arguments, watch, worksheet::write_seen, || Ok(Seen::read(arguments, watch)?.array))
}

pub fn read(arguments: &Arguments, watch: &Watch) -> Result<u8, Failure> {
    let Seen { stored, plane, array } = Seen::read(arguments, watch)?;
    let inputs: Vec<&Input> = stored.inputs().chain(&plane.input).collect();
    store(&array, stored.part(), &stored.input.name, &arguments.files[1], &inputs, arguments, watch)?;
    Ok(0)
}

pub fn edit(arguments: &Arguments, watch: &Watch) -> Result<u8, Failure> {
    let plane = Plane::read(arguments, watch)?;
    let mut setting = Setting::read(arguments, watch)?;
    setting.make(|table, cell, to| table.guest_edit(&plane.rights, cell, to)).map_err(|refusal| {
        let detail = format!("{} has 0 for cell {}", plane.by, setting.cell);
        let hidden = || Failure::refused(refusal, &setting.input.name, detail);
        let own = plane.refused(refusal, &setting.listing.shape);
        own.or_else(|| (refusal == Refusal::Hidden).then(hidden)).unwrap_or_else(|| setting.refused(refusal))
    })?;
    setting.write(plane.input.as_ref(), arguments, watch)
}
