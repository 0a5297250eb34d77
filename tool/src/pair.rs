//! A table and its description are two files, and no file system replaces two at once. Still they belong together at every
//! moment, whoever writes, and whenever a command is killed or the power fails:
//!
//! - Commands that write one table take turns (output.rs), so the steps of one never come between those of another.
//! - The description takes its place first and is of both tables, the one that is there and the one to come; then the table
//!   takes its place; then the description that is of the new table alone. Each step replaces one whole file by another,
//!   and is synced before the next. So the description that is there always has one that fits the table that is there.
//! - Where no table is yet, its description comes first; where one is that has no description, the table. Before and after
//!   each step there is a pair, or a table without a description, as before.
//! - Two different tables can have one length and one checksum. If they differ in kind, shape or part, no description can be
//!   of both, and the old one is taken away first.
//! - Readers take no turns. They open the description, then the table, and then see whether the description is still the file
//!   that they opened; else they begin anew. A file that is open keeps its number, and no writer changes its bytes. So the
//!   description was there when the table was opened, and fits it. What does not fit then was changed by somebody else.

use crate::describe::{self, Described, Description};
use crate::failure::{Failure, SYSTEM};
use crate::files::{self, Identity, Input};
use crate::output::{Output, Place, Ready, Turn};
use crate::watch::Watch;
use std::ffi::{OsStr, OsString};
use std::fs;

/// So often a pair is opened anew. Each time means that a command replaced the description just then.
const TRIES: usize = 1000;

/// A file that is read, and the description beside it, where there is one.
pub struct Pair {
    pub input: Input,
    pub described: Option<Described>,
}

impl Pair {
    pub fn read(path: &OsStr, watch: &Watch) -> Result<Pair, Failure> {
        if path == "-" {
            return Ok(Pair { input: files::read(path, watch)?, described: None });
        }
        for _ in 0..TRIES {
            let beside = describe::beside(path);
            let description = match files::open(&beside) {
                Err(_) if fs::symlink_metadata(&beside).is_err() => None,
                // Again, as it may have come just now.
                opened => Some(opened.or_else(|_| files::open(&beside))?),
            };
            let table = files::open(path)?;
            if there(path) != description.as_ref().and_then(|description| description.identity) {
                continue;
            }
            let description = description.map(|description| description.read(watch)).transpose()?;
            let input = table.read(watch)?;
            let described = description.map(|description| Described::read(description, &input)).transpose()?;
            return Ok(Pair { input, described });
        }
        let (name, beside) = (files::name(path, ""), files::name(&describe::beside(path), ""));
        let what = format!("cannot read {name}: {beside} was replaced each of {TRIES} times");
        Err(Failure::plain(SYSTEM, what))
    }
}

/// The description that is beside a file now.
fn there(path: &OsStr) -> Option<Identity> {
    fs::metadata(describe::beside(path)).ok().as_ref().and_then(files::identity)
}

/// A file that is to be written, and the description beside it, if it is to get one.
pub struct Target {
    file: Output,
    beside: OsString,
    description: Option<Output>,
    advice: &'static str,
}

impl Target {
    /// Looks at a file that gets no description. None is left beside it that would no longer be right.
    pub fn plain(path: &OsStr, advice: &'static str, no_clobber: bool, inputs: &[&Input]) -> Result<Target, Failure> {
        let file = Output::new(path, no_clobber, inputs)?;
        let target = Target { file, beside: describe::beside(path), description: None, advice };
        target.not_described()?;
        Ok(target)
    }

    /// Looks at a table that gets a description.
    pub fn described(path: &OsStr, no_clobber: bool, inputs: &[&Input]) -> Result<Target, Failure> {
        let file = Output::new(path, no_clobber, inputs)?;
        if file.place().is_none() {
            return Err(Failure::usage("--describe writes OUT.dpx beside OUT, so OUT must be a file"));
        }
        let beside = describe::beside(path);
        let description = Output::new(&beside, no_clobber, inputs)?;
        let one = file.identity().is_some() && file.identity() == description.identity();
        if description.place().is_none() || one {
            let beside = files::name(&beside, "");
            return Err(Failure::usage(format!("{beside} is no file of its own, so it cannot be the description")));
        }
        Ok(Target { file, beside, description: Some(description), advice: "" })
    }

    fn not_described(&self) -> Result<(), Failure> {
        if self.file.place().is_none() || fs::symlink_metadata(&self.beside).is_err() {
            return Ok(());
        }
        let (beside, advice) = (files::name(&self.beside, ""), self.advice);
        Err(Failure::usage(format!("{beside} is there and would no longer be right: {advice}")))
    }

    /// Writes the bytes, and what is said of them where there is to be a description; both or none.
    pub fn write(&self, bytes: &[u8], says: Option<&Description>, watch: &Watch) -> Result<(), Failure> {
        let Some(place) = self.file.place() else { return self.file.stream(bytes, watch) };
        let turn = Turn::take(place, watch)?;
        let written = match self.description.as_ref().and_then(Output::place).zip(says) {
            Some((description, says)) => replace(place, description, bytes, says, &turn, watch),
            None => {
                // Looked at again, as now nobody else writes one.
                let stored = self
                    .not_described()
                    .and_then(|()| turn.store(place, bytes, fs::metadata(place.path).ok().as_ref(), watch));
                stored.and_then(Ready::put)
            }
        };
        // While the turn holds signals back: one that arrived ends the command.
        watch.hush();
        written
    }
}

/// Replaces a table and its description.
fn replace(
    table: Place<'_>,
    description: Place<'_>,
    bytes: &[u8],
    says: &Description,
    turn: &Turn,
    watch: &Watch,
) -> Result<(), Failure> {
    let there = fs::metadata(table.path).ok();
    let described = fs::symlink_metadata(description.path).is_ok();
    let kept = match described && there.is_some() {
        true => still_right(table, description, bytes, says, watch),
        false => Vec::new(),
    };
    // All is stored safely before anything takes its place.
    let new_table = turn.store(table, bytes, there.as_ref(), watch)?;
    let new = turn.store(description, says.text().as_bytes(), there.as_ref(), watch)?;
    if kept.iter().any(|old| old.fits(bytes)) {
        description.remove()?;
        new_table.put()?;
        return new.put();
    }
    if !kept.is_empty() {
        let texts: String = [says].into_iter().chain(&kept).map(Description::text).collect();
        turn.store(description, texts.as_bytes(), there.as_ref(), watch)?.put()?;
        new_table.put()?;
        return new.put();
    }
    if !described && there.is_some() {
        new_table.put()?;
        return new.put();
    }
    new.put()?;
    new_table.put().inspect_err(|_| {
        if !described {
            let _ = description.remove();
        }
    })
}

/// What the description that is there says of the table that is there, unless it is all the same to the one to come.
fn still_right(
    table: Place<'_>,
    description: Place<'_>,
    bytes: &[u8],
    says: &Description,
    watch: &Watch,
) -> Vec<Description> {
    let read = |place: Place<'_>| files::read(place.path.as_os_str(), watch);
    // What is no description says nothing, and a table that may be written and not read may be any.
    let all = read(description).and_then(|text| Description::read(&text.name, &text.bytes)).unwrap_or_default();
    match read(table) {
        Ok(now) if now.bytes == bytes => Vec::new(),
        Ok(now) => all.into_iter().filter(|old| old != says && old.fits(&now.bytes)).collect(),
        Err(_) => all,
    }
}
