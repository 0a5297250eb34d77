//! The commands on working tables: make, show, set, preview, pack. Each is one call of the library over a listing.

use crate::arguments::Arguments;
use crate::failure::Failure;
use crate::files::{self, Input};
use crate::listing::{self, Listing};
use crate::literal::{self, word};
use crate::output;
use crate::pair::Target;
use crate::stored::Stored;
use crate::watch::Watch;
use crate::{words, worksheet};
use durpaxeta::{read_number, Cell, Mark, Preview, Refusal, Table};
use std::ffi::OsStr;

pub fn missing(option: &str, example: &str) -> Failure {
    Failure::usage(format!("{option} is missing; for example {option} {example}"))
}

pub fn number(option: &str, given: &Option<String>, example: &str) -> Result<u64, Failure> {
    let text = given.as_ref().ok_or_else(|| missing(option, example))?;
    read_number(text.trim()).ok_or_else(|| Failure::usage(format!("\"{text}\" is no number; write {option} {example}")))
}

/// A refusal of the library, told of the listing.
fn refused(name: &str, listing: &Listing, refusal: Refusal) -> Failure {
    let detail = match refusal {
        Refusal::Content => broken(listing),
        Refusal::NoMasks => Some(format!("The kind is {}", listing.table.kind)),
        _ => None,
    };
    Failure::Refused { refusal, subject: name.to_string(), detail }
}

/// The first rule of a working table that a listing breaks.
fn broken(listing: &Listing) -> Option<String> {
    let Listing { shape, table } = listing;
    let (count, size) = (table.cell_count(), table.store.len() as u64);
    let name = |cell: usize| words::coordinates(shape, cell);
    let mut lying = Vec::new();
    for cell in 0..count {
        let (start, length) = (table.starts[cell], table.lengths[cell]);
        let mut null = None;
        for (level, &mask) in table.masks.iter().skip(cell).step_by(count).enumerate() {
            match (Mark::of(mask), null) {
                (Mark::Other, _) => {
                    let level = level + 1;
                    return Some(format!("The mask byte of cell {} at level {level} is {mask:02X}", name(cell)));
                }
                (Mark::Set, Some(null)) => {
                    return Some(format!("Cell {} is null at level {null}, and set below it", name(cell)));
                }
                (Mark::Null, None) => null = Some(level + 1),
                _ => {}
            }
        }
        match null {
            Some(level) if length > 0 => {
                return Some(format!("Cell {} is null at level {level}, and has {length} bytes", name(cell)));
            }
            _ if length == 0 && start > 0 => {
                return Some(format!("Cell {} has no bytes, and starts at {start} and not at 0", name(cell)));
            }
            _ if start > size || length > size - start => {
                return Some(format!("Cell {} ends behind the store, which has {size} bytes", name(cell)));
            }
            _ if length > 0 => lying.push(cell),
            _ => {}
        }
    }
    lying.sort_by_key(|&cell| table.starts[cell]);
    let over = lying.windows(2).find(|two| table.starts[two[0]] + table.lengths[two[0]] > table.starts[two[1]]);
    over.map(|two| format!("Cells {} and {} share bytes of the store", name(two[0]), name(two[1])))
}

fn read(path: &OsStr, watch: &Watch) -> Result<(Input, Listing), Failure> {
    let input = files::read(path, watch)?;
    let listing = listing::read(&input.name, &input.bytes)?;
    Ok((input, listing))
}

fn write(
    listing: &Listing,
    path: &OsStr,
    inputs: &[&Input],
    arguments: &Arguments,
    watch: &Watch,
) -> Result<(), Failure> {
    let target = Target::plain(path, "remove it", arguments.no_clobber, inputs)?;
    target.write(listing::write(listing).as_bytes(), None, watch)
}

pub fn make(arguments: &Arguments, watch: &Watch) -> Result<u8, Failure> {
    let size = number("--store", &arguments.store, "4096")?;
    let stored = Stored::named(arguments, false, watch)?;
    let array = stored.decode()?;
    let needs = array.values.len();
    let table = Table::make(&array, usize::try_from(size).unwrap_or(usize::MAX)).map_err(|refusal| {
        let detail = format!("The cells have {needs} bytes, and the store is to have {size}");
        let detail = matches!(refusal, Refusal::Size | Refusal::Output).then_some(detail);
        Failure::Refused { refusal, subject: stored.input.name.clone(), detail }
    })?;
    let listing = Listing { shape: array.shape, table };
    write(&listing, &arguments.files[1], &stored.inputs().collect::<Vec<_>>(), arguments, watch)?;
    Ok(0)
}

pub fn show(arguments: &Arguments, watch: &Watch) -> Result<u8, Failure> {
    let (input, listing) = read(&arguments.files[0], watch)?;
    let array = listing.table.read(&listing.shape).map_err(|refusal| refused(&input.name, &listing, refusal))?;
    output::print(&worksheet::write(&array, arguments.hex), watch)?;
    Ok(0)
}

/// `null at level 1`, `value "text"` or `value hex 0A 0B`, as behind the masks in a worksheet.
fn wanted(text: &str) -> Result<Result<Vec<u8>, usize>, Failure> {
    let wrong = |what: &str| {
        let write = "write --to 'value \"0-3\"', --to 'value hex 0A 0B' or --to 'null at level 1'";
        Failure::usage(format!("--to {text}: {what}; {write}"))
    };
    if let Some(rest) = word(text.trim(), "value") {
        let mut value = Vec::new();
        literal::read(rest, &mut value).map_err(|what| wrong(&what))?;
        return Ok(Ok(value));
    }
    match text.split_whitespace().collect::<Vec<_>>()[..] {
        ["null", "at", "level", level] => match read_number(level).and_then(|level| usize::try_from(level).ok()) {
            Some(level) => Ok(Err(level)),
            None => Err(wrong("the level is no number")),
        },
        _ => Err(wrong("a cell is null at a level, or has a value")),
    }
}

/// The number of the cell; one that the shape has not gets a number that the table has not.
fn cell_of(text: &str, shape: &[u64]) -> Result<u64, Failure> {
    let numbers = text.split(',').filter_map(|part| read_number(part.trim())).count();
    if numbers != shape.len() || numbers != text.split(',').count() {
        let (shape, example) = (words::shape_text(shape), words::coordinates(shape, 0));
        return Err(Failure::usage(format!(
            "\"{text}\" is no cell of a table of {shape}; write for example {example}"
        )));
    }
    Ok(words::cell_number(shape, text).map_or(u64::MAX, |cell| cell as u64))
}

/// A setting that was asked for, and the table that it is of.
pub struct Setting {
    pub cell: String,
    number: u64,
    to: Result<Vec<u8>, usize>,
    pub input: Input,
    pub listing: Listing,
}

impl Setting {
    pub fn read(arguments: &Arguments, watch: &Watch) -> Result<Setting, Failure> {
        let cell = arguments.cell.clone().ok_or_else(|| missing("--cell", "0,1"))?;
        let to = arguments.to.as_ref().ok_or_else(|| missing("--to", "'value \"0-3\"'"))?;
        let to = wanted(to)?;
        let (input, listing) = read(&arguments.files[0], watch)?;
        let number = cell_of(&cell, &listing.shape)?;
        Ok(Setting { cell, number, to, input, listing })
    }

    /// Makes it, by a call of the library.
    pub fn make(&mut self, call: impl FnOnce(&mut Table, u64, Cell<'_>) -> Result<(), Refusal>) -> Result<(), Refusal> {
        call(&mut self.listing.table, self.number, cell_to(&self.to))
    }

    pub fn refused(&self, refusal: Refusal) -> Failure {
        not_set(&self.input.name, &self.listing, &self.cell, &self.to, refusal)
    }

    /// Writes the table; `beside` was read too, and is not replaced either.
    pub fn write(&self, beside: Option<&Input>, arguments: &Arguments, watch: &Watch) -> Result<u8, Failure> {
        let inputs: Vec<&Input> = [&self.input].into_iter().chain(beside).collect();
        write(&self.listing, &arguments.files[1], &inputs, arguments, watch)?;
        Ok(0)
    }
}

fn cell_to(to: &Result<Vec<u8>, usize>) -> Cell<'_> {
    match to {
        Ok(value) => Cell::Value(value),
        Err(level) => Cell::Null { level: *level },
    }
}

pub fn set(arguments: &Arguments, watch: &Watch) -> Result<u8, Failure> {
    let mut setting = Setting::read(arguments, watch)?;
    setting.make(Table::set).map_err(|refusal| setting.refused(refusal))?;
    setting.write(None, arguments, watch)
}

pub fn preview(arguments: &Arguments, watch: &Watch) -> Result<u8, Failure> {
    let setting = Setting::read(arguments, watch)?;
    let foreseen = setting.listing.table.preview(setting.number, cell_to(&setting.to));
    let Preview { total, unpacked } = foreseen.map_err(|refusal| setting.refused(refusal))?;
    output::print(&format!("sum of lengths: {total}\ncells not packed: {unpacked}\n"), watch)?;
    Ok(0)
}

/// Why a cell is not set.
fn not_set(name: &str, listing: &Listing, cell: &str, to: &Result<Vec<u8>, usize>, refusal: Refusal) -> Failure {
    let table = &listing.table;
    let detail = match (refusal, to) {
        (Refusal::Cell, _) => format!("The table is {}; cell {cell} is none of it", words::shape_text(&listing.shape)),
        (Refusal::Full, Ok(value)) => {
            let own = words::cell_number(&listing.shape, cell).map_or(0, |cell| table.lengths[cell]);
            let (others, size) = (table.lengths.iter().sum::<u64>() - own, table.store.len());
            format!("The value has {} bytes and the other cells {others}; the store has {size}", value.len())
        }
        (Refusal::Content, Err(level)) if broken(listing).is_none() => {
            format!("There is no level {level}; the depth is {}", table.kind.depth)
        }
        _ => return refused(name, listing, refusal),
    };
    Failure::refused(refusal, name, detail)
}

pub fn pack(arguments: &Arguments, watch: &Watch) -> Result<u8, Failure> {
    let most = number("--most", &arguments.most, "256")?;
    let (input, mut listing) = read(&arguments.files[0], watch)?;
    let moved = listing.table.pack(most).map_err(|refusal| match refusal {
        Refusal::Kind if listing.table.kind.is_ragged() => {
            Failure::refused(refusal, "--most", format!("{most} cells are to be moved; one call moves 1 to 256"))
        }
        _ => refused(&input.name, &listing, refusal),
    })?;
    write(&listing, &arguments.files[1], &[&input], arguments, watch)?;
    output::tell(&format!("{}: {moved} {} moved", input.name, if moved == 1 { "cell" } else { "cells" }));
    Ok(0)
}
