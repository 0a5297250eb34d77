//! The commands.

use crate::arguments::{self, Arguments};
use crate::describe::{self, Described, Description, Part};
use crate::failure::{refusal_text, Failure, DIFFERENT, SYSTEM};
use crate::files::{self, Input};
use crate::locate::Walk;
use crate::output;
use crate::pair::{Pair, Target};
use crate::stored::{
    cells, given_kind, given_shape, missing_kind, missing_shape, stopped, undescribed, Given, Interleaved, Stored,
};
use crate::watch::Watch;
use crate::{arrangements, explain, guests, help, json, literal, memory, migrate, tables, words, worksheet};
use durpaxeta::{
    decode, encode, encode_interleaved, extract, generate, merge, partial_decode, subset_cells, Array, ArrayRef, Cell,
    Chunk, Kind, Refusal, Subset, Values,
};
use std::ffi::{OsStr, OsString};
use std::os::unix::ffi::OsStrExt;

struct Command {
    name: &'static str,
    help: &'static str,
    options: &'static [&'static str],
    files: &'static [&'static str],
    run: fn(&Arguments, &Watch) -> Result<u8, Failure>,
}

const COMMANDS: [Command; 24] = [
    Command {
        name: "show",
        help: help::SHOW,
        options: &["--kind", "--shape", "--hex", "--json"],
        files: &["FILE"],
        run: show,
    },
    Command {
        name: "write",
        help: help::WRITE,
        options: &["--describe", "--no-clobber"],
        files: &["WORKSHEET", "OUT"],
        run: write,
    },
    Command {
        name: "cut",
        help: help::CUT,
        options: &["--kind", "--shape", "--subset", "--describe", "--no-clobber"],
        files: &["IN", "OUT"],
        run: cut,
    },
    Command {
        name: "merge",
        help: help::MERGE,
        options: &["--kind", "--shape", "--part", "--describe", "--no-clobber"],
        files: &["FILE...", "OUT"],
        run: merge_parts,
    },
    Command {
        name: "convert",
        help: help::CONVERT,
        options: &["--kind", "--shape", "--to-interleaved", "--describe", "--no-clobber"],
        files: &["IN", "OUT"],
        run: convert,
    },
    Command {
        name: "generate",
        help: help::GENERATE,
        options: &["--kind", "--shape", "--start", "--describe", "--no-clobber"],
        files: &["OUT"],
        run: make_load,
    },
    Command {
        name: "arrangement",
        help: help::ARRANGEMENT,
        options: &["--kind", "--cells", "--number", "--count", "--all"],
        files: &[],
        run: arrangements::run,
    },
    Command {
        name: "check",
        help: help::CHECK,
        options: &["--kind", "--shape", "--interleaved", "--strict"],
        files: &["FILE"],
        run: check,
    },
    Command { name: "same", help: help::SAME, options: &["--kind", "--shape"], files: &["A", "B"], run: same },
    Command {
        name: "explain",
        help: help::EXPLAIN,
        options: &["--kind", "--shape", "--interleaved"],
        files: &["FILE"],
        run: explain_bytes,
    },
    Command {
        name: "table make",
        help: help::TABLE,
        options: &["--kind", "--shape", "--store", "--no-clobber"],
        files: &["IN", "OUT"],
        run: tables::make,
    },
    Command { name: "table show", help: help::TABLE, options: &["--hex"], files: &["TABLE"], run: tables::show },
    Command {
        name: "table set",
        help: help::TABLE,
        options: &["--cell", "--to", "--no-clobber"],
        files: &["TABLE", "OUT"],
        run: tables::set,
    },
    Command {
        name: "table preview",
        help: help::TABLE,
        options: &["--cell", "--to"],
        files: &["TABLE"],
        run: tables::preview,
    },
    Command {
        name: "table pack",
        help: help::TABLE,
        options: &["--most", "--no-clobber"],
        files: &["TABLE", "OUT"],
        run: tables::pack,
    },
    Command {
        name: "guest show",
        help: help::GUEST,
        options: &["--rights", "--rights-file", "--kind", "--shape", "--hex", "--json"],
        files: &["FILE"],
        run: guests::show,
    },
    Command {
        name: "guest read",
        help: help::GUEST,
        options: &["--rights", "--rights-file", "--kind", "--shape", "--describe", "--no-clobber"],
        files: &["IN", "OUT"],
        run: guests::read,
    },
    Command {
        name: "guest edit",
        help: help::GUEST,
        options: &["--rights", "--rights-file", "--cell", "--to", "--no-clobber"],
        files: &["TABLE", "OUT"],
        run: guests::edit,
    },
    Command {
        name: "migrate begin",
        help: help::MIGRATE,
        options: &["--shape", "--part"],
        files: &["FOLDER"],
        run: migrate::begin,
    },
    Command { name: "migrate step", help: help::MIGRATE, options: &[], files: &["FOLDER"], run: migrate::step },
    Command { name: "migrate run", help: help::MIGRATE, options: &[], files: &["FOLDER"], run: migrate::run },
    Command { name: "migrate show", help: help::MIGRATE, options: &[], files: &["FOLDER"], run: migrate::show },
    Command {
        name: "migrate cut",
        help: help::MIGRATE,
        options: &["--kind", "--subset", "--describe", "--no-clobber"],
        files: &["FOLDER", "OUT"],
        run: migrate::cut,
    },
    Command { name: "example", help: help::EXAMPLE_HELP, options: &[], files: &[], run: example },
];

impl Command {
    /// The first word of its name, by which its help is found.
    fn page(&self) -> &'static str {
        self.name.split(' ').next().unwrap_or(self.name)
    }
}

/// Runs a command line and answers the exit status.
pub fn run(words: Vec<OsString>) -> Result<u8, Failure> {
    let watch = Watch::start();
    let mut words = words.into_iter();
    let first = words.next().ok_or_else(|| Failure::usage("no command is given"))?;
    let clear = |word: OsString| literal::clear(word.as_bytes());
    let text = clear(first);
    let page = match text.as_str() {
        "--help" | "-h" | "help" => match words.next() {
            Some(name) => Some(page(&clear(name))?),
            None => Some(help::GENERAL),
        },
        "--version" | "-V" => Some(help::VERSION),
        _ => None,
    };
    if let Some(page) = page {
        return match words.next() {
            Some(more) => Err(Failure::usage(format!("{text} does not take \"{}\"", clear(more)))),
            None => print(page, &watch),
        };
    }
    let command = match COMMANDS.iter().find(|command| command.page() == text && command.name != text) {
        Some(one) => match words.next().map(clear).as_deref() {
            Some("--help" | "-h") => return print(one.help, &watch),
            second => command(&format!("{text} {}", second.unwrap_or_default()))
                .map_err(|_| Failure::usage(followed(&text)).of_command(one.page()))?,
        },
        None => command(&text)?,
    };
    let run = || {
        let arguments = arguments::parse(command.name, command.options, command.files, words.collect())?;
        match arguments.help {
            true => print(command.help, &watch),
            false => (command.run)(&arguments, &watch),
        }
    };
    run().map_err(|failure| failure.of_command(command.page()))
}

fn command(name: &str) -> Result<&'static Command, Failure> {
    COMMANDS.iter().find(|command| command.name == name).ok_or_else(|| no_command(name))
}

/// The second words of the commands that begin with this one.
fn followed(first: &str) -> String {
    let seconds = COMMANDS.iter().filter_map(|command| command.name.strip_prefix(first)?.strip_prefix(' '));
    let seconds: Vec<&str> = seconds.collect();
    let (last, others) = seconds.split_last().unwrap_or((&"", &[]));
    format!("{first} is followed by {} or {last}", others.join(", "))
}

/// The help of a command.
fn page(name: &str) -> Result<&'static str, Failure> {
    let found = COMMANDS.iter().find(|command| command.page() == name);
    found.map(|command| command.help).ok_or_else(|| no_command(name))
}

fn no_command(name: &str) -> Failure {
    let mut names: Vec<&str> = COMMANDS.iter().map(Command::page).collect();
    names.dedup();
    Failure::usage(format!("there is no command \"{name}\"; there are {}", names.join(", ")))
}

fn print(text: &str, watch: &Watch) -> Result<u8, Failure> {
    output::print(text, watch)?;
    Ok(0)
}

/// Prints a verdict. Its status stands, whether or not anyone reads the text.
fn verdict(status: u8, text: &str, watch: &Watch) -> Result<u8, Failure> {
    match (status, output::print(text, watch)) {
        (0, Err(failure)) => Err(failure),
        (_, Err(failure)) => {
            output::tell_of(&failure);
            Ok(status)
        }
        (_, Ok(())) => Ok(status),
    }
}

/// Stores an array in a file, and describes it where that is asked for, with the part that it is.
pub fn store(
    array: &Array,
    part: Option<&Part>,
    subject: &str,
    path: &OsStr,
    inputs: &[&Input],
    arguments: &Arguments,
    watch: &Watch,
) -> Result<(), Failure> {
    watch.doing("encoding the table");
    let target = match arguments.describe {
        true => Target::described(path, arguments.no_clobber, inputs)?,
        false => {
            let advice = "give --describe to write it anew, or remove it";
            Target::plain(path, advice, arguments.no_clobber, inputs)?
        }
    };
    let stored = encode(array).map_err(|refusal| Failure::Refused {
        refusal,
        subject: subject.to_string(),
        detail: (refusal == Refusal::Field).then(|| too_long_for_an_index(array.view())),
    })?;
    let says = arguments.describe.then(|| Description::of(array.kind, &array.shape, part.cloned(), &stored));
    target.write(&stored, says.as_ref(), watch)
}

fn value_length(cell: Option<Cell<'_>>) -> usize {
    match cell {
        Some(Cell::Value(value)) => value.len(),
        _ => 0,
    }
}

/// What an index of width 4 does not say, and what helps.
fn too_long_for_an_index(array: ArrayRef<'_>) -> String {
    let sum: usize = array.cells().map(|cell| value_length(Some(cell))).sum();
    format!("The values have {sum} bytes, and offsets of width 4 end at {}: choose width 8, or cut the table", u32::MAX)
}

/// The first cell that a length of the older form does not say.
fn too_long_for_the_older_form(array: ArrayRef<'_>) -> Option<String> {
    let length = |number: usize| value_length(array.cell(number));
    let number = (0..array.cell_count()).find(|&number| length(number) > u32::MAX as usize)?;
    let (cell, length) = (words::coordinates(array.shape, number), length(number));
    Some(format!("Cell {cell} has {length} bytes, and lengths of the older form end at {}", u32::MAX))
}

// ---------------------------------------------------------------------------------------------------- the commands

fn show(arguments: &Arguments, watch: &Watch) -> Result<u8, Failure> {
    print_table(arguments, watch, worksheet::write, || Stored::named(arguments, false, watch)?.decode())
}

/// The most memory that the text of a value byte takes: `\x0A` in a worksheet; in JSON `\u000A`, and `0A ` and `0A` in hex. Twice, as a text
/// is copied where it grows.
const SHEET: u64 = 2 * 4;
const JSON: u64 = 2 * (6 + 3 + 2);

/// Prints a table as a worksheet or as JSON.
pub fn print_table(
    arguments: &Arguments,
    watch: &Watch,
    sheet: fn(&Array, bool) -> String,
    array: impl FnOnce() -> Result<Array, Failure>,
) -> Result<u8, Failure> {
    if arguments.json && arguments.hex {
        return Err(Failure::usage("--json shows each value as text and in hex: give --json or --hex, not both"));
    }
    let array = array()?;
    let (bytes, times) = (array.values.len() as u64, if arguments.json { JSON } else { SHEET });
    if !memory::holds(bytes.saturating_mul(times)) {
        let what = format!(
            "cannot print the table: its values have {bytes} bytes, and there is no memory for {times} times as many"
        );
        return Err(Failure::plain(SYSTEM, what));
    }
    if arguments.json {
        watch.doing("making JSON of the cells");
        return print(&json::write(&array), watch);
    }
    watch.doing("making a worksheet of the cells");
    print(&sheet(&array, arguments.hex), watch)
}

fn write(arguments: &Arguments, watch: &Watch) -> Result<u8, Failure> {
    let sheet = files::read(&arguments.files[0], watch)?;
    let array = worksheet::read(&sheet.name, &sheet.bytes)?;
    store(&array, None, &sheet.name, &arguments.files[1], &[&sheet], arguments, watch)?;
    Ok(0)
}

/// The subset that a command is to cut.
pub fn asked_subset(arguments: &Arguments) -> Result<&str, Failure> {
    arguments.subset.as_deref().ok_or_else(|| Failure::usage("--subset is missing; for example --subset 0..2,1..3"))
}

/// Reads a subset that is cut, and stored as a table.
pub fn some_cells(text: &str, shape: &[u64]) -> Result<Subset, Failure> {
    match words::subset_of(text, shape, "--subset")? {
        (_, 0) => {
            let detail = format!("The subset {text} holds no cell, and there is no table of no cells");
            Err(Failure::refused(Refusal::Shape, "--subset", detail))
        }
        (subset, _) => Ok(subset),
    }
}

fn cut(arguments: &Arguments, watch: &Watch) -> Result<u8, Failure> {
    let text = asked_subset(arguments)?;
    let stored = Stored::named(arguments, false, watch)?;
    let subset = some_cells(text, &stored.shape)?;
    let name = &stored.input.name;
    let cut = match (stored.kind.depth, stored.kind.values) {
        (0, Values::Ragged { width, place }) => {
            let cut = partial_decode(width, place, &stored.shape, &subset, &stored.input.bytes);
            Array { kind: stored.kind, ..cut.map_err(|refusal| stored.refused(refusal))? }
        }
        _ => extract(&stored.decode()?, &subset).map_err(|refusal| Failure::Refused {
            refusal,
            subject: name.clone(),
            detail: None,
        })?,
    };
    let part = Part::of(&subset, &stored.shape, stored.part());
    let inputs: Vec<&Input> = stored.inputs().collect();
    store(&cut, part.as_ref(), name, &arguments.files[1], &inputs, arguments, watch)?;
    Ok(0)
}

/// A part of a merge that was read.
struct Merged {
    subset: Subset,
    stored: Stored,
    array: Array,
}

fn merge_parts(arguments: &Arguments, watch: &Watch) -> Result<u8, Failure> {
    let (kind, shape) = (given_kind(arguments)?, given_shape(arguments)?);
    let (named, out) = arguments.files.split_at(arguments.files.len() - 1);
    let told = arguments.parts.iter().map(|(text, path)| (Some(text.as_str()), path));
    let files: Vec<(Option<&str>, &OsString)> = told.chain(named.iter().map(|path| (None, path))).collect();
    if files.is_empty() {
        return Err(Failure::usage("no part is given; for example --part 0..1,0..3 first.bin"));
    }
    if files.iter().filter(|(_, path)| *path == "-").count() > 1 {
        return Err(Failure::usage("only one part can come from standard input"));
    }
    for (text, _) in &arguments.parts {
        words::subset(text)?;
        shape.as_ref().map(|shape| subset_with_cells(text, shape)).transpose()?;
    }
    for (told, path) in &files {
        if !describe::is_beside(path) {
            told.ok_or_else(|| no_part(path, None))?;
            kind.ok_or_else(|| missing_kind(&undescribed(&[path])))?;
        }
    }
    let pairs = files.iter().map(|(_, path)| Pair::read(path, watch)).collect::<Result<Vec<Pair>, Failure>>()?;
    let (shape, shape_by) = match shape {
        Some(shape) => (shape, "--shape".to_string()),
        None => {
            let whole = |described: &Described| Some((described.part()?.whole.clone(), described.name().to_string()));
            let found = pairs.iter().filter_map(|pair| pair.described.as_ref()).find_map(whole);
            found.ok_or_else(|| missing_shape(", the shape of the whole, and no description of a part says it"))?
        }
    };
    let mut parts: Vec<Merged> = Vec::new();
    for ((told, path), pair) in files.into_iter().zip(pairs) {
        let subset = placed(told, path, &pair, &shape, &shape_by)?;
        let shape_by = told.map_or(shape_by.clone(), |text| format!("--part {text}"));
        let given = Given { kind, shape: Some(subset.lengths()), shape_by: &shape_by };
        let stored = Stored::of(path, pair, given, false)?;
        if let Some(first) = parts.first().map(|part| &part.stored).filter(|first| first.kind != stored.kind) {
            let said = |part: &Stored| format!("\"{}\"", part.kind);
            return Err(describe::differ(&first.input.name, &said(first), &stored.input.name, &said(&stored)));
        }
        let array = stored.decode()?;
        parts.push(Merged { subset, stored, array });
    }
    let kind = parts[0].stored.kind;
    let bytes: usize = parts.iter().map(|part| part.array.values.len()).sum();
    if !memory::holds((bytes as u64).saturating_mul(3)) {
        let what =
            format!("cannot merge: the parts have {bytes} value bytes, and there is no memory for 3 times as many");
        return Err(Failure::plain(SYSTEM, what));
    }
    watch.doing(format!("merging {} parts", parts.len()));
    let chunks: Vec<Chunk<'_>> = parts.iter().map(|part| Chunk::new(&part.subset, &part.array)).collect();
    let whole = merge(kind, &shape, &chunks).map_err(|refusal| Failure::Refused {
        refusal,
        subject: "merge".into(),
        detail: if refusal == Refusal::Cover { uncovered(&shape, &held(&parts)) } else { None },
    })?;
    let inputs: Vec<&Input> = parts.iter().flat_map(|part| part.stored.inputs()).collect();
    store(&whole, None, "merge", &out[0], &inputs, arguments, watch)?;
    Ok(0)
}

/// The subset and the file of each part.
fn held(parts: &[Merged]) -> Vec<(&Subset, &str)> {
    parts.iter().map(|part| (&part.subset, part.stored.input.name.as_str())).collect()
}

/// Reads the subset of a part.
pub fn subset_with_cells(text: &str, shape: &[u64]) -> Result<Subset, Failure> {
    match words::subset_of(text, shape, "--part")? {
        (_, 0) => Err(Failure::refused(Refusal::Subset, "--part", format!("The subset {text} holds no cell"))),
        (subset, _) => Ok(subset),
    }
}

/// Where a part lies in the whole, as --part says or its description. Where both do they must agree, and the whole must have
/// the shape that was described.
fn placed(told: Option<&str>, path: &OsStr, pair: &Pair, shape: &[u64], shape_by: &str) -> Result<Subset, Failure> {
    let subset = told.map(|text| subset_with_cells(text, shape)).transpose()?;
    let (described, name) = (pair.described.as_ref(), pair.described.as_ref().map(Described::name));
    let Some((part, name)) = described.and_then(Described::part).zip(name) else {
        return subset.ok_or_else(|| no_part(path, name));
    };
    if part.whole != shape {
        return Err(describe::differ(shape_by, &words::shape_text(shape), name, &part.to_string()));
    }
    match told.zip(subset) {
        Some((text, subset)) if subset != part.subset => {
            let says = Part { subset, whole: shape.to_vec() }.to_string();
            Err(describe::differ(&format!("--part {text}"), &says, name, &part.to_string()))
        }
        _ => Ok(part.subset.clone()),
    }
}

/// A part that is named alone, of which nothing says where it lies.
fn no_part(path: &OsStr, description: Option<&str>) -> Failure {
    let name = files::name(path, "standard input");
    let why = description.map_or(undescribed(&[path]), |own| format!(" and {own} says no part"));
    let typed = literal::clear(path.as_bytes());
    Failure::usage(format!("--part is missing for {name}{why}; for example --part 0..1,0..3 {typed}"))
}

/// The first cell that no part holds, or that two hold.
pub fn uncovered(shape: &[u64], parts: &[(&Subset, &str)]) -> Option<String> {
    let mut holders: Vec<Option<usize>> = vec![None; cells(shape)];
    for (number, two) in parts.iter().enumerate() {
        for cell in subset_cells(shape, two.0).ok()? {
            let cell = cell as usize;
            if let Some(first) = holders[cell].replace(number) {
                let name = words::coordinates(shape, cell);
                let ((one, its), (two, other)) = (parts[first], two);
                return Some(format!("Cell {name} is held twice, by {one} and by {two}, in {its} and in {other}"));
            }
        }
    }
    let missed = holders.iter().position(Option::is_none)?;
    Some(format!("Cell {} is in no part", words::coordinates(shape, missed)))
}

fn convert(arguments: &Arguments, watch: &Watch) -> Result<u8, Failure> {
    if arguments.to_interleaved {
        return convert_back(arguments, watch);
    }
    let kind = given_kind(arguments)?.ok_or_else(|| missing_kind(""))?;
    let example = "for example --kind \"depth 0, ragged, width 8, index at start\"";
    if !has_older_form(kind) {
        return Err(Failure::usage(format!("convert writes ragged values of depth 0, not \"{kind}\"; {example}")));
    }
    let old = Interleaved::read(&arguments.files[0], "convert", arguments, watch)?;
    let walk = old.walk();
    let values = old.decode().map_err(|refusal| {
        Failure::refused(refusal, &old.input.name, stopped(refusal, &walk, old.input.bytes.len()))
    })?;
    let array = Array { kind, shape: old.shape, masks: Vec::new(), values: values.values, offsets: values.offsets };
    store(&array, None, &old.input.name, &arguments.files[1], &[&old.input], arguments, watch)?;
    if let Some(tail) = after_last_cell(&old.input, &walk) {
        output::tell(&format!("{}: {tail}: left out", old.input.name));
    }
    Ok(0)
}

/// Tells of bytes that reading the older form ignores.
fn after_last_cell(input: &Input, walk: &Walk) -> Option<String> {
    let (tail, length) = (walk.tail(), input.bytes.len());
    let noun = if tail == 1 { "byte comes" } else { "bytes come" };
    (tail > 0).then(|| format!("{tail} {noun} after the last cell, from byte {} of {length} on", length - tail))
}

/// The older form has no masks, and cells of any length.
pub fn has_older_form(kind: Kind) -> bool {
    kind.depth == 0 && kind.is_ragged()
}

fn convert_back(arguments: &Arguments, watch: &Watch) -> Result<u8, Failure> {
    if arguments.describe {
        let what = "--describe tells the kind of a table, and the older form has none: leave out --describe";
        return Err(Failure::usage(what));
    }
    let stored = Stored::named(arguments, false, watch)?;
    let (kind, name) = (stored.kind, &stored.input.name);
    if !has_older_form(kind) {
        let what = format!("{name}: the older form has no masks and takes ragged values of depth 0, not \"{kind}\"");
        return Err(Failure::usage(what));
    }
    let inputs: Vec<&Input> = stored.inputs().collect();
    let target = Target::plain(&arguments.files[1], "remove it", arguments.no_clobber, &inputs)?;
    let array = stored.decode()?;
    let old = encode_interleaved(&array).map_err(|refusal| Failure::Refused {
        refusal,
        subject: name.clone(),
        detail: too_long_for_the_older_form(array.view()).filter(|_| refusal == Refusal::Field),
    })?;
    target.write(&old, None, watch)?;
    Ok(0)
}

fn make_load(arguments: &Arguments, watch: &Watch) -> Result<u8, Failure> {
    let kind = given_kind(arguments)?.ok_or_else(|| missing_kind(""))?;
    let shape = given_shape(arguments)?.ok_or_else(|| missing_shape(""))?;
    let start = arguments.start.as_ref().ok_or_else(|| Failure::usage("--start is missing; for example --start 7"))?;
    watch.doing("generating the table");
    let load = generate(kind, &shape, words::start(start)?).map_err(|refusal| Failure::Refused {
        refusal,
        subject: "generate".into(),
        detail: None,
    })?;
    store(&load, None, "generate", &arguments.files[0], &[], arguments, watch)?;
    Ok(0)
}

/// What was read of a file for `check` and `explain`, and the library's answer.
struct Looked {
    kind: Option<Kind>,
    shape: Vec<u64>,
    input: Input,
    described: Option<Described>,
    walk: Walk,
    /// What the table is, in words; or the refusal.
    answer: Result<String, Refusal>,
}

impl Looked {
    fn at(arguments: &Arguments, damaged: bool, watch: &Watch) -> Result<Looked, Failure> {
        let path = &arguments.files[0];
        if arguments.interleaved {
            if arguments.kind.is_some() {
                let what = "the interleaved form has no kind: give --interleaved or --kind, not both";
                return Err(Failure::usage(what));
            }
            let old = Interleaved::read(path, "--interleaved", arguments, watch)?;
            let walk = old.walk();
            let answer = old.decode().map(|_| format!("interleaved; {} cells", cells(&old.shape)));
            return Ok(Looked { kind: None, shape: old.shape, input: old.input, described: None, walk, answer });
        }
        let stored = Stored::named(arguments, damaged, watch)?;
        let walk = stored.walk();
        let Stored { kind, shape, input, described } = stored;
        let answer = decode(kind, &shape, &input.bytes).map(|array| format!("{kind}; {}", contents(&array)));
        Ok(Looked { kind: Some(kind), shape, input, described, walk, answer })
    }
}

/// A refusal, and where reading stopped.
fn refused(input: &Input, refusal: Refusal, walk: &Walk) -> String {
    refusal_text(refusal, Some(&stopped(refusal, walk, input.bytes.len())))
}

/// The verdict on a file that is refused.
fn not_valid(input: &Input, refusal: Refusal, walk: &Walk, watch: &Watch) -> Result<u8, Failure> {
    let text = format!("{}: not valid\n{}\n", input.name, refused(input, refusal, walk));
    verdict(refusal.number() as u8, &text, watch)
}

fn check(arguments: &Arguments, watch: &Watch) -> Result<u8, Failure> {
    let looked = Looked::at(arguments, false, watch)?;
    let about = match &looked.answer {
        Ok(about) => about,
        Err(refusal) => return not_valid(&looked.input, *refusal, &looked.walk, watch),
    };
    let mut text = format!("{}: valid\n  {about}\n  {} bytes", looked.input.name, looked.input.bytes.len());
    if let Some(tail) = after_last_cell(&looked.input, &looked.walk) {
        text.push_str(&format!("; {tail}: ignored"));
    }
    if let Some(described) = &looked.described {
        text.push_str(&format!(", as {} says", described.name()));
    }
    verdict(0, &format!("{text}\n"), watch)
}

/// By the bytes alone: of one kind and shape, two accepted files that read as one table are equal (S8.10).
fn same(arguments: &Arguments, watch: &Watch) -> Result<u8, Failure> {
    if arguments.files.iter().all(|file| file == "-") {
        return Err(Failure::usage("only one of A and B can come from standard input"));
    }
    let tables = Stored::two(arguments, watch)?;
    for table in &tables {
        if let Err(refusal) = decode(table.kind, &table.shape, &table.input.bytes) {
            return not_valid(&table.input, refusal, &table.walk(), watch);
        }
    }
    let [one, other] = &tables;
    let (a, b) = (&one.input.bytes, &other.input.bytes);
    let names = format!("{} and {}", one.input.name, other.input.name);
    if a == b {
        return verdict(0, &format!("{names}: the same table, {} bytes\n", a.len()), watch);
    }
    let at = a.iter().zip(b).take_while(|(a, b)| a == b).count();
    let mut text = format!("{names}: not the same table\n  They differ first at byte {at}.\n");
    for table in &tables {
        let bytes = &table.input.bytes;
        text.push_str(&format!("  {}, {} bytes, ", table.input.name, bytes.len()));
        match at < bytes.len() {
            true => {
                let line = explain::line(table.kind, &table.shape, bytes, &table.walk(), at);
                text.push_str(&format!("has there:\n  {line}"));
            }
            false => text.push_str("ends there.\n"),
        }
    }
    text.push_str("  Of one kind and shape a table has one stored form, so other bytes are another table.\n");
    verdict(DIFFERENT, &text, watch)
}

fn explain_bytes(arguments: &Arguments, watch: &Watch) -> Result<u8, Failure> {
    let looked = Looked::at(arguments, true, watch)?;
    let Looked { kind, shape, input, .. } = &looked;
    let form = kind.map_or("interleaved".to_string(), |kind| kind.to_string());
    let mut text = format!("{}: {form}; {}; {} bytes\n", input.name, words::shape_text(shape), input.bytes.len());
    text.push_str(&explain::picture(*kind, shape, &input.bytes, &looked.walk));
    let mut status = 0;
    if let Err(refusal) = looked.answer {
        status = refusal.number() as u8;
        text.push_str(&format!("{}\n", refused(input, refusal, &looked.walk)));
    }
    let held = looked.described.as_ref().map_or(Ok(()), |described| described.holds(input));
    if let Err(failure) = held {
        status = if status == 0 { failure.status() } else { status };
        text.push_str(&format!("{failure}\n"));
    }
    verdict(status, &text, watch)
}

/// How many cells are null at which level, empty, or have a value.
fn contents(array: &Array) -> String {
    let count = array.cell_count();
    let depth = array.kind.depth as usize;
    let mut nulls = vec![0; depth];
    let (mut empty, mut full) = (0, 0);
    for number in 0..count {
        match array.cell(number) {
            Some(Cell::Null { level }) => nulls[level - 1] += 1,
            Some(Cell::Value([])) => empty += 1,
            _ => full += 1,
        }
    }
    let mut parts: Vec<String> =
        (0..depth).map(|level| format!("{} null at level {}", nulls[level], level + 1)).collect();
    if array.kind.is_ragged() {
        parts.push(format!("{empty} with an empty value"));
    }
    parts.push(format!("{full} with a value"));
    format!("{}, {count} cells: {}", words::shape_text(&array.shape), parts.join(", "))
}

fn example(_: &Arguments, watch: &Watch) -> Result<u8, Failure> {
    print(help::EXAMPLE, watch)
}

#[cfg(test)]
mod tests {
    use super::*;
    use crate::system;
    use durpaxeta::{encode_interleaved_into, encode_into, Place, Width};

    /// Refused with 20 before a byte is lent, and told what helps.
    #[test]
    fn what_does_not_fit_its_field() {
        let zeros = system::zeros(u32::MAX as usize + 10);
        let array = |offsets| {
            let kind = Kind::ragged(1, Width::Four, Place::Start);
            ArrayRef { kind, shape: &[1, 2], masks: &[1, 1], values: zeros, offsets }
        };
        let offsets = [0, 5, zeros.len() as u64];
        assert_eq!(encode_into(array(&offsets), &mut []), Err(Refusal::Field));
        assert_eq!(
            too_long_for_an_index(array(&offsets)),
            "The values have 4294967305 bytes, and offsets of width 4 end at 4294967295: choose width 8, or cut the table"
        );
        // What is hidden does not count, and is not counted.
        let hidden = ArrayRef { masks: &[0, 1], ..array(&offsets) };
        assert!(too_long_for_an_index(hidden).starts_with("The values have 4294967300 bytes"));

        let older =
            |offsets| ArrayRef { kind: Kind::ragged(0, Width::Eight, Place::Start), masks: &[], ..array(offsets) };
        assert_eq!(encode_interleaved_into(older(&offsets), &mut []), Err(Refusal::Field));
        let told = "Cell 0,1 has 4294967300 bytes, and lengths of the older form end at 4294967295";
        assert_eq!(too_long_for_the_older_form(older(&offsets)).as_deref(), Some(told));
        assert_eq!(too_long_for_the_older_form(older(&[0, 10, zeros.len() as u64])), None);
    }
}
