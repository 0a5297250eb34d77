//! The commands that move a table off the older, interleaved form, chunk by chunk, while it is in use: begin, step, run, show, cut.
//!
//! How far it is, is a folder of three files, which is made whole or not at all:
//!
//! - chunks.txt never changes: the shape, and of each chunk its subset, length and checksum of its old file, and where that is.
//! - area.bin has the moved chunks end to end, each as a stored table.
//! - moved.txt has a line for each moved chunk: its length in area.bin, and the checksum of that.
//!
//! A step writes the next chunk to area.bin, behind those that moved.txt lists, and syncs it; then a new moved.txt takes the place
//! of the old one (output.rs). What is listed never changes, and what lies behind it is not read, but written over by the next step.
//! So a step may be killed at any point: it is made, or it is not. Steps take turns; readers need none, as they read moved.txt
//! first. The old files are only read, and those of moved chunks no more, but for the comparison in the end.

use crate::arguments::Arguments;
use crate::commands::{asked_subset, has_older_form, some_cells, store, subset_with_cells, uncovered};
use crate::crc::crc32c;
use crate::describe::Part;
use crate::failure::{Failure, DIFFERENT, OTHER_CHECKSUM, OTHER_LENGTH, SYSTEM, USAGE};
use crate::files::{self, Input};
use crate::output::{self, Output, Turn};
use crate::stored::{cells, given_kind, given_shape, missing_shape, stopped, Interleaved};
use crate::watch::Watch;
use crate::{literal, locate, memory, words};
use durpaxeta::{
    decode, decode_interleaved, read_number, Array, LiveTable, LiveTableRef, Place, Refusal, Step, Subset, Values,
    Width,
};
use std::ffi::{OsStr, OsString};
use std::fmt::Write as _;
use std::fs::{self, OpenOptions};
use std::io::{self, Seek, SeekFrom, Write as _};
use std::os::unix::ffi::{OsStrExt, OsStringExt};
use std::path::{self, PathBuf};

/// The versions of the two lists, and their names and that of the area.
const VERSION: u64 = 1;
const CHUNKS: &str = "chunks.txt";
const MOVED: &str = "moved.txt";
const AREA: &str = "area.bin";

/// Bytes by which they are known again.
#[derive(Clone, Copy, Debug, PartialEq)]
struct Stamp {
    bytes: u64,
    checksum: u32,
}

impl Stamp {
    fn of(bytes: &[u8]) -> Stamp {
        Stamp { bytes: bytes.len() as u64, checksum: crc32c(bytes) }
    }

    fn read(bytes: &str, checksum: &str) -> Option<Stamp> {
        let digits = checksum.len() == 8 && checksum.bytes().all(|digit| digit.is_ascii_hexdigit());
        let checksum = u32::from_str_radix(checksum, 16).ok().filter(|_| digits)?;
        Some(Stamp { bytes: read_number(bytes)?, checksum })
    }

    /// Refuses other bytes than those that the list says, and tells what then helps.
    fn holds(&self, bytes: &[u8], name: &str, list: &str, advice: &str) -> Result<(), Failure> {
        let now = Stamp::of(bytes);
        if now.bytes != self.bytes {
            let what = format!("{name} has {} bytes; {list} says {}. {advice}", now.bytes, self.bytes);
            return Err(Failure::plain(OTHER_LENGTH, what));
        }
        if now.checksum != self.checksum {
            let what =
                format!("{name} has the checksum {:08X}; {list} says {:08X}. {advice}", now.checksum, self.checksum);
            return Err(Failure::plain(OTHER_CHECKSUM, what));
        }
        Ok(())
    }
}

/// What chunks.txt says of a chunk.
struct Chunk {
    subset: Subset,
    stamp: Stamp,
    path: OsString,
}

impl Chunk {
    fn name(&self) -> String {
        files::name(&self.path, "")
    }

    /// Its old file, if that is still what it was.
    fn read(&self, list: &str, watch: &Watch) -> Result<Input, Failure> {
        let input = files::read(&self.path, watch)?;
        let advice = "An old file must stay as it was: put it back, or begin anew";
        self.stamp.holds(&input.bytes, &input.name, list, advice)?;
        Ok(input)
    }
}

/// The lines of a list behind its title, with their numbers; empty ones and comments say nothing.
fn lines<'t>(input: &'t Input, form: &str) -> Result<impl Iterator<Item = (usize, &'t str)>, Failure> {
    let text = words::text(&input.name, &input.bytes, &format!("no {form}"))?;
    let mut lines = text.lines().enumerate().map(|(number, line)| (number + 1, line.trim()));
    let title = lines.next().map_or("", |(_, line)| line);
    words::version(title, form, VERSION).map_err(|what| wrong(input, 1, what))?;
    Ok(lines.filter(|(_, line)| !line.is_empty() && !line.starts_with('#')))
}

fn wrong(input: &Input, line: usize, what: impl Into<String>) -> Failure {
    Failure::Worksheet { name: input.name.clone(), line: Some(line), what: what.into() }
}

fn write_chunks(shape: &[u64], chunks: &[Chunk]) -> String {
    let mut text = format!("durpaxeta migration {VERSION}\nshape: {}\n", words::shape_text(shape));
    text.push_str("# subset of each chunk, in the order in which they are moved | length of its old file | its checksum | the file\n");
    for Chunk { subset, stamp: Stamp { bytes, checksum }, path } in chunks {
        let path = literal::write(path.as_bytes(), false);
        let _ = writeln!(text, "{subset} | {bytes} | {checksum:08X} | {path}");
    }
    text
}

fn read_chunks(input: &Input) -> Result<(Vec<u64>, Vec<Chunk>), Failure> {
    let mut lines = lines(input, "migration")?;
    let shape = lines.next().and_then(|(number, line)| Some((number, line.strip_prefix("shape:")?)));
    let (number, shape) = shape.ok_or_else(|| wrong(input, 2, "the shape stands here, for example shape: 2x3"))?;
    let shape = words::shape(shape).map_err(|failure| failure.in_line(&input.name, number))?;
    let mut chunks = Vec::new();
    for (number, line) in lines {
        let parts: Vec<&str> = line.splitn(4, '|').map(str::trim).collect();
        let [subset, bytes, checksum, file] = parts[..] else {
            return Err(wrong(input, number, "a chunk is its subset, a length, a checksum and a file, with | between"));
        };
        let subset =
            words::subset_of(subset, &shape, "subset").map_err(|failure| failure.in_line(&input.name, number))?.0;
        let stamp = Stamp::read(bytes, checksum)
            .ok_or_else(|| wrong(input, number, "a length is a number, and a checksum has 8 hex digits"))?;
        let mut path = Vec::new();
        literal::read(file, &mut path).map_err(|what| wrong(input, number, what))?;
        chunks.push(Chunk { subset, stamp, path: OsString::from_vec(path) });
    }
    Ok((shape, chunks))
}

fn write_moved(moved: &[Stamp]) -> String {
    let mut text = format!("durpaxeta moved chunks {VERSION}\n# length of each moved chunk in {AREA} | its checksum\n");
    for Stamp { bytes, checksum } in moved {
        let _ = writeln!(text, "{bytes} | {checksum:08X}");
    }
    text
}

fn read_moved(input: &Input) -> Result<Vec<Stamp>, Failure> {
    let stamp = |(number, line): (usize, &str)| {
        let stamp = line.split_once('|').and_then(|(bytes, checksum)| Stamp::read(bytes.trim(), checksum.trim()));
        stamp.ok_or_else(|| {
            wrong(input, number, "a moved chunk is a length and a checksum of 8 hex digits, with | between")
        })
    };
    lines(input, "moved chunks")?.map(stamp).collect()
}

/// A table that is being moved. What it holds of old files is that of the chunks that were old when it was read.
struct Moving {
    folder: PathBuf,
    name: String,
    shape: Vec<u64>,
    chunks: Vec<Chunk>,
    moved: Vec<Stamp>,
    subsets: Vec<u64>,
    old_lengths: Vec<u64>,
    old: Vec<u8>,
    moved_lengths: Vec<u64>,
    area: Vec<u8>,
    /// The text of moved.txt.
    said: Vec<u8>,
    /// What must not be written over; without its bytes.
    inputs: Vec<Input>,
}

impl Moving {
    fn open(folder: &OsStr, watch: &Watch) -> Result<Moving, Failure> {
        let (name, folder) = (files::name(folder, "standard input"), PathBuf::from(folder));
        let read = |file: &str| files::read(folder.join(file).as_os_str(), watch);
        let (chunks, moved) = (read(CHUNKS)?, read(MOVED)?);
        let said = moved.bytes.clone();
        let stamps = read_moved(&moved)?;
        let (shape, list) = read_chunks(&chunks)?;
        let mut moving = Moving {
            subsets: list.iter().flat_map(|chunk| chunk.subset.numbers()).copied().collect(),
            old_lengths: Vec::new(),
            old: Vec::new(),
            moved_lengths: vec![0; list.len()],
            area: Vec::new(),
            inputs: vec![moved, chunks],
            folder,
            name,
            shape,
            chunks: list,
            moved: stamps,
            said,
        };
        if moving.moved.len() > moving.chunks.len() {
            let (moved, chunks) = (moving.moved.len(), moving.chunks.len());
            return Err(moving.refused(Refusal::Content, format!("{MOVED} has {moved} chunks, and {CHUNKS} {chunks}")));
        }
        moving.read(watch)?;
        Ok(moving)
    }

    fn path(&self, file: &str) -> PathBuf {
        self.folder.join(file)
    }

    fn list(&self, file: &str) -> String {
        files::name(self.path(file).as_os_str(), "")
    }

    /// Reads the area, and the old files of the chunks that are old.
    fn read(&mut self, watch: &Watch) -> Result<(), Failure> {
        let stamps = self.moved.iter().chain(self.chunks.iter().skip(self.moved.len()).map(|chunk| &chunk.stamp));
        let bytes = stamps.fold(0, |sum: u64, stamp| sum.saturating_add(stamp.bytes));
        room_for(bytes, &self.name)?;
        let mut area = files::read(self.path(AREA).as_os_str(), watch)?;
        self.area = std::mem::take(&mut area.bytes);
        let (list, mut end) = (self.list(MOVED), 0);
        for (number, stamp) in self.moved.iter().enumerate() {
            let rest = &self.area[end..];
            let string = &rest[..usize::try_from(stamp.bytes).map_or(rest.len(), |bytes| bytes.min(rest.len()))];
            let advice = "What was moved must stay as it was: begin anew";
            stamp.holds(string, &format!("{}, chunk {number},", area.name), &list, advice)?;
            self.moved_lengths[number] = stamp.bytes;
            end += string.len();
        }
        self.area.truncate(end);
        self.inputs.push(area);
        let list = self.list(CHUNKS);
        for (number, chunk) in self.chunks.iter().enumerate() {
            if number < self.moved.len() {
                // It is not read any more, and may be gone.
                let identity = fs::metadata(&chunk.path).ok().as_ref().and_then(files::identity);
                self.inputs.push(Input { name: chunk.name(), bytes: Vec::new(), identity });
                self.old_lengths.push(0);
                continue;
            }
            let mut input = chunk.read(&list, watch)?;
            self.old_lengths.push(input.bytes.len() as u64);
            self.old.append(&mut input.bytes);
            self.inputs.push(input);
        }
        Ok(())
    }

    fn view(&self) -> LiveTableRef<'_> {
        LiveTableRef {
            shape: &self.shape,
            subsets: &self.subsets,
            old_lengths: &self.old_lengths,
            old: &self.old,
            moved: self.moved.len() as u64,
            moved_lengths: &self.moved_lengths,
            area: &self.area,
        }
    }

    fn refused(&self, refusal: Refusal, detail: impl Into<String>) -> Failure {
        Failure::refused(refusal, &self.name, detail)
    }

    /// Tells a refusal of a call, and of what it is.
    fn told(&self, refusal: Refusal) -> Failure {
        let (mut new, mut old) = (&self.area[..], &self.old[..]);
        for (number, chunk) in self.chunks.iter().enumerate() {
            let shape = chunk.subset.lengths();
            let moved = number < self.moved.len();
            let (lengths, rest) = if moved { (&self.moved_lengths, &mut new) } else { (&self.old_lengths, &mut old) };
            let (string, others) = rest.split_at(rest.len().min(lengths[number] as usize));
            *rest = others;
            let (answer, walk) = match moved {
                true => {
                    let walk = locate::table(LiveTable::KIND, cells(shape), string);
                    (decode(LiveTable::KIND, shape, string).err(), walk)
                }
                false => {
                    let walk = locate::interleaved(cells(shape), string);
                    (decode_interleaved(cells(shape) as u64, string).err(), walk)
                }
            };
            if answer == Some(refusal) && refusal != Refusal::Cover {
                let name = if moved { format!("{}, chunk {number}", self.list(AREA)) } else { chunk.name() };
                return Failure::refused(refusal, name, stopped(refusal, &walk, string.len()));
            }
        }
        let detail = match refusal {
            Refusal::Cover => {
                let names: Vec<String> = self.chunks.iter().map(Chunk::name).collect();
                let held = self.chunks.iter().zip(&names).map(|(chunk, name)| (&chunk.subset, name.as_str()));
                uncovered(&self.shape, &held.collect::<Vec<_>>())
            }
            _ => None,
        };
        Failure::Refused { refusal, subject: self.name.clone(), detail }
    }

    /// Checks the table, as every call does.
    fn check(&self) -> Result<(), Failure> {
        let none =
            Subset::new(&vec![0; self.shape.len()], &vec![0; self.shape.len()]).unwrap_or(Subset::whole(&self.shape));
        self.view().extract(Width::Eight, Place::Start, &none).map_err(|refusal| self.told(refusal))?;
        Ok(())
    }

    /// Makes a step, in a turn, and answers whether a chunk was left.
    fn step(&mut self, watch: &Watch) -> Result<bool, Failure> {
        let path = self.path(MOVED);
        let list = Output::new(path.as_os_str(), false, &[])?;
        let place = list.place().ok_or_else(|| Failure::plain(USAGE, format!("{} is no file", self.list(MOVED))))?;
        let turn = Turn::take(place, watch)?;
        let stepped = self.step_in_turn(&turn, place, watch);
        if turn.stopped() {
            watch.hush();
        }
        stepped
    }

    fn step_in_turn(&mut self, turn: &Turn, place: output::Place<'_>, watch: &Watch) -> Result<bool, Failure> {
        let name = self.list(MOVED);
        if fs::read(place.path).map_err(|error| Failure::system("read", &name, &error))? != self.said {
            // Another command made steps meanwhile.
            *self = Moving::open(&self.folder.clone().into_os_string(), watch)?;
        }
        let at = self.area.len();
        if let Some(chunk) = self.chunks.get(self.moved.len()) {
            let most = LiveTable::area_room(1, cells(chunk.subset.lengths()), chunk.stamp.bytes as usize);
            self.area.resize(at + most, 0);
        }
        let mut table = LiveTable {
            shape: &self.shape,
            subsets: &self.subsets,
            old_lengths: &self.old_lengths,
            old: &self.old,
            moved: self.moved.len() as u64,
            moved_lengths: &mut self.moved_lengths,
            area: &mut self.area,
        };
        let bytes = match table.step() {
            Ok(Step::Moved { bytes, .. }) => bytes,
            Ok(Step::NoneLeft) => return Ok(false),
            Err(refusal) => return Err(self.told(refusal)),
        };
        self.area.truncate(at + bytes);
        self.append(at).map_err(|error| Failure::system("write", &self.list(AREA), &error))?;
        self.moved.push(Stamp::of(&self.area[at..]));
        let text = write_moved(&self.moved).into_bytes();
        turn.store(place, &text, fs::metadata(place.path).ok().as_ref(), &Watch::silent())?.put()?;
        self.said = text;
        Ok(true)
    }

    /// Writes what lies in the area from there on; it is safe before it is listed.
    fn append(&self, at: usize) -> io::Result<()> {
        let mut file = OpenOptions::new().write(true).open(self.path(AREA))?;
        file.seek(SeekFrom::Start(at as u64))?;
        file.write_all(&self.area[at..])?;
        output::sync(&file)
    }

    /// Compares each moved chunk, read anew, with its old file.
    fn compare(&self, watch: &Watch) -> Result<(), Failure> {
        let list = self.list(CHUNKS);
        let mut rest = &self.area[..];
        for (number, chunk) in self.chunks.iter().enumerate() {
            watch.step(format!("comparing the chunks of {}", self.name), Some(self.chunks.len() as u64), "chunks");
            watch.done(number as u64);
            let (string, others) = rest.split_at(self.moved_lengths[number] as usize);
            rest = others;
            let shape = chunk.subset.lengths();
            let new = decode(LiveTable::KIND, shape, string).map_err(|refusal| self.told(refusal))?;
            let input = chunk.read(&list, &Watch::silent())?;
            let old = decode_interleaved(cells(shape) as u64, &input.bytes).map_err(|refusal| Failure::Refused {
                refusal,
                subject: input.name.clone(),
                detail: None,
            })?;
            if (&new.values, &new.offsets) != (&old.values, &old.offsets) {
                let what = format!("{}: chunk {number} is not what {} has", self.list(AREA), input.name);
                return Err(Failure::plain(DIFFERENT, what));
            }
        }
        Ok(())
    }

    fn progress(&self) -> String {
        let (moved, chunks) = (self.moved.len(), self.chunks.len());
        format!("{}: {moved} of {chunks} chunks moved, {} bytes", self.name, self.area.len())
    }
}

/// A table is held as its strings, as they are read, and as what is cut or moved of them.
fn room_for(bytes: u64, name: &str) -> Result<(), Failure> {
    if memory::holds(bytes.saturating_mul(3)) {
        return Ok(());
    }
    let what = format!("cannot read {name}: its chunks have {bytes} bytes, and there is no memory for 3 times as many");
    Err(Failure::plain(SYSTEM, what))
}

pub fn begin(arguments: &Arguments, watch: &Watch) -> Result<u8, Failure> {
    let shape = given_shape(arguments)?.ok_or_else(|| missing_shape(""))?;
    if arguments.parts.is_empty() {
        return Err(Failure::usage("no chunk is given; for example --part 0..1,0..3 first.old"));
    }
    let mut moving = Moving {
        folder: PathBuf::new(),
        name: "migrate begin".into(),
        chunks: Vec::new(),
        moved: Vec::new(),
        subsets: Vec::new(),
        old_lengths: Vec::new(),
        old: Vec::new(),
        moved_lengths: vec![0; arguments.parts.len()],
        area: Vec::new(),
        said: Vec::new(),
        inputs: Vec::new(),
        shape,
    };
    let lengths = arguments.parts.iter().filter_map(|(_, path)| Some(fs::metadata(path).ok()?.len()));
    room_for(lengths.fold(0, u64::saturating_add), "the table")?;
    for (text, path) in &arguments.parts {
        let subset = subset_with_cells(text, &moving.shape)?;
        let name = files::name(path, "standard input");
        let full = path::absolute(path).map_err(|error| Failure::system("read", &name, &error))?;
        let mut input = Interleaved::of(path, "migrate", subset.lengths().to_vec(), watch)?.input;
        if input.identity.is_none() {
            return Err(Failure::usage(format!("{name} is no file: an old chunk is read again at each step")));
        }
        moving.subsets.extend_from_slice(subset.numbers());
        moving.old_lengths.push(input.bytes.len() as u64);
        moving.chunks.push(Chunk { subset, stamp: Stamp::of(&input.bytes), path: full.into_os_string() });
        moving.old.append(&mut input.bytes);
    }
    moving.check()?;
    let lists = [
        (CHUNKS.to_string(), write_chunks(&moving.shape, &moving.chunks).into_bytes()),
        (MOVED.to_string(), write_moved(&[]).into_bytes()),
        (AREA.to_string(), Vec::new()),
    ];
    output::write_folder(&arguments.files[0], &lists, watch)?;
    Ok(0)
}

pub fn step(arguments: &Arguments, watch: &Watch) -> Result<u8, Failure> {
    let mut moving = Moving::open(&arguments.files[0], watch)?;
    let stepped = moving.step(watch)?;
    let none = if stepped { "" } else { "; none is left" };
    output::print(&format!("{}{none}\n", moving.progress()), watch)?;
    Ok(0)
}

pub fn run(arguments: &Arguments, watch: &Watch) -> Result<u8, Failure> {
    let folder = &arguments.files[0];
    let mut moving = Moving::open(folder, watch)?;
    loop {
        watch.step(format!("moving the chunks of {}", moving.name), Some(moving.chunks.len() as u64), "chunks");
        watch.done(moving.moved.len() as u64);
        if !moving.step(watch)? {
            break;
        }
    }
    // As it lies there, and not as it was written.
    let moving = Moving::open(folder, watch)?;
    moving.compare(watch)?;
    let count = cells(&moving.shape);
    output::print(&format!("{}; each of {count} cells is as in the old files\n", moving.progress()), watch)?;
    Ok(0)
}

pub fn show(arguments: &Arguments, watch: &Watch) -> Result<u8, Failure> {
    let moving = Moving::open(&arguments.files[0], watch)?;
    moving.check()?;
    let mut text = format!("{}; shape {}\n", moving.progress(), words::shape_text(&moving.shape));
    let mut at = 0;
    for (number, chunk) in moving.chunks.iter().enumerate() {
        let subset = &chunk.subset;
        match moving.moved.get(number) {
            Some(Stamp { bytes, .. }) => {
                let _ = writeln!(text, "{subset} | moved | {bytes} bytes from byte {at} of {AREA} on");
                at += bytes;
            }
            None => {
                let _ = writeln!(text, "{subset} | old   | {} bytes in {}", chunk.stamp.bytes, chunk.name());
            }
        }
    }
    output::print(&text, watch)?;
    Ok(0)
}

pub fn cut(arguments: &Arguments, watch: &Watch) -> Result<u8, Failure> {
    let kind = given_kind(arguments)?.unwrap_or(LiveTable::KIND);
    let (Values::Ragged { width, place }, true) = (kind.values, has_older_form(kind)) else {
        return Err(Failure::usage(format!("migrate cut writes ragged values of depth 0, not \"{kind}\"")));
    };
    let text = asked_subset(arguments)?;
    let moving = Moving::open(&arguments.files[0], watch)?;
    let subset = some_cells(text, &moving.shape)?;
    let cut = moving.view().extract(width, place, &subset).map_err(|refusal| moving.told(refusal))?;
    let part = Part::of(&subset, &moving.shape, None);
    let inputs: Vec<&Input> = moving.inputs.iter().collect();
    store(&Array { kind, ..cut }, part.as_ref(), &moving.name, &arguments.files[1], &inputs, arguments, watch)?;
    Ok(0)
}
