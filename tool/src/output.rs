//! Outputs. A file is replaced whole or stays as it was: its bytes go to a temporary file in the same folder, are synced,
//! and take the place of the old ones in one step. On a failure or a signal the temporary file is removed; what a command
//! that was killed left is removed by the next one that writes the file. Commands that write one file take turns.
//! What is no regular file (a pipe, a device) is written as it comes. A folder of files is made in the same way, whole or not at all.

use crate::crc::crc32c;
use crate::failure::{Failure, KEPT, SYSTEM};
use crate::files::{self, folder, identity, Identity, Input};
use crate::system::{self, Held, Lock};
use crate::watch::Watch;
use std::ffi::OsStr;
use std::fs::{self, File, Metadata, OpenOptions, Permissions};
use std::io::{self, ErrorKind, Write};
use std::os::fd::AsFd;
use std::os::unix::ffi::OsStrExt;
use std::os::unix::fs::{chown, fchown, MetadataExt, OpenOptionsExt, PermissionsExt};
use std::path::{Path, PathBuf};
use std::thread;
use std::time::Duration;

/// Bytes that are written between two looks at the signals.
const PIECE: usize = 1 << 16;

/// Where an output goes.
#[derive(Debug)]
enum Way {
    /// Standard output, also under its names in /dev and /proc.
    Standard,
    /// No regular file, or an open descriptor: written as it comes.
    Stream(PathBuf),
    /// A regular file, there already or not; links are followed, so that a link stays one.
    File(PathBuf),
}

/// An output that may be written.
#[derive(Debug)]
pub struct Output {
    name: String,
    way: Way,
    no_clobber: bool,
}

impl Output {
    /// Looks at an output and opens nothing. Refused are a directory, a file that is an input too, and with `no_clobber`
    /// whatever is there.
    pub fn new(path: &OsStr, no_clobber: bool, inputs: &[&Input]) -> Result<Output, Failure> {
        let name = files::name(path, "standard output");
        let way = way(path).map_err(|error| Failure::system("write", &name, &error))?;
        let output = Output { name, way, no_clobber };
        let own = output.identity();
        if let Some(input) = inputs.iter().find(|input| own.is_some() && input.identity == own) {
            let what = match input.name == output.name {
                true => format!("{} is input and output: give the output another name", output.name),
                false => format!(
                    "{} and {} are one file, input and output: give the output another name",
                    input.name, output.name
                ),
            };
            return Err(Failure::usage(what));
        }
        if no_clobber && output.place().is_some() && fs::symlink_metadata(path).is_ok() {
            return Err(output.kept());
        }
        Ok(output)
    }

    /// The place of a regular file, which so can have a description beside it.
    pub fn place(&self) -> Option<Place<'_>> {
        match &self.way {
            Way::File(path) => Some(Place { output: self, path }),
            Way::Standard | Way::Stream(_) => None,
        }
    }

    pub fn identity(&self) -> Option<Identity> {
        let about = match &self.way {
            Way::Standard => standard().and_then(|file| file.metadata()),
            Way::Stream(path) | Way::File(path) => fs::metadata(path),
        };
        about.ok().as_ref().and_then(identity)
    }

    /// Writes what is no regular file, as it comes.
    pub fn stream(&self, bytes: &[u8], watch: &Watch) -> Result<(), Failure> {
        watch.step(format!("writing {}", self.name), Some(bytes.len() as u64), "bytes");
        let to = match &self.way {
            Way::Standard => {
                watch.hush();
                standard()
            }
            Way::Stream(path) | Way::File(path) => OpenOptions::new().append(true).open(path),
        };
        let mut to = to.map_err(|error| self.failed(&error))?;
        let written = pieces(self, &mut to, bytes, watch, || false);
        watch.hush();
        written
    }

    fn kept(&self) -> Failure {
        Failure::plain(KEPT, format!("{} is there already, and --no-clobber keeps it", self.name))
    }

    fn failed(&self, error: &io::Error) -> Failure {
        match (&self.way, error.kind()) {
            (Way::Standard, ErrorKind::BrokenPipe) => Failure::Left,
            _ => Failure::system("write", &self.name, error),
        }
    }
}

fn takes_no_new_file(name: &str, error: &io::Error) -> Failure {
    Failure::system("write", &format!("{name}, as its folder takes no new file"), error)
}

fn stopped(name: &str) -> Failure {
    Failure::plain(SYSTEM, format!("cannot write {name}: stopped by a signal"))
}

fn way(path: &OsStr) -> io::Result<Way> {
    if path == "-" {
        return Ok(Way::Standard);
    }
    let path = files::follow(path)?;
    match files::descriptor(&path) {
        Some(1) => return Ok(Way::Standard),
        Some(_) => return Ok(Way::Stream(path)),
        None => {}
    }
    match fs::symlink_metadata(&path) {
        Err(error) if error.kind() == ErrorKind::NotFound => Ok(Way::File(path)),
        Err(error) => Err(error),
        Ok(about) if about.is_dir() => Err(io::Error::new(ErrorKind::Other, "it is a directory")),
        Ok(about) if about.is_file() => Ok(Way::File(path)),
        Ok(_) => Ok(Way::Stream(path)),
    }
}

fn standard() -> io::Result<File> {
    if system::output_was_closed() {
        return Err(io::Error::new(ErrorKind::Other, "it is closed"));
    }
    // The descriptor itself: std's own writer takes some errors for success.
    io::stdout().as_fd().try_clone_to_owned().map(File::from)
}

/// Prints on standard output.
pub fn print(text: &str, watch: &Watch) -> Result<(), Failure> {
    let output = Output { name: "standard output".into(), way: Way::Standard, no_clobber: false };
    output.stream(text.as_bytes(), watch)
}

/// Writes piece by piece, until all is written or it is to stop.
fn pieces(output: &Output, to: &mut File, bytes: &[u8], watch: &Watch, stop: impl Fn() -> bool) -> Result<(), Failure> {
    let mut done = 0;
    for piece in bytes.chunks(PIECE) {
        if stop() {
            break;
        }
        to.write_all(piece).map_err(|error| output.failed(&error))?;
        done += piece.len() as u64;
        watch.done(done);
    }
    Ok(())
}

/// Where a regular file lies, or is to lie.
#[derive(Clone, Copy)]
pub struct Place<'o> {
    output: &'o Output,
    pub path: &'o Path,
}

/// What the names of all temporary files begin with. The names are short, so that they fit wherever the output's does.
const TEMPORARY: &str = ".durpaxeta-";

/// So many temporary files has one turn at most: the table, its description, and that of both tables. A folder is one.
const MOST: u32 = 3;

/// The turn to write a file: whoever has it writes the file and its description alone, and reads what they are now.
pub struct Turn {
    // Dropped in this order: the lock after all temporary files, which borrow the turn; a signal takes effect last.
    lock: Option<LockFile>,
    folder: PathBuf,
    stem: String,
    held: Held,
}

impl Turn {
    pub fn take(place: Place<'_>, watch: &Watch) -> Result<Turn, Failure> {
        Turn::wait(&place.output.name, place.path, watch)
    }

    /// Whether a signal is held back, which ends the command as the turn ends.
    pub fn stopped(&self) -> bool {
        self.held.arrived()
    }

    /// Waits for the turn. On a file system without locks nobody waits, and nothing that was left is known for it.
    fn wait(name: &str, place: &Path, watch: &Watch) -> Result<Turn, Failure> {
        let folder = folder(place).to_path_buf();
        let held = system::hold();
        let stem = format!("{:08X}", crc32c(place.file_name().unwrap_or_default().as_bytes()));
        let path = folder.join(format!("{TEMPORARY}{stem}-lock"));
        let mut looks = 0;
        let lock = loop {
            match LockFile::take(&path).map_err(|error| takes_no_new_file(name, &error))? {
                Taken::Own(lock) => break Some(lock),
                Taken::Nobody => break None,
                Taken::Another => {}
            }
            // Asked again and again, and not waited for in the kernel, so that a signal is heard in between.
            thread::sleep(Duration::from_millis(2.min(looks)));
            if held.arrived() {
                // The signal ends the command as soon as it is not held.
                watch.hush();
                return Err(stopped(name));
            }
            watch.doing(format!("waiting for another command that writes {name}"));
            looks += 1;
        };
        let turn = Turn { lock, folder, stem, held };
        if turn.lock.is_some() {
            // Of a command that was killed: one that is alive would have the lock.
            for number in 0..MOST {
                remove(&turn.temporary(&turn.folder, number));
            }
        }
        Ok(turn)
    }

    /// The name of a temporary file. It has the number of the command where the lock does not keep others from it.
    fn temporary(&self, folder: &Path, number: u32) -> PathBuf {
        match self.lock.is_some() && folder == self.folder {
            true => folder.join(format!("{TEMPORARY}{}-{number}", self.stem)),
            false => folder.join(format!("{TEMPORARY}{}-{number}", std::process::id())),
        }
    }

    /// Stores bytes beside the place that they are for, with the mode and the owner of the table that is there.
    pub fn store<'t>(
        &'t self,
        place: Place<'t>,
        bytes: &[u8],
        there: Option<&Metadata>,
        watch: &Watch,
    ) -> Result<Ready<'t>, Failure> {
        let output = place.output;
        let failed = |error: io::Error| output.failed(&error);
        watch.step(format!("writing {}", output.name), Some(bytes.len() as u64), "bytes");
        if fs::symlink_metadata(place.path).is_ok() {
            if output.no_clobber {
                return Err(output.kept());
            }
            // What is protected against writing is not replaced either.
            OpenOptions::new().write(true).open(place.path).map_err(failed)?;
        }
        let mode = there.map_or(0o666, |about| about.mode() & 0o777);
        let new = |path: &Path| OpenOptions::new().write(true).create_new(true).mode(mode).open(path);
        let created = self.create(folder(place.path), new);
        let (temporary, mut file) = created.map_err(|error| takes_no_new_file(&output.name, &error))?;
        if let Some(about) = there {
            let own = file.metadata().map_err(failed)?;
            if (own.uid(), own.gid()) != (about.uid(), about.gid()) {
                // Only the administrator can give a file away; for others it becomes their own.
                let _ = fchown(&file, Some(about.uid()), Some(about.gid()));
            }
            file.set_permissions(Permissions::from_mode(about.mode() & 0o7777)).map_err(failed)?;
        }
        pieces(output, &mut file, bytes, watch, || self.held.arrived())?;
        watch.doing(format!("syncing {}", output.name));
        sync(&file).map_err(failed)?;
        if self.held.arrived() {
            return Err(stopped(&output.name));
        }
        Ok(Ready { place, temporary, _turn: self })
    }

    /// Something new in a folder.
    fn create<T>(&self, folder: &Path, new: impl Fn(&Path) -> io::Result<T>) -> io::Result<(Temporary, T)> {
        let mut number = 0;
        loop {
            let path = self.temporary(folder, number);
            match new(&path) {
                Ok(made) => return Ok((Temporary(Some(path)), made)),
                Err(error) if error.kind() == ErrorKind::AlreadyExists && number < 1000 => number += 1,
                Err(error) => return Err(error),
            }
        }
    }
}

/// The file on which the turn of another file is locked. It is there while it is locked.
struct LockFile {
    path: PathBuf,
    _file: File,
}

enum Taken {
    Own(LockFile),
    Another,
    Nobody,
}

impl LockFile {
    /// Who has the lock removes the file before it is free. So a lock on a file that is not in its place is none, and who
    /// has one on the file in its place has it alone.
    fn take(path: &Path) -> io::Result<Taken> {
        let mut options = OpenOptions::new();
        options.read(true).write(true);
        let file = match options.clone().create_new(true).open(path) {
            Ok(file) => {
                // Whoever may write in this folder may take turns.
                let _ = file.set_permissions(Permissions::from_mode(0o666));
                file
            }
            Err(error) if error.kind() == ErrorKind::AlreadyExists => match options.open(path) {
                Err(error) if error.kind() == ErrorKind::NotFound => return Ok(Taken::Another),
                opened => opened?,
            },
            Err(error) => return Err(error),
        };
        match system::lock(&file) {
            Lock::Own => {}
            Lock::Another => return Ok(Taken::Another),
            Lock::Nobody => {
                let _ = fs::remove_file(path);
                return Ok(Taken::Nobody);
            }
        }
        match fs::symlink_metadata(path) {
            Ok(about) if !about.is_file() => Err(ErrorKind::AlreadyExists.into()),
            Ok(about) if identity(&about) == identity(&file.metadata()?) => {
                Ok(Taken::Own(LockFile { path: path.to_path_buf(), _file: file }))
            }
            _ => Ok(Taken::Another),
        }
    }
}

impl Drop for LockFile {
    fn drop(&mut self) {
        let _ = fs::remove_file(&self.path);
    }
}

/// A temporary file or folder; removed when it goes, unless it was put in its place.
struct Temporary(Option<PathBuf>);

impl Drop for Temporary {
    fn drop(&mut self) {
        if let Some(path) = &self.0 {
            remove(path);
        }
    }
}

fn remove(path: &Path) {
    let _ = if path.is_dir() { fs::remove_dir_all(path) } else { fs::remove_file(path) };
}

/// Syncs a file or a folder.
pub fn sync(file: &File) -> io::Result<()> {
    synced(file.sync_all())
}

fn synced(answer: io::Result<()>) -> io::Result<()> {
    match answer {
        // Some file systems have nothing to sync.
        Err(error) if matches!(error.kind(), ErrorKind::InvalidInput | ErrorKind::Unsupported) => Ok(()),
        synced => synced,
    }
}

/// Bytes that are stored safely, and can take their place.
pub struct Ready<'t> {
    place: Place<'t>,
    temporary: Temporary,
    _turn: &'t Turn,
}

impl Ready<'_> {
    pub fn put(mut self) -> Result<(), Failure> {
        let Place { output, path } = self.place;
        let Some(own) = &self.temporary.0 else { return Ok(()) };
        // A link is made only where nothing is. Without links, the look before must do.
        let linked = if output.no_clobber { Some(fs::hard_link(own, path)) } else { None };
        match linked {
            Some(Ok(())) => {}
            Some(Err(error)) if error.kind() == ErrorKind::AlreadyExists => return Err(output.kept()),
            Some(Err(_)) if fs::symlink_metadata(path).is_ok() => return Err(output.kept()),
            _ => {
                fs::rename(own, path).map_err(|error| output.failed(&error))?;
                self.temporary.0 = None;
            }
        }
        self.place.sync()
    }
}

impl Place<'_> {
    /// Takes away what is there.
    pub fn remove(&self) -> Result<(), Failure> {
        fs::remove_file(self.path).map_err(|error| self.output.failed(&error))?;
        self.sync()
    }

    /// So that the next file does not come to its place before this one, whenever the power fails.
    fn sync(&self) -> Result<(), Failure> {
        sync_folder_of(&self.output.name, self.path)
    }
}

fn sync_folder_of(name: &str, path: &Path) -> Result<(), Failure> {
    File::open(folder(path))
        .and_then(|folder| sync(&folder))
        .map_err(|error| Failure::system("sync the folder of", &format!("{name}, which is in its place"), &error))
}

/// Makes a folder of files, or nothing: they go to a temporary folder beside it, which takes its place in one step when all are
/// stored safely. What is there already is kept, but for an empty folder. Commands that make one folder take turns, as with a file.
pub fn write_folder(path: &OsStr, files: &[(String, Vec<u8>)], watch: &Watch) -> Result<(), Failure> {
    let name = files::name(path, "");
    let place = files::follow(path).map_err(|error| Failure::system("write", &name, &error))?;
    if place.file_name().is_none() {
        return Err(Failure::usage(format!("{name} is no name for a new folder")));
    }
    not_taken(&name, &place)?;
    let turn = Turn::wait(&name, &place, watch)?;
    let made = make_folder(&turn, &name, &place, files, watch);
    // While the turn holds signals back: one that arrived ends the command.
    watch.hush();
    made
}

fn make_folder(
    turn: &Turn,
    name: &str,
    place: &Path,
    files: &[(String, Vec<u8>)],
    watch: &Watch,
) -> Result<(), Failure> {
    let failed = |error: io::Error| Failure::system("write", name, &error);
    // Looked at again, as now nobody else makes it.
    not_taken(name, place)?;
    let there = fs::symlink_metadata(place).ok();
    watch.step(format!("writing {name}"), Some(files.len() as u64), "files");
    let created = turn.create(folder(place), |path| fs::create_dir(path));
    let (mut temporary, ()) = created.map_err(|error| takes_no_new_file(name, &error))?;
    let Some(own) = temporary.0.clone() else { return Ok(()) };
    for (number, (file, bytes)) in files.iter().enumerate() {
        if turn.held.arrived() {
            return Err(stopped(name));
        }
        fs::write(own.join(file), bytes).map_err(failed)?;
        watch.done(number as u64 + 1);
    }
    if let Some(about) = there {
        // As in `Turn::store`.
        let _ = chown(&own, Some(about.uid()), Some(about.gid()));
        fs::set_permissions(&own, Permissions::from_mode(about.mode() & 0o7777)).map_err(failed)?;
    }
    watch.doing(format!("syncing {name}"));
    File::open(&own).and_then(|folder| synced(system::sync_around(&folder))).map_err(failed)?;
    if turn.held.arrived() {
        return Err(stopped(name));
    }
    // It takes the place of nothing but an empty folder: should something have come there meanwhile, that is kept.
    fs::rename(&own, place).map_err(|error| not_taken(name, place).err().unwrap_or_else(|| failed(error)))?;
    temporary.0 = None;
    sync_folder_of(name, place)
}

/// Refuses a place where anything but an empty folder is.
fn not_taken(name: &str, place: &Path) -> Result<(), Failure> {
    let is_empty_folder = || fs::read_dir(place).is_ok_and(|mut there| there.next().is_none());
    match fs::symlink_metadata(place).is_ok() && !is_empty_folder() {
        true => Err(Failure::plain(KEPT, format!("{name} is there already, and is no empty folder"))),
        false => Ok(()),
    }
}

/// Tells what went wrong; where only the reader of standard output has left, nothing did.
pub fn tell_of(failure: &Failure) {
    if !matches!(failure, Failure::Left) {
        tell(&failure.to_string());
    }
}

/// Tells something on standard error. Without one there is nobody left to tell.
pub fn tell(text: &str) {
    let _ = writeln!(io::stderr(), "durpaxeta: {text}");
}
