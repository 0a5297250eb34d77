//! Files: their names, their identity, and reading them.

use crate::failure::{Failure, SYSTEM};
use crate::literal;
use crate::memory;
use crate::system;
use crate::watch::Watch;
use std::ffi::OsStr;
use std::fs::{self, File, Metadata};
use std::io::{self, Read};
use std::os::fd::AsFd;
use std::os::unix::ffi::OsStrExt;
use std::os::unix::fs::MetadataExt;
use std::path::{Path, PathBuf};

/// What is no regular file is not read further: an input that never ends must end somewhere. Of a file the length is known before.
const MOST: u64 = memory::LONG;

/// A table is held as it was read, as an array, and as what is written of it.
const TIMES: u64 = 3;

/// The device and the inode of a regular file. Two names of one file have one identity.
#[derive(Clone, Copy, Debug, PartialEq, Eq)]
pub struct Identity(u64, u64);

/// The identity of a regular file; devices and pipes have none that matters.
pub fn identity(about: &Metadata) -> Option<Identity> {
    about.is_file().then(|| Identity(about.dev(), about.ino()))
}

/// What was read.
pub struct Input {
    pub name: String,
    pub bytes: Vec<u8>,
    pub identity: Option<Identity>,
}

/// The name of a file for people: clear, whatever stands in it.
pub fn name(path: &OsStr, standard: &str) -> String {
    if path == "-" {
        standard.to_string()
    } else {
        literal::clear(path.as_bytes())
    }
}

/// Links that are followed from one name, as many as Linux follows.
const LINKS: usize = 40;

/// What a name leads to, if it is a link; an open descriptor, such as /dev/stdout, is the end of it.
pub fn follow(path: &OsStr) -> io::Result<PathBuf> {
    let mut path = PathBuf::from(path);
    for _ in 0..LINKS {
        if descriptor(&path).is_some() {
            return Ok(path);
        }
        match fs::symlink_metadata(&path) {
            Ok(about) if about.is_symlink() => path = folder(&path).join(fs::read_link(&path)?),
            _ => return Ok(path),
        }
    }
    Err(io::Error::new(io::ErrorKind::Other, "its links lead in a circle"))
}

/// The number of an open descriptor that a name stands for: /dev/fd/1, and /proc/self/fd/1 as /dev/stdout leads there.
pub fn descriptor(path: &Path) -> Option<u32> {
    let own = format!("/proc/{}/fd", std::process::id());
    let folder = path.parent()?;
    let known = ["/dev/fd", "/proc/self/fd", own.as_str()].iter().any(|name| folder == Path::new(name));
    path.file_name()?.to_str()?.parse().ok().filter(|_| known)
}

/// The folder in which a file lies.
pub fn folder(path: &Path) -> &Path {
    match path.parent() {
        Some(folder) if folder != Path::new("") => folder,
        _ => Path::new("."),
    }
}

/// A file that is open, and not yet read. What takes its place meanwhile is another file.
pub struct Opened {
    name: String,
    file: File,
    total: Option<u64>,
    pub identity: Option<Identity>,
}

/// Opens a file; `-` is standard input.
pub fn open(path: &OsStr) -> Result<Opened, Failure> {
    let name = name(path, "standard input");
    if path == "-" && system::input_was_closed() {
        return Err(Failure::plain(SYSTEM, format!("cannot read {name}: it is closed")));
    }
    let opened = if path == "-" { io::stdin().as_fd().try_clone_to_owned().map(File::from) } else { File::open(path) };
    let file = opened.map_err(|error| Failure::system("open", &name, &error))?;
    let about = file.metadata().map_err(|error| Failure::system("read", &name, &error))?;
    if about.is_dir() {
        return Err(Failure::plain(SYSTEM, format!("cannot read {name}: it is a directory")));
    }
    let total = about.is_file().then_some(about.len());
    if total.is_some_and(|total| !memory::holds(total.saturating_mul(TIMES))) {
        let what = format!(
            "cannot read {name}: it has {} bytes, and there is no memory for {TIMES} times as many, which it takes",
            about.len()
        );
        return Err(Failure::plain(SYSTEM, what));
    }
    Ok(Opened { name, file, total, identity: identity(&about) })
}

impl Opened {
    /// Reads all of it.
    pub fn read(mut self, watch: &Watch) -> Result<Input, Failure> {
        let bytes = read_all(&mut self.file, &self.name, self.total, watch)?;
        watch.doing(format!("decoding {}", self.name));
        Ok(Input { name: self.name, bytes, identity: self.identity })
    }
}

/// Reads all of a file; `-` is standard input.
pub fn read(path: &OsStr, watch: &Watch) -> Result<Input, Failure> {
    open(path)?.read(watch)
}

fn read_all(from: &mut dyn Read, name: &str, total: Option<u64>, watch: &Watch) -> Result<Vec<u8>, Failure> {
    watch.step(format!("reading {name}"), total, "bytes");
    let most = total.unwrap_or(0).max(MOST);
    let mut bytes = Vec::new();
    let none = || Failure::plain(SYSTEM, format!("cannot read {name}: not enough memory for it"));
    bytes.try_reserve_exact(total.unwrap_or(0) as usize).map_err(|_| none())?;
    let mut piece = vec![0; 1 << 16];
    loop {
        let count = match from.read(&mut piece) {
            Ok(0) => return Ok(bytes),
            Ok(count) => count,
            Err(error) if error.kind() == io::ErrorKind::Interrupted => continue,
            Err(error) => return Err(Failure::system("read", name, &error)),
        };
        if bytes.len() as u64 + count as u64 > most {
            let what = match total {
                Some(_) => format!("cannot read {name}: it became longer than {most} bytes while it was read"),
                None => format!(
                    "cannot read {name}: it is longer than {most} bytes, the most of what is no file; put it into one"
                ),
            };
            return Err(Failure::plain(SYSTEM, what));
        }
        bytes.try_reserve(count).map_err(|_| none())?;
        bytes.extend_from_slice(&piece[..count]);
        watch.done(bytes.len() as u64);
    }
}
