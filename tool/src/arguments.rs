//! The command line.

use crate::failure::Failure;
use crate::files;
use std::ffi::OsString;
use std::os::unix::ffi::OsStrExt;

/// What a command was given.
#[derive(Debug, Default)]
pub struct Arguments {
    pub help: bool,
    pub kind: Option<String>,
    pub shape: Option<String>,
    pub subset: Option<String>,
    pub start: Option<String>,
    /// Of working tables: bytes of the store, the cell to set, what to set it to, how many cells to move.
    pub store: Option<String>,
    pub cell: Option<String>,
    pub to: Option<String>,
    pub most: Option<String>,
    /// Of arrangements: how many cells, the number of the one to print, whether to count them, the folder for all of them.
    pub cells: Option<String>,
    pub number: Option<String>,
    pub count: bool,
    pub all: Option<OsString>,
    /// Of guests: the rights plane, or the file with it.
    pub rights: Option<String>,
    pub rights_file: Option<OsString>,
    /// Subset and file of each part of a merge.
    pub parts: Vec<(String, OsString)>,
    pub hex: bool,
    pub json: bool,
    pub interleaved: bool,
    pub to_interleaved: bool,
    /// Taken by `check`, and asks for nothing more: scripts give it (docs/DECISIONS.md, K7).
    pub strict: bool,
    pub describe: bool,
    pub no_clobber: bool,
    pub files: Vec<OsString>,
}

impl Arguments {
    /// The options that take no value.
    fn flag(&mut self, option: &str) -> Option<&mut bool> {
        match option {
            "--hex" => Some(&mut self.hex),
            "--json" => Some(&mut self.json),
            "--interleaved" => Some(&mut self.interleaved),
            "--to-interleaved" => Some(&mut self.to_interleaved),
            "--strict" => Some(&mut self.strict),
            "--count" => Some(&mut self.count),
            "--describe" => Some(&mut self.describe),
            "--no-clobber" => Some(&mut self.no_clobber),
            _ => None,
        }
    }
}

/// Reads the words behind a command. `options` are those that it takes, `files` the names of its files; of one that ends with
/// ... there may be any number.
pub fn parse(command: &str, options: &[&str], files: &[&str], words: Vec<OsString>) -> Result<Arguments, Failure> {
    let mut arguments = Arguments::default();
    let mut words = words.into_iter();
    let mut only_files = false;
    while let Some(word) = words.next() {
        let text = word.to_str().unwrap_or("").to_string();
        if only_files || !text.starts_with('-') || text == "-" {
            arguments.files.push(word);
            continue;
        }
        if text == "--" {
            only_files = true;
            continue;
        }
        if text == "--help" || text == "-h" {
            arguments.help = true;
            return Ok(arguments);
        }
        let (option, attached) = match text.split_once('=') {
            Some((option, value)) => (option, Some(value.to_string())),
            None => (text.as_str(), None),
        };
        if !options.contains(&option) {
            return Err(Failure::usage(format!("{command} does not take {option}")));
        }
        if let Some(flag) = arguments.flag(option) {
            if attached.is_some() {
                return Err(Failure::usage(format!("{option} takes no value")));
            }
            *flag = true;
            continue;
        }
        let value = match attached {
            Some(value) => OsString::from(value),
            None => behind(&mut words, &format!("{option} has no value"))?,
        };
        let named = match option {
            "--rights-file" => Some(&mut arguments.rights_file),
            "--all" => Some(&mut arguments.all),
            _ => None,
        };
        if let Some(named) = named {
            once(named, option, value)?;
            continue;
        }
        let value = readable(option, value)?;
        match option {
            "--part" => {
                let file = behind(&mut words, &format!("--part {value} has no file"))?;
                arguments.parts.push((value, file));
            }
            "--kind" => once(&mut arguments.kind, option, value)?,
            "--shape" => once(&mut arguments.shape, option, value)?,
            "--start" => once(&mut arguments.start, option, value)?,
            "--store" => once(&mut arguments.store, option, value)?,
            "--cell" => once(&mut arguments.cell, option, value)?,
            "--to" => once(&mut arguments.to, option, value)?,
            "--most" => once(&mut arguments.most, option, value)?,
            "--cells" => once(&mut arguments.cells, option, value)?,
            "--number" => once(&mut arguments.number, option, value)?,
            "--rights" => once(&mut arguments.rights, option, value)?,
            _ => once(&mut arguments.subset, option, value)?,
        }
    }
    let more = files.first().is_some_and(|name| name.ends_with("..."));
    let (least, given) = (files.len() - usize::from(more), arguments.files.len());
    if given < least || (given > least && !more) {
        let wanted = if files.is_empty() { "no file".to_string() } else { files.join(" ") };
        return Err(Failure::usage(format!(
            "{command} takes {wanted}, and {given} {} given",
            if given == 1 { "name was" } else { "names were" }
        )));
    }
    Ok(arguments)
}

/// The word behind an option. Another option is none, so that the one that lacks its value is told.
fn behind(words: &mut impl Iterator<Item = OsString>, lacks: &str) -> Result<OsString, Failure> {
    let word = words.next().ok_or_else(|| Failure::usage(format!("{lacks} behind it")))?;
    match word.as_bytes().starts_with(b"--") || word == "-h" {
        true => Err(Failure::usage(format!("{lacks} behind it: {} is an option", files::name(&word, "")))),
        false => Ok(word),
    }
}

fn readable(option: &str, value: OsString) -> Result<String, Failure> {
    value.into_string().map_err(|_| Failure::usage(format!("the value of {option} is no text")))
}

fn once<T>(place: &mut Option<T>, option: &str, value: T) -> Result<(), Failure> {
    if place.is_some() {
        return Err(Failure::usage(format!("{option} is given twice")));
    }
    *place = Some(value);
    Ok(())
}

#[cfg(test)]
mod tests {
    use super::*;
    use std::os::unix::ffi::OsStringExt;

    fn parsed(words: &[&str]) -> Result<Arguments, Failure> {
        let options = ["--kind", "--shape", "--part", "--hex", "--rights", "--rights-file"];
        parse("merge", &options, &["OUT"], words.iter().map(OsString::from).collect())
    }

    #[test]
    fn options_and_files() {
        let arguments =
            parsed(&["--kind", "a", "--shape=2x3", "--part", "0..1", "-", "--hex", "--part=1..2", "b", "out"]).unwrap();
        assert_eq!(arguments.kind.as_deref(), Some("a"));
        assert_eq!(arguments.shape.as_deref(), Some("2x3"));
        assert_eq!(arguments.parts, [("0..1".into(), "-".into()), ("1..2".into(), "b".into())]);
        assert!(arguments.hex);
        assert_eq!(arguments.files, ["out"]);
        assert_eq!(parsed(&["--", "--kind"]).unwrap().files, ["--kind"]);
        assert_eq!(parsed(&["-"]).unwrap().files, ["-"]);
        assert!(parsed(&["--help", "--nonsense"]).unwrap().help);
        let arguments = parsed(&["--rights", "1,0", "out", "--rights-file=-"]).unwrap();
        assert_eq!((arguments.rights.as_deref(), arguments.rights_file), (Some("1,0"), Some("-".into())));
        // A name of a file need be no text.
        let name = OsString::from_vec(b"rights\xFF".to_vec());
        let words = vec!["--rights-file".into(), name.clone(), "out".into()];
        assert_eq!(parse("guest show", &["--rights-file"], &["FILE"], words).unwrap().rights_file, Some(name.clone()));
        let words = vec!["--count".into(), "--all".into(), name.clone()];
        let arguments = parse("arrangement", &["--all", "--count"], &[], words).unwrap();
        assert_eq!((arguments.all, arguments.count), (Some(name), true));
    }

    #[test]
    fn wrong_ones() {
        for words in [
            &["--kind"][..],
            &["--kind", "--shape", "2x3", "out"],
            &["--rights-file", "--kind", "a", "out"],
            &["--part", "--hex", "b", "out"],
            &["--part", "0..1", "--hex", "out"],
            &["--kind", "a", "--kind", "b", "out"],
            &["--rights-file"],
            &["--rights-file", "a", "--rights-file", "b", "out"],
            &["--subset", "0..1", "out"],
            &["--part", "0..1"],
            &["--hex=1", "out"],
            &["-x", "out"],
            &[],
            &["a", "b"],
        ] {
            assert_eq!(parsed(words).unwrap_err().status(), 64, "{words:?}");
        }
    }
}
