//! What can go wrong, how it is told, and the exit status.
//!
//! A failure may hold text of others as it came: names of files, words, lines. It becomes clear where the failure is told.

use crate::literal::clear;
use durpaxeta::{Blame, Refusal};
use std::fmt;
use std::io;

/// A wrong command line.
pub const USAGE: u8 = 64;
/// A worksheet, a listing of a working table or a rights plane that cannot be read.
pub const WORKSHEET: u8 = 65;
/// A description that cannot be read.
pub const DESCRIPTION: u8 = 66;
/// A description that says another kind or shape.
pub const OTHER_TABLE: u8 = 67;
/// A file of another length than its description says.
pub const OTHER_LENGTH: u8 = 68;
/// A file of another checksum than its description says.
pub const OTHER_CHECKSUM: u8 = 69;
/// Two files that are not the same table.
pub const DIFFERENT: u8 = 71;
/// A file that `--no-clobber` keeps.
pub const KEPT: u8 = 73;
/// An error of the operating system.
pub const SYSTEM: u8 = 74;
/// What a shell says of a command that SIGPIPE ended, as it ends other tools whose reader leaves: 128 and its number.
pub const LEFT: u8 = 128 + 13;

#[derive(Debug)]
pub enum Failure {
    /// The command line is wrong; with the command, where it is known.
    Usage { what: String, command: Option<&'static str> },
    /// A worksheet, a listing or a rights plane cannot be read; with the line, where there is one.
    Worksheet { name: String, line: Option<usize>, what: String },
    /// The library refused. `subject` is the file or argument, `detail` what exactly is wrong.
    Refused { refusal: Refusal, subject: String, detail: Option<String> },
    /// Whoever reads standard output has left, as `head` does. That is no error, and is not told.
    Left,
    /// Anything else, in a plain sentence with an exit status of its own.
    Plain { status: u8, what: String },
}

impl Failure {
    pub fn usage(what: impl Into<String>) -> Failure {
        Failure::Usage { what: what.into(), command: None }
    }

    pub fn plain(status: u8, what: impl Into<String>) -> Failure {
        Failure::Plain { status, what: what.into() }
    }

    pub fn system(what: &str, name: &str, error: &io::Error) -> Failure {
        if error.kind() == io::ErrorKind::BrokenPipe {
            return Failure::plain(SYSTEM, format!("cannot {what} {name}: whoever reads it has left"));
        }
        // Without "(os error 2)", which says the same once more.
        let said = error.to_string();
        let said = said.split(" (os error").next().unwrap_or_default();
        Failure::plain(SYSTEM, format!("cannot {what} {name}: {said}"))
    }

    pub fn refused(refusal: Refusal, subject: impl Into<String>, detail: impl Into<String>) -> Failure {
        Failure::Refused { refusal, subject: subject.into(), detail: Some(detail.into()) }
    }

    /// Names what was refused.
    pub fn about(self, subject: &str) -> Failure {
        match self {
            Failure::Refused { refusal, detail, .. } => {
                Failure::Refused { refusal, subject: subject.to_string(), detail }
            }
            other => other,
        }
    }

    /// What is wrong with words on a command line is wrong in a line of a text here.
    pub fn in_line(self, name: &str, line: usize) -> Failure {
        match self {
            Failure::Usage { what, .. } => Failure::Worksheet { name: name.to_string(), line: Some(line), what },
            refused => refused.about(&format!("{name}, line {line}")),
        }
    }

    /// Names the command whose help tells more.
    pub fn of_command(self, name: &'static str) -> Failure {
        match self {
            Failure::Usage { what, .. } => Failure::Usage { what, command: Some(name) },
            other => other,
        }
    }

    /// The exit status: the number of a refusal, or 64 and above.
    pub fn status(&self) -> u8 {
        match self {
            Failure::Usage { .. } => USAGE,
            Failure::Worksheet { .. } => WORKSHEET,
            Failure::Refused { refusal, .. } => refusal.number() as u8,
            Failure::Left => LEFT,
            Failure::Plain { status, .. } => *status,
        }
    }
}

/// A refusal in plain words: its number and what exactly is wrong, what the number means of anything, and whose it is.
pub fn refusal_text(refusal: Refusal, detail: Option<&str>) -> String {
    let (number, message) = (refusal.number(), refusal.message());
    let mut text = match detail {
        Some(detail) => format!("refusal {number}: {}.\n  {number} means: {message}.", clear(detail)),
        None => format!("refusal {number}: {message}."),
    };
    text.push_str(&format!("\n  Caused by {}.", refusal.blame()));
    if refusal.blame() == Blame::Storer {
        text.push_str(" A --kind or --shape that is not the file's looks the same.");
    }
    text
}

impl fmt::Display for Failure {
    fn fmt(&self, f: &mut fmt::Formatter<'_>) -> fmt::Result {
        match self {
            Failure::Usage { what, command } => {
                let page = command.map_or(String::new(), |command| format!(" {command}"));
                write!(f, "{}\nSee 'durpaxeta help{page}'.", clear(what))
            }
            Failure::Worksheet { name, line: Some(line), what } => {
                write!(f, "{}, line {line}: {}", clear(name), clear(what))
            }
            Failure::Worksheet { name, line: None, what } => write!(f, "{}: {}", clear(name), clear(what)),
            Failure::Refused { refusal, subject, detail } => {
                write!(f, "{}: {}", clear(subject), refusal_text(*refusal, detail.as_deref()))
            }
            Failure::Left => f.write_str("whoever reads standard output has left"),
            Failure::Plain { what, .. } => f.write_str(&clear(what)),
        }
    }
}

#[cfg(test)]
mod tests {
    use super::*;

    #[test]
    fn what_is_wrong_comes_first() {
        let blame = "Caused by whoever describes the table.";
        let meaning = "the kind has no masks, and only a mask can hide a cell from a guest";
        for (detail, text) in [
            (None, format!("refusal 17: {meaning}.\n  {blame}")),
            (Some("The kind is x\ny"), format!("refusal 17: The kind is x\\ny.\n  17 means: {meaning}.\n  {blame}")),
        ] {
            assert_eq!(refusal_text(Refusal::NoMasks, detail), text);
        }
    }
}
