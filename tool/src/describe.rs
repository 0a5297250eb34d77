//! Descriptions: FILE.dpx beside FILE says what a stored table does not say itself.
//!
//! ```text
//! durpaxeta description 1
//! kind: depth 2, ragged, width 4, index at start
//! shape: 1x2
//! part: 1..2,0..2 of 2x2
//! bytes: 35
//! crc-32c: 88F1986D
//! ```
//!
//! The title comes first, then each of the lines once, in any order; the line for part where the table is one. Empty lines and
//! lines that begin with # say nothing. While a table is replaced there are two such texts, one behind the other (pair.rs).
//! docs/FORMAT.md has a page on it.

use crate::crc::crc32c;
use crate::failure::{Failure, DESCRIPTION, OTHER_CHECKSUM, OTHER_LENGTH, OTHER_TABLE};
use crate::files::{self, Input};
use crate::words;
use durpaxeta::{Kind, Subset};
use std::ffi::{OsStr, OsString};
use std::fmt;
use std::fs;

/// The version of this form.
const VERSION: u64 = 1;

/// Which part of which whole shape a table is.
#[derive(Clone, Debug, PartialEq, Eq)]
pub struct Part {
    pub subset: Subset,
    pub whole: Vec<u64>,
}

impl Part {
    /// The part that a subset of a table is. Where the table is a part itself, it is one of the same whole; all of a table is
    /// what the table is.
    pub fn of(subset: &Subset, shape: &[u64], outer: Option<&Part>) -> Option<Part> {
        if subset.lengths() == shape {
            return outer.cloned();
        }
        let Some(outer) = outer else { return Some(Part { subset: subset.clone(), whole: shape.to_vec() }) };
        let starts = outer.subset.starts().iter().zip(subset.starts()).map(|(outer, own)| outer + own);
        let numbers = starts.chain(subset.lengths().iter().copied()).collect();
        Some(Part { subset: Subset::from_numbers(numbers), whole: outer.whole.clone() })
    }

    fn read(text: &str) -> Result<Part, Failure> {
        let (subset, whole) = text.split_once(" of ").ok_or_else(|| {
            Failure::usage(format!(
                "\"{text}\" is no part; write a subset and the whole shape, for example 0..1,0..2 of 2x2"
            ))
        })?;
        let whole = words::shape(whole)?;
        let (subset, _) = words::subset_of(subset, &whole, "part")?;
        Ok(Part { subset, whole })
    }
}

impl fmt::Display for Part {
    fn fmt(&self, f: &mut fmt::Formatter<'_>) -> fmt::Result {
        write!(f, "{} of {}", self.subset, words::shape_text(&self.whole))
    }
}

/// What a stored table is.
#[derive(Clone, Debug, PartialEq, Eq)]
pub struct Description {
    pub kind: Kind,
    pub shape: Vec<u64>,
    pub part: Option<Part>,
    pub bytes: u64,
    pub checksum: u32,
}

/// The description that was found beside a file.
pub struct Described {
    pub input: Input,
    /// The one of the file first, where there is one.
    all: Vec<Description>,
    /// Whether the first is of the file.
    fits: bool,
}

/// The name of the description of a file. It lies beside the file itself, also where a link leads there.
pub fn beside(path: &OsStr) -> OsString {
    let mut name = files::follow(path).map_or_else(|_| path.to_os_string(), OsString::from);
    name.push(".dpx");
    name
}

/// Whether a file has a description; standard input has none.
pub fn is_beside(path: &OsStr) -> bool {
    path != "-" && fs::symlink_metadata(beside(path)).is_ok()
}

/// Two that say different things of one table.
pub fn differ(one: &str, says: &str, other: &str, says_other: &str) -> Failure {
    let what = format!("{one} says {says}; {other} says {says_other}. One of the two does not belong to this table.");
    Failure::plain(OTHER_TABLE, what)
}

/// The lines of a description that were read so far.
#[derive(Default)]
struct Lines {
    kind: Option<Kind>,
    shape: Option<Vec<u64>>,
    part: Option<Part>,
    bytes: Option<u64>,
    checksum: Option<u32>,
}

impl Lines {
    fn complete(self) -> Result<Description, String> {
        let missing = |line: &str| format!("the line for {line} is missing");
        let kind = self.kind.ok_or_else(|| missing("kind"))?;
        let shape = self.shape.ok_or_else(|| missing("shape"))?;
        let bytes = self.bytes.ok_or_else(|| missing("bytes"))?;
        let checksum = self.checksum.ok_or_else(|| missing("crc-32c"))?;
        match self.part {
            Some(part) if part.subset.lengths() != shape => {
                Err(format!("the part {part} has not the shape {}", words::shape_text(&shape)))
            }
            part => Ok(Description { kind, shape, part, bytes, checksum }),
        }
    }
}

impl Description {
    pub fn of(kind: Kind, shape: &[u64], part: Option<Part>, stored: &[u8]) -> Description {
        Description { kind, shape: shape.to_vec(), part, bytes: stored.len() as u64, checksum: crc32c(stored) }
    }

    /// Whether length and checksum are those of these bytes.
    pub fn fits(&self, stored: &[u8]) -> bool {
        self.bytes == stored.len() as u64 && self.checksum == crc32c(stored)
    }

    pub fn text(&self) -> String {
        let Description { kind, shape, part, bytes, checksum } = self;
        let part = part.as_ref().map_or(String::new(), |part| format!("part: {part}\n"));
        let shape = words::shape_text(shape);
        format!(
            "durpaxeta description {VERSION}\nkind: {kind}\nshape: {shape}\n{part}bytes: {bytes}\ncrc-32c: {checksum:08X}\n"
        )
    }

    /// Reads the descriptions that stand in a text, one or more.
    pub fn read(name: &str, bytes: &[u8]) -> Result<Vec<Description>, Failure> {
        let wrong = |what: String| Failure::plain(DESCRIPTION, format!("{name}: {what}"));
        let text = std::str::from_utf8(bytes).map_err(|_| wrong("this is no text, so it is no description".into()))?;
        let mut all: Vec<Lines> = Vec::new();
        for (number, line) in text.lines().enumerate().map(|(number, line)| (number + 1, line.trim())) {
            if line.is_empty() || line.starts_with('#') {
                continue;
            }
            let here = |what: String| wrong(format!("line {number}: {what}"));
            // The first line is a title, and so is one that begins as a title does.
            let said = match all.last_mut() {
                Some(said) if !line.starts_with("durpaxeta ") => said,
                _ => {
                    words::version(line, "description", VERSION).map_err(here)?;
                    all.push(Lines::default());
                    continue;
                }
            };
            let of_words = |failure: Failure| match failure {
                Failure::Usage { what, .. } => here(what),
                other => other.about(&format!("{name}, line {number}")),
            };
            let (key, value) = line.split_once(':').map_or((line, ""), |(key, value)| (key, value.trim()));
            let first = match key {
                "kind" => said.kind.replace(words::kind(value).map_err(of_words)?).is_none(),
                "shape" => said.shape.replace(words::shape(value).map_err(of_words)?).is_none(),
                "part" => said.part.replace(Part::read(value).map_err(of_words)?).is_none(),
                "bytes" if !value.is_empty() && value.bytes().all(|digit| digit.is_ascii_digit()) => {
                    said.bytes.replace(value.parse().unwrap_or(u64::MAX)).is_none()
                }
                "crc-32c" if value.len() == 8 && value.bytes().all(|digit| digit.is_ascii_hexdigit()) => {
                    said.checksum.replace(u32::from_str_radix(value, 16).unwrap_or_default()).is_none()
                }
                "bytes" => return Err(here(format!("\"{value}\" is no number of bytes"))),
                "crc-32c" => return Err(here(format!("\"{value}\" is no checksum of 8 hex digits"))),
                _ => return Err(here("a description has lines for kind, shape, part, bytes and crc-32c only".into())),
            };
            if !first {
                return Err(here(format!("the line for {key} stands twice")));
            }
        }
        if all.is_empty() {
            words::version("", "description", VERSION).map_err(wrong)?;
        }
        all.into_iter().map(|lines| lines.complete().map_err(&wrong)).collect()
    }
}

impl Described {
    /// Takes the description that fits the file.
    pub fn read(input: Input, file: &Input) -> Result<Described, Failure> {
        let mut all = Description::read(&input.name, &input.bytes)?;
        let own = all.iter().position(|says| says.fits(&file.bytes));
        all.swap(0, own.unwrap_or(0));
        Ok(Described { input, all, fits: own.is_some() })
    }

    pub fn name(&self) -> &str {
        &self.input.name
    }

    /// What is said of the file.
    pub fn says(&self) -> &Description {
        &self.all[0]
    }

    pub fn part(&self) -> Option<&Part> {
        self.says().part.as_ref()
    }

    /// The kind described. One that is given must be the same.
    pub fn kind(&self, given: Option<Kind>, by: &str) -> Result<Kind, Failure> {
        match given {
            Some(given) if given != self.says().kind => {
                Err(differ(by, &format!("\"{given}\""), self.name(), &format!("\"{}\"", self.says().kind)))
            }
            _ => Ok(self.says().kind),
        }
    }

    /// The shape, likewise.
    pub fn shape(&self, given: Option<&[u64]>, by: &str) -> Result<Vec<u64>, Failure> {
        match given {
            Some(given) if given != self.says().shape => {
                Err(differ(by, &words::shape_text(given), self.name(), &words::shape_text(&self.says().shape)))
            }
            _ => Ok(self.says().shape.clone()),
        }
    }

    /// Whether both say one kind and one shape.
    pub fn alike(&self, other: &Described) -> Result<(), Failure> {
        let kinds = [self, other].map(|described| format!("\"{}\"", described.says().kind));
        let shapes = [self, other].map(|described| words::shape_text(&described.says().shape));
        match [kinds, shapes].into_iter().find(|[says, says_other]| says != says_other) {
            None => Ok(()),
            Some([says, says_other]) => {
                let (one, two) = (self.name(), other.name());
                let what = format!(
                    "{one} says {says}; {two} says {says_other}. Bytes tell tables apart under one kind and one shape only; \
                     'durpaxeta show' prints the cells of both."
                );
                Err(Failure::plain(OTHER_TABLE, what))
            }
        }
    }

    /// Whether the file is the one described.
    pub fn holds(&self, file: &Input) -> Result<(), Failure> {
        if self.fits {
            return Ok(());
        }
        let (name, own, length) = (&file.name, self.name(), file.bytes.len() as u64);
        let each = |what: fn(&Description) -> String| self.all.iter().map(what).collect::<Vec<_>>().join(" or ");
        if self.all.iter().all(|says| says.bytes != length) {
            let says = each(|says| says.bytes.to_string());
            let what = format!(
                "{name} has {length} bytes; {own} says {says}. The file is not whole, or not the one that was described."
            );
            return Err(Failure::plain(OTHER_LENGTH, what));
        }
        let (checksum, says) = (crc32c(&file.bytes), each(|says| format!("{:08X}", says.checksum)));
        let what = format!(
            "{name} has the checksum {checksum:08X}; {own} says {says}. The file was changed since it was described, or the \
             description is of an earlier one."
        );
        Err(Failure::plain(OTHER_CHECKSUM, what))
    }
}

#[cfg(test)]
mod tests {
    use super::*;
    use durpaxeta::{Order, Place, Width};

    fn status(text: &str) -> u8 {
        Description::read("a.dpx", text.as_bytes()).unwrap_err().status()
    }

    #[test]
    fn written_and_read() {
        for kind in [Kind::ragged(2, Width::Four, Place::Start), Kind::fixed(0, 64, Order::Big)] {
            for (shape, part) in [
                (&[2, 2][..], ""),
                (&[65_536], ""),
                (&[1, 2, 3, 4], ""),
                (&[2, 2], "1..3,0..2 of 3x9"),
                (&[7], "0..7 of 7"),
            ] {
                let read = (!part.is_empty()).then(|| Part::read(part).unwrap());
                let description = Description::of(kind, shape, read, b"123456789");
                assert_eq!((description.bytes, description.checksum), (9, 0xE306_9283));
                let text = description.text();
                assert!(text.ends_with("\nbytes: 9\ncrc-32c: E3069283\n"), "{text}");
                assert_eq!(text.contains(&format!("\npart: {part}\n")), !part.is_empty(), "{text}");
                assert_eq!(Description::read("a.dpx", text.as_bytes()).unwrap(), [description.clone()]);
                // Other line ends, order, letters; comments.
                let mut lines: Vec<&str> = text.lines().collect();
                lines[1..].reverse();
                lines.insert(2, " # by hand");
                let other = lines.join("\r\n\r\n").replace("E3069283", "e3069283");
                assert_eq!(Description::read("a.dpx", other.as_bytes()).unwrap(), [description.clone()]);
                // Two of them.
                let second = Description::of(kind, &[1], None, b"1");
                let both = Description::read("a.dpx", format!("{other}\n{}", second.text()).as_bytes()).unwrap();
                assert_eq!(both, [description, second]);
            }
        }
    }

    #[test]
    fn texts_that_are_no_description() {
        let part = Part::read("1..10 of 12").unwrap();
        let good = Description::of(Kind::fixed(0, 1, Order::Little), &[9], Some(part), b"123456789").text();
        for line in good.lines().filter(|line| !line.starts_with("part")) {
            assert_eq!(status(&good.replace(&format!("{line}\n"), "")), 66, "without {line}");
        }
        for line in good.lines() {
            assert_eq!(status(&format!("{good}{line}\n")), 66, "{line} twice");
            assert_eq!(
                status(&format!("{good}{}", good.replace(&format!("{line}\n"), "crc\n"))),
                66,
                "a second without {line}"
            );
        }
        for (from, to) in [
            ("description 1", "description 2"),
            ("fixed", "mixed"),
            ("shape: 9", "shape: nine"),
            ("bytes: 9", "bytes: -9"),
            ("bytes: 9", "bytes:"),
            ("E3069283", "E306928"),
            ("E3069283", "E306928G"),
            ("E3069283", "+3069283"),
            ("kind:", "kinds:"),
            ("kind:", "kind"),
            ("1..10 of 12", ""),
            ("1..10 of 12", "1..10"),
            ("1..10 of 12", "12"),
            ("1..10 of 12", "1..10 of twelve"),
            ("1..10 of 12", "1-10 of 12"),
            ("1..10 of 12", "1..9 of 12"),
            ("1..10 of 12", "1..10,0..1 of 12x1"),
        ] {
            assert_eq!(status(&good.replace(from, to)), 66, "{to}");
        }
        for (title, told) in [("description 2", "later durpaxeta"), ("worksheet 1", "this one is something else")] {
            let said =
                Description::read("a.dpx", format!("{good}durpaxeta {title}\n").as_bytes()).unwrap_err().to_string();
            assert!(said.starts_with("a.dpx: line 7: ") && said.contains(told), "{said}");
        }
        assert_eq!(status(""), 66);
        assert_eq!(Description::read("a.dpx", b"\xFF").unwrap_err().status(), 66);
        assert_eq!(status(&good.replace("depth 0", "depth 9")), 1);
        assert_eq!(status(&good.replace("shape: 9", "shape: 0")), 2);
        assert_eq!(status(&good.replace("of 12", "of 0")), 2);
        assert_eq!(status(&good.replace("of 12", "of 9")), 3);
    }

    #[test]
    fn parts_of_parts() {
        let subset = |text: &str| text.parse::<Subset>().unwrap();
        let of = |text: &str, shape: &[u64], outer: Option<&Part>| Part::of(&subset(text), shape, outer);
        assert_eq!(of("0..4,0..4", &[4, 4], None), None);
        let outer = of("1..3,0..4", &[4, 4], None).unwrap();
        assert_eq!(outer.to_string(), "1..3,0..4 of 4x4");
        assert_eq!(of("0..2,0..4", &[2, 4], Some(&outer)), Some(outer.clone()));
        assert_eq!(of("1..2,2..4", &[2, 4], Some(&outer)).unwrap().to_string(), "2..3,2..4 of 4x4");
    }

    #[test]
    fn what_does_not_hold() {
        let kind = Kind::fixed(0, 1, Order::Little);
        let of = |stored: &[u8]| Description::of(kind, &[9], None, stored).text();
        let file = |bytes: &[u8]| Input { name: "a".into(), bytes: bytes.to_vec(), identity: None };
        let described = |text: &str, bytes: &[u8]| Described::read(file(text.as_bytes()), &file(bytes)).unwrap();
        let holds =
            |text: &str, bytes: &[u8]| described(text, bytes).holds(&file(bytes)).map_err(|failure| failure.status());
        let one = of(b"123456789");
        assert_eq!(holds(&one, b"123456789"), Ok(()));
        assert_eq!(holds(&one, b"12345678"), Err(68));
        assert_eq!(holds(&one, b"123456780"), Err(69));
        let described_one = described(&one, b"123456789");
        assert_eq!(described_one.kind(None, "--kind").unwrap(), kind);
        assert_eq!(described_one.kind(Some(kind), "--kind").unwrap(), kind);
        assert_eq!(described_one.kind(Some(Kind::fixed(1, 1, Order::Little)), "--kind").unwrap_err().status(), 67);
        assert_eq!(described_one.shape(Some(&[9]), "--shape").unwrap(), [9]);
        assert_eq!(described_one.shape(Some(&[3, 3]), "--shape").unwrap_err().status(), 67);
        // Of two the one that fits.
        let other = Description::of(Kind::fixed(0, 2, Order::Big), &[4], None, b"12345678");
        for text in [one.clone() + &other.text(), other.text() + &one] {
            assert_eq!(described(&text, b"123456789").says().shape, [9]);
            assert_eq!(*described(&text, b"12345678").says(), other);
            assert_eq!(holds(&text, b"12345678"), Ok(()));
            assert_eq!((holds(&text, b"1234567"), holds(&text, b"12345670")), (Err(68), Err(69)));
        }
    }
}
