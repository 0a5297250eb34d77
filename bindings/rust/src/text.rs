//! Kinds, subsets and rights planes as text.

use crate::{Kind, Mark, MaskForm, Order, Place, Refusal, Rights, Subset, Values, Width};
use alloc::format;
use alloc::string::String;
use alloc::vec::Vec;
use core::error::Error;
use core::fmt;
use core::str::FromStr;

/// Why a text is no kind, no subset or no rights plane.
#[derive(Clone, Debug, PartialEq, Eq)]
#[non_exhaustive]
pub enum TextError {
    /// The words are not understood: which, and what to write.
    Words(String),
    /// The words are understood, and what they say is refused.
    Refused {
        /// The refusal that a call would give.
        refusal: Refusal,
        /// What exactly is wrong.
        detail: String,
    },
}

impl fmt::Display for TextError {
    fn fmt(&self, f: &mut fmt::Formatter<'_>) -> fmt::Result {
        match self {
            TextError::Words(what) => f.write_str(what),
            TextError::Refused { refusal, detail } => write!(f, "{detail}: {refusal}"),
        }
    }
}

impl Error for TextError {}

/// A number in decimal digits. One too large for 64 bits is as large as can be, so that a call refuses it.
///
/// ```
/// use durpaxeta::read_number;
/// assert_eq!(read_number("12"), Some(12));
/// assert_eq!(read_number("99999999999999999999"), Some(u64::MAX));
/// assert_eq!(read_number("-1"), None);
/// ```
pub fn read_number(text: &str) -> Option<u64> {
    if text.is_empty() || !text.bytes().all(|byte| byte.is_ascii_digit()) {
        return None;
    }
    Some(text.parse().unwrap_or(u64::MAX))
}

const KIND_EXAMPLES: &str =
    "write for example \"depth 1, ragged, width 4, index at start\" or \"depth 0, fixed, size 2, little order\"";

impl fmt::Display for Kind {
    /// For example `depth 1, ragged, width 4, index at start` or `depth 2, packed masks, fixed, size 2, little order`. Masks of
    /// a byte a cell are not named.
    fn fmt(&self, f: &mut fmt::Formatter<'_>) -> fmt::Result {
        write!(f, "depth {}, ", self.depth)?;
        if self.masks == MaskForm::Packed {
            f.write_str("packed masks, ")?;
        }
        match self.values {
            Values::Fixed { size, order } => {
                let order = match order {
                    Order::Little => "little",
                    Order::Big => "big",
                };
                write!(f, "fixed, size {size}, {order} order")
            }
            Values::Ragged { width, place } => {
                let place = match place {
                    Place::Start => "start",
                    Place::End => "end",
                };
                write!(f, "ragged, width {}, index at {place}", width.bytes())
            }
        }
    }
}

/// What the words of a kind have said so far.
#[derive(Default)]
struct Said {
    depth: Option<u64>,
    packed: Option<()>,
    ragged: Option<bool>,
    size: Option<u64>,
    order: Option<Order>,
    width: Option<u64>,
    place: Option<Place>,
}

/// Puts a value into an empty place; false if it is taken.
fn fill<T>(place: &mut Option<T>, value: T) -> bool {
    let free = place.is_none();
    place.get_or_insert(value);
    free
}

impl Said {
    /// Takes in what stands between two commas; else what is wrong with it.
    fn hear(&mut self, part: &str) -> Result<(), String> {
        let words: Vec<String> = part.split_whitespace().map(str::to_lowercase).collect();
        let words: Vec<&str> = words.iter().map(String::as_str).collect();
        let part = part.trim();
        let number = |text: &str| read_number(text).ok_or_else(|| format!("has no number in \"{part}\""));
        let free = match words[..] {
            ["depth", n] => fill(&mut self.depth, number(n)?),
            ["packed", "masks"] => fill(&mut self.packed, ()),
            ["fixed"] => fill(&mut self.ragged, false),
            ["ragged"] => fill(&mut self.ragged, true),
            ["size", n] | ["size", n, "byte" | "bytes"] => fill(&mut self.size, number(n)?),
            ["little"] | ["little", "order"] | ["little-endian"] => fill(&mut self.order, Order::Little),
            ["big"] | ["big", "order"] | ["big-endian"] => fill(&mut self.order, Order::Big),
            ["width", n] | ["width", n, "bytes"] => fill(&mut self.width, number(n)?),
            ["index", "at", "start"] => fill(&mut self.place, Place::Start),
            ["index", "at", "end"] => fill(&mut self.place, Place::End),
            _ => return Err(format!("has \"{part}\", which says nothing here")),
        };
        if free {
            Ok(())
        } else {
            Err(format!("says twice what \"{part}\" says"))
        }
    }

    /// The kind that was said, None where its width is none; `wrong` tells of what is missing or too much.
    fn kind(self, wrong: impl Fn(&str) -> TextError) -> Result<Option<Kind>, TextError> {
        let packed = self.packed.is_some();
        let kind = self.in_bytes(wrong)?;
        Ok(if packed { kind.map(Kind::packed) } else { kind })
    }

    /// That kind with masks of a byte a cell.
    fn in_bytes(self, wrong: impl Fn(&str) -> TextError) -> Result<Option<Kind>, TextError> {
        let depth = self.depth.ok_or_else(|| wrong("does not say the depth"))?;
        if !self.ragged.ok_or_else(|| wrong("says neither fixed nor ragged"))? {
            if self.width.is_some() || self.place.is_some() {
                return Err(wrong("is fixed and has an index; only ragged kinds have one"));
            }
            let size = self.size.ok_or_else(|| wrong("is fixed and does not say the size of a cell"))?;
            let order = self.order.ok_or_else(|| wrong("is fixed and does not say little order or big order"))?;
            return Ok(Some(Kind::fixed(depth, size, order)));
        }
        if self.size.is_some() || self.order.is_some() {
            return Err(wrong("is ragged and has a size or an order; only fixed kinds have them"));
        }
        let width = self.width.ok_or_else(|| wrong("is ragged and does not say the width of its index"))?;
        let place =
            self.place.ok_or_else(|| wrong("is ragged and does not say \"index at start\" or \"index at end\""))?;
        let width = match width {
            4 => Width::Four,
            8 => Width::Eight,
            _ => return Ok(None),
        };
        Ok(Some(Kind::ragged(depth, width, place)))
    }
}

impl FromStr for Kind {
    type Err = TextError;

    /// Reads what [`Kind`] prints; the parts may stand in any order. Numbers out of range are left to the calls, but for a
    /// width other than 4 and 8, which is refused here.
    fn from_str(text: &str) -> Result<Kind, TextError> {
        let wrong = |what: &str| TextError::Words(format!("the kind \"{text}\" {what}; {KIND_EXAMPLES}"));
        let mut said = Said::default();
        for part in text.split(',') {
            said.hear(part).map_err(|what| wrong(&what))?;
        }
        said.kind(wrong)?.ok_or_else(|| TextError::Refused {
            refusal: Refusal::Kind,
            detail: format!("The kind is {}", text.trim()),
        })
    }
}

impl fmt::Display for Subset {
    /// One range for each side, the end not included: `0..2,1..3`.
    fn fmt(&self, f: &mut fmt::Formatter<'_>) -> fmt::Result {
        for (side, (start, length)) in self.starts().iter().zip(self.lengths()).enumerate() {
            let comma = if side == 0 { "" } else { "," };
            write!(f, "{comma}{start}..{}", start.saturating_add(*length))?;
        }
        Ok(())
    }
}

impl FromStr for Subset {
    type Err = TextError;

    /// Reads what [`Subset`] prints. Whether it lies within a shape is left to the calls.
    fn from_str(text: &str) -> Result<Subset, TextError> {
        let range = |range: &str| {
            let (start, end) = range.split_once("..")?;
            Some(read_number(start.trim())?..read_number(end.trim())?)
        };
        let ranges = text.split(',').map(range).collect::<Option<Vec<_>>>().ok_or_else(|| {
            TextError::Words(format!("\"{text}\" is no subset; write one range for each side, for example 0..2,1..3"))
        })?;
        Subset::from_ranges(&ranges)
            .map_err(|refusal| TextError::Refused { refusal, detail: "A range ends before it starts".into() })
    }
}

impl fmt::Display for Rights {
    /// 1 for each cell that is shown, 0 for each other one: `1,0,1`.
    fn fmt(&self, f: &mut fmt::Formatter<'_>) -> fmt::Result {
        for (cell, byte) in self.bytes().iter().enumerate() {
            let comma = if cell == 0 { "" } else { "," };
            write!(f, "{comma}{byte}")?;
        }
        Ok(())
    }
}

impl FromStr for Rights {
    type Err = TextError;

    /// Reads what [`Rights`] prints; white space does for a comma, too. Digits of two cells with nothing between are refused: `00 01`
    /// could be two bytes as well as four cells. How many cells there must be is left to the calls; a digit over 1 is refused here.
    fn from_str(text: &str) -> Result<Rights, TextError> {
        let wrong = |what: &str| {
            let write = "write 1 for each cell that is shown and 0 for each other one, for example 1,0,1";
            TextError::Words(format!("the rights plane {what}; {write}"))
        };
        let parts: Vec<&str> = text.split(',').collect();
        if parts.iter().any(|part| part.trim().is_empty()) && !text.trim().is_empty() {
            return Err(wrong("has nothing beside a comma"));
        }
        let words: Vec<&str> = parts.into_iter().flat_map(str::split_whitespace).collect();
        let mut digits = Vec::new();
        for said in words.iter().flat_map(|word| word.chars()) {
            let digit = said.to_digit(10);
            digits.push(digit.ok_or_else(|| wrong(&format!("has {said:?}, which says nothing here")))? as u8);
        }
        let other = digits.iter().copied().find(|&digit| Mark::of(digit) == Mark::Other).unwrap_or_default();
        let plane = Rights::from_bytes(digits).map_err(|refusal| TextError::Refused {
            refusal,
            detail: format!("The rights plane has {other}, which is neither 0 nor 1"),
        })?;
        if plane.cell_count() == words.len() {
            return Ok(plane);
        }
        let or = match in_bytes(&words) {
            Some(other) => format!(", or {}", reading(&other, ", a byte each")),
            None => String::new(),
        };
        let what = "the rights plane has digits with nothing between";
        Err(TextError::Words(format!("{what}; write {}{or}", reading(&plane, ""))))
    }
}

/// What such words are if the digits of two cells stand together where they are the two of a byte, 00 or 01.
fn in_bytes(words: &[&str]) -> Option<Rights> {
    let mut bytes = Vec::new();
    for word in words {
        match word.len() {
            1 => bytes.push(word.parse().ok()?),
            _ => {
                for pair in word.as_bytes().chunks(2) {
                    bytes.push([b"00", b"01"].iter().position(|byte| pair == byte.as_slice())? as u8);
                }
            }
        }
    }
    Rights::from_bytes(bytes).ok()
}

/// A plane as it should be written, and of how many cells it is; of a long one the first cells.
fn reading(plane: &Rights, each: &str) -> String {
    let (count, first) = (plane.cell_count(), 16);
    let cells: Rights = (0..count.min(first)).map(|cell| plane.shows(cell)).collect();
    let (more, noun) = (if count > first { ",.." } else { "" }, if count == 1 { "cell" } else { "cells" });
    format!("{cells}{more} ({count} {noun}{each})")
}
