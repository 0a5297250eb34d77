//! Kinds, shapes, subsets and rights planes in readable words, and the lines that hold such words.

use crate::failure::Failure;
use durpaxeta::{decode, read_number as number, subset_cells, Kind, Refusal, Rights, Subset, TextError};

/// The library's complaint about a text.
fn told(error: TextError, subject: impl Into<String>) -> Failure {
    match error {
        TextError::Refused { refusal, detail } => Failure::refused(refusal, subject, detail),
        words => Failure::usage(words.to_string()),
    }
}

/// Reads a kind: `depth 1, ragged, width 4, index at start` or `depth 0, fixed, size 2, little order`.
/// Numbers out of range are refusal 1, with the kind as it was typed.
pub fn kind(text: &str) -> Result<Kind, Failure> {
    let kind: Kind = text.parse().map_err(|error| told(error, "kind"))?;
    // The kind is tested before anything else, and one cell of no bytes costs nothing.
    match decode(kind, &[1], &[]) {
        Err(refusal @ Refusal::Kind) => Err(Failure::refused(refusal, "kind", format!("The kind is {}", text.trim()))),
        _ => Ok(kind),
    }
}

/// The version that the title of a text names, such as `durpaxeta worksheet 1`. `form` is what the text is to be, up to version `newest`.
pub fn version(title: &str, form: &str, newest: u64) -> Result<u64, String> {
    let ours = format!("durpaxeta {form} {newest}");
    let said = title.strip_prefix(&format!("durpaxeta {form} ")).filter(|said| !said.starts_with('0'));
    match said.and_then(number) {
        Some(version) if version <= newest => Ok(version),
        Some(_) => Err(format!(
            "written by a later durpaxeta: it begins with \"{title}\", and \"{ours}\" is the newest that is read here"
        )),
        None => Err(format!("the first line of a {form} is \"{ours}\"; this one is something else")),
    }
}

/// Reads a shape: `2x3`. One that the library refuses is shown as it was typed.
pub fn shape(text: &str) -> Result<Vec<u64>, Failure> {
    let sides = text.split(['x', 'X', '×']).map(|side| number(side.trim())).collect::<Option<Vec<u64>>>();
    let shape = sides.ok_or_else(|| {
        Failure::usage(format!("\"{text}\" is no shape; write the sides with an x between, for example 2x3"))
    })?;
    match subset_cells(&shape, &Subset::from_numbers(Vec::new())) {
        Err(refusal @ Refusal::Shape) => {
            Err(Failure::refused(refusal, "shape", format!("The shape is {}", text.trim())))
        }
        _ => Ok(shape),
    }
}

pub fn shape_text(shape: &[u64]) -> String {
    shape.iter().map(u64::to_string).collect::<Vec<_>>().join("x")
}

/// Reads a start number, which has 32 bits.
pub fn start(text: &str) -> Result<u32, Failure> {
    let start = number(text.trim()).and_then(|number| u32::try_from(number).ok());
    start.ok_or_else(|| Failure::usage(format!("\"{text}\" is no start number; write 0 to 4294967295")))
}

/// Reads a subset: `0..2,1..3`, one range for each side, the end not included.
pub fn subset(text: &str) -> Result<Subset, Failure> {
    text.parse().map_err(|error| told(error, format!("subset {text}")))
}

/// Reads a subset and tests it against its shape; answers how many cells it holds, too.
pub fn subset_of(text: &str, shape: &[u64], subject: &str) -> Result<(Subset, usize), Failure> {
    let subset = subset(text)?;
    match subset_cells(shape, &subset) {
        Ok(cells) => Ok((subset, cells.len())),
        Err(refusal) => {
            let detail = format!("The subset is {}; the shape is {}", text.trim(), shape_text(shape));
            Err(Failure::refused(refusal, subject, detail))
        }
    }
}

/// Reads a rights plane: `1,0,1`, 1 for each cell that is shown and 0 for each other one.
pub fn rights(text: &str, subject: &str) -> Result<Rights, Failure> {
    text.parse().map_err(|error| told(error, subject))
}

/// What was read as a text, `what` it is not where it is none.
pub fn text<'t>(name: &str, bytes: &'t [u8], what: &str) -> Result<&'t str, Failure> {
    let text = std::str::from_utf8(bytes).map_err(|error| Failure::Worksheet {
        name: name.to_string(),
        line: Some(1 + bytes[..error.valid_up_to()].iter().filter(|&&byte| byte == b'\n').count()),
        what: format!("this is no text (UTF-8), so it is {what}"),
    })?;
    Ok(text.strip_prefix('\u{FEFF}').unwrap_or(text))
}

/// Coordinates of a cell: `0,2`.
pub fn coordinates(shape: &[u64], cell: usize) -> String {
    let mut rest = cell as u64;
    let mut sides: Vec<String> = Vec::new();
    for &side in shape.iter().rev() {
        sides.push((rest % side).to_string());
        rest /= side;
    }
    sides.reverse();
    sides.join(",")
}

/// The number of a cell from its coordinates.
pub fn cell_number(shape: &[u64], text: &str) -> Option<usize> {
    let parts: Vec<u64> = text.split(',').map(|part| number(part.trim())).collect::<Option<_>>()?;
    if parts.len() != shape.len() {
        return None;
    }
    let mut cell: u64 = 0;
    for (&part, &side) in parts.iter().zip(shape) {
        if part >= side {
            return None;
        }
        cell = cell.checked_mul(side)?.checked_add(part)?;
    }
    usize::try_from(cell).ok()
}

#[cfg(test)]
mod tests {
    use super::*;

    /// The words themselves are the library's, and tested there.
    #[test]
    fn kinds_and_subsets_that_are_none() {
        let status = |failure: Failure| failure.status();
        assert_eq!(kind("depth 1, ragged, width 4").map_err(status), Err(64));
        assert_eq!(kind("depth 1, ragged, width 5, index at start").map_err(status), Err(1));
        assert_eq!(subset("0-2").map_err(status), Err(64));
        assert_eq!(subset("2..1").map_err(status), Err(3));
        for text in ["0", "0x3", "65537", "1x1x1x1x1", "99999999999999999999", "3x18446744073709551616"] {
            let refused = shape(text).unwrap_err();
            assert_eq!(refused.status(), 2);
            assert!(refused.to_string().contains(&format!("The shape is {text}.")), "{refused}");
        }
    }

    #[test]
    fn shapes() {
        assert_eq!(shape("2x3").unwrap(), [2, 3]);
        assert_eq!(shape(" 2 X 3 × 4").unwrap(), [2, 3, 4]);
        assert_eq!(shape_text(&[2, 3]), "2x3");
        for text in ["", "x", "2x", "2,3", "-1", "+2", "2.0", "two"] {
            assert_eq!(shape(text).unwrap_err().status(), 64, "{text}");
        }
    }

    #[test]
    fn versions_of_titles() {
        let of = |title: &str| version(title, "working table", 2);
        assert_eq!((of("durpaxeta working table 1"), of("durpaxeta working table 2")), (Ok(1), Ok(2)));
        for title in ["durpaxeta working table 3", "durpaxeta working table 99999999999999999999"] {
            assert!(of(title).unwrap_err().starts_with("written by a later durpaxeta: "), "{title}");
        }
        for title in ["", "durpaxeta working table", "durpaxeta working table 0", "durpaxeta working table 01", "3"] {
            assert!(of(title).unwrap_err().ends_with("this one is something else"), "{title}");
        }
    }

    #[test]
    fn start_numbers() {
        assert_eq!((start("0").unwrap(), start(" 4294967295").unwrap()), (0, u32::MAX));
        for text in ["", "-1", "+1", "1.0", "0x10", "4294967296", "99999999999999999999", "seven"] {
            assert_eq!(start(text).unwrap_err().status(), 64, "{text}");
        }
    }

    #[test]
    fn coordinates_and_numbers() {
        assert_eq!(
            (0..6).map(|cell| coordinates(&[2, 3], cell)).collect::<Vec<_>>(),
            ["0,0", "0,1", "0,2", "1,0", "1,1", "1,2"]
        );
        for cell in 0..24 {
            assert_eq!(cell_number(&[2, 3, 4], &coordinates(&[2, 3, 4], cell)), Some(cell));
        }
        for text in ["2,0", "0,3", "0", "0,0,0", "", "a,b", "-1,0"] {
            assert_eq!(cell_number(&[2, 3], text), None, "{text}");
        }
    }
}
