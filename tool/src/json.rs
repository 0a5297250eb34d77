//! A table for programs: one JSON object a line for each cell.
//!
//! ```text
//! {"is":"value","cell":[0,0],"masks":[1,1],"value":{"text":"0-3,8","hex":"302D332C38"}}
//! {"is":"empty","cell":[0,1],"masks":[1,1],"value":{"text":"","hex":""}}
//! {"is":"null","cell":[1,0],"masks":[0,0],"null":1}
//! ```
//!
//! First comes what the cell is. A null has "null", the level; empty and value have "value"; never both. The text of bytes that are no
//! UTF-8 is null, so who looks at the text alone takes such a value for a null.

use crate::literal;
use crate::words;
use durpaxeta::{Array, Cell};
use std::fmt::Write;

pub fn write(array: &Array) -> String {
    let mut text = String::new();
    for number in 0..array.cell_count() {
        let cell = words::coordinates(&array.shape, number);
        let masks: Vec<String> = array.masks_of(number).iter().map(u8::to_string).collect();
        let is = match array.cell(number) {
            Some(Cell::Value([])) => "empty",
            Some(Cell::Value(_)) => "value",
            _ => "null",
        };
        let _ = write!(text, "{{\"is\":\"{is}\",\"cell\":[{cell}],\"masks\":[{}],", masks.join(","));
        match array.cell(number) {
            Some(Cell::Value(value)) => {
                let words = std::str::from_utf8(value).map_or_else(|_| "null".to_string(), quoted);
                let hex = literal::spaced(value).replace(' ', "");
                let _ = writeln!(text, "\"value\":{{\"text\":{words},\"hex\":\"{hex}\"}}}}");
            }
            Some(Cell::Null { level }) => {
                let _ = writeln!(text, "\"null\":{level}}}");
            }
            None => {}
        }
    }
    text
}

/// A JSON string; what is not shown as it is stands as its number.
fn quoted(text: &str) -> String {
    let mut quoted = String::with_capacity(text.len() + 2);
    quoted.push('"');
    for character in text.chars() {
        match character {
            '"' | '\\' => {
                quoted.push('\\');
                quoted.push(character);
            }
            _ if literal::shown(character) => quoted.push(character),
            _ => {
                for unit in character.encode_utf16(&mut [0; 2]) {
                    let _ = write!(quoted, "\\u{unit:04X}");
                }
            }
        }
    }
    quoted.push('"');
    quoted
}

#[cfg(test)]
mod tests {
    use super::*;
    use durpaxeta::{Kind, Place, Width};

    #[test]
    fn null_empty_and_value_differ() {
        let kind = Kind::ragged(2, Width::Four, Place::Start);
        let cells = [
            Cell::Value(b"0-3,8"),
            Cell::Value(b""),
            Cell::Null { level: 1 },
            Cell::Null { level: 2 },
            Cell::Value(b"\xFF\x00"),
            Cell::Value("\"\\\n\u{202E}\u{10FFFF}ü".as_bytes()),
        ];
        let array = Array::from_cells(kind, &[2, 3], &cells).unwrap();
        let lines: Vec<String> = write(&array).lines().map(str::to_string).collect();
        assert_eq!(
            lines,
            [
                r#"{"is":"value","cell":[0,0],"masks":[1,1],"value":{"text":"0-3,8","hex":"302D332C38"}}"#,
                r#"{"is":"empty","cell":[0,1],"masks":[1,1],"value":{"text":"","hex":""}}"#,
                r#"{"is":"null","cell":[0,2],"masks":[0,0],"null":1}"#,
                r#"{"is":"null","cell":[1,0],"masks":[1,0],"null":2}"#,
                r#"{"is":"value","cell":[1,1],"masks":[1,1],"value":{"text":null,"hex":"FF00"}}"#,
                "{\"is\":\"value\",\"cell\":[1,2],\"masks\":[1,1],\"value\":{\"text\":\"\\\"\\\\\\u000A\\u202E\\uDBFF\\uDFFFü\",\"hex\":\"225C0AE280AEF48FBFBFC3BC\"}}",
            ]
        );
    }
}
