//! A value in words: `"text"` or `hex 0A 0B`. What is written here is read back to the same bytes.
//! And text of others, as it may stand in a message.

use std::fmt::Write;

/// Bytes in hex, with a space between.
pub fn spaced(bytes: &[u8]) -> String {
    let mut text = String::with_capacity(3 * bytes.len());
    for (number, byte) in bytes.iter().enumerate() {
        let _ = write!(text, "{}{byte:02X}", if number > 0 { " " } else { "" });
    }
    text
}

/// Whether a character is shown as it is: printable, and not to be taken for another or for none.
pub fn shown(character: char) -> bool {
    match character {
        ' '..='~' => true,
        // Parts of Hangul that join into other characters, and fillers that are not seen.
        '\u{1100}'..='\u{11FF}' | '\u{A960}'..='\u{A97F}' | '\u{D7B0}'..='\u{D7FF}' | '\u{3164}' | '\u{FFA0}' => false,
        // Blanks that are none, and what stands for characters that could not be shown.
        '\u{2800}' | '\u{13441}' | '\u{13442}' | '\u{1D159}' | '\u{FFFC}' | '\u{FFFD}' => false,
        // Written from right to left: the order on the screen is not that of the bytes.
        '\u{0590}'..='\u{08FF}' | '\u{FB1D}'..='\u{FDFF}' | '\u{FE70}'..='\u{FEFF}' => false,
        '\u{10800}'..='\u{10FFF}' | '\u{1E800}'..='\u{1EFFF}' => false,
        // std escapes what is not printable or joins with the character before it.
        _ => character.escape_debug().eq([character]),
    }
}

/// The text that bytes are, where all of it is shown as it is.
pub fn text(value: &[u8]) -> Option<&str> {
    std::str::from_utf8(value).ok().filter(|text| text.chars().all(shown))
}

/// Text of others for a message: on one line, and as it is. What is not shown as it is, and what is no UTF-8, stands as its bytes, by
/// the escapes of a worksheet's text. What came out already comes out again.
pub fn clear(foreign: impl AsRef<[u8]>) -> String {
    let foreign = foreign.as_ref();
    let mut clear = String::with_capacity(foreign.len());
    let escape = |clear: &mut String, byte: u8| {
        let _ = match byte {
            b'\n' => write!(clear, "\\n"),
            b'\r' => write!(clear, "\\r"),
            b'\t' => write!(clear, "\\t"),
            _ => write!(clear, "\\x{byte:02X}"),
        };
    };
    for chunk in foreign.utf8_chunks() {
        for character in chunk.valid().chars() {
            match shown(character) {
                true => clear.push(character),
                false => character.encode_utf8(&mut [0; 4]).bytes().for_each(|byte| escape(&mut clear, byte)),
            }
        }
        chunk.invalid().iter().for_each(|&byte| escape(&mut clear, byte));
    }
    clear
}

/// Text that is shown in quotes, all else in hex. No bytes are always `""`.
pub fn write(value: &[u8], hex: bool) -> String {
    match text(value) {
        Some(shown) if !hex || value.is_empty() => {
            let mut text = String::with_capacity(shown.len() + 2);
            text.push('"');
            for character in shown.chars() {
                if character == '"' || character == '\\' {
                    text.push('\\');
                }
                text.push(character);
            }
            text.push('"');
            text
        }
        _ => format!("hex {}", spaced(value)),
    }
}

/// Reads `"text"` or `hex 0A 0B`, and perhaps a comment.
pub fn read(text: &str, to: &mut Vec<u8>) -> Result<(), String> {
    let rest = if let Some(text) = text.strip_prefix('"') {
        quoted(text, to)?
    } else if let Some(rest) = word(text, "hex") {
        let (digits, comment) = rest.split_at(rest.find('#').unwrap_or(rest.len()));
        hex(digits, to)?;
        comment
    } else {
        return Err("a value is written as \"text\" in double quotes, or as hex 0A 0B".into());
    };
    let rest = rest.trim();
    if rest.is_empty() || rest.starts_with('#') {
        return Ok(());
    }
    Err(format!("\"{rest}\" stands behind the value; a comment begins with #"))
}

fn hex(text: &str, to: &mut Vec<u8>) -> Result<(), String> {
    let from = to.len();
    for group in text.split_whitespace() {
        let digits = group.as_bytes();
        let bytes: Option<Vec<u8>> =
            digits.chunks(2).map(|pair| std::str::from_utf8(pair).ok().and_then(hex_byte)).collect();
        match bytes {
            Some(bytes) => to.extend_from_slice(&bytes),
            None => return Err(format!("\"{group}\" is not hex: two digits for each byte")),
        }
    }
    if to.len() == from {
        return Err("hex without digits; a value of no bytes is written as \"\"".into());
    }
    Ok(())
}

/// The text up to the closing quote; answers what stands behind it.
fn quoted<'t>(text: &'t str, to: &mut Vec<u8>) -> Result<&'t str, String> {
    let mut characters = text.char_indices();
    while let Some((at, character)) = characters.next() {
        match character {
            '"' => return Ok(&text[at + 1..]),
            '\\' => match characters.next().map(|(_, escaped)| escaped) {
                Some(plain @ ('"' | '\\')) => to.push(plain as u8),
                Some('n') => to.push(b'\n'),
                Some('t') => to.push(b'\t'),
                Some('r') => to.push(b'\r'),
                Some('x') => {
                    let digits: String = characters.by_ref().take(2).map(|(_, digit)| digit).collect();
                    match hex_byte(&digits) {
                        Some(byte) => to.push(byte),
                        None => return Err("\\x takes two hex digits, as in \\x0A".into()),
                    }
                }
                _ => return Err("after \\ comes one of \" \\ n t r x".into()),
            },
            _ => to.extend_from_slice(character.encode_utf8(&mut [0; 4]).as_bytes()),
        }
    }
    Err("the closing quote is missing".into())
}

/// What stands behind a word, if the text begins with that word.
pub fn word<'t>(text: &'t str, word: &str) -> Option<&'t str> {
    let rest = text.strip_prefix(word)?;
    if rest.is_empty() || rest.starts_with(|next: char| next.is_whitespace() || next == '#') {
        Some(rest.trim_start())
    } else {
        None
    }
}

/// Two hex digits.
pub fn hex_byte(text: &str) -> Option<u8> {
    if text.len() == 2 && text.bytes().all(|digit| digit.is_ascii_hexdigit()) {
        u8::from_str_radix(text, 16).ok()
    } else {
        None
    }
}

#[cfg(test)]
mod tests {
    use super::*;

    fn back(text: &str) -> Vec<u8> {
        let mut bytes = Vec::new();
        read(text, &mut bytes).unwrap_or_else(|what| panic!("{text}: {what}"));
        bytes
    }

    #[test]
    fn text_and_hex() {
        for (value, text) in [
            ("", "\"\""),
            ("0-3,8", "\"0-3,8\""),
            ("say \"a\\b\"", "\"say \\\"a\\\\b\\\"\""),
            ("Kühlung 25 °C", "\"Kühlung 25 °C\""),
            ("冷却", "\"冷却\""),
            ("µs → 5 ½ €", "\"µs → 5 ½ €\""),
            ("a\nb", "hex 61 0A 62"),
            ("e\u{301}", "hex 65 CC 81"),
            ("a\u{200B}b", "hex 61 E2 80 8B 62"),
            ("\u{202E}abc", "hex E2 80 AE 61 62 63"),
            ("א", "hex D7 90"),
            ("\u{A0}", "hex C2 A0"),
            ("\u{AD}", "hex C2 AD"),
            ("\u{FEFF}", "hex EF BB BF"),
            ("\u{3164}", "hex E3 85 A4"),
            ("\u{FE0F}", "hex EF B8 8F"),
            ("\u{E000}", "hex EE 80 80"),
            ("\u{FFFD}", "hex EF BF BD"),
        ] {
            assert_eq!(write(value.as_bytes(), false), text, "{value:?}");
            assert_eq!(back(text), value.as_bytes());
        }
        assert_eq!(write(b"\xC3", false), "hex C3");
        assert_eq!(write(b"\xED\xA0\x80", false), "hex ED A0 80");
        assert_eq!(write("ü".as_bytes(), true), "hex C3 BC");
    }

    #[test]
    fn foreign_text() {
        for (foreign, told) in [
            (&b"guests.bin"[..], "guests.bin"),
            (b"x\nguests.bin: valid", "x\\nguests.bin: valid"),
            (b"\t\r\0\x1B[2J\x7F", "\\t\\r\\x00\\x1B[2J\\x7F"),
            ("\u{9B}\u{202E}ü冷\u{FFFD}".as_bytes(), "\\xC2\\x9B\\xE2\\x80\\xAEü冷\\xEF\\xBF\\xBD"),
            (b"a\xFFb\xE2\x80", "a\\xFFb\\xE2\\x80"),
            (b"C:\\new \"x\"", "C:\\new \"x\""),
        ] {
            assert_eq!(clear(foreign), told);
            assert_eq!(clear(told), told);
        }
        for character in '\0'..=char::MAX {
            assert!(clear(character.to_string()).chars().all(shown), "{character:?}");
        }
    }

    /// Every character, and every single byte.
    #[test]
    fn each_character_comes_back() {
        for character in '\0'..=char::MAX {
            let value = format!("a{character}b");
            assert_eq!(back(&write(value.as_bytes(), false)), value.as_bytes(), "{character:?}");
        }
        for byte in 0..=255 {
            assert_eq!(back(&write(&[byte], false)), [byte]);
        }
    }

    #[test]
    fn random_bytes_come_back() {
        let mut draw = crate::random::draws(777);
        let (mut texts, mut hexes) = (0, 0);
        for _ in 0..100_000 {
            let value: Vec<u8> = match draw(3) {
                0 => (0..draw(9)).map(|_| draw(256) as u8).collect(),
                // Pieces of UTF-8, whole and broken, and what has a meaning in a worksheet.
                1 => (0..draw(6))
                    .flat_map(|_| b"\xC3\xBC\xE2\x82\xAC\"\\#|x \n\xCC\x81"[draw(14)..].first().copied())
                    .collect(),
                _ => (0..draw(6))
                    .map(|_| ["ü", "€", "\"", "\\", "#", "冷", "x0A", "\\x", " "][draw(9)])
                    .collect::<String>()
                    .into(),
            };
            let text = write(&value, false);
            *(if text.starts_with('"') { &mut texts } else { &mut hexes }) += 1;
            assert_eq!(back(&text), value, "{text}");
            assert_eq!(back(&format!("{text} # behind")), value, "{text}");
            assert_eq!(back(&write(&value, true)), value);
        }
        assert!(texts > 10_000 && hexes > 10_000, "{texts} and {hexes}");
    }
}
