//! What takes over a second is told, on a terminal alone: one line, of what is being done.

mod common;

use common::*;
use std::fs;
use std::io::Write;
use std::path::Path;
use std::process::{Command, Stdio};
use std::thread;
use std::time::Duration;

/// Runs a line whose standard error is a terminal, and feeds it its input in two pieces, so long apart. Answers its status and what came
/// to the terminal.
fn on_terminal(folder: &Path, words: &[&str], name: &str, input: [&[u8]; 2], pause: u64) -> (i32, String) {
    let (mut shows, has) = terminal();
    let mut child = Command::new(TOOL)
        .args(words)
        .current_dir(folder)
        .env("TERM", name)
        .stdin(Stdio::piped())
        .stdout(Stdio::null())
        .stderr(has)
        .spawn()
        .unwrap();
    let mut stdin = child.stdin.take().unwrap();
    stdin.write_all(input[0]).unwrap();
    thread::sleep(Duration::from_millis(pause));
    stdin.write_all(input[1]).unwrap();
    drop(stdin);
    let reader = thread::spawn(move || shown(&mut shows, None));
    let status = child.wait().unwrap().code().unwrap();
    (status, reader.join().unwrap())
}

/// What came to the terminal: the lines of progress, and all else.
fn apart(shown: &str) -> (Vec<&str>, String) {
    let (begin, end) = ("\r\u{1B}[?7ldurpaxeta: ", "\u{1B}[K\u{1B}[?7h");
    let mut pieces = shown.split(begin);
    let mut rest = pieces.next().unwrap_or("").to_string();
    let mut lines = Vec::new();
    for piece in pieces {
        let (line, behind) = piece.split_once(end).unwrap_or_else(|| panic!("{shown:?}"));
        lines.push(line);
        rest.push_str(behind);
    }
    (lines, rest)
}

const CHECK: [&str; 6] = ["check", "--kind", "depth 0, fixed, size 1, little order", "--shape", "4", "-"];
const READING: &str = "reading standard input: 3 bytes so far";

/// One line is drawn again in its place, and is gone in the end.
#[test]
fn one_line_on_a_terminal() {
    let folder = folder("progress");
    let (status, shown) = on_terminal(&folder, &CHECK, "xterm", [&[1, 2, 3], &[4]], 2200);
    let (lines, rest) = apart(&shown);
    assert_eq!((status, rest.as_str()), (0, ERASED), "{shown:?}");
    assert!(lines.iter().filter(|line| **line == READING).count() >= 2, "{shown:?}");

    // What is told in the end stands on a line of its own.
    let words = ["convert", "--kind", LONG, "--shape", "1", "-", "out"];
    let (status, shown) = on_terminal(&folder, &words, "xterm", [&[1, 0, 0], b"\0\0\0\0\0!"], 1500);
    let (lines, rest) = apart(&shown);
    let told = "durpaxeta: standard input: 1 byte comes after the last cell, from byte 8 of 9 on: left out\r\n";
    assert_eq!((status, rest), (0, format!("{ERASED}{told}")), "{shown:?}");
    assert!(lines.contains(&READING), "{shown:?}");
    let (status, shown) = on_terminal(&folder, &CHECK, "xterm", [&[1, 2, 3], b""], 1500);
    assert_eq!((status, apart(&shown).1.as_str()), (8, ERASED), "{shown:?}");
    let show = ["show", "--kind", LONG, "--shape", "1", "-"];
    let (status, shown) = on_terminal(&folder, &show, "xterm", [&[1, 2, 3], b""], 1500);
    let begin = format!("{ERASED}durpaxeta: standard input: refusal 7: ");
    assert!(status == 7 && apart(&shown).1.starts_with(&begin), "{shown:?}");
}

/// No terminal, or one that draws no line again: nothing.
#[test]
fn nothing_elsewhere() {
    let folder = folder("no-progress");
    assert_eq!(on_terminal(&folder, &CHECK, "dumb", [&[1, 2, 3], &[4]], 1500), (0, String::new()));
    let mut child = piped(&folder, &CHECK);
    let mut stdin = child.stdin.take().unwrap();
    stdin.write_all(&[1, 2, 3]).unwrap();
    thread::sleep(Duration::from_millis(1500));
    stdin.write_all(&[4]).unwrap();
    drop(stdin);
    let out = child.wait_with_output().unwrap();
    assert_eq!((out.status.code(), out.stderr), (Some(0), Vec::new()));
}

/// When all is read, something else is being done. On a quick machine nothing takes so long that it is told.
#[test]
fn what_is_being_done() {
    let folder = folder("long-progress");
    fs::write(folder.join("a\u{9B}2J.bin"), long(16_777_216)).unwrap();
    let words = ["show", "--json", "--kind", LONG, "--shape", "1", "a\u{9B}2J.bin"];
    let (status, shown) = on_terminal(&folder, &words, "xterm", [b"", b""], 0);
    assert_eq!(status, 0, "{shown:?}");
    let (lines, rest) = apart(&shown);
    assert_eq!(rest, if lines.is_empty() { "" } else { ERASED }, "{shown:?}");
    for line in lines {
        let known = ["reading a\\xC2\\x9B2J.bin: ", "decoding a\\xC2\\x9B2J.bin", "making JSON of the cells"];
        assert!(known.iter().any(|begin| line.starts_with(begin)), "{line:?}");
        assert!(!line.contains("16777240 of 16777240"), "{line:?}");
    }
}

/// A table that is moved tells how many chunks are, and then how many are compared.
#[test]
fn chunks_that_are_moved() {
    let folder = folder("migrate-progress");
    let mut begin: Vec<String> = ["migrate", "begin", "--shape", "256x256"].map(String::from).to_vec();
    fs::write(folder.join("row.old"), [&256_u32.to_le_bytes()[..], &[0; 4 * 256]].concat()).unwrap();
    for row in 0..256 {
        begin.extend(["--part".into(), format!("{row}..{},0..256", row + 1), "row.old".into()]);
    }
    begin.push("a\u{9B}2J".into());
    good(&folder, &begin.iter().map(String::as_str).collect::<Vec<_>>());
    let (status, shown) = on_terminal(&folder, &["migrate", "run", "a\u{9B}2J"], "xterm", [b"", b""], 0);
    assert_eq!(status, 0, "{shown:?}");
    let (lines, rest) = apart(&shown);
    assert_eq!(rest, if lines.is_empty() { "" } else { ERASED }, "{shown:?}");
    for line in lines {
        let known =
            ["moving the chunks of ", "comparing the chunks of "].iter().find_map(|begin| line.strip_prefix(begin));
        let read = ["reading ", "decoding "].iter().any(|begin| line.starts_with(begin));
        let count =
            known.and_then(|rest| rest.strip_prefix("a\\xC2\\x9B2J: ")?.strip_suffix(" of 256 chunks")?.parse().ok());
        assert!(read || count.is_some_and(|count: usize| count <= 256), "{line:?}");
    }
}
