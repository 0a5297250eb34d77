//! Bytes that are in no cell: refused in a table by every command, with the place and what is wrong; ignored, and told of, after
//! the last cell of the older form.

mod common;

use common::*;
use std::fs;

const FIXED: &str = "depth 1, fixed, size 2, little order";
const FLAT: &str = "depth 0, ragged, width 4, index at start";

/// A table with bytes in no cell: kind, stored bytes of two cells; the refusal, at which byte, in what words.
type Hiding = (&'static str, Vec<u8>, i32, usize, &'static str);

fn tables() -> Vec<Hiding> {
    let inner = le(&[2, 5], 8, &[0, 0, 9, 9, 9, 9, 9]);
    let deep = le(&[2, inner.len() as u64], 8, &[&[1, 1][..], &inner].concat());
    let nothing = le(&[2, 18], 8, &[&[0, 0][..], &le(&[2, 0], 8, &[0, 0])].concat());
    let framed = le(&[8], 8, &le(&[1, 2], 4, b"xa"));
    let framed = le(&[2, framed.len() as u64], 8, &[&[0, 1][..], &framed].concat());
    let data = |offsets: &[u64], data: &[u8]| le(&[12], 8, &le(offsets, 4, data));
    vec![
        (
            FIXED,
            le(&[2, 5], 8, &[0, 0, 9, 9, 9, 9, 9]),
            8,
            18,
            "no cell is set in the mask of level 1, but 5 content bytes follow",
        ),
        (
            "depth 2, fixed, size 2, big order",
            deep,
            8,
            36,
            "no cell is set in the mask of level 2, but 5 content bytes follow",
        ),
        ("depth 2, fixed, size 2, big order", nothing, 8, 18, "no cell is set in the mask of level 1, but 18 content"),
        (FLAT, data(&[0, 0, 0], b"note"), 8, 16, "the last offset says 0 value bytes; 4 are there"),
        (FLAT, data(&[2, 3, 4], b"xyab"), 10, 8, "the first offset is 2; it must be 0"),
        (FLAT, data(&[2, 2, 2], b"xy"), 10, 8, "the first offset is 2; it must be 0"),
        ("depth 1, ragged, width 4, index at start", framed, 10, 26, "the first offset is 1; it must be 0"),
    ]
}

#[test]
fn hidden_bytes_are_refused() {
    let folder = folder("hidden");
    for (kind, stored, refusal, at, what) in tables() {
        fs::write(folder.join("in.bin"), &stored).unwrap();
        let table = ["--kind", kind, "--shape", "2"];
        let told = format!("Reading stopped at byte {at} of {}: {what}", stored.len());
        for line in [
            [&["check"][..], &table, &["in.bin"]].concat(),
            [&["check", "--strict"][..], &table, &["in.bin"]].concat(),
            [&["explain"][..], &table, &["in.bin"]].concat(),
            [&["show"][..], &table, &["in.bin"]].concat(),
            [&["show", "--json"][..], &table, &["in.bin"]].concat(),
            [&["cut"][..], &table, &["--subset", "0..1", "in.bin", "no.bin"]].concat(),
            [&["merge"][..], &table, &["--part", "0..2", "in.bin", "no.bin"]].concat(),
        ] {
            let said = run(&folder, &line, b"");
            assert_eq!(said.status, refusal, "{line:?}: {}{}", said.text(), said.err);
            let both = format!("{}{}", said.text(), said.err);
            assert!(both.contains(&told), "{line:?}: {told}\n{both}");
            assert!(both.contains("Caused by whoever stored the bytes."), "{both}");
        }
        if kind == FLAT {
            let line = [&["convert", "--to-interleaved"][..], &table, &["in.bin", "no.bin"]].concat();
            assert_eq!(run(&folder, &line, b"").status, refusal, "{what}");
        }
        assert!(!folder.join("no.bin").exists());
    }
}

/// The examples of docs/FORMAT.md, part 8.
#[test]
fn as_the_page_says() {
    let folder = folder("hidden-page");
    let page = include_str!("../../docs/FORMAT.md");
    let nothing = le(&[1, 17], 8, &[&[0][..], &le(&[1, 0], 8, &[0])].concat());
    let late = le(&[8], 8, &le(&[1, 2], 4, b"AB"));
    for (kind, stored) in [("depth 2, fixed, size 1, little order", nothing), (FLAT, late)] {
        fs::write(folder.join("damaged.bin"), stored).unwrap();
        let line = format!("$ durpaxeta check --kind \"{kind}\" --shape 1 damaged.bin\n");
        let said = run(&folder, &["check", "--kind", kind, "--shape", "1", "damaged.bin"], b"");
        let wanted = format!("{line}{}", said.text()).replace('\n', "\n    ");
        assert!(page.contains(wanted.trim_end()), "{wanted}");
    }
}

/// A worksheet of an earlier version may have such a line; it is what is handed over.
#[test]
fn a_typed_line() {
    let folder = folder("hidden-typed");
    let sheet = format!("durpaxeta worksheet 1\nkind: {FLAT}\nshape: 1\nbefore: \"A\"\n0 | - | value \"B\"\n");
    let said = run(&folder, &["write", "-", "no.bin"], sheet.as_bytes());
    assert_eq!((said.status, said.text()), (4, ""), "{}", said.err);
    assert!(said.err.starts_with("durpaxeta: standard input, line 4: refusal 4: "), "{}", said.err);
    assert!(said.err.contains("Bytes before the first cell are in no cell: remove the line.\n"), "{}", said.err);
    assert!(
        said.err
            .contains("Caused by whoever hands over the array, chunk list, working table, live table or rights plane."),
        "{}",
        said.err
    );
    assert!(!folder.join("no.bin").exists());
}

#[test]
fn after_the_last_cell() {
    let folder = folder("tail");
    let told = "4 bytes come after the last cell, from byte 9 of 13 on";
    let check = ["check", "--interleaved", "--shape", "1", "-"];
    let strict = [&check[..], &["--strict"]].concat();
    let (tail, none) = (le(&[1, 1], 4, b"Atail"), le(&[1, 1], 4, b"A"));
    // --strict asks for nothing more.
    for line in [&check[..], &strict] {
        let said = run(&folder, line, &tail);
        assert_eq!((said.status, said.err.as_str()), (0, ""));
        assert!(said.text().ends_with(&format!("  13 bytes; {told}: ignored\n")), "{}", said.text());
        assert_eq!(run(&folder, line, &none).status, 0);
        assert_eq!(run(&folder, line, &none[..8]).status, 11);
    }
    let convert = ["convert", "--kind", FLAT, "--shape", "1", "-", "new.bin"];
    let said = run(&folder, &convert, &tail);
    assert_eq!((said.status, said.err), (0, format!("durpaxeta: standard input: {told}: left out\n")));
    let said = run(&folder, &convert, &none);
    assert_eq!((said.status, said.err.as_str()), (0, ""));
    let table = ["--kind", FLAT, "--shape", "1", "new.bin"];
    let [plain, strict] =
        [&["check"][..], &["check", "--strict"]].map(|check| good(&folder, &[check, &table].concat()));
    assert_eq!(plain.text(), strict.text());
}
