//! `explain` prints the pictures of docs/FORMAT.md, and every byte of any other file.

mod common;

use common::*;
use std::fs;

/// Position and bytes of each line; lines that stand for others are left out.
fn columns(picture: &str) -> Vec<(usize, String)> {
    let lines = picture.lines().filter_map(|line| line.split_once(" | "));
    lines
        .filter_map(|(at, rest)| {
            let bytes = rest.split('|').next().unwrap().trim().to_string();
            at.trim().parse().ok().map(|at| (at, bytes))
        })
        .collect()
}

#[test]
fn the_pictures_of_the_page() {
    let folder = folder("pictures");
    let page = include_str!("../../docs/FORMAT.md");
    let tables = [
        ("depth 0, fixed, size 2, little order", "2"),
        ("depth 0, fixed, size 2, big order", "2"),
        ("depth 0, ragged, width 4, index at end", "2"),
        ("depth 0, ragged, width 8, index at start", "2"),
        ("depth 1, fixed, size 2, little order", "3"),
        ("depth 1, fixed, size 2, little order", "3"),
        ("depth 2, fixed, size 1, little order", "3"),
        (KIND, "2x2"),
        (KIND, "1"),
        (KIND, "1"),
        (KIND, "1"),
        (KIND, "1"),
        ("", "2"),
        ("depth 1, packed masks, fixed, size 2, little order", "3"),
        ("depth 2, packed masks, fixed, size 1, little order", "9"),
        ("depth 1, fixed, size 1, little order", "2"),
        ("depth 0, ragged, width 4, index at start", "2"),
        (KIND, "4"),
        ("depth 0, ragged, width 4, index at end", "1"),
        ("depth 0, ragged, width 4, index at end", "1"),
        ("", "2"),
        (KIND, "2x2"),
        (KIND, "2x2"),
        (KIND, "1x2"),
        (KIND, "2"),
        ("depth 1, ragged, width 4, index at start", "2"),
    ];
    let pictures: Vec<&str> = page.split("```bytes\n").skip(1).map(|rest| rest.split("```").next().unwrap()).collect();
    assert_eq!(pictures.len(), tables.len());
    for (picture, (kind, shape)) in pictures.iter().zip(tables) {
        let wanted = columns(picture);
        let hex: Vec<&str> = wanted.iter().flat_map(|(_, bytes)| bytes.split(' ')).collect();
        let bytes: Vec<u8> = hex.iter().map(|byte| u8::from_str_radix(byte, 16).unwrap()).collect();
        let form = if kind.is_empty() { vec!["--interleaved"] } else { vec!["--kind", kind] };
        let said = run(&folder, &[&["explain"][..], &form, &["--shape", shape, "-"]].concat(), &bytes);
        assert_eq!((said.status, said.err.as_str()), (0, ""));
        assert_eq!(columns(said.text()), wanted, "{}", said.text());
    }
}

#[test]
fn the_affinity_table_in_words() {
    let folder = folder("words");
    affinity(&folder);
    let said = good(&folder, &["explain", "--kind", KIND, "--shape", "2x2", "guests.bin"]);
    let wanted = "guests.bin: depth 2, ragged, width 4, index at start; 2x2; 64 bytes
  0 | 04 00 00 00 00 00 00 00 | level 1, mask length: 4
  8 | 2C 00 00 00 00 00 00 00 | level 1, content length: 44
 16 | 01 01 00 01             | level 1, mask: cells 0,0 0,1 1,1 set, cell 1,0 null
 20 | 03 00 00 00 00 00 00 00 | level 2, mask length: 3
 28 | 19 00 00 00 00 00 00 00 | level 2, content length: 25
 36 | 01 01 00                | level 2, mask: cells 0,0 0,1 set, cell 1,1 null
 39 | 0C 00 00 00 00 00 00 00 | index length: 12
 47 | 00 00 00 00             | offset 0: cell 0,0 begins at 0
 51 | 05 00 00 00             | offset 1: cell 0,0 ends at 5; cell 0,1 begins there
 55 | 05 00 00 00             | offset 2: cell 0,1 ends at 5, so it is empty
 59 | 30 2D 33 2C 38          | data: cell 0,0 is \"0-3,8\"
";
    assert_eq!(said.text(), wanted);
}

/// Of a damaged file: up to the field that is refused, then the refusal and whose it is.
#[test]
fn damaged_files() {
    let folder = folder("explain-damaged");
    affinity(&folder);
    let stored = fs::read(folder.join("guests.bin")).unwrap();
    let explain = |bytes: &[u8]| run(&folder, &["explain", "--kind", KIND, "--shape", "2x2", "-"], bytes);
    let whole = columns(explain(&stored).text());
    for (position, byte, status, at, what) in [
        (0, 5, 8, 0, "level 1, mask length: 5"),
        (8, 43, 8, 8, "level 1, content length: 43"),
        (28, 24, 8, 28, "level 2, content length: 24"),
        (39, 16, 8, 39, "index length: 16"),
        (51, 6, 10, 55, "offset 2: cell 0,1 ends at 5"),
        (55, 4, 8, 55, "offset 2: cell 0,1 ends at 4"),
    ] {
        let mut damaged = stored.clone();
        damaged[position] = byte;
        let said = explain(&damaged);
        assert_eq!(said.status, status, "{}", said.text());
        let lines = columns(said.text());
        // The field that is refused is the last one that was read; before it all is as it was.
        let marked = said.text().lines().position(|line| line.ends_with("<- refused")).unwrap();
        assert_eq!(lines[marked - 1].0, at, "{}", said.text());
        assert!(said.text().lines().nth(marked).unwrap().contains(what), "{}", said.text());
        let before = lines[..marked - 1].iter().filter(|(start, _)| *start + 8 <= position || *start > position);
        assert!(before.clone().all(|line| whole.contains(line)), "{}", said.text());
        assert!(lines.len() <= marked + 1, "{}", said.text());
        assert!(said.text().contains(&format!("refusal {status}: ")), "{}", said.text());
        assert!(said.text().contains(&format!("Reading stopped at byte {at} of 64: ")), "{}", said.text());
        assert!(said.text().contains("Caused by whoever stored the bytes."), "{}", said.text());
    }
    let short = explain(&stored[..10]);
    assert_eq!(short.status, 7);
    assert!(short.text().contains("  0 | 04 00 00 00 00 00 00 00 | not read: 10 bytes"), "{}", short.text());
    let nothing = explain(b"");
    assert_eq!(nothing.status, 7);
    assert!(nothing.text().contains("| nothing is left  <- refused"), "{}", nothing.text());
    // The data before an index at the end is not read when the index is refused.
    let end = [b"AB".to_vec(), le(&[0, 3, 2], 4, &[]), le(&[12], 8, &[])].concat();
    let kind = "depth 0, ragged, width 4, index at end";
    let said = run(&folder, &["explain", "--kind", kind, "--shape", "2", "-"], &end);
    assert_eq!(said.status, 10);
    assert!(said.text().contains("  0 | 41 42                   | not read\n"), "{}", said.text());
    assert!(
        said.text().contains(" 10 | 02 00 00 00             | offset 2: cell 1 ends at 2  <- refused\n"),
        "{}",
        said.text()
    );
    // The older form.
    let old = le(&[2, 9], 4, &[b'A', 0, 0, 0, 0]);
    let said = run(&folder, &["explain", "--interleaved", "--shape", "2", "-"], &old);
    assert_eq!(said.status, 11);
    assert!(
        said.text().contains("  4 | 09 00 00 00             | length of cell 0: 9  <- refused\n"),
        "{}",
        said.text()
    );
    assert!(said.text().contains("  8 | 41 00 00 00 00          | not read\n"), "{}", said.text());
}

#[test]
fn bytes_in_no_cell_are_named() {
    let folder = folder("explain-hidden");
    let stored = le(&[3, 12], 8, &[&[0, 0, 0][..], b"private note"].concat());
    let kind = "depth 1, fixed, size 2, little order";
    let said = run(&folder, &["explain", "--kind", kind, "--shape", "3", "-"], &stored);
    assert_eq!(said.status, 8);
    assert!(
        said.text().contains(" 16 | 00 00 00                | level 1, mask: cells 0 1 2 null\n"),
        "{}",
        said.text()
    );
    assert!(
        said.text()
            .contains(" 19 | 70 72 69 76 61 74 65 20 | not read: 12 bytes, of which these are the first  <- refused\n"),
        "{}",
        said.text()
    );
    let late = le(&[12], 8, &le(&[2, 3, 4], 4, b"xyab"));
    let kind = "depth 0, ragged, width 4, index at start";
    let said = run(&folder, &["explain", "--kind", kind, "--shape", "2", "-"], &late);
    assert_eq!(said.status, 10);
    assert!(
        said.text().contains("  8 | 02 00 00 00             | offset 0: cell 0 begins at 2  <- refused\n"),
        "{}",
        said.text()
    );
    let old = le(&[1, 0], 4, b"tail");
    let said = run(&folder, &["explain", "--interleaved", "--shape", "1", "-"], &old);
    assert!(said.text().contains("  8 | 74 61 69 6C             | after the last cell: ignored\n"), "{}", said.text());
}

/// Long parts are shortened, with a count.
#[test]
fn large_tables_are_short() {
    let folder = folder("explain-long");
    let (count, length) = (65_536, 3);
    let masks: Vec<u8> = (0..count).map(|cell| u8::from(cell % 2 == 0)).collect();
    let set = count / 2;
    let offsets: Vec<u64> = (0..=set as u64).map(|number| number * length).collect();
    let data = le(&offsets, 4, &vec![b'x'; set * length as usize]);
    let content = le(&[4 * (set as u64 + 1)], 8, &data);
    let stored = le(&[count as u64, content.len() as u64], 8, &[masks, content].concat());
    let kind = "depth 1, ragged, width 4, index at start";
    let said = run(&folder, &["explain", "--kind", kind, "--shape", "256x256", "-"], &stored);
    assert_eq!((said.status, said.err.as_str()), (0, ""));
    assert!(said.text().lines().count() < 40, "{}", said.text());
    for wanted in [
        "65512 bytes more; level 1, mask: 32768 of 65536 cells are set\n",
        "| level 1, mask: cells 0,0 0,2 0,4 0,6 set, cells 0,1 0,3 0,5 0,7 null\n",
        "| 32759 offsets more\n",
        "| offset 32768: cell 255,254 ends at 98304\n",
        "| 32758 fields of cells more\n",
        "| data: cell 255,254 is \"xxx\"\n",
    ] {
        assert!(said.text().contains(wanted), "{wanted}{}", said.text());
    }
    // A value of many lines.
    let said = run(&folder, &["explain", "--kind", LONG, "--shape", "1", "-"], &long(100));
    assert!(said.text().contains(" 24 | 61 61 61 61 61 61 61 61 | data: cell 0, 100 bytes\n"), "{}", said.text());
    assert!(said.text().contains(" 32 | 61 61 61 61 61 61 61 61 | cell 0 goes on\n"), "{}", said.text());
    assert!(said.text().contains("| 76 bytes more\n"), "{}", said.text());
}

/// For programs: null, "" and a value are three things.
#[test]
fn json_lines() {
    let folder = folder("json");
    affinity(&folder);
    let said = good(&folder, &["show", "--json", "--kind", KIND, "--shape", "2x2", "guests.bin"]);
    let wanted = r#"{"is":"value","cell":[0,0],"masks":[1,1],"value":{"text":"0-3,8","hex":"302D332C38"}}
{"is":"empty","cell":[0,1],"masks":[1,1],"value":{"text":"","hex":""}}
{"is":"null","cell":[1,0],"masks":[0,0],"null":1}
{"is":"null","cell":[1,1],"masks":[1,0],"null":2}
"#;
    assert_eq!(said.text(), wanted);
    let stored = le(&[12], 8, &le(&[0, 1, 3], 4, b"\xFFbb"));
    let kind = "depth 0, ragged, width 4, index at start";
    let said = run(&folder, &["show", "--json", "--kind", kind, "--shape", "2", "-"], &stored);
    assert_eq!((said.status, said.err.as_str()), (0, ""));
    assert_eq!(
        said.text(),
        "{\"is\":\"value\",\"cell\":[0],\"masks\":[],\"value\":{\"text\":null,\"hex\":\"FF\"}}\n\
         {\"is\":\"value\",\"cell\":[1],\"masks\":[],\"value\":{\"text\":\"bb\",\"hex\":\"6262\"}}\n"
    );
}
