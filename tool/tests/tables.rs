//! Working tables: made, set, packed and shown as texts.

mod common;

use common::*;
use std::fs;
use std::path::Path;

/// The affinity table as a working table with a store of that many bytes.
fn made(folder: &Path, store: &str) {
    affinity(folder);
    let kind = ["--kind", KIND, "--shape", "2x2"];
    good(folder, &[&["table", "make"][..], &kind, &["--store", store, "guests.bin", "work.txt"]].concat());
}

/// The lines that say something, without comments.
fn lines(folder: &Path, file: &str) -> Vec<String> {
    let text = fs::read_to_string(folder.join(file)).unwrap();
    let said = text.lines().map(|line| line.split(" #").next().unwrap_or("").to_string());
    said.filter(|line| !line.starts_with('#')).skip(3).collect()
}

fn set(folder: &Path, cell: &str, to: &str, from: &str, out: &str) -> Said {
    run(folder, &["table", "set", "--cell", cell, "--to", to, from, out], b"")
}

#[test]
fn made_set_packed_and_shown() {
    let folder = folder("working");
    made(&folder, "12");
    let first = [
        "store: 12",
        "0,0 | 01 01 | value | start 0, length 5",
        "0,1 | 01 01 | empty | start 0, length 0",
        "1,0 | 00 00 | null at level 1 | start 0, length 0",
        "1,1 | 01 00 | null at level 2 | start 0, length 0",
        "at 0 | \"0-3,8\"",
    ];
    assert_eq!(lines(&folder, "work.txt"), first);
    let shown = good(&folder, &["table", "show", "work.txt"]);
    assert_eq!(good(&folder, &["show", "--kind", KIND, "--shape", "2x2", "guests.bin"]).out, shown.out);

    assert_eq!(set(&folder, "1,0", "value \"4-7\"", "work.txt", "next.txt").status, 0);
    assert_eq!(lines(&folder, "next.txt")[3], "1,0 | 01 01 | value | start 5, length 3");
    assert_eq!(set(&folder, "0,0", "null at level 2", "next.txt", "null.txt").status, 0);
    assert_eq!(lines(&folder, "null.txt")[1], "0,0 | 01 00 | null at level 2 | start 0, length 0");
    assert_eq!(lines(&folder, "null.txt")[5..], ["at 0 | \"0-3,8\"", "at 5 | \"4-7\""]);
    let text = fs::read_to_string(folder.join("null.txt")).unwrap();
    assert!(text.ends_with("at 0 | \"0-3,8\" # in no cell\nat 5 | \"4-7\" # cell 1,0\n"), "{text}");

    let packed = run(&folder, &["table", "pack", "--most", "1", "null.txt", "packed.txt"], b"");
    assert_eq!((packed.status, packed.err.as_str()), (0, "durpaxeta: null.txt: 1 cell moved\n"));
    assert_eq!(lines(&folder, "packed.txt")[5..], ["at 0 | \"4-7\"", "at 3 | \",84-7\""]);
    let packed = run(&folder, &["table", "pack", "--most=256", "packed.txt", "-"], b"");
    assert_eq!(packed.err, "durpaxeta: packed.txt: 0 cells moved\n");
    assert_eq!(packed.out, fs::read(folder.join("packed.txt")).unwrap());

    // Too little is left behind the highest: packed beforehand.
    assert_eq!(set(&folder, "0,1", "value hex 61 62 63 64 65 66 67 68 69", "null.txt", "full.txt").status, 0);
    assert_eq!(lines(&folder, "full.txt")[5..], ["at 0 | \"4-7\"", "at 3 | \"abcdefghi\""]);
    let shown = good(&folder, &["table", "show", "full.txt"]);
    let stored = run(&folder, &["write", "-", "edited.bin"], &shown.out);
    assert_eq!(stored.status, 0, "{}", stored.err);
    let again = good(&folder, &["show", "--kind", KIND, "--shape", "2x2", "edited.bin"]);
    assert_eq!(again.out, shown.out);
    assert!(
        again.text().contains("0,1 | 01 01 | value \"abcdefghi\"\n1,0 | 01 01 | value \"4-7\"\n"),
        "{}",
        again.text()
    );
    assert!(good(&folder, &["table", "show", "--hex", "full.txt"]).text().contains("value hex 34 2D 37"));
}

/// The two numbers of a preview, and the table that the setting then leaves; no file is written.
#[test]
fn previewed() {
    let folder = folder("previewed");
    made(&folder, "12");
    assert_eq!(set(&folder, "1,0", "value \"4-7\"", "work.txt", "next.txt").status, 0);
    let files = || fs::read_dir(&folder).unwrap().count();
    let before = (files(), fs::read(folder.join("next.txt")).unwrap());
    for (cell, to, total, unpacked) in [
        ("1,0", "value \"4-7\"", 8, 0),
        ("0,0", "null at level 2", 3, 1),
        ("0,0", "value \"\"", 3, 1),
        ("0,0", "value \"0\"", 4, 2),
        ("0,1", "value hex 00 FF", 10, 0),
        ("0,0", "value \"12345\"", 8, 0),
    ] {
        let said = good(&folder, &["table", "preview", "--cell", cell, "--to", to, "next.txt"]);
        assert_eq!(said.text(), format!("sum of lengths: {total}\ncells not packed: {unpacked}\n"), "{cell} {to}");
        assert_eq!(said.err, "");
        assert_eq!((files(), fs::read(folder.join("next.txt")).unwrap()), before);
        let from = String::from_utf8(before.1.clone()).unwrap();
        let after = run(&folder, &["table", "set", "--cell", cell, "--to", to, "-", "-"], from.as_bytes());
        let packed = run(&folder, &["table", "pack", "--most", "256", "-", "-"], &after.out);
        let word = if unpacked == 1 { "cell" } else { "cells" };
        assert!(packed.err.contains(&format!(": {unpacked} {word} moved\n")), "{}", packed.err);
    }
}

#[test]
fn what_is_refused() {
    let folder = folder("not-working");
    made(&folder, "6");
    let kind = ["--kind", KIND, "--shape", "2x2"];
    let cases: [(Vec<&str>, i32, &str); 24] = [
        (
            [&["make"][..], &kind, &["--store", "4", "guests.bin", "no"]].concat(),
            6,
            "The cells have 5 bytes, and the store is to have 4",
        ),
        (
            [&["make"][..], &kind, &["--store", "16777217", "guests.bin", "no"]].concat(),
            5,
            "the store is to have 16777217",
        ),
        ([&["make"][..], &kind, &["guests.bin", "no"]].concat(), 64, "--store is missing; for example --store 4096"),
        ([&["make"][..], &kind, &["--store", "many", "guests.bin", "no"]].concat(), 64, "\"many\" is no number"),
        (vec!["make", "--store", "9", "guests.bin", "no"], 64, "--kind is missing"),
        (
            vec![
                "make",
                "--kind",
                "depth 0, fixed, size 64, little order",
                "--shape",
                "1",
                "--store",
                "9",
                "guests.bin",
                "no",
            ],
            1,
            "ragged",
        ),
        (
            vec!["set", "--cell", "2,0", "--to", "value \"\"", "work.txt", "no"],
            15,
            "The table is 2x2; cell 2,0 is none of it",
        ),
        (
            vec!["set", "--cell", "0,0", "--to", "value \"1234567\"", "work.txt", "no"],
            16,
            "The value has 7 bytes and the other cells 0; the store has 6",
        ),
        (
            vec!["set", "--cell", "1,1", "--to", "value \"12\"", "work.txt", "no"],
            16,
            "The value has 2 bytes and the other cells 5; the store has 6",
        ),
        (
            vec!["set", "--cell", "1,1", "--to", "null at level 3", "work.txt", "no"],
            4,
            "There is no level 3; the depth is 2",
        ),
        (
            vec!["set", "--cell", "1", "--to", "value \"\"", "work.txt", "no"],
            64,
            "\"1\" is no cell of a table of 2x2; write for example 0,0",
        ),
        (vec!["set", "--cell", "a,b", "--to", "value \"\"", "work.txt", "no"], 64, "is no cell"),
        (vec!["set", "--cell", "1,1", "--to", "12", "work.txt", "no"], 64, "a cell is null at a level, or has a value"),
        (vec!["set", "--cell", "1,1", "--to", "value 12", "work.txt", "no"], 64, "a value is written as"),
        (vec!["set", "--cell", "1,1", "work.txt", "no"], 64, "--to is missing"),
        (vec!["set", "--to", "value \"\"", "work.txt", "no"], 64, "--cell is missing; for example --cell 0,1"),
        (
            vec!["set", "--cell", "1,1", "--to", "value \"\"", "work.txt", "work.txt"],
            64,
            "work.txt is input and output",
        ),
        (vec!["preview", "--cell", "1,1", "work.txt"], 64, "--to is missing"),
        (vec!["preview", "--cell", "1,1", "--to", "value \"\"", "work.txt", "no"], 64, "table preview takes TABLE"),
        (
            vec!["preview", "--cell", "1,1", "--to", "value \"\"", "--no-clobber", "work.txt"],
            64,
            "table preview does not take --no-clobber",
        ),
        (vec!["pack", "--most", "257", "work.txt", "no"], 1, "257 cells are to be moved; one call moves 1 to 256"),
        (vec!["pack", "work.txt", "no"], 64, "--most is missing; for example --most 256"),
        (vec!["pack", "--most", "1", "guests.txt", "no"], 65, "the first line of a working table"),
        (vec!["make"], 64, "table make takes IN OUT"),
    ];
    for (arguments, status, says) in cases {
        let said = run(&folder, &[&["table"][..], &arguments].concat(), b"");
        assert_eq!(said.status, status, "{arguments:?}: {}", said.err);
        assert!(said.err.contains(says), "{arguments:?}: {}", said.err);
        // A preview is refused in the same words.
        if let ["set", option @ .., "work.txt", "no"] = &arguments[..] {
            let foreseen = run(&folder, &[&["table", "preview"][..], option, &["work.txt"]].concat(), b"");
            assert_eq!((foreseen.status, foreseen.out.is_empty()), (status, true), "{arguments:?}: {}", foreseen.err);
            assert_eq!(foreseen.err.replace("help table", ""), said.err.replace("help table", ""));
        }
    }
    assert!(!folder.join("no").exists());
    for arguments in [&["table"][..], &["table", "edit"]] {
        let said = run(&folder, arguments, b"");
        assert_eq!(
            (said.status, said.err.as_str()),
            (64, "durpaxeta: table is followed by make, show, set, preview or pack\nSee 'durpaxeta help table'.\n")
        );
    }
    assert_eq!(good(&folder, &["table", "--help"]).out, good(&folder, &["help", "table"]).out);
}

/// A text of the first version, without the words, is read as ever; what is written of it has them. With them masks, lengths and words
/// must agree.
#[test]
fn a_word_for_each_cell() {
    let folder = folder("working-words");
    made(&folder, "12");
    let new = fs::read_to_string(folder.join("work.txt")).unwrap();
    assert!(new.starts_with("durpaxeta working table 2\n"), "{new}");
    let words = ["value", "empty", "null at level 1", "null at level 2"];
    let old =
        words.iter().fold(new.replace("table 2", "table 1"), |text, word| text.replace(&format!(" | {word}"), ""));
    assert!(old.contains("\n1,0 | 00 00 | start 0, length 0\n"), "{old}");
    let show = |text: &str| run(&folder, &["table", "show", "-"], text.as_bytes());
    assert_eq!((show(&old).status, show(&old).out), (0, show(&new).out));
    let packed = run(&folder, &["table", "pack", "--most", "1", "-", "-"], old.as_bytes());
    assert_eq!((packed.status, packed.text()), (0, &*new));

    let empty = "0,1 | 01 01 | empty | start 0, length 0";
    let null = "1,0 | 00 00 | null at level 1 | start 0, length 0";
    assert!(new.contains(empty) && new.contains(null), "{new}");
    for (from, to, says) in [
        (
            empty,
            "0,1 | 01 01 | null at level 1 | start 0, length 0",
            "says \"null at level 1\", and its masks and its length say \"empty\"",
        ),
        (
            empty,
            "0,1 | 00 00 | empty | start 0, length 0",
            "says \"empty\", and its masks and its length say \"null at level 1\"",
        ),
        (empty, "0,1 | 01 00 | empty | start 0, length 0", "say \"null at level 2\""),
        (
            empty,
            "0,1 | 01 01 | value | start 0, length 0",
            "says \"value\", and its masks and its length say \"empty\"",
        ),
        (
            empty,
            "0,1 | 01 01 | empty | start 5, length 1",
            "says \"empty\", and its masks and its length say \"value\"",
        ),
        (null, "1,0 | 00 00 | null at level 2 | start 0, length 0", "say \"null at level 1\""),
        (null, "1,0 | 00 00 | null | start 0, length 0", "say \"null at level 1\""),
        (null, "1,0 | 00 00 | | start 0, length 0", "say \"null at level 1\""),
        (
            null,
            "1,0 | 00 00 | start 0, length 0",
            "coordinates | masks | null at level 1, empty or value | start 0, length 5",
        ),
    ] {
        let said = show(&new.replace(from, to));
        assert_eq!((said.status, said.text()), (65, ""), "{to}: {}", said.err);
        assert!(said.err.contains(says), "{to}: {}", said.err);
    }
    // Whether it is a working table, the library says.
    for (from, to) in [
        (empty, "0,1 | 01 02 | empty | start 0, length 0"),
        (null, "1,0 | 00 00 | null at level 1 | start 5, length 1"),
        (null, "1,0 | 00 01 | null at level 1 | start 0, length 0"),
    ] {
        assert_eq!(show(&new.replace(from, to)).status, 4, "{to}");
    }
    let said = show(&old.replace("0,1 | 01 01 | ", "0,1 | 01 01 | empty | "));
    assert_eq!((said.status, said.err.contains("coordinates | masks | start 0, length 5")), (65, true), "{}", said.err);
}

/// Which rule is broken.
#[test]
fn tables_that_are_none() {
    let folder = folder("broken");
    let table = |masks: [&str; 2], places: [&str; 2]| {
        format!(
            "durpaxeta working table 1\nkind: {KIND}\nshape: 2\nstore: 4\n0 | {} | start {}\n1 | {} | start {}\n",
            masks[0],
            places[0].replace(' ', ", length "),
            masks[1],
            places[1].replace(' ', ", length ")
        )
    };
    let set = ["01 01", "01 01"];
    for (text, says) in [
        (table(["01 02", "01 01"], ["0 0", "0 0"]), "The mask byte of cell 0 at level 2 is 02"),
        (table(["01 01", "00 01"], ["0 0", "0 0"]), "Cell 1 is null at level 1, and set below it"),
        (table(["01 00", "01 01"], ["0 2", "0 0"]), "Cell 0 is null at level 2, and has 2 bytes"),
        (table(set, ["0 1", "3 0"]), "Cell 1 has no bytes, and starts at 3 and not at 0"),
        (table(set, ["3 2", "0 0"]), "Cell 0 ends behind the store, which has 4 bytes"),
        (table(set, ["18446744073709551615 1", "0 0"]), "Cell 0 ends behind the store"),
        (table(set, ["1 2", "0 2"]), "Cells 1 and 0 share bytes of the store"),
    ] {
        for command in [
            &["show", "-"][..],
            &["pack", "--most", "1", "-", "no"],
            &["set", "--cell", "0", "--to", "value \"\"", "-", "no"],
            &["preview", "--cell", "0", "--to", "value \"\"", "-"],
        ] {
            let said = run(&folder, &[&["table"][..], command].concat(), text.as_bytes());
            assert_eq!(said.status, 4, "{text}{}", said.err);
            assert!(said.err.contains(says), "{text}{}", said.err);
        }
    }
    assert!(!folder.join("no").exists());
}

#[test]
fn the_page() {
    prints_what_the_page_says("15", 8);
}
