//! Guests: what a rights plane shows of stored tables, and the edits of working ones that it permits.

mod common;

use common::*;
use std::fs;
use std::path::Path;

/// The affinity table with its description, and as a working table with a store of 12 bytes. A column is a guest.
fn prepared(name: &str) -> std::path::PathBuf {
    let folder = folder(name);
    fs::write(folder.join("guests.txt"), good(&folder, &["example"]).out).unwrap();
    good(&folder, &["write", "--describe", "guests.txt", "guests.bin"]);
    good(&folder, &["table", "make", "--store", "12", "guests.bin", "work.txt"]);
    folder
}

const FIRST: &str = "1,0,1,0";

/// The lines of the cells.
fn cells(said: &Said) -> Vec<&str> {
    said.text().lines().filter(|line| line.contains('|') && !line.starts_with('#')).collect()
}

fn edit(folder: &Path, plane: &str, cell: &str, to: &str, out: &str) -> Said {
    run(folder, &["guest", "edit", "--rights", plane, "--cell", cell, "--to", to, "work.txt", out], b"")
}

#[test]
fn shown_and_stored() {
    let folder = prepared("guest-shown");
    let shown = good(&folder, &["guest", "show", "--rights", FIRST, "guests.bin"]);
    let first = [
        "0,0 | 01 01 | value \"0-3,8\"",
        "0,1 | 00 00 | null at level 1",
        "1,0 | 00 00 | null at level 1",
        "1,1 | 00 00 | null at level 1",
    ];
    assert_eq!(cells(&shown), first);
    // The other guest's: an empty value and a null at level 2 stay what they are.
    let other = good(&folder, &["guest", "show", "--rights=0,1,0,1", "guests.bin"]);
    let second = [
        "0,0 | 00 00 | null at level 1",
        "0,1 | 01 01 | value \"\"",
        "1,0 | 00 00 | null at level 1",
        "1,1 | 01 00 | null at level 2",
    ];
    assert_eq!(cells(&other), second);
    assert!(!other.text().contains("0-3,8"));
    let all = good(&folder, &["guest", "show", "--rights", "1,1,1,1", "guests.bin"]);
    assert_eq!(cells(&all), cells(&good(&folder, &["show", "guests.bin"])));

    let kind = ["--kind", KIND, "--shape", "2x2"];
    let hex = good(&folder, &[&["guest", "show", "--hex", "--rights", FIRST][..], &kind, &["guests.bin"]].concat());
    assert_eq!(cells(&hex)[0], "0,0 | 01 01 | value hex 30 2D 33 2C 38");
    let json = good(&folder, &["guest", "show", "--json", "--rights", FIRST, "guests.bin"]);
    assert_eq!(json.text().lines().nth(1), Some(r#"{"is":"null","cell":[0,1],"masks":[0,0],"null":1}"#));
    // What a guest is shown as null may be hidden; what anybody else is shown, is not set.
    let head = |said: &Said| said.text().lines().nth(3).unwrap().to_string();
    for more in [&[][..], &["--hex"]] {
        let said = good(&folder, &[&["guest", "show", "--rights", FIRST][..], more, &["guests.bin"]].concat());
        let says =
            "# cell | mask of each level | null: hidden or not set, and at which level; value \"\": set, with no bytes";
        assert_eq!(head(&said), says);
    }
    assert!(head(&good(&folder, &["show", "guests.bin"])).contains("| null: not set, and at which level;"));
    assert_eq!(run(&folder, &["write", "-", "-"], &all.out).out, fs::read(folder.join("guests.bin")).unwrap());

    // What is stored is what is shown.
    good(&folder, &["guest", "read", "--rights", FIRST, "--describe", "guests.bin", "own.bin"]);
    assert_eq!(cells(&good(&folder, &["show", "own.bin"])), first);
    assert_eq!(run(&folder, &["write", "-", "-"], &shown.out).out, fs::read(folder.join("own.bin")).unwrap());
    let read = [&["guest", "read", "--rights", FIRST][..], &kind, &["-", "-"]].concat();
    let stored = run(&folder, &read, &fs::read(folder.join("guests.bin")).unwrap());
    assert_eq!((stored.status, stored.out), (0, fs::read(folder.join("own.bin")).unwrap()));
}

/// Two tables that differ in hidden cells alone: nothing that a guest is given differs.
#[test]
fn what_is_hidden_does_not_tell() {
    let folder = prepared("guest-hidden");
    let sheet = fs::read_to_string(folder.join("guests.txt")).unwrap();
    let other = sheet
        .replace("0,1 | 01 01 | value \"\" ", "0,1 | 01 01 | value \"a longer list than there was\" ")
        .replace("1,1 | 01 00 | null at level 2", "1,1 | 01 01 | value \"9\"");
    fs::create_dir(folder.join("other")).unwrap();
    let written = run(&folder, &["write", "--describe", "-", "other/guests.bin"], other.as_bytes());
    assert_eq!(written.status, 0, "{}", written.err);
    let stored = |file: &str| fs::read(folder.join(file)).unwrap();
    assert_ne!(stored("guests.bin"), stored("other/guests.bin"));
    for more in [&[][..], &["--hex"], &["--json"]] {
        let [one, two] = ["guests.bin", "other/guests.bin"]
            .map(|file| good(&folder, &[&["guest", "show", "--rights", FIRST][..], more, &[file]].concat()));
        assert_eq!(one.text(), two.text());
    }
    for (file, out) in [("guests.bin", "one.bin"), ("other/guests.bin", "two.bin")] {
        good(&folder, &["guest", "read", "--describe", "--rights", FIRST, file, out]);
    }
    assert_eq!(stored("one.bin"), stored("two.bin"));
    assert_eq!(stored("one.bin.dpx"), stored("two.bin.dpx"));
}

/// An edit is what `table set` does, of a cell that the plane shows; of another one nothing is done.
#[test]
fn edited() {
    let folder = prepared("guest-edited");
    for (cell, to) in [("1,0", "value \"4-7\""), ("0,0", "value \"\""), ("0,0", "null at level 2")] {
        let set = good(&folder, &["table", "set", "--cell", cell, "--to", to, "work.txt", "-"]);
        let edited = edit(&folder, FIRST, cell, to, "-");
        assert_eq!((edited.status, edited.text()), (0, set.text()), "{}", edited.err);
    }
    // It packs where too little is left, and so moves a cell that is hidden; what that one has stays.
    for (plane, cell, to) in [("0,1,0,1", "0,1", "value \"4-7\""), (FIRST, "0,0", "value \"12345678\"")] {
        let said = edit(&folder, plane, cell, to, "next.txt");
        assert_eq!((said.status, said.err.as_str()), (0, ""));
        fs::rename(folder.join("next.txt"), folder.join("work.txt")).unwrap();
    }
    let text = fs::read_to_string(folder.join("work.txt")).unwrap();
    assert!(text.ends_with("at 0 | \"4-7\" # cell 0,1\nat 3 | \"12345678\" # cell 0,0\n"), "{text}");
    let shown = good(&folder, &["table", "show", "work.txt"]);
    assert_eq!(
        cells(&shown),
        [
            "0,0 | 01 01 | value \"12345678\"",
            "0,1 | 01 01 | value \"4-7\"",
            "1,0 | 00 00 | null at level 1",
            "1,1 | 01 00 | null at level 2",
        ]
    );
    let before = contents(&folder);
    let hidden = edit(&folder, FIRST, "0,1", "value \"a value that is too long\"", "no.txt");
    assert_eq!(
        (hidden.status, hidden.err.as_str()),
        (
            18,
            "durpaxeta: work.txt: refusal 18: --rights has 0 for cell 0,1.\n  18 means: the rights plane hides that cell from the guest.\n  \
             Caused by whoever sets the cell.\n"
        )
    );
    assert!(contents(&folder) == before);
}

#[test]
fn what_is_refused() {
    let folder = prepared("guest-refused");
    fs::write(folder.join("plane.txt"), "1 0 # host 0\n0 1\n").unwrap();
    fs::write(folder.join("keep.bin"), b"kept").unwrap();
    let flat = ["--kind", "depth 0, ragged, width 4, index at start", "--shape", "1", "flat.bin"];
    fs::write(folder.join("flat.bin"), le(&[8], 8, &[0; 8])).unwrap();
    let byte = ["--kind", "depth 0, fixed, size 1, little order", "--shape", "1", "byte.bin"];
    fs::write(folder.join("byte.bin"), b"a").unwrap();
    fs::write(
        folder.join("flat.txt"),
        "durpaxeta working table 1\nkind: depth 0, ragged, width 4, index at start\nshape: 1\nstore: 1\n0 | - | start 0, length 0\n",
    )
    .unwrap();
    let before = contents(&folder);
    let to = ["--to", "value \"1\""];
    let edit =
        |plane: &'static str, cell: &'static str| [&["edit", "--rights", plane, "--cell", cell][..], &to].concat();
    let with = |first: Vec<&'static str>, last: &[&'static str]| [&first[..], last].concat();
    let cases: [(Vec<&str>, i32, &str); 27] = [
        (
            with(vec!["show", "--rights", "1"], &flat),
            17,
            "flat.bin: refusal 17: The kind is depth 0, ragged, width 4, index at start.\n  17 means: the kind has no masks, and only",
        ),
        (
            with(vec!["show", "--rights", "1,0,1"], &byte),
            17,
            "The kind is depth 0, fixed, size 1, little order.\n  17 means: ",
        ),
        (with(edit("1", "0"), &["flat.txt", "no"]), 17, "flat.txt: refusal 17: "),
        (with(edit("1", "0"), &["flat.txt", "no"]), 17, "The kind is depth 0, ragged, width 4, index at start.\n"),
        (vec!["show", "--rights", "1,0,1", "guests.bin"], 4, "durpaxeta: --rights: refusal 4: "),
        (vec!["show", "--rights", "1,0,1", "guests.bin"], 4, "The plane has 3 cells; the table is 2x2 and has 4.\n"),
        (
            vec!["read", "--rights", "1,0,1,0,1", "guests.bin", "keep.bin"],
            4,
            "The plane has 5 cells; the table is 2x2 and has 4.\n",
        ),
        (with(edit("1", "9,9"), &["work.txt", "no"]), 4, "The plane has 1 cell; the table is 2x2 and has 4.\n"),
        (vec!["show", "--rights", "", "guests.bin"], 4, "The plane has 0 cells; the table is 2x2 and has 4.\n"),
        (vec!["show", "--rights", "1,0,2,0", "guests.bin"], 4, "--rights: refusal 4: "),
        (vec!["show", "--rights", "1,0,2,0", "guests.bin"], 4, "The rights plane has 2, which is neither 0 nor 1.\n"),
        (
            vec!["show", "--rights", "1,0,2,0", "guests.bin"],
            4,
            "Caused by whoever hands over the array, chunk list, working table, live table or rights plane.\n",
        ),
        (with(edit(FIRST, "2,0"), &["work.txt", "no"]), 15, "The table is 2x2; cell 2,0 is none of it"),
        (with(edit("0,1,1,1", "0,0"), &["work.txt", "no"]), 18, "--rights has 0 for cell 0,0.\n"),
        (
            vec!["edit", "--rights-file", "plane.txt", "--cell", "0,1", "--to", "null at level 1", "work.txt", "no"],
            18,
            "plane.txt has 0 for cell 0,1.\n",
        ),
        (
            vec!["edit", "--rights", FIRST, "--cell", "1,0", "--to", "value \"12345678\"", "work.txt", "keep.bin"],
            16,
            "The value has 8 bytes and the other cells 5; the store has 12",
        ),
        (
            vec!["edit", "--rights", FIRST, "--cell", "0,1", "--to", "null at level 3", "work.txt", "no"],
            4,
            "There is no level 3; the depth is 2",
        ),
        (vec!["show", "guests.bin"], 64, "--rights is missing; for example --rights 1,0,1,0\n"),
        (
            vec!["show", "--rights", FIRST, "--rights-file", "plane.txt", "guests.bin"],
            64,
            "give --rights or --rights-file, not both",
        ),
        (vec!["show", "--rights", FIRST, "--rights", FIRST, "guests.bin"], 64, "--rights is given twice"),
        (
            vec!["show", "--rights", "1,0,y,0", "guests.bin"],
            64,
            "the rights plane has 'y', which says nothing here; write 1 for",
        ),
        (
            vec!["show", "--rights", "1,0,,0", "guests.bin"],
            64,
            "the rights plane has nothing beside a comma; write 1 for",
        ),
        (
            vec!["show", "--rights-file", "-", "-"],
            64,
            "only one of the rights plane and the table can come from standard input",
        ),
        (vec!["show", "--rights-file", "nowhere.txt", "guests.bin"], 74, "cannot open nowhere.txt: No such file"),
        (vec!["show", "--rights", FIRST, "guests.bin", "no"], 64, "guest show takes FILE"),
        (vec!["edit", "--rights", FIRST, "--to", "value \"\"", "work.txt", "no"], 64, "--cell is missing"),
        (
            vec!["edit", "--rights", FIRST, "--cell", "0,0", "--kind", KIND, "work.txt", "no"],
            64,
            "guest edit does not take --kind",
        ),
    ];
    for (arguments, status, says) in cases {
        let said = run(&folder, &[&["guest"][..], &arguments].concat(), b"");
        assert_eq!((said.status, said.text()), (status, ""), "{arguments:?}: {}", said.err);
        assert!(said.err.contains(says), "{arguments:?}: {}", said.err);
        assert!(contents(&folder) == before, "{arguments:?}");
    }
    let said = run(&folder, &["guest", "hide"], b"");
    let told = "durpaxeta: guest is followed by show, read or edit\nSee 'durpaxeta help guest'.\n";
    assert_eq!((said.status, said.err.as_str()), (64, told));
    assert_eq!(good(&folder, &["guest", "--help"]).out, good(&folder, &["help", "guest"]).out);
}

/// A file with a plane: lines, blanks and comments are free; what cannot be read is 65, with the line.
#[test]
fn planes_in_files() {
    let folder = prepared("guest-planes");
    let show = |file: &str, plane: &[u8]| run(&folder, &["guest", "show", "--rights-file", file, "guests.bin"], plane);
    let shown = good(&folder, &["guest", "show", "--rights", FIRST, "guests.bin"]);
    for text in [
        "1,0,1,0",
        "1 0\t1 0\n",
        "# guest 0\n\n1 0 # host 0\n1 0 # host 1\n",
        "\u{FEFF}1,0\r\n1,0\r\n",
        "1\n0\n1\n0\n# 7",
    ] {
        fs::write(folder.join("plane.txt"), text).unwrap();
        let said = show("plane.txt", b"");
        assert_eq!((said.status, said.text()), (0, shown.text()), "{text:?}: {}", said.err);
        assert_eq!(show("-", text.as_bytes()).text(), shown.text(), "{text:?}");
    }
    for (text, status, says) in [
        (
            &b"1,0\n1,no\n"[..],
            65,
            "standard input, line 2: the rights plane has 'n', which says nothing here; write 1 for",
        ),
        (b"1,0,\n1,0\n", 65, "standard input, line 1: the rights plane has nothing beside a comma"),
        (b"1\n0\n\xFF\n", 65, "standard input, line 3: this is no text (UTF-8), so it is no rights plane"),
        (b"1,0\n\n3,0\n", 4, "standard input, line 3: refusal 4: "),
        (b"1,0\n\n3,0\n", 4, "The rights plane has 3, which is neither 0 nor 1.\n"),
        (b"1,0\n#1,0\n", 4, "standard input: refusal 4: "),
        (b"1,0\n#1,0\n", 4, "The plane has 2 cells; the table is 2x2 and has 4.\n"),
        (b"", 4, "The plane has 0 cells; the table is 2x2 and has 4.\n"),
    ] {
        let said = show("-", text);
        assert_eq!((said.status, said.text()), (status, ""), "{}", said.err);
        assert!(said.err.contains(says), "{}", said.err);
    }
    // The table from standard input, the plane from a file.
    let table = fs::read(folder.join("guests.bin")).unwrap();
    let line = ["guest", "show", "--kind", KIND, "--shape", "2x2", "--rights-file", "plane.txt", "-"];
    assert_eq!(run(&folder, &line, &table).text(), shown.text());
}

/// What could be another plane, too, is none: the digits of two cells stand apart. Both readings are said.
#[test]
fn one_notation() {
    let folder = prepared("guest-notation");
    let before = contents(&folder);
    for (plane, readings) in [
        ("00 01", "0,0,0,1 (4 cells), or 0,1 (2 cells, a byte each)"),
        ("0001", "0,0,0,1 (4 cells), or 0,1 (2 cells, a byte each)"),
        ("01,00,01,00", "0,1,0,0,0,1,0,0 (8 cells), or 1,0,1,0 (4 cells, a byte each)"),
        ("1,00,1", "1,0,0,1 (4 cells), or 1,0,1 (3 cells, a byte each)"),
        ("01", "0,1 (2 cells), or 1 (1 cell, a byte each)"),
        ("1010", "1,0,1,0 (4 cells)"),
        ("10 10", "1,0,1,0 (4 cells)"),
        ("1,0,10", "1,0,1,0 (4 cells)"),
    ] {
        let wanted = format!("the rights plane has digits with nothing between; write {readings}\n");
        for (arguments, status) in [
            (&["show", "--rights", plane, "guests.bin"][..], 64),
            (&["show", "--rights-file", "-", "guests.bin"], 65),
            (&["read", "--rights", plane, "guests.bin", "no"], 64),
            (&["edit", "--rights", plane, "--cell", "0,0", "--to", "value \"\"", "work.txt", "no"], 64),
        ] {
            let said = run(&folder, &[&["guest"][..], arguments].concat(), format!("#\n{plane} # x\n").as_bytes());
            assert_eq!((said.status, said.text()), (status, ""), "{arguments:?}: {}", said.err);
            assert!(said.err.contains(&wanted), "{arguments:?}: {}", said.err);
            assert_eq!(said.err.contains("standard input, line 2: the"), status == 65, "{}", said.err);
        }
    }
    // Of a long one both counts are said, and the first cells.
    let said = run(&folder, &["guest", "show", "--rights", &"01".repeat(500), "guests.bin"], b"");
    assert!(said.err.contains(",0,1,.. (1000 cells), or 1,1,"), "{}", said.err);
    assert!(said.err.contains(",1,.. (500 cells, a byte each)") && said.err.len() < 400, "{}", said.err);
    assert!(contents(&folder) == before);
}

/// As many cells as there can be, on the command line and in a file with one a line.
#[test]
fn the_largest_plane() {
    let folder = folder("guest-large");
    let kind = ["--kind", "depth 1, ragged, width 4, index at start", "--shape", "256x256"];
    good(&folder, &[&["generate", "--describe"][..], &kind, &["--start", "3", "load.bin"]].concat());
    let plane: String = (0..65_536).map(|cell| if cell % 256 == 7 { '1' } else { '0' }).collect();
    fs::write(folder.join("plane.txt"), plane.replace('0', "0\n").replace('1', "1\n")).unwrap();
    let all = good(&folder, &["show", "load.bin"]);
    let listed: Vec<&str> = plane.split_terminator("").skip(1).collect();
    let seen = good(&folder, &["guest", "show", "--rights", &listed.join(","), "load.bin"]);
    assert_eq!(good(&folder, &["guest", "show", "--rights-file", "plane.txt", "load.bin"]).out, seen.out);
    let mut own = 0;
    for (wanted, line) in cells(&all).into_iter().zip(cells(&seen)) {
        let (place, _) = line.split_once('|').unwrap();
        match place.trim().ends_with(",7") {
            true => {
                own += 1;
                assert_eq!(line, wanted);
            }
            false => assert_eq!(line, format!("{place}| 00 | null at level 1")),
        }
    }
    assert_eq!((own, cells(&seen).len()), (256, 65_536));
}

#[test]
fn the_page() {
    prints_what_the_page_says("16", 3);
}
