//! A file can say what it is: FILE.dpx beside it.

mod common;

use common::*;
use std::fs::{self, Permissions};
use std::os::unix::fs::{symlink, MetadataExt, PermissionsExt};
use std::path::Path;

/// A folder with the affinity table, described.
fn described(name: &str) -> std::path::PathBuf {
    let folder = folder(name);
    fs::write(folder.join("guests.txt"), good(&folder, &["example"]).out).unwrap();
    good(&folder, &["write", "--describe", "guests.txt", "guests.bin"]);
    folder
}

fn status(folder: &Path, arguments: &[&str]) -> (i32, String) {
    let said = run(folder, arguments, b"");
    assert!(said.status == 0 || said.out.is_empty() || ["check", "explain"].contains(&arguments[0]), "{arguments:?}");
    (said.status, said.err)
}

/// The description on the page is the one that is written, and so is the refusal.
#[test]
fn the_page_is_right() {
    let folder = described("page");
    let page = include_str!("../../docs/FORMAT.md");
    let shown = |what: &str| {
        let (_, rest) = page.split_once(&format!("```{what}\n")).unwrap_or_else(|| panic!("no {what} on the page"));
        rest.split_once("```").unwrap().0
    };
    assert_eq!(fs::read_to_string(folder.join("guests.bin.dpx")).unwrap(), shown("description"));
    for (subset, out) in [("0..1,0..2", "host0.bin"), ("1..2,0..2", "host1.bin")] {
        good(&folder, &["cut", "--subset", subset, "--describe", "guests.bin", out]);
    }
    assert_eq!(fs::read_to_string(folder.join("host1.bin.dpx")).unwrap(), shown("part"));
    let swapped = "merge --shape 2x2 --part 0..1,0..2 host1.bin --part 1..2,0..2 host0.bin all.bin";
    let (status, err) = self::status(&folder, &swapped.split(' ').collect::<Vec<_>>());
    assert_eq!(status, 67);
    assert!(page.contains(&format!("    $ durpaxeta {swapped}\n    {err}")), "{err}");
    let mut bytes = fs::read(folder.join("guests.bin")).unwrap();
    bytes[59] ^= 1;
    fs::write(folder.join("guests.bin"), bytes).unwrap();
    let (status, err) = self::status(&folder, &["show", "guests.bin"]);
    assert_eq!(status, 69);
    assert!(page.contains(&format!("    $ durpaxeta show guests.bin\n    {err}")), "{err}");
    // Without the description nobody notices.
    fs::remove_file(folder.join("guests.bin.dpx")).unwrap();
    assert!(good(&folder, &["show", "--kind", KIND, "--shape", "2x2", "guests.bin"]).text().contains("\"1-3,8\""));
}

#[test]
fn kind_and_shape_come_from_it() {
    let folder = described("taken");
    let given = ["--kind", KIND, "--shape", "2x2"];
    for command in ["show", "check", "explain"] {
        let by_hand = good(&folder, &[&[command][..], &given, &["guests.bin"]].concat());
        for some in [&given[..0], &given[..2], &given[2..]] {
            assert_eq!(good(&folder, &[&[command][..], some, &["guests.bin"]].concat()).out, by_hand.out);
        }
    }
    assert!(good(&folder, &["check", "guests.bin"]).text().contains("64 bytes, as guests.bin.dpx says\n"));
    assert!(good(&folder, &["show", "--json", "guests.bin"]).text().contains("\"null\":2"));
    good(&folder, &["cut", "--subset", "0..1,0..2", "--describe", "guests.bin", "row0.bin"]);
    good(&folder, &["cut", "--subset", "1..2,0..2", "--describe", "guests.bin", "row1.bin"]);
    assert!(fs::read_to_string(folder.join("row1.bin.dpx")).unwrap().contains("\nshape: 1x2\n"));
    let parts = ["--part", "0..1,0..2", "row0.bin", "--part", "1..2,0..2", "row1.bin"];
    good(&folder, &[&["merge", "--shape", "2x2"][..], &parts, &["--describe", "all.bin"]].concat());
    for name in ["", ".dpx"] {
        let read = |file: &str| fs::read(folder.join(format!("{file}{name}"))).unwrap();
        assert_eq!(read("all.bin"), read("guests.bin"));
    }
    // The older form has no description of its own; the table made of it has.
    fs::write(folder.join("old.bin"), [1, 0, 0, 0, 1, 0, 0, 0, b'A']).unwrap();
    good(&folder, &["convert", "--kind", LONG, "--shape", "1", "--describe", "old.bin", "new.bin"]);
    assert!(good(&folder, &["show", "new.bin"]).text().contains("0 | - | value \"A\"\n"));
    // Back again by that description. It is not left beside what it does not describe, and the older form gets none.
    good(&folder, &["convert", "--to-interleaved", "new.bin", "again.bin"]);
    assert_eq!(fs::read(folder.join("again.bin")).unwrap(), fs::read(folder.join("old.bin")).unwrap());
    let (code, err) = status(&folder, &["convert", "--to-interleaved", "new.bin", "all.bin"]);
    assert!(code == 64 && err.contains("all.bin.dpx is there and would no longer be right: remove it"), "{err}");
    let (code, err) = status(&folder, &["convert", "--to-interleaved", "--describe", "new.bin", "no.bin"]);
    assert!(code == 64 && err.contains("the older form has none"), "{err}");
    // Standard input has none, so all must be said.
    assert_eq!(status(&folder, &["show", "-"]).0, 64);
    fs::remove_file(folder.join("row1.bin.dpx")).unwrap();
    let (code, err) = status(&folder, &[&["merge", "--shape", "2x2"][..], &parts, &["no.bin"]].concat());
    assert!(code == 64 && err.contains("--kind is missing and there is no row1.bin.dpx"), "{err}");
    assert!(!folder.join("no.bin").exists());
}

/// A working table, and what a guest sees, are made of a described table; the guest's table is described as well.
#[test]
fn tables_and_guests_take_it() {
    let folder = described("tables-guests");
    let given = ["--kind", KIND, "--shape", "2x2"];
    let same = |line: &[&str], files: &[&str]| {
        let by_hand = good(&folder, &[line, &given, files].concat()).out;
        let bytes = files.get(1).map(|out| fs::read(folder.join(out)).unwrap());
        assert_eq!(good(&folder, &[line, files].concat()).out, by_hand, "{line:?}");
        assert_eq!(files.get(1).map(|out| fs::read(folder.join(out)).unwrap()), bytes, "{line:?}");
        assert_eq!(status(&folder, &[line, &["--shape", "4"], files].concat()).0, 67, "{line:?}");
    };
    same(&["table", "make", "--store", "12"], &["guests.bin", "work.txt"]);
    same(&["guest", "show", "--rights", "1,0,1,0"], &["guests.bin"]);
    same(&["guest", "read", "--rights", "1,0,1,0", "--describe"], &["guests.bin", "own.bin"]);
    assert!(good(&folder, &["check", "own.bin"]).text().contains("2x2, 4 cells: 3 null at level 1"));
    // What a guest reads of a part is that part.
    good(&folder, &["cut", "--subset", "1..2,0..2", "--describe", "guests.bin", "row1.bin"]);
    good(&folder, &["guest", "read", "--rights", "1,1", "--describe", "row1.bin", "own.bin"]);
    let read = |name: &str| fs::read(folder.join(name)).unwrap();
    assert_eq!(read("own.bin.dpx"), read("row1.bin.dpx"));
    // A listing says its kind and shape itself, and takes no place that is described.
    let said = status(&folder, &["table", "make", "--store", "12", "guests.bin", "own.bin"]);
    assert!(
        said.0 == 64 && said.1.contains("own.bin.dpx is there and would no longer be right: remove it"),
        "{}",
        said.1
    );
    for (line, files) in [
        (&["table", "set", "--cell", "0,0", "--to", "value \"\""][..], ["work.txt", "own.bin"]),
        (&["table", "pack", "--most", "1"], ["work.txt", "own.bin"]),
        (&["guest", "edit", "--rights", "1,0,1,0", "--cell", "0,0", "--to", "value \"\""], ["work.txt", "own.bin"]),
    ] {
        assert_eq!(status(&folder, &[line, &files].concat()).0, 64, "{line:?}");
    }
    assert_eq!(read("own.bin"), read("row1.bin"));
}

/// The lines of a description, without its title.
fn lines(folder: &Path, name: &str) -> Vec<String> {
    let text = fs::read_to_string(folder.join(format!("{name}.dpx"))).unwrap();
    text.lines().skip(1).map(str::to_string).collect()
}

/// What is cut knows where it belongs, and merge holds that against what it is told.
#[test]
fn parts_know_their_place() {
    let folder = described("parts");
    for (subset, out) in [("0..1,0..2", "h0.bin"), ("1..2,0..2", "h1.bin")] {
        good(&folder, &["cut", "--subset", subset, "--describe", "guests.bin", out]);
        assert_eq!(lines(&folder, out)[1..3], ["shape: 1x2".to_string(), format!("part: {subset} of 2x2")]);
    }
    // All of a table is no part of it.
    good(&folder, &["cut", "--subset", "0..2,0..2", "--describe", "guests.bin", "h.bin"]);
    let read = |name: &str| fs::read(folder.join(name)).unwrap();
    assert_eq!(read("h.bin.dpx"), read("guests.bin.dpx"));
    let before = contents(&folder);
    let refused = |line: &str, wanted: i32, told: &str| {
        let said = sh(&folder, &format!("durpaxeta merge {line} no.bin"));
        assert_eq!((said.status, said.err.contains(told)), (wanted, true), "{line}: {}", said.err);
        assert!(contents(&folder) == before, "{line}");
    };
    // Told nothing, told all, and some of it.
    for line in [
        "h1.bin h0.bin",
        "--shape 2x2 h0.bin h1.bin",
        "--part 1..2,0..2 h1.bin h0.bin",
        "--part 0..1,0..2 - --part 1..2,0..2 h1.bin < h0.bin --kind",
        "--shape 2x2 --part 0..1,0..2 h0.bin --part 1..2,0..2 h1.bin --kind",
    ] {
        let line = line.replace("--kind", &format!("--kind '{KIND}'"));
        let said = sh(&folder, &format!("durpaxeta merge --describe {line} all.bin"));
        assert_eq!((said.status, said.err.as_str()), (0, ""), "{line}");
        assert_eq!((read("all.bin"), read("all.bin.dpx")), (read("guests.bin"), read("guests.bin.dpx")), "{line}");
        sh(&folder, "rm all.bin all.bin.dpx");
    }
    // Where OUT is forgotten no part is written over.
    assert_eq!(status(&folder, &["merge", "--describe", "h0.bin", "h1.bin"]).0, 12);
    // Exchanged, told twice over, of another whole.
    let differ = "--part 0..1,0..2 says 0..1,0..2 of 2x2; h1.bin.dpx says 1..2,0..2 of 2x2";
    refused("--shape 2x2 --part 0..1,0..2 h1.bin --part 1..2,0..2 h0.bin", 67, differ);
    refused("--part 0..1,0..2 h1.bin h0.bin", 67, differ);
    refused("--shape 3x2 h0.bin h1.bin", 67, "--shape says 3x2; h0.bin.dpx says 0..1,0..2 of 2x2");
    refused("h0.bin h1.bin h0.bin", 12, "by 0..1,0..2 and by 0..1,0..2, in h0.bin and in h0.bin");
    refused("h0.bin", 12, "Cell 1,0 is in no part");
    // A description without a part says nothing of it, as those of earlier versions.
    refused("h0.bin guests.bin", 64, "--part is missing for guests.bin and guests.bin.dpx says no part");
    refused("h0.bin guests.txt", 64, "--part is missing for guests.txt and there is no guests.txt.dpx");
    refused("h0.bin - < h1.bin", 64, "--part is missing for standard input; for example");
    refused(
        &format!("--kind '{KIND}' --part 0..2,0..2 - < guests.bin"),
        64,
        "--shape is missing, the shape of the whole",
    );
    let old = String::from_utf8(read("h1.bin.dpx")).unwrap().replace("part: 1..2,0..2 of 2x2\n", "");
    fs::write(folder.join("h1.bin.dpx"), &old).unwrap();
    good(&folder, &["merge", "--part", "1..2,0..2", "h1.bin", "h0.bin", "all.bin"]);
    assert_eq!(read("all.bin"), read("guests.bin"));
    // Parts of two wholes.
    fs::write(folder.join("h1.bin.dpx"), old.replace("bytes:", "part: 0..1,1..3 of 4x3\nbytes:")).unwrap();
    fs::remove_file(folder.join("all.bin")).unwrap();
    let said = status(&folder, &["merge", "h0.bin", "h1.bin", "no.bin"]);
    assert!(said.0 == 67 && said.1.contains("h0.bin.dpx says 2x2; h1.bin.dpx says 0..1,1..3 of 4x3"), "{}", said.1);
    for (part, wanted) in
        [("0..1,1..4 of 4x3", 3), ("0..2,1..3 of 4x3", 66), ("0..1,1..3 of 4x0", 2), ("0..1,1..3", 66)]
    {
        fs::write(folder.join("h1.bin.dpx"), format!("{old}part: {part}\n")).unwrap();
        let said = status(&folder, &["show", "h1.bin"]);
        assert!(said.0 == wanted && said.1.contains("h1.bin.dpx"), "{part}: {}", said.1);
    }
}

/// A part of a part is one of the same whole: all of them merge at once.
#[test]
fn parts_of_parts() {
    let folder = described("parts-of-parts");
    for (from, subset, out) in [
        ("guests.bin", "0..1,0..2", "h0.bin"),
        ("guests.bin", "1..2,0..2", "h1.bin"),
        ("h1.bin", "0..1,0..1", "h10.bin"),
        ("h1.bin", "0..1,1..2", "h11.bin"),
        ("h11.bin", "0..1,0..1", "again.bin"),
    ] {
        good(&folder, &["cut", "--subset", subset, "--describe", from, out]);
    }
    assert_eq!(lines(&folder, "h11.bin")[1..3], ["shape: 1x1", "part: 1..2,1..2 of 2x2"]);
    assert_eq!(lines(&folder, "again.bin"), lines(&folder, "h11.bin"));
    good(&folder, &["merge", "h10.bin", "h0.bin", "h11.bin", "all.bin"]);
    good(&folder, &["same", "guests.bin", "all.bin"]);
}

/// A description is of the file, under whatever link it is read or written.
#[test]
fn links_are_followed() {
    let folder = described("links-described");
    fs::create_dir(folder.join("d")).unwrap();
    symlink("../guests.bin", folder.join("d/link.bin")).unwrap();
    let shown = good(&folder, &["show", "guests.bin"]).out;
    assert_eq!(good(&folder, &["show", "d/link.bin"]).out, shown);
    assert_eq!(status(&folder, &["show", "--kind", KIND, "--shape", "4", "d/link.bin"]).0, 67);
    assert_eq!(status(&folder, &["write", "guests.txt", "d/link.bin"]).0, 64);
    let sheet = fs::read_to_string(folder.join("guests.txt")).unwrap().replace("0-3,8", "0-3,9");
    assert_eq!(run(&folder, &["write", "--describe", "-", "d/link.bin"], sheet.as_bytes()).status, 0);
    assert_eq!(fs::read_dir(folder.join("d")).unwrap().count(), 1);
    assert!(good(&folder, &["show", "guests.bin"]).text().contains("\"0-3,9\""));
}

/// What was shown with status 0 before: null and empty exchanged by a mistyped shape.
#[test]
fn what_differs_is_refused() {
    let folder = folder("differs");
    let sheet = "durpaxeta worksheet 1\nkind: depth 1, ragged, width 4, index at start\nshape: 2x3\n\
                 0,0 | 01 | value \"a\"\n0,1 | 00 | null at level 1\n0,2 | 01 | value \"\"\n\
                 1,0 | 01 | value \"\"\n1,1 | 01 | value \"b\"\n1,2 | 00 | null at level 1\n";
    fs::write(folder.join("sheet.txt"), sheet).unwrap();
    good(&folder, &["write", "--describe", "sheet.txt", "t.bin"]);
    let kind = "depth 1, ragged, width 4, index at start";
    for command in ["show", "check", "explain"] {
        let (code, err) = status(&folder, &[command, "--kind", kind, "--shape", "3x2", "t.bin"]);
        assert_eq!(code, 67, "{err}");
        assert_eq!(
            err,
            "durpaxeta: --shape says 3x2; t.bin.dpx says 2x3. One of the two does not belong to this table.\n"
        );
    }
    let other = "depth 1, ragged, width 4, index at end";
    let (code, err) = status(&folder, &["cut", "--kind", other, "--subset", "0..1,0..1", "t.bin", "no.bin"]);
    assert_eq!(code, 67);
    assert!(err.contains(&format!("--kind says \"{other}\"; t.bin.dpx says \"{kind}\"")), "{err}");
    let part = |subset: &'static str| ["--part", subset, "t.bin", "no.bin"];
    let merge = |shape: &'static str, subset: &'static str| {
        status(&folder, &[&["merge", "--shape", shape][..], &part(subset)].concat())
    };
    let (code, err) = merge("3x2", "0..3,0..2");
    assert!(code == 67 && err.contains("--part 0..3,0..2 says 3x2; t.bin.dpx says 2x3"), "{err}");
    assert_eq!(status(&folder, &["check", "--interleaved", "--shape", "2x3", "t.bin"]).0, 67);
    assert_eq!(status(&folder, &["convert", "--kind", LONG, "--shape", "2x3", "t.bin", "no.bin"]).0, 67);
    // Parts of two kinds.
    fs::write(folder.join("sheet.txt"), sheet.replace("width 4", "width 8")).unwrap();
    good(&folder, &["write", "--describe", "sheet.txt", "wide.bin"]);
    let two = ["merge", "--shape", "4x3", "--part", "0..2,0..3", "t.bin", "--part", "2..4,0..3", "wide.bin", "no.bin"];
    let (code, err) = status(&folder, &two);
    assert!(code == 67 && err.contains("t.bin says") && err.contains("wide.bin says"), "{err}");
    assert!(!folder.join("no.bin").exists());
    // The numbers out of range are the library's, before any file is looked at.
    assert_eq!(status(&folder, &["show", "--shape", "0x3", "t.bin"]).0, 2);
}

/// Every shorter file and every flipped bit is noticed by all that read it.
#[test]
fn every_change_is_noticed() {
    let folder = described("changed");
    let stored = fs::read(folder.join("guests.bin")).unwrap();
    let cut = ["cut", "--subset", "0..1,0..2", "guests.bin", "no.bin"];
    let merge = ["merge", "--shape", "2x2", "--part", "0..2,0..2", "guests.bin", "no.bin"];
    let try_all = |bytes: &[u8], wanted: i32, what: &str| {
        fs::write(folder.join("guests.bin"), bytes).unwrap();
        for line in [&["show", "guests.bin"][..], &["check", "guests.bin"], &cut, &merge] {
            let said = run(&folder, line, b"");
            assert_eq!(said.status, wanted, "{what}: {line:?}: {}", said.err);
            assert!(said.out.is_empty() && said.err.contains("guests.bin.dpx says"), "{}", said.err);
        }
        // explain goes on, and says it.
        let said = run(&folder, &["explain", "guests.bin"], b"");
        assert!(said.status == wanted || [7, 8, 10, 14].contains(&said.status), "{what}: {}", said.status);
        assert!(said.text().contains("guests.bin.dpx says"), "{}", said.text());
    };
    for length in [0, 1, 17, 40, 63] {
        try_all(&stored[..length], 68, &format!("{length} bytes"));
    }
    try_all(&[&stored[..], &[0]].concat(), 68, "a byte more");
    for position in (0..stored.len()).step_by(3) {
        let mut flipped = stored.clone();
        flipped[position] ^= 1 << (position % 8);
        try_all(&flipped, 69, &format!("byte {position}"));
    }
    assert!(!folder.join("no.bin").exists());
}

#[test]
fn a_description_that_is_none() {
    let folder = described("none");
    let text = fs::read_to_string(folder.join("guests.bin.dpx")).unwrap();
    for (wrong, status, said) in [
        (String::new(), 66, "guests.bin.dpx: the first line of a description is"),
        (text.replace("shape: 2x2\n", ""), 66, "guests.bin.dpx: the line for shape is missing"),
        (text.replace("bytes: 64", "bytes: many"), 66, "guests.bin.dpx: line 4: \"many\" is no number of bytes"),
        (text.replace("ragged", "rugged"), 66, "guests.bin.dpx: line 2: the kind"),
        (text.replace("depth 2", "depth 7"), 1, "guests.bin.dpx, line 2: refusal 1"),
        (text.replace("2x2", "0x2"), 2, "guests.bin.dpx, line 3: refusal 2"),
    ] {
        fs::write(folder.join("guests.bin.dpx"), wrong).unwrap();
        for command in ["show", "check", "explain"] {
            let got = run(&folder, &[command, "guests.bin"], b"");
            assert_eq!(got.status, status, "{}", got.err);
            assert!(got.err.starts_with(&format!("durpaxeta: {said}")), "{}", got.err);
        }
    }
    fs::remove_file(folder.join("guests.bin.dpx")).unwrap();
    symlink("nowhere", folder.join("guests.bin.dpx")).unwrap();
    assert_eq!(status(&folder, &["show", "--kind", KIND, "--shape", "2x2", "guests.bin"]).0, 74);
}

/// Who may not read a table does not read its checksum either.
#[test]
fn a_description_has_the_mode_of_its_table() {
    let folder = described("description-modes");
    let mode = |name: &str| fs::metadata(folder.join(name)).unwrap().mode() & 0o7777;
    for wanted in [0o600, 0o640, 0o644] {
        fs::set_permissions(folder.join("guests.bin"), Permissions::from_mode(wanted)).unwrap();
        good(&folder, &["write", "--describe", "guests.txt", "guests.bin"]);
        assert_eq!((mode("guests.bin"), mode("guests.bin.dpx")), (wanted, wanted));
        // Written for the first time, too.
        fs::remove_file(folder.join("guests.bin.dpx")).unwrap();
        good(&folder, &["write", "--describe", "guests.txt", "guests.bin"]);
        assert_eq!((mode("guests.bin"), mode("guests.bin.dpx")), (wanted, wanted));
    }
}

/// No wrong description is left behind, and none is written half.
#[test]
fn descriptions_stay_right() {
    let folder = described("right");
    fs::copy(folder.join("guests.bin"), folder.join("f.bin")).unwrap();
    let before = contents(&folder);
    let given = ["--kind", KIND, "--shape", "2x2"];
    // A described file is not replaced without its description.
    for line in [
        &["write", "guests.txt", "guests.bin"][..],
        &[&["merge"][..], &given, &["--part", "0..2,0..2", "-", "guests.bin"]].concat(),
    ] {
        let said = run(&folder, line, &fs::read(folder.join("guests.bin")).unwrap());
        assert_eq!(said.status, 64, "{}", said.err);
        assert!(said.err.contains("guests.bin.dpx is there and would no longer be right"), "{}", said.err);
    }
    // A description that cannot be written keeps the table from being written.
    fs::create_dir(folder.join("d.bin.dpx")).unwrap();
    assert_eq!(status(&folder, &["write", "--describe", "guests.txt", "d.bin"]).0, 74);
    symlink("guests.txt", folder.join("e.bin.dpx")).unwrap();
    assert_eq!(status(&folder, &["write", "--describe", "guests.txt", "e.bin"]).0, 64);
    symlink("f.bin", folder.join("f.bin.dpx")).unwrap();
    assert_eq!(status(&folder, &["write", "--describe", "guests.txt", "f.bin"]).0, 64);
    for out in ["-", "/dev/null", "/dev/stdout"] {
        assert_eq!(status(&folder, &["write", "--describe", "guests.txt", out]).0, 64);
    }
    assert!(contents(&folder) == before);
    // Power lost between table and description: the new table is not read as the old one.
    let old = fs::read(folder.join("guests.bin.dpx")).unwrap();
    let sheet = fs::read_to_string(folder.join("guests.txt")).unwrap();
    for (from, to, wanted) in [("0-3,8", "0-3,9", 69), ("0-3,8", "0-3", 68), ("shape: 2x2", "shape: 1x4", 69)] {
        let mut changed = sheet.replace(from, to);
        if to == "shape: 1x4" {
            for (cell, moved) in [("1,0 |", "0,2 |"), ("1,1 |", "0,3 |"), ("0-3,8", "0-3,7")] {
                changed = changed.replace(cell, moved);
            }
        }
        assert_eq!(run(&folder, &["write", "--describe", "-", "guests.bin"], changed.as_bytes()).status, 0);
        good(&folder, &["show", "guests.bin"]);
        fs::write(folder.join("guests.bin.dpx"), &old).unwrap();
        assert_eq!(status(&folder, &["show", "guests.bin"]).0, wanted, "{to}");
    }
}
