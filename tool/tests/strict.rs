//! Mask bytes that are neither 00 nor 01: refused where they are read, and where they are typed.

mod common;

use common::*;
use std::fs;

const FIXED: &str = "depth 1, fixed, size 2, little order";

/// One changed mask byte of the affinity table: byte 37, of cell 0,1 in the mask of level 2.
#[test]
fn a_stored_byte() {
    let folder = folder("strict-stored");
    affinity(&folder);
    let mut stored = fs::read(folder.join("guests.bin")).unwrap();
    stored[37] = 2;
    fs::write(folder.join("damaged.bin"), &stored).unwrap();
    let table = ["--kind", KIND, "--shape", "2x2"];
    let checked = run(&folder, &[&["check"][..], &table, &["damaged.bin"]].concat(), b"");
    assert_eq!(checked.status, 14);
    let page = include_str!("../../docs/FORMAT.md");
    assert!(page.contains(checked.text().replace('\n', "\n    ").trim_end()), "{}", checked.text());
    // It is not valid, strictly or not.
    assert_eq!(run(&folder, &[&["check", "--strict"][..], &table, &["damaged.bin"]].concat(), b"").status, 14);
    let explained = run(&folder, &[&["explain"][..], &table, &["damaged.bin"]].concat(), b"");
    assert_eq!(explained.status, 14);
    for line in [
        " 36 | 01 02 00                | level 2, mask: cell 0,0 set, cell 1,1 null, cell 0,1 neither  <- refused\n",
        " 39 | 0C 00 00 00 00 00 00 00 | not read: 25 bytes, of which these are the first\n",
        "14 means: a stored mask byte is neither 00 nor 01.\n",
        "Reading stopped at byte 37 of 64: the mask of level 2 says 02 of cell 1, which is neither 00, null, nor 01, set.\n",
        "Caused by whoever stored the bytes.",
    ] {
        assert!(explained.text().contains(line), "{line}{}", explained.text());
    }
    for line in [
        [&["show"][..], &table, &["damaged.bin"]].concat(),
        [&["show", "--json"][..], &table, &["damaged.bin"]].concat(),
        [&["cut"][..], &table, &["--subset", "1..2,0..2", "damaged.bin", "no.bin"]].concat(),
        [&["merge"][..], &table, &["--part", "0..2,0..2", "damaged.bin", "no.bin"]].concat(),
    ] {
        let said = run(&folder, &line, b"");
        assert_eq!((said.status, said.out.len()), (14, 0), "{line:?}: {}", said.err);
        assert!(said.err.contains("byte 37 of 64: the mask of level 2 says 02"), "{}", said.err);
    }
    assert!(!folder.join("no.bin").exists());
    // A file that is not the one described is refused for that.
    good(&folder, &["write", "--describe", "guests.txt", "described.bin"]);
    fs::write(folder.join("described.bin"), &stored).unwrap();
    assert_eq!(run(&folder, &["check", "described.bin"], b"").status, 69);
    assert_eq!(run(&folder, &["explain", "described.bin"], b"").status, 14);
}

/// Behind no cell that is set, in a mask of many lines, and before what else is wrong.
#[test]
fn wherever_it_stands() {
    let folder = folder("strict-places");
    let check = |shape: &str, stored: &[u8]| run(&folder, &["check", "--kind", FIXED, "--shape", shape, "-"], stored);
    let said = check("1", &le(&[1, 5], 8, &[2, 9, 9, 9, 9, 9]));
    assert_eq!(said.status, 14, "{}", said.text());
    let said = check("2", &le(&[2, 1], 8, &[1, 0x80, 9]));
    assert_eq!(said.status, 14, "{}", said.text());
    assert!(said.text().contains("byte 17 of 19: the mask of level 1 says 80 of cell 1, which"), "{}", said.text());
    assert_eq!(check("2", &le(&[2, 2], 8, &[1, 2, 9])).status, 8);
    // The line of a long mask where it stands is shown, with what lies around it.
    for (at, lines) in [
        (0, &["16 | FF 01 01 01 01 01 01 01 | level 1, mask: cells 1 2 3 4 5 6 7 set, cell 0 neither  <- refused\n"][..]),
        (
            500,
            &[
                "| 472 bytes more; level 1, mask: 999 of 1000 cells are set\n",
                "512 | 01 01 01 01 FF 01 01 01 | level 1, mask: cells 496 497 498 499 501 502 503 set, cell 500 neither  <- refused\n",
                "| 496 bytes more\n",
            ],
        ),
        (
            999,
            &[
                "| 968 bytes more; level 1, mask: 999 of 1000 cells are set\n",
                "1008 | 01 01 01 01 01 01 01 FF | level 1, mask: cells 992 993 994 995 996 997 998 set, cell 999 neither  <- refused\n",
            ],
        ),
    ] {
        let mut mask = [1; 1000];
        mask[at] = 0xFF;
        let stored = le(&[1000, 1998], 8, &[&mask[..], &[7; 1998]].concat());
        let said = run(&folder, &["explain", "--kind", FIXED, "--shape", "1000", "-"], &stored);
        assert_eq!(said.status, 14);
        for line in lines {
            assert!(said.text().contains(line), "{line}{}", said.text());
        }
        assert!(said.text().lines().count() < 20, "{}", said.text());
        assert!(said.text().contains(&format!("Reading stopped at byte {} of 3014: ", 16 + at)), "{}", said.text());
    }
}

/// In a worksheet it is what is handed over: 4, with the line and the level.
#[test]
fn a_typed_byte() {
    let folder = folder("strict-typed");
    for (kind, masks, told) in [
        ("depth 1, fixed, size 1, little order", "02", "The mask byte of level 1 is 02; 00 is null, 01 is set.\n"),
        ("depth 2, fixed, size 1, little order", "01 FF", "The mask byte of level 2 is FF; 00 is null, 01 is set.\n"),
        ("depth 2, packed masks, fixed, size 1, big order", "80 02", "The mask byte of level 1 is 80; "),
    ] {
        let sheet = format!("durpaxeta worksheet 1\nkind: {kind}\nshape: 1\n0 | {masks} | value hex 0A\n");
        let said = run(&folder, &["write", "-", "no.bin"], sheet.as_bytes());
        assert_eq!((said.status, said.text()), (4, ""), "{}", said.err);
        assert!(said.err.starts_with("durpaxeta: standard input, line 4: refusal 4: "), "{}", said.err);
        assert!(said.err.contains(told), "{}", said.err);
        assert!(
            said.err.contains("Caused by whoever hands over the array, chunk list, working table, live table or rights plane."),
            "{}",
            said.err
        );
    }
    // Below a null too; no bytes in hex are another matter.
    let sheet = |cell: &str| format!("durpaxeta worksheet 1\nkind: {KIND}\nshape: 1\n0 | {cell}\n");
    let status = |cell: &str| run(&folder, &["write", "-", "no.bin"], sheet(cell).as_bytes()).status;
    assert_eq!(status("00 02 | null at level 1"), 4);
    assert_eq!(status("00 01 | null at level 1"), 65);
    assert_eq!(status("00 2 | null at level 1"), 65);
    assert_eq!(status("00 00 | null at level 1"), 0);
}
