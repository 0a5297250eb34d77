//! A table with packed masks through every command, and refusal 13.

mod common;

use common::*;
use std::fs;

const PACKED: &str = "depth 2, packed masks, ragged, width 4, index at start";

/// The affinity table with packed masks: 4 bytes for two masks become 2.
fn packed(folder: &std::path::Path) -> Vec<u8> {
    affinity(folder);
    let sheet = fs::read_to_string(folder.join("guests.txt")).unwrap().replace(KIND, PACKED);
    fs::write(folder.join("packed.txt"), sheet).unwrap();
    good(folder, &["write", "packed.txt", "packed.bin"]);
    fs::read(folder.join("packed.bin")).unwrap()
}

#[test]
fn through_every_command() {
    let folder = folder("packed");
    let stored = packed(&folder);
    let ragged = le(&[12], 8, &le(&[0, 5, 5], 4, b"0-3,8"));
    let inner = le(&[1, 25], 8, &[&[0b011][..], &ragged].concat());
    assert_eq!(stored, le(&[1, inner.len() as u64], 8, &[&[0b1011][..], &inner].concat()));
    assert_eq!(stored.len(), 59);

    // The cells are those of the table with bytes.
    let cells = |kind: &str, file: &str| {
        let shown = good(&folder, &["show", "--kind", kind, "--shape", "2x2", file]);
        let text = shown.text().to_string();
        assert!(text.contains(&format!("kind: {kind}\n")), "{text}");
        text.lines().filter(|line| line.contains(" | ")).map(str::to_string).collect::<Vec<_>>()
    };
    assert_eq!(cells(PACKED, "packed.bin"), cells(KIND, "guests.bin"));
    let json = |kind: &str, file: &str| good(&folder, &["show", "--json", "--kind", kind, "--shape", "2x2", file]).out;
    assert_eq!(json(PACKED, "packed.bin"), json(KIND, "guests.bin"));
    let shown = good(&folder, &["show", "--kind", PACKED, "--shape", "2x2", "packed.bin"]);
    assert_eq!(run(&folder, &["write", "-", "-"], &shown.out).out, stored);

    let table = ["--kind", PACKED, "--shape", "2x2"];
    good(&folder, &[&["cut"][..], &table, &["--subset", "0..1,0..2", "--describe", "packed.bin", "row0.bin"]].concat());
    good(&folder, &[&["cut"][..], &table, &["--subset", "1..2,0..2", "--describe", "packed.bin", "row1.bin"]].concat());
    let described = fs::read_to_string(folder.join("row1.bin.dpx")).unwrap();
    assert!(described.contains(&format!("kind: {PACKED}\n")), "{described}");
    let parts = ["--part", "1..2,0..2", "row1.bin", "--part", "0..1,0..2", "row0.bin"];
    good(&folder, &[&["merge", "--shape", "2x2"][..], &parts, &["all.bin"]].concat());
    assert_eq!(fs::read(folder.join("all.bin")).unwrap(), stored);
    // Parts of the two mask forms are parts of two kinds.
    good(
        &folder,
        &["cut", "--kind", KIND, "--shape", "2x2", "--subset", "0..1,0..2", "--describe", "guests.bin", "bytes.bin"],
    );
    let two =
        ["merge", "--shape", "2x2", "--part", "1..2,0..2", "row1.bin", "--part", "0..1,0..2", "bytes.bin", "no.bin"];
    assert_eq!(run(&folder, &two, b"").status, 67);

    let checked = good(&folder, &[&["check", "--strict"][..], &table, &["packed.bin"]].concat());
    assert!(checked.text().starts_with("packed.bin: valid\n"), "{}", checked.text());
    assert!(checked.text().contains("59 bytes"), "{}", checked.text());
    let explained = good(&folder, &[&["explain"][..], &table, &["packed.bin"]].concat());
    for line in [
        "packed.bin: depth 2, packed masks, ragged, width 4, index at start; 2x2; 59 bytes\n",
        "  0 | 01 00 00 00 00 00 00 00 | level 1, mask length: 1\n",
        " 16 | 0B                      | level 1, mask: bits 0 1 3: cells 0,0 0,1 1,1 set, bit 2: cell 1,0 null, bits 4 5 6 7 unused\n",
        " 33 | 03                      | level 2, mask: bits 0 1: cells 0,0 0,1 set, bit 2: cell 1,1 null, bits 3 4 5 6 7 unused\n",
    ] {
        assert!(explained.text().contains(line), "{line}{}", explained.text());
    }
    // The other form of masks is another kind: refused, or other cells.
    assert_eq!(run(&folder, &["check", "--kind", KIND, "--shape", "2x2", "packed.bin"], b"").status, 8);
    assert_eq!(run(&folder, &[&["check"][..], &table, &["guests.bin"]].concat(), b"").status, 8);
}

#[test]
fn mask_bytes_become_bits() {
    let folder = folder("packed-01");
    let sheet = |kind: &str, masks: &str| {
        format!("durpaxeta worksheet 1\nkind: {kind}\nshape: 1\n0 | {masks} | value hex 0A\n")
    };
    let kind = "depth 2, packed masks, fixed, size 1, little order";
    let stored = run(&folder, &["write", "-", "-"], sheet(kind, "01 01").as_bytes());
    assert_eq!((stored.status, stored.err.as_str()), (0, ""));
    assert_eq!(stored.out, le(&[1, 18], 8, &[&[1][..], &le(&[1, 1], 8, &[1, 10])].concat()));
    let shown = run(&folder, &["show", "--kind", kind, "--shape", "1", "-"], &stored.out);
    assert!(shown.text().contains("0 | 01 01 | value hex 0A\n"), "{}", shown.text());
    // Bytes that are neither 00 nor 01 cannot be typed, of packed masks neither.
    let neither = run(&folder, &["write", "-", "-"], sheet(kind, "01 02").as_bytes());
    assert_eq!((neither.status, neither.out.len()), (4, 0), "{}", neither.err);
    // At depth 0 the words say nothing, but stay.
    let flat = "depth 0, packed masks, fixed, size 1, little order";
    assert_eq!(run(&folder, &["write", "-", "-"], sheet(flat, "-").as_bytes()).out, [10]);
    let ragged = "depth 0, packed masks, ragged, width 4, index at start";
    fs::write(folder.join("flat.txt"), sheet(ragged, "-")).unwrap();
    good(&folder, &["write", "--describe", "flat.txt", "flat.bin"]);
    good(&folder, &["cut", "--subset", "0..1", "--describe", "flat.bin", "cut.bin"]);
    assert_eq!(fs::read(folder.join("cut.bin.dpx")).unwrap(), fs::read(folder.join("flat.bin.dpx")).unwrap());
}

#[test]
fn unused_bits() {
    let folder = folder("packed-13");
    let kind = "depth 1, packed masks, fixed, size 2, little order";
    fs::write(folder.join("damaged.bin"), le(&[1, 4], 8, &[0x0D, 10, 11, 14, 15])).unwrap();
    let table = ["--kind", kind, "--shape", "3", "damaged.bin"];
    let checked = run(&folder, &[&["check"][..], &table].concat(), b"");
    assert_eq!(checked.status, 13);
    let page = include_str!("../../docs/FORMAT.md");
    assert!(page.contains(checked.text().replace('\n', "\n    ").trim_end()), "{}", checked.text());
    let explained = run(&folder, &[&["explain"][..], &table].concat(), b"");
    assert_eq!(explained.status, 13);
    for line in [
        " 16 | 0D                      | level 1, mask: bits 0 2: cells 0 2 set, bit 1: cell 1 null, bits 3 4 5 6 7 unused  <- refused\n",
        " 17 | 0A 0B 0E 0F             | not read\n",
        "13 means: a packed mask has a bit after its last cell that is not 0.\n",
        "Reading stopped at byte 16 of 21: ",
        "Caused by whoever stored the bytes.",
    ] {
        assert!(explained.text().contains(line), "{line}{}", explained.text());
    }
    for command in ["show", "cut"] {
        let more = if command == "cut" {
            &["--subset", "0..1", "--kind", kind, "--shape", "3", "damaged.bin", "no.bin"][..]
        } else {
            &table
        };
        let said = run(&folder, &[&[command], more].concat(), b"");
        assert_eq!(said.status, 13, "{}", said.err);
    }
    assert!(!folder.join("no.bin").exists());
}

/// A long packed mask: some lines, how many cells are set, and the last byte where it is refused.
#[test]
fn large_masks_are_short() {
    let folder = folder("packed-long");
    let count = 65_535;
    let mut mask = vec![0x55; 8192];
    let stored = |mask: &[u8]| le(&[8192, 32_768], 8, &[mask, &[7; 32_768][..]].concat());
    let explain = ["explain", "--kind", "depth 1, packed masks, fixed, size 1, little order", "--shape", "65535", "-"];
    let said = run(&folder, &explain, &stored(&mask));
    assert_eq!((said.status, said.err.as_str()), (0, ""));
    assert!(said.text().lines().count() < 30, "{}", said.text());
    for line in [
        "| level 1, mask: bits 0 2 4 6: cells 8 10 12 14 set, bits 1 3 5 7: cells 9 11 13 15 null\n".to_string(),
        format!("8189 bytes more; level 1, mask: 32768 of {count} cells are set\n"),
    ] {
        assert!(said.text().contains(&line), "{line}{}", said.text());
    }
    mask[8191] = 0xD5;
    let said = run(&folder, &explain, &stored(&mask));
    assert_eq!(said.status, 13);
    for line in [
        format!("8188 bytes more; level 1, mask: 32768 of {count} cells are set\n"),
        " 8207 | D5                      | level 1, mask: bits 0 2 4 6: cells 65528 65530 65532 65534 set, bits 1 3 5: cells 65529 65531 65533 null, \
         bit 7 unused  <- refused\n"
            .to_string(),
    ] {
        assert!(said.text().contains(&line), "{line}{}", said.text());
    }
}

/// Every shorter file, and every flipped bit: the walk always finds the library's refusal.
#[test]
fn damaged_files() {
    let folder = folder("packed-damaged");
    let stored = packed(&folder);
    let mut cases: Vec<Vec<u8>> = (0..stored.len()).step_by(5).map(|length| stored[..length].to_vec()).collect();
    for position in [0, 7, 8, 16, 17, 25, 33, 34, 42, 46, 50, 54] {
        for bit in 0..8 {
            let mut flipped = stored.clone();
            flipped[position] ^= 1 << bit;
            cases.push(flipped);
        }
    }
    let mut unused = 0;
    for case in cases {
        let check = run(&folder, &["check", "--kind", PACKED, "--shape", "2x2", "-"], &case);
        assert!((0..=13).contains(&check.status), "{case:02X?}: {}", check.status);
        assert!(!check.text().contains("was not found"), "{case:02X?}: {}", check.text());
        unused += usize::from(check.status == 13);
    }
    // Bits 4 to 7 of level 1 and 3 to 7 of level 2.
    assert_eq!(unused, 4 + 5);
}
