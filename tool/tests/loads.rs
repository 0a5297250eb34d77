//! Loads: the same table out of the same kind, shape and start number.

mod common;

use common::*;
use std::fs;
use std::process::Command;

const BYTE: &str = "depth 1, fixed, size 1, little order";

#[test]
fn a_load_is_stored_and_shown() {
    let folder = folder("load");
    let load = good(&folder, &["generate", "--kind", BYTE, "--shape", "2", "--start", "0", "-"]);
    assert_eq!(load.out, le(&[2, 1], 8, &[1, 0, 0x50]));
    good(&folder, &["generate", "--kind", KIND, "--shape=2x2", "--start=7", "--describe", "load.bin"]);
    let shown = good(&folder, &["show", "load.bin"]);
    let cells: Vec<&str> = shown.text().lines().skip(4).collect();
    assert_eq!(
        cells,
        [
            "0,0 | 00 00 | null at level 1",
            "0,1 | 01 00 | null at level 2",
            "1,0 | 01 01 | value hex 69 98 9B E3 09",
            "1,1 | 00 00 | null at level 1",
        ]
    );
    let checked = good(&folder, &["check", "--strict", "load.bin"]);
    assert!(checked.text().ends_with("59 bytes, as load.bin.dpx says\n"), "{}", checked.text());

    // Another kind of the same depth, ragged too, has the same cells, stored in another way.
    let packed = "depth 2, packed masks, ragged, width 8, index at end";
    good(&folder, &["generate", "--kind", packed, "--shape", "2x2", "--start", "7", "packed.bin"]);
    let again = good(&folder, &["show", "--kind", packed, "--shape", "2x2", "packed.bin"]);
    assert_eq!(again.text().lines().skip(4).collect::<Vec<_>>(), cells);
    assert_ne!(fs::read(folder.join("packed.bin")).unwrap(), fs::read(folder.join("load.bin")).unwrap());
}

#[test]
fn what_is_refused() {
    let folder = folder("no-load");
    let cases: [(&[&str], i32, &str); 9] = [
        (&["--kind", "depth 5, fixed, size 1, little order", "--shape", "0", "--start", "0"], 1, "The kind is depth 5"),
        (&["--kind", BYTE, "--shape", "0", "--start", "0"], 2, "The shape is 0"),
        (&["--kind", BYTE, "--shape", "256x257", "--start", "0"], 2, "The shape is 256x257"),
        (&["--shape", "2", "--start", "0"], 64, "--kind is missing"),
        (&["--kind", BYTE, "--start", "0"], 64, "--shape is missing"),
        (&["--kind", BYTE, "--shape", "2"], 64, "--start is missing; for example --start 7"),
        (&["--kind", BYTE, "--shape", "2", "--start", "4294967296"], 64, "write 0 to 4294967295"),
        (&["--kind", BYTE, "--shape", "2", "--start", "-1"], 64, "\"-1\" is no start number"),
        (&["--kind", BYTE, "--shape", "2", "--start", "1", "--start", "2"], 64, "--start is given twice"),
    ];
    for (options, status, says) in cases {
        let said = run(&folder, &[&["generate"][..], options, &["no.bin"]].concat(), b"");
        assert_eq!(said.status, status, "{options:?}: {}", said.err);
        assert!(said.err.contains(says), "{}", said.err);
    }
    assert!(!folder.join("no.bin").exists());

    fs::write(folder.join("there.bin"), b"old").unwrap();
    let kept =
        run(&folder, &["generate", "--kind", BYTE, "--shape", "2", "--start", "0", "--no-clobber", "there.bin"], b"");
    assert_eq!(kept.status, 73);
    assert_eq!(fs::read(folder.join("there.bin")).unwrap(), b"old");
}

/// docs/FORMAT.md, part 13: its commands print the checksums that it prints.
#[test]
fn the_page() {
    let folder = folder("load-page");
    let page = include_str!("../../docs/FORMAT.md");
    let part = page.split("\n## ").find(|part| part.starts_with("13. ")).expect("part 13");
    let block = |fence: &str| {
        let from = part.split_once(fence).unwrap_or_else(|| panic!("no {fence}")).1;
        from.split_once("```").expect("a fence ends").0
    };
    let tools =
        format!("{}:{}", std::path::Path::new(TOOL).parent().unwrap().display(), std::env::var("PATH").unwrap());
    let said = Command::new("sh")
        .args(["-eu", "-c", block("```sh\n")])
        .current_dir(&folder)
        .env("PATH", tools)
        .output()
        .unwrap();
    assert!(said.status.success(), "{}", String::from_utf8_lossy(&said.stderr));
    assert_eq!(String::from_utf8(said.stdout).unwrap(), block("```text\n"));
    let lengths = ["settings.bin", "lists.bin", "deep.bin"].map(|file| fs::metadata(folder.join(file)).unwrap().len());
    assert_eq!(lengths, [28_584, 407_884, 272_254]);
    assert!(part.contains("28,584, 407,884 and 272,254 bytes"));
}
