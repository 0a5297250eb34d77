//! Two files, by their bytes: the same table or not, at which byte and in which field; both valid, of one kind and shape.

mod common;

use common::*;
use std::fs;
use std::path::Path;

const END: &str = "depth 0, ragged, width 4, index at end";
const PACKED: &str = "depth 1, packed masks, fixed, size 1, little order";
const ONE_FORM: &str = "  Of one kind and shape a table has one stored form, so other bytes are another table.\n";

/// Compares two files of that kind and shape.
fn same(folder: &Path, kind: &str, shape: &str, files: [&str; 2], input: &[u8]) -> Said {
    let said = run(folder, &["same", "--kind", kind, "--shape", shape, files[0], files[1]], input);
    assert!(said.err.is_empty() != said.out.is_empty(), "{}{}", said.text(), said.err);
    said
}

/// The affinity table, and it with other bytes.
fn tables(folder: &Path, changes: &[(usize, u8)]) -> Vec<u8> {
    affinity(folder);
    let stored = fs::read(folder.join("guests.bin")).unwrap();
    let mut other = stored.clone();
    changes.iter().for_each(|&(at, byte)| other[at] = byte);
    fs::write(folder.join("other.bin"), other).unwrap();
    stored
}

#[test]
fn the_same_table() {
    let folder = folder("same");
    let stored = tables(&folder, &[]);
    for (files, names) in [
        (["guests.bin", "other.bin"], "guests.bin and other.bin"),
        (["other.bin", "guests.bin"], "other.bin and guests.bin"),
        (["guests.bin", "guests.bin"], "guests.bin and guests.bin"),
        (["-", "guests.bin"], "standard input and guests.bin"),
        (["guests.bin", "-"], "guests.bin and standard input"),
    ] {
        let said = same(&folder, KIND, "2x2", files, &stored);
        assert_eq!((said.status, said.text()), (0, format!("{names}: the same table, 64 bytes\n").as_str()));
    }
    // Written another way, the table has the same bytes.
    for (subset, file) in [("0..1,0..2", "0.bin"), ("1..2,0..2", "1.bin")] {
        good(&folder, &["cut", "--kind", KIND, "--shape", "2x2", "--subset", subset, "guests.bin", file]);
    }
    let parts = ["--part", "1..2,0..2", "1.bin", "--part", "0..1,0..2", "0.bin"];
    good(&folder, &[&["merge", "--kind", KIND, "--shape", "2x2"][..], &parts, &["all.bin"]].concat());
    assert_eq!(same(&folder, KIND, "2x2", ["guests.bin", "all.bin"], b"").status, 0);
    let before = contents(&folder);
    assert_eq!(same(&folder, KIND, "2x2", ["0.bin", "1.bin"], b"").status, 8);
    assert!(contents(&folder) == before);
}

/// The first byte that differs, and the field of each file in which it lies.
#[test]
fn another_table() {
    let folder = folder("same-other");
    for (changes, at, one, other) in [
        (
            &[(51, 4)][..],
            51,
            " 51 | 05 00 00 00             | offset 1: cell 0,0 ends at 5; cell 0,1 begins there",
            " 51 | 04 00 00 00             | offset 1: cell 0,0 ends at 4; cell 0,1 begins there",
        ),
        (
            &[(63, b'9'), (61, b'7')],
            61,
            " 59 | 30 2D 33 2C 38          | data: cell 0,0 is \"0-3,8\"",
            " 59 | 30 2D 37 2C 39          | data: cell 0,0 is \"0-7,9\"",
        ),
        (
            &[(17, 0), (18, 1)],
            17,
            " 16 | 01 01 00 01             | level 1, mask: cells 0,0 0,1 1,1 set, cell 1,0 null",
            " 16 | 01 00 01 01             | level 1, mask: cells 0,0 1,0 1,1 set, cell 0,1 null",
        ),
    ] {
        tables(&folder, changes);
        let said = same(&folder, KIND, "2x2", ["guests.bin", "other.bin"], b"");
        let wanted = format!(
            "guests.bin and other.bin: not the same table\n  They differ first at byte {at}.\n  guests.bin, 64 bytes, has \
             there:\n  {one}\n  other.bin, 64 bytes, has there:\n  {other}\n{ONE_FORM}"
        );
        assert_eq!((said.status, said.text()), (71, wanted.as_str()));
        let shown = |file: &str| good(&folder, &["show", "--kind", KIND, "--shape", "2x2", file]).out;
        assert_ne!(shown("guests.bin"), shown("other.bin"));
    }
    // Of another length: a length that is stored before says so.
    let sheet = fs::read_to_string(folder.join("guests.txt")).unwrap().replace("0-3,8", "0-3,89");
    let longer = run(&folder, &["write", "-", "-"], sheet.as_bytes()).out;
    let said = same(&folder, KIND, "2x2", ["guests.bin", "-"], &longer);
    assert_eq!(said.status, 71);
    for line in [
        "  They differ first at byte 8.\n",
        "  guests.bin, 64 bytes, has there:\n    8 | 2C 00 00 00 00 00 00 00 | level 1, content length: 44\n",
        "  standard input, 65 bytes, has there:\n    8 | 2D 00 00 00 00 00 00 00 | level 1, content length: 45\n",
    ] {
        assert!(said.text().contains(line), "{line}{}", said.text());
    }
    // In the middle of a long value.
    let (short, long) = (long(100), [&long(100)[..123], b"b"].concat());
    fs::write(folder.join("a.bin"), short).unwrap();
    let said = same(&folder, LONG, "1", ["a.bin", "-"], &long);
    assert_eq!(said.status, 71);
    assert!(said.text().contains("differ first at byte 123.\n"), "{}", said.text());
    assert!(said.text().contains("120 | 61 61 61 62             | cell 0 goes on\n"), "{}", said.text());
}

/// With the index at the end one table can begin as another one, and a byte lie in different fields.
#[test]
fn one_is_longer() {
    let folder = folder("same-longer");
    let empty = le(&[0, 0], 4, &le(&[8], 8, b""));
    let longer = [&empty[..], &le(&[0, 16], 4, &le(&[8], 8, b""))].concat();
    fs::write(folder.join("empty.bin"), &empty).unwrap();
    for (files, lines) in [
        (["empty.bin", "-"], ["  empty.bin, 16 bytes, ends there.\n", "  standard input, 32 bytes, has there:\n"]),
        (["-", "empty.bin"], ["  standard input, 32 bytes, has there:\n", "  empty.bin, 16 bytes, ends there.\n"]),
    ] {
        let said = same(&folder, END, "1", files, &longer);
        assert_eq!(said.status, 71);
        let at = lines.map(|line| said.text().find(line).unwrap_or_else(|| panic!("{line}{}", said.text())));
        assert!(at[0] < at[1]);
        assert!(
            said.text().contains("   16 | 00 00 00 00             | offset 0: cell 0 begins at 0\n"),
            "{}",
            said.text()
        );
        assert!(said.text().contains("  They differ first at byte 16.\n"), "{}", said.text());
    }
    let one = [b"A".to_vec(), le(&[0, 1], 4, &le(&[8], 8, b""))].concat();
    let said = same(&folder, END, "1", ["empty.bin", "-"], &one);
    assert!(
        said.text().contains("    0 | 00 00 00 00             | offset 0: cell 0 begins at 0\n"),
        "{}",
        said.text()
    );
    assert!(said.text().contains("    0 | 41                      | data: cell 0 is \"A\"\n"), "{}", said.text());
}

/// The law speaks of files that are accepted: of others the refusal is told, as check tells it, equal or not.
#[test]
fn both_must_be_valid() {
    let folder = folder("same-refused");
    let stored = tables(&folder, &[(37, 2)]);
    let checked = run(&folder, &["check", "--kind", KIND, "--shape", "2x2", "other.bin"], b"");
    assert_eq!(checked.status, 14);
    for files in [["other.bin", "guests.bin"], ["guests.bin", "other.bin"], ["other.bin", "other.bin"]] {
        let said = same(&folder, KIND, "2x2", files, b"");
        assert_eq!((said.status, said.text()), (14, checked.text()), "{files:?}");
    }
    // The first one first.
    let said = same(&folder, KIND, "2x2", ["-", "other.bin"], &stored[..63]);
    assert_eq!(said.status, 8);
    assert!(said.text().starts_with("standard input: not valid\nrefusal 8: "), "{}", said.text());
    let said = same(&folder, KIND, "2x2", ["other.bin", "-"], &stored[..63]);
    assert_eq!((said.status, said.text()), (14, checked.text()));
    // Every shorter file, and every flipped bit: refused as by check, or another table.
    let mut cases: Vec<Vec<u8>> = (0..stored.len()).step_by(9).map(|length| stored[..length].to_vec()).collect();
    for at in 0..stored.len() {
        let mut flipped = stored.clone();
        flipped[at] ^= 1 << (at % 8);
        cases.push(flipped);
    }
    let mut other = 0;
    for case in cases {
        let checked = run(&folder, &["check", "--kind", KIND, "--shape", "2x2", "-"], &case);
        let said = same(&folder, KIND, "2x2", ["guests.bin", "-"], &case);
        let wanted = if checked.status == 0 { 71 } else { checked.status };
        assert_eq!(said.status, wanted, "{case:02X?}: {}", said.text());
        assert_eq!(same(&folder, KIND, "2x2", ["-", "guests.bin"], &case).status, wanted);
        assert_eq!(said.status == 71, said.text().ends_with(ONE_FORM), "{}", said.text());
        other += usize::from(said.status == 71);
    }
    // A bit of each value byte.
    assert_eq!(other, 5);
}

#[test]
fn packed_masks() {
    let folder = folder("same-packed");
    let stored = |mask: u8, values: &[u8]| le(&[1, values.len() as u64], 8, &[&[mask][..], values].concat());
    fs::write(folder.join("a.bin"), stored(0b101, &[7, 8])).unwrap();
    assert_eq!(same(&folder, PACKED, "3", ["a.bin", "-"], &stored(0b101, &[7, 8])).status, 0);
    let said = same(&folder, PACKED, "3", ["a.bin", "-"], &stored(0b110, &[7, 8]));
    assert_eq!(said.status, 71);
    for line in [
        "  They differ first at byte 16.\n",
        " 16 | 05                      | level 1, mask: bits 0 2: cells 0 2 set, bit 1: cell 1 null, bits 3 4 5 6 7 unused\n",
        " 16 | 06                      | level 1, mask: bits 1 2: cells 1 2 set, bit 0: cell 0 null, bits 3 4 5 6 7 unused\n",
    ] {
        assert!(said.text().contains(line), "{line}{}", said.text());
    }
    // An unused bit would be a second form of the same cells; it is refused.
    for bit in 3..8 {
        assert_eq!(same(&folder, PACKED, "3", ["a.bin", "-"], &stored(0b101 | 1 << bit, &[7, 8])).status, 13);
    }
    // Cell 9 of 10, in the second byte of a mask.
    let stored = |last: u8| le(&[2, 9], 8, &[&[0xFF, last][..], &[7; 9]].concat());
    fs::write(folder.join("a.bin"), stored(1)).unwrap();
    let said = same(&folder, PACKED, "10", ["a.bin", "-"], &stored(2));
    assert!(
        said.text().contains(" 17 | 02                      | level 1, mask: bit 1: cell 9 set"),
        "{}",
        said.text()
    );
}

#[test]
fn kind_and_shape_of_a_description() {
    let folder = folder("same-described");
    tables(&folder, &[]);
    let alike = "guests.bin and other.bin: the same table, 64 bytes\n";
    let compare = |more: &[&str]| run(&folder, &[&["same"][..], more, &["guests.bin", "other.bin"]].concat(), b"");
    let said = compare(&[]);
    assert_eq!(said.status, 64);
    assert!(
        said.err.contains("--kind is missing and there is no guests.bin.dpx and no other.bin.dpx;"),
        "{}",
        said.err
    );
    let said = compare(&["--kind", KIND]);
    assert_eq!(said.status, 64);
    assert!(
        said.err.contains("--shape is missing and there is no guests.bin.dpx and no other.bin.dpx;"),
        "{}",
        said.err
    );
    let said = run(&folder, &["same", "-", "other.bin"], b"");
    assert!(said.status == 64 && said.err.contains("--kind is missing and there is no other.bin.dpx;"), "{}", said.err);

    // Of the one, of the other, of both; standard input has none.
    good(&folder, &["write", "--describe", "guests.txt", "described.bin"]);
    let description = fs::read_to_string(folder.join("described.bin.dpx")).unwrap();
    let describe = |files: [bool; 2], text: &str| {
        for (there, file) in files.into_iter().zip(["guests.bin.dpx", "other.bin.dpx"]) {
            let _ = fs::remove_file(folder.join(file));
            if there {
                fs::write(folder.join(file), text).unwrap();
            }
        }
    };
    for files in [[true, false], [false, true], [true, true]] {
        describe(files, &description);
        for more in [&[][..], &["--kind", KIND], &["--shape", "2x2"], &["--kind", KIND, "--shape", "2x2"]] {
            let said = compare(more);
            assert_eq!((said.status, said.text(), said.err.as_str()), (0, alike, ""), "{files:?} {more:?}");
        }
        for more in [["--kind", END], ["--shape", "4"]] {
            let said = compare(&more);
            assert_eq!(said.status, 67, "{}", said.err);
            assert!(said.err.contains(&format!("{} says ", more[0])), "{}", said.err);
        }
        // What a description says of its file is asked for, of both.
        let changed = description.replace("crc-32c: 4", "crc-32c: 5");
        describe(files, &changed);
        assert_eq!(compare(&[]).status, 69);
        describe(files, &description.replace("bytes: 64", "bytes: 65"));
        assert_eq!(compare(&[]).status, 68);
        describe(files, &description.replace("bytes: 64\n", ""));
        assert_eq!(compare(&[]).status, 66);
    }
    describe([true, false], &description);
    let stored = fs::read(folder.join("guests.bin")).unwrap();
    assert_eq!(run(&folder, &["same", "-", "guests.bin"], &stored).status, 0);

    // Two that say other things, each right of its own file.
    let wide = KIND.replace("width 4", "width 8");
    for (from, to, says, says_other) in [
        (KIND, wide.as_str(), format!("\"{KIND}\""), format!("\"{wide}\"")),
        ("shape: 2x2", "shape: 1x4", "2x2".into(), "1x4".into()),
    ] {
        let mut sheet = fs::read_to_string(folder.join("guests.txt")).unwrap().replace(from, to);
        if from.starts_with("shape") {
            sheet = sheet.replace("\n1,0 |", "\n0,2 |").replace("\n1,1 |", "\n0,3 |");
        }
        assert_eq!(run(&folder, &["write", "--describe", "-", "other.bin"], sheet.as_bytes()).status, 0);
        let said = compare(&[]);
        let told = format!(
            "durpaxeta: guests.bin.dpx says {says}; other.bin.dpx says {says_other}. Bytes tell tables apart under one kind and \
             one shape only; 'durpaxeta show' prints the cells of both.\n"
        );
        assert_eq!((said.status, said.text(), said.err.as_str()), (67, "", told.as_str()));
    }
    // The same bytes as of another shape are another table, or none.
    assert_eq!(stored, fs::read(folder.join("other.bin")).unwrap());
}

/// Two tables of one length and one checksum: XOR of the polynomial leaves a CRC as it is. The bytes decide.
#[test]
fn a_checksum_is_no_answer() {
    let folder = folder("same-checksum");
    let kind = "depth 0, fixed, size 5, little order";
    for (file, hex) in [("a.bin", "0000000000"), ("b.bin", "F176EC0501")] {
        let sheet = format!("durpaxeta worksheet 1\nkind: {kind}\nshape: 1\n0 | - | value hex {hex}\n");
        assert_eq!(run(&folder, &["write", "--describe", "-", file], sheet.as_bytes()).status, 0);
    }
    let read = |file: &str| fs::read(folder.join(file)).unwrap();
    assert_eq!(read("a.bin.dpx"), read("b.bin.dpx"));
    assert_ne!(read("a.bin"), read("b.bin"));
    let said = run(&folder, &["same", "a.bin", "b.bin"], b"");
    assert_eq!((said.status, said.err.as_str()), (71, ""));
    assert!(said.text().contains("  They differ first at byte 0.\n"), "{}", said.text());
}

/// Bytes after the last cell: two files of the older form, one table. So `same` does not take them.
#[test]
fn the_older_form() {
    let folder = folder("same-older");
    let old = le(&[1, 1], 4, b"A");
    fs::write(folder.join("a.bin"), &old).unwrap();
    fs::write(folder.join("b.bin"), [&old[..], b"tail"].concat()).unwrap();
    let said = run(&folder, &["same", "--interleaved", "--shape", "1", "a.bin", "b.bin"], b"");
    assert_eq!((said.status, said.text()), (64, ""));
    assert!(said.err.contains("same does not take --interleaved\nSee 'durpaxeta help same'."), "{}", said.err);
    assert!(good(&folder, &["help", "same"]).text().contains("The older, interleaved form is not taken."));
    for file in ["a", "b"] {
        let (old, new) = (format!("{file}.bin"), format!("{file}.new"));
        assert_eq!(run(&folder, &["convert", "--kind", END, "--shape", "1", &old, &new], b"").status, 0);
    }
    assert_eq!(same(&folder, END, "1", ["a.new", "b.new"], b"").status, 0);
}

/// The examples of docs/FORMAT.md, part 14.
#[test]
fn as_the_page_says() {
    let folder = folder("same-page");
    let page = include_str!("../../docs/FORMAT.md");
    let part = page.split("\n## ").find(|part| part.starts_with("14. ")).expect("part 14");
    tables(&folder, &[(51, 4)]);
    fs::copy(folder.join("guests.bin"), folder.join("again.bin")).unwrap();
    let empty = le(&[0, 0], 4, &le(&[8], 8, b""));
    fs::write(folder.join("empty.bin"), &empty).unwrap();
    fs::write(folder.join("longer.bin"), [&empty[..], &le(&[0, 16], 4, &le(&[8], 8, b""))].concat()).unwrap();
    for (kind, shape, files, status) in [
        (KIND, "2x2", ["guests.bin", "again.bin"], 0),
        (KIND, "2x2", ["guests.bin", "other.bin"], 71),
        (END, "1", ["empty.bin", "longer.bin"], 71),
    ] {
        let said = same(&folder, kind, shape, files, b"");
        assert_eq!(said.status, status);
        let line = format!("$ durpaxeta same --kind \"{kind}\" --shape {shape} {}\n", files.join(" "));
        let wanted = format!("    {line}{}", said.text()).replace('\n', "\n    ");
        assert!(part.contains(wanted.trim_end()), "{wanted}");
    }
}
