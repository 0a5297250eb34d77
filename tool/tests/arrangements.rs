//! Small arrangements: one by its number, how many there are, and all of them in a folder.

mod common;

use common::*;
use durpaxeta::{arrangement, encode, Kind, Place, Width};
use std::fs::{self, Permissions};
use std::os::unix::fs::{symlink, PermissionsExt};
use std::path::Path;

/// Depth, cells, number, masks and lengths, by a script that knows the rule alone.
const ROWS: &str = include_str!("../../oracle/data/arrangements.txt");

fn one<'a>(kind: &'a str, cells: &'a str, what: &[&'a str]) -> Vec<&'a str> {
    [&["arrangement", "--kind", kind, "--cells", cells][..], what].concat()
}

/// All that lies in a folder, hidden names too.
fn names(folder: &Path) -> Vec<String> {
    let mut names: Vec<String> =
        fs::read_dir(folder).unwrap().map(|entry| entry.unwrap().file_name().into_string().unwrap()).collect();
    names.sort();
    names
}

fn cells(text: &str) -> Vec<&str> {
    text.lines().filter(|line| line.contains('|') && !line.starts_with('#')).collect()
}

#[test]
fn printed_and_counted() {
    let folder = folder("arrangement");
    let printed = |kind, count, number| good(&folder, &one(kind, count, &["--number", number])).text().to_string();
    // 8 is 1 and 2 in base 6: the first cell weighs most.
    assert_eq!(cells(&printed(KIND, "2", "8")), ["0 | 01 00 | null at level 2", "1 | 01 01 | value \"\""]);
    assert_eq!(cells(&printed(KIND, "1", "5")), ["0 | 01 01 | value hex 00 00 00"]);
    let flat = "depth 0, ragged, width 8, index at end";
    assert_eq!(cells(&printed(flat, "1", "0")), ["0 | - | value \"\""]);
    assert_eq!(cells(&printed(flat, "4", "27")).len(), 4);

    // What is printed is stored by `write`, in the kind that was asked for.
    let kind = "depth 2, packed masks, ragged, width 8, index at end";
    let wanted = arrangement(Kind::ragged(2, Width::Eight, Place::End).packed(), &[3], 100).unwrap();
    let stored = run(&folder, &["write", "-", "-"], printed(kind, "3", "100").as_bytes());
    assert_eq!((stored.status, stored.out), (0, encode(&wanted).unwrap()));

    for (kind, depth) in [(flat, 0), ("depth 1, ragged, width 4, index at start", 1), (KIND, 2)] {
        for count in 1..=4 {
            let said = good(&folder, &one(kind, &count.to_string(), &["--count"]));
            let rows = ROWS.lines().filter(|row| row.starts_with(&format!("{depth} {count} "))).count();
            assert_eq!(said.text(), format!("{rows}\n"));
        }
    }
    assert!(names(&folder).is_empty());
}

#[test]
fn what_is_refused() {
    let folder = folder("no-arrangement");
    let number = &["--number", "0"][..];
    let three = "depth 3, ragged, width 4, index at start";
    let fixed = "depth 1, fixed, size 1, little order";
    let cases: [(Vec<&str>, i32, &str); 24] = [
        (one(three, "1", number), 1, "The kind is depth 3, ragged, width 4, index at start, with 1 cell.\n"),
        (one(three, "1", &["--number", "7"]), 1, "durpaxeta: arrangement: refusal 1: "),
        (one(fixed, "1", number), 1, "The kind is depth 1, fixed, size 1, little order, with 1 cell.\n"),
        (one(KIND, "0", number), 1, "with 0 cells.\n  1 means: "),
        (one(KIND, "5", number), 1, "with 5 cells.\n"),
        (one(KIND, "5", &["--count"]), 1, "with 5 cells.\n"),
        (one(KIND, "5", &["--all", "set"]), 1, "with 5 cells.\n"),
        (one(three, "1", &["--all", "set"]), 1, "with 1 cell.\n"),
        (one(KIND, "4294967297", number), 1, "with 4294967297 cells.\n"),
        (one(KIND, "18446744073709551615", &["--number", "9999"]), 1, "with 18446744073709551615 cells.\n"),
        (one("depth 5, ragged, width 4, index at start", "1", number), 1, "The kind is depth 5"),
        (
            one(KIND, "2", &["--number", "36"]),
            19,
            "The number is 36; there are 36 arrangements of 2 cells of depth 2.\n",
        ),
        (one(KIND, "1", &["--number", "6"]), 19, "The number is 6; there are 6 arrangements of 1 cell of depth 2.\n"),
        (one(KIND, "2", &["--number", "4294967296"]), 19, "Caused by whoever numbers the arrangement.\n"),
        (one(KIND, "2", &["--number", "18446744073709551615"]), 19, "durpaxeta: arrangement: refusal 19: "),
        (one(KIND, "2", &["--number", "18446744073709551616"]), 19, "The number is 18446744073709551616; "),
        (one(KIND, "2", &["--number", "-1"]), 64, "\"-1\" is no number; write --number 8"),
        (one(KIND, "two", number), 64, "\"two\" is no number; write --cells 2"),
        (one(KIND, "2", &[]), 64, "--number, --count or --all is missing"),
        (one(KIND, "2", &["--number", "1", "--count"]), 64, "give one of --number, --count and --all"),
        (one(KIND, "2", &["--count", "--all", "set"]), 64, "give one of --number, --count and --all"),
        (one(KIND, "2", &["--all", "-"]), 64, "--all makes a folder, and standard output is none"),
        (vec!["arrangement", "--kind", KIND, "--count"], 64, "--cells is missing; for example --cells 2"),
        (vec!["arrangement", "--cells", "2", "--count"], 64, "--kind is missing"),
    ];
    for (arguments, status, says) in cases {
        let said = run(&folder, &arguments, b"");
        assert_eq!((said.status, said.text()), (status, ""), "{arguments:?}: {}", said.err);
        assert!(said.err.contains(says), "{arguments:?}: {}", said.err);
        assert!(names(&folder).is_empty(), "{arguments:?}");
    }
}

/// Every set: a file for each number, whose names sort as the numbers do, each the stored form of its row; and the index says the rows.
#[test]
fn whole_sets() {
    let folder = folder("sets");
    for depth in 0..=2 {
        for count in 1..=4 {
            let kind = Kind::ragged(depth, Width::Four, Place::Start);
            let set = format!("set-{depth}-{count}");
            good(&folder, &one(&kind.to_string(), &count.to_string(), &["--all", &set]));
            let place = folder.join(&set);
            let index = fs::read_to_string(place.join("index.txt")).unwrap();
            let begin = format!("{depth} {count} ");
            let rows: Vec<&str> = ROWS.lines().filter_map(|row| row.strip_prefix(&begin)).collect();
            let head = format!(
                "durpaxeta arrangements 1\nkind: {kind}\nshape: {count}\narrangements: {}\n\
                 # number | file | masks, level by level | length of each cell | what each cell is\n",
                rows.len()
            );
            let entries: Vec<&str> = index.strip_prefix(&head).unwrap_or_else(|| panic!("{index}")).lines().collect();
            let mut files = names(&place);
            assert_eq!(files.pop().as_deref(), Some("index.txt"));
            assert_eq!((files.len(), entries.len()), (rows.len(), rows.len()));
            for (number, ((row, entry), file)) in rows.iter().zip(entries).zip(files).enumerate() {
                holds_row(kind, count, number as u64, row, entry, &file);
                let wanted = encode(&arrangement(kind, &[count], number as u64).unwrap()).unwrap();
                assert_eq!(fs::read(place.join(&file)).unwrap(), wanted, "{file}");
            }
        }
    }
    assert_eq!(names(&folder).len(), 12);
}

fn holds_row(kind: Kind, count: u64, number: u64, row: &str, entry: &str, file: &str) {
    let words: Vec<&str> = row.split(' ').collect();
    assert_eq!(words[0], number.to_string());
    let (masks, lengths) = if kind.depth == 0 { ("", &words[3..]) } else { (words[2], &words[4..]) };
    let digits: Vec<char> = masks.chars().collect();
    let bytes: Vec<String> = digits.chunks(2).map(|two| two.iter().collect()).collect();
    let planes: Vec<String> = bytes.chunks(count as usize).map(|plane| plane.join(" ")).collect();
    let planes = if kind.depth == 0 { "-".to_string() } else { planes.join(" / ") };
    let cell = |cell: usize| match bytes.iter().skip(cell).step_by(count as usize).position(|mask| mask == "00") {
        Some(level) => format!("null at level {}", level + 1),
        None => match lengths[cell] {
            "0" => "value \"\"".to_string(),
            length => format!("value hex {}", vec!["00"; length.parse().unwrap()].join(" ")),
        },
    };
    let said: Vec<String> = (0..count as usize).map(cell).collect();
    assert_eq!(entry, format!("{number} | {file} | {planes} | {} | {}", lengths.join(" "), said.join(", ")));
    assert_eq!(file.strip_suffix(".bin").and_then(|name| name.parse().ok()), Some(number));
}

/// A file of the set is shown as its arrangement is printed; packed masks and another place are stored so.
#[test]
fn files_of_a_set() {
    let folder = folder("set-files");
    let kind = "depth 1, packed masks, ragged, width 8, index at end";
    good(&folder, &one(kind, "2", &["--all", "set"]));
    for number in 0..25 {
        let file = format!("set/{number:02}.bin");
        let shown = good(&folder, &["show", "--kind", kind, "--shape", "2", &file]);
        assert_eq!(shown.out, good(&folder, &one(kind, "2", &["--number", &number.to_string()])).out);
        good(&folder, &["check", "--kind", kind, "--shape", "2", &file]);
    }
}

/// Nothing that is there is written over, and nothing is added to it.
#[test]
fn what_is_there_is_kept() {
    let folder = folder("set-kept");
    let all = |set: &str| run(&folder, &one(KIND, "1", &["--all", set]), b"");
    fs::create_dir(folder.join("full")).unwrap();
    fs::write(folder.join("full/theirs.txt"), b"kept as it was").unwrap();
    fs::write(folder.join("file"), b"kept as it was").unwrap();
    symlink("full", folder.join("to-full")).unwrap();
    symlink("file", folder.join("to-file")).unwrap();
    let before = (names(&folder), names(&folder.join("full")), contents(&folder), contents(&folder.join("full")));
    for set in ["full", "full/", "file", "to-full", "to-file"] {
        let said = all(set);
        let told = format!("durpaxeta: {set} is there already, and is no empty folder\n");
        assert_eq!((said.status, said.err), (73, told));
    }
    for set in [".", "..", "/", "full/.."] {
        let said = all(set);
        assert_eq!(said.status, 64, "{set}: {}", said.err);
        assert!(said.err.contains(&format!("{set} is no name for a new folder")), "{}", said.err);
    }
    let said = all("nowhere/set");
    assert_eq!(said.status, 74);
    assert!(
        said.err.contains("cannot write nowhere/set, as its folder takes no new file: No such file"),
        "{}",
        said.err
    );
    let after = (names(&folder), names(&folder.join("full")), contents(&folder), contents(&folder.join("full")));
    assert!(after == before);

    // An empty folder is filled, and keeps its mode; so is one that a link leads to, and the link stays one.
    fs::create_dir(folder.join("empty")).unwrap();
    fs::set_permissions(folder.join("empty"), Permissions::from_mode(0o750)).unwrap();
    symlink("empty", folder.join("link")).unwrap();
    assert_eq!((all("link").status, names(&folder.join("empty")).len()), (0, 7));
    assert_eq!(fs::metadata(folder.join("empty")).unwrap().permissions().mode() & 0o777, 0o750);
    assert!(fs::symlink_metadata(folder.join("link")).unwrap().is_symlink());
    // The second time it is not empty.
    assert_eq!(all("empty").status, 73);
    assert_eq!((all("new/").status, names(&folder.join("new")).len()), (0, 7));
}

/// A write that fails leaves no half set.
#[test]
fn a_failure_leaves_nothing() {
    let folder = folder("set-failed");
    fs::create_dir(folder.join("empty")).unwrap();
    let line = |set: &str| format!("ulimit -f 1; durpaxeta arrangement --kind '{KIND}' --cells 4 --all {set}");
    for set in ["new", "empty"] {
        // Its tables are short enough, its index is not.
        let said = sh(&folder, &line(set));
        assert_eq!((said.status, said.err), (74, format!("durpaxeta: cannot write {set}: File too large\n")));
        assert_eq!((names(&folder), names(&folder.join("empty"))), (vec!["empty".to_string()], vec![]), "{set}");
    }
}

/// Several at a time: one makes the set, and the others find it.
#[test]
fn one_of_several_makes_it() {
    let folder = folder("set-race");
    let children: Vec<_> = (0..6).map(|_| piped(&folder, &one(KIND, "3", &["--all", "set"]))).collect();
    let mut statuses: Vec<_> =
        children.into_iter().map(|child| child.wait_with_output().unwrap().status.code()).collect();
    statuses.sort();
    assert_eq!(statuses, [Some(0), Some(73), Some(73), Some(73), Some(73), Some(73)]);
    assert_eq!((names(&folder), names(&folder.join("set")).len()), (vec!["set".to_string()], 217));
}

#[test]
fn the_page() {
    prints_what_the_page_says("17", 5);
}
