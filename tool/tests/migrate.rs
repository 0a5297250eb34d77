//! Tables that leave the older form chunk by chunk: whenever the command is stopped, it goes on from there, cuts are the same all
//! along, and no old file is ever changed.

mod common;

use common::*;
use std::fs;
use std::path::{Path, PathBuf};
use std::process::{Command, Stdio};
use std::thread;
use std::time::Duration;

const WIDE: &str = "depth 0, ragged, width 8, index at start";

/// A load of that shape, and its rows as old files, the last row first, and every second one with bytes behind its last cell.
fn rows(name: &str, rows: usize, columns: usize) -> PathBuf {
    let folder = folder(name);
    let shape = format!("{rows}x{columns}");
    good(&folder, &["generate", "--kind", WIDE, "--shape", &shape, "--start", "7", "whole.bin"]);
    let mut begin = vec!["migrate".to_string(), "begin".into(), "--shape".into(), shape.clone()];
    for row in (0..rows).rev() {
        let (subset, old) = (format!("{row}..{},0..{columns}", row + 1), format!("row{row}.old"));
        good(&folder, &["cut", "--kind", WIDE, "--shape", &shape, "--subset", &subset, "whole.bin", "row.bin"]);
        let one = format!("1x{columns}");
        good(&folder, &["convert", "--to-interleaved", "--kind", WIDE, "--shape", &one, "row.bin", &old]);
        if row % 2 == 1 {
            let bytes = fs::read(folder.join(&old)).unwrap();
            fs::write(folder.join(&old), [&bytes[..], b"!!!!"].concat()).unwrap();
        }
        begin.extend(["--part".into(), subset, old]);
    }
    begin.push("moving".into());
    good(&folder, &begin.iter().map(String::as_str).collect::<Vec<_>>());
    folder
}

fn whole(rows: usize, columns: usize) -> String {
    format!("0..{rows},0..{columns}")
}

/// A cut of everything is the table that was, byte by byte.
fn same(folder: &Path, subset: &str) {
    let cut = good(folder, &["migrate", "cut", "--subset", subset, "moving", "-"]);
    assert!(cut.out == fs::read(folder.join("whole.bin")).unwrap(), "another table");
}

fn put(folder: &Path, file: &str, bytes: &[u8]) {
    fs::write(folder.join("moving").join(file), bytes).unwrap();
}

fn get(folder: &Path, file: &str) -> Vec<u8> {
    fs::read(folder.join("moving").join(file)).unwrap()
}

#[test]
fn before_between_and_after() {
    let folder = rows("migrate", 3, 4);
    let old = contents(&folder);
    let subset = ["migrate", "cut", "--kind", "depth 0, ragged, width 4, index at end", "--subset", "1..3,1..3"];
    let cut = |out: &str| {
        good(&folder, &[&subset[..], &["--describe", "moving", out]].concat());
        (fs::read(folder.join(out)).unwrap(), fs::read(folder.join(format!("{out}.dpx"))).unwrap())
    };
    let before = cut("cut0.bin");
    assert!(good(&folder, &["show", "cut0.bin"]).text().contains("shape: 2x2\n"));
    assert!(String::from_utf8_lossy(&before.1).contains("part: 1..3,1..3 of 3x4\n"));
    let mut at = 0;
    for moved in 1..=3 {
        let said = good(&folder, &["migrate", "step", "moving"]);
        let area = get(&folder, "area.bin");
        assert_eq!(said.text(), format!("moving: {moved} of 3 chunks moved, {} bytes\n", area.len()));
        assert_eq!(cut(&format!("cut{moved}.bin")), before);
        same(&folder, &whole(3, 4));
        // What a step added is a stored table.
        fs::write(folder.join("chunk.bin"), &area[at..]).unwrap();
        good(&folder, &["check", "--kind", WIDE, "--shape", "1x4", "chunk.bin"]);
        at = area.len();
        let shown = good(&folder, &["migrate", "show", "moving"]);
        assert_eq!(shown.text().matches(" | moved | ").count(), moved);
        assert_eq!(shown.text().matches(" | old   | ").count(), 3 - moved);
    }
    let said = good(&folder, &["migrate", "step", "moving"]);
    assert_eq!(said.text(), format!("moving: 3 of 3 chunks moved, {at} bytes; none is left\n"));
    let said = good(&folder, &["migrate", "run", "moving"]);
    let told = format!("moving: 3 of 3 chunks moved, {at} bytes; each of 12 cells is as in the old files\n");
    assert_eq!(said.text(), told);
    for (name, bytes) in old {
        assert_eq!(fs::read(folder.join(&name)).unwrap(), bytes, "{name}");
    }
}

/// Each state in which a step can be killed, made by hand: any part of the new bytes in the area, others behind them, the new list in
/// a temporary file, whole or not, and the lock. From each of them cuts are the same, and the step leads to the same files.
#[test]
fn killed_at_every_point_of_every_step() {
    const CHUNKS: usize = 3;
    let folder = rows("migrate-killed", CHUNKS, 2);
    let moving = folder.join("moving");
    for _ in 0..CHUNKS {
        let (area, list) = (get(&folder, "area.bin"), get(&folder, "moved.txt"));
        good(&folder, &["migrate", "step", "moving"]);
        let then = contents(&moving);
        let (new_area, new_list) = (get(&folder, "area.bin"), get(&folder, "moved.txt"));
        let mut states: Vec<(Vec<u8>, Option<&[u8]>)> =
            (area.len()..=new_area.len()).step_by(7).map(|end| (new_area[..end].to_vec(), None)).collect();
        let torn = vec![0; new_area.len() - area.len()];
        states.push(([&area[..], &torn].concat(), None));
        states.push((new_area.clone(), Some(b"")));
        states.push((new_area.clone(), Some(&new_list[..new_list.len() / 2])));
        states.push((new_area.clone(), Some(&new_list)));
        for (area, temporary) in states {
            put(&folder, "area.bin", &area);
            put(&folder, "moved.txt", &list);
            if let Some(bytes) = temporary {
                // By the checksum of the list's name.
                put(&folder, ".durpaxeta-B03EBE07-0", bytes);
                put(&folder, ".durpaxeta-B03EBE07-lock", b"");
            }
            same(&folder, &whole(CHUNKS, 2));
            good(&folder, &["migrate", "step", "moving"]);
            assert_eq!(contents(&moving), then);
        }
    }
    assert!(good(&folder, &["migrate", "run", "moving"]).text().contains("each of 6 cells is as in the old files"));
}

extern "C" {
    fn kill(process: i32, signal: i32) -> i32;
}

/// Two runs at a time, killed outright or by a signal after a while, again and again, until one comes to its end.
#[test]
fn killed_at_any_moment() {
    const CHUNKS: usize = 60;
    let folder = rows("migrate-killed-often", CHUNKS, 3);
    let old = contents(&folder);
    let run = || {
        let mut command = Command::new(TOOL);
        command.args(["migrate", "run", "moving"]).current_dir(&folder).stdout(Stdio::null()).stderr(Stdio::null());
        command.spawn().unwrap()
    };
    let mut kills = 0;
    for round in 0.. {
        assert!(round < 1000, "it comes to no end");
        let mut runs = [run(), run()];
        thread::sleep(Duration::from_micros(2000 + 700 * round));
        let mut ended = 0;
        for (number, one) in runs.iter_mut().enumerate() {
            // SAFETY: the process is a child that nobody has waited for.
            let _ = unsafe { kill(one.id() as i32, if (round as usize + number) % 2 == 0 { 9 } else { 15 }) };
            match one.wait().unwrap().code() {
                Some(status) => {
                    assert_eq!(status, 0);
                    ended += 1;
                }
                None => kills += 1,
            }
        }
        same(&folder, &whole(CHUNKS, 3));
        if ended == 2 {
            break;
        }
    }
    assert!(kills > 3, "{kills} runs were killed");
    let said = good(&folder, &["migrate", "run", "moving"]);
    assert!(said.text().starts_with("moving: 60 of 60 chunks moved, "), "{}", said.text());
    let names: Vec<String> = contents(&folder.join("moving")).into_iter().map(|(name, _)| name).collect();
    assert_eq!(names, ["area.bin", "chunks.txt", "moved.txt"]);
    assert!(contents(&folder) == old);
}

#[test]
fn old_files_that_change() {
    let folder = rows("migrate-changed", 3, 2);
    good(&folder, &["migrate", "step", "moving"]);
    // The last row is moved, and its old file is not read any more; the first two are not.
    let gone = fs::read(folder.join("row2.old")).unwrap();
    fs::remove_file(folder.join("row2.old")).unwrap();
    same(&folder, &whole(3, 2));
    let was = fs::read(folder.join("row0.old")).unwrap();
    let mut other = was.clone();
    *other.last_mut().unwrap() ^= 1;
    let state = contents(&folder.join("moving"));
    for (bytes, status) in [([&was[..], b"!"].concat(), 68), (other, 69)] {
        fs::write(folder.join("row0.old"), bytes).unwrap();
        for line in [&["migrate", "step", "moving"][..], &["migrate", "cut", "--subset", "2..3,0..1", "moving", "-"]] {
            let said = run(&folder, line, b"");
            assert_eq!((said.status, said.text()), (status, ""), "{}", said.err);
            assert!(said.err.contains("row0.old has "), "{}", said.err);
            assert!(said.err.contains("An old file must stay as it was: put it back, or begin anew"), "{}", said.err);
        }
        assert_eq!(contents(&folder.join("moving")), state);
    }
    fs::write(folder.join("row0.old"), was).unwrap();
    // All are moved, and the comparison in the end finds no file to compare with.
    let said = run(&folder, &["migrate", "run", "moving"], b"");
    assert_eq!((said.status, said.text()), (74, ""), "{}", said.err);
    assert!(said.err.contains("row2.old: No such file or directory"), "{}", said.err);
    assert!(good(&folder, &["migrate", "show", "moving"]).text().starts_with("moving: 3 of 3 chunks moved, "));
    fs::write(folder.join("row2.old"), gone).unwrap();
    good(&folder, &["migrate", "run", "moving"]);
}

#[test]
fn lists_that_are_not_right() {
    let folder = rows("migrate-lists", 2, 2);
    good(&folder, &["migrate", "step", "moving"]);
    let (chunks, moved, area) = (get(&folder, "chunks.txt"), get(&folder, "moved.txt"), get(&folder, "area.bin"));
    let text = |bytes: &[u8]| String::from_utf8(bytes.to_vec()).unwrap();
    let line = text(&moved).lines().last().unwrap().to_string();
    let of = |file: &str, bytes: &[u8], status: i32, told: &str| {
        put(&folder, file, bytes);
        for line in [&["migrate", "show", "moving"][..], &["migrate", "step", "moving"]] {
            let said = run(&folder, line, b"");
            assert_eq!((said.status, said.text()), (status, ""), "{}", said.err);
            assert!(said.err.contains(told), "{told}: {}", said.err);
        }
        for (file, bytes) in [("chunks.txt", &chunks), ("moved.txt", &moved), ("area.bin", &area)] {
            put(&folder, file, bytes);
        }
    };
    of("moved.txt", b"", 65, "moved.txt, line 1: ");
    of("moved.txt", text(&moved).replace("chunks 1", "chunks 2").as_bytes(), 65, "written by a later durpaxeta");
    of("moved.txt", format!("{}12\n", text(&moved)).as_bytes(), 65, "moved.txt, line 4: a moved chunk is a length");
    of(
        "moved.txt",
        format!("{}{line}\n{line}\n", text(&moved)).as_bytes(),
        4,
        "moved.txt has 3 chunks, and chunks.txt 2",
    );
    of(
        "chunks.txt",
        text(&chunks).replace("shape", "form").as_bytes(),
        65,
        "chunks.txt, line 2: the shape stands here",
    );
    of("chunks.txt", text(&chunks).replace("0..1", "0..3").as_bytes(), 3, "chunks.txt, line 5");
    of("chunks.txt", text(&chunks).replace("0..1,", "1..2,").as_bytes(), 12, "Cell 1,0 is held twice");
    of("area.bin", &area[1..], 68, "area.bin, chunk 0, has ");
    let mut other = area.clone();
    other[20] ^= 1;
    of("area.bin", &other, 69, "What was moved must stay as it was: begin anew");
    same(&folder, &whole(2, 2));

    // Lists that belong together, and an area that is another table: only the comparison can tell.
    good(&folder, &["migrate", "run", "moving"]);
    let swapped = rows("migrate-swapped", 2, 2);
    good(&swapped, &["migrate", "run", "moving"]);
    let lines: Vec<String> = text(&get(&folder, "moved.txt")).lines().map(String::from).collect();
    let end: usize = lines[2].split(' ').next().unwrap().parse().unwrap();
    let area = get(&folder, "area.bin");
    put(&folder, "area.bin", &[&area[end..], &area[..end]].concat());
    put(&folder, "moved.txt", [&lines[..2], &[lines[3].clone(), lines[2].clone()]].concat().join("\n").as_bytes());
    let said = run(&folder, &["migrate", "run", "moving"], b"");
    assert_eq!((said.status, said.text()), (71, ""), "{}", said.err);
    assert!(said.err.contains("area.bin: chunk 0 is not what "), "{}", said.err);
}

#[test]
fn what_begin_refuses() {
    let folder = folder("migrate-begin");
    fs::write(folder.join("a.old"), b"\x01\0\0\0\x01\0\0\0A").unwrap();
    fs::write(folder.join("b.old"), b"\x02\0\0\0\x01\0\0\0B").unwrap();
    fs::create_dir(folder.join("full")).unwrap();
    fs::write(folder.join("full/file"), b"").unwrap();
    good(&folder, &["generate", "--kind", WIDE, "--shape", "1", "--start", "1", "--describe", "new.bin"]);
    let before = contents(&folder);
    let begin = |words: &[&str], status: i32, told: &str| {
        let said = run(&folder, &[&["migrate", "begin"], words].concat(), b"");
        assert_eq!((said.status, said.text()), (status, ""), "{words:?} {}", said.err);
        assert!(said.err.contains(told), "{told}: {}", said.err);
        assert!(!folder.join("to").exists());
        assert_eq!(contents(&folder), before);
    };
    begin(&["--part", "0..1", "a.old", "to"], 64, "--shape is missing");
    begin(&["--shape", "1", "to"], 64, "no chunk is given; for example --part 0..1,0..3 first.old");
    begin(&["--shape", "1", "--part", "0..1", "-", "to"], 64, "standard input is no file");
    begin(&["--shape", "0", "--part", "0..1", "a.old", "to"], 2, "The shape is 0");
    begin(&["--shape", "1", "--part", "0..0", "a.old", "to"], 3, "holds no cell");
    begin(&["--shape", "1", "--part", "0..2", "a.old", "to"], 3, "The subset is 0..2");
    begin(&["--shape", "2", "--part", "0..1", "a.old", "to"], 12, "Cell 1 is in no part");
    begin(&["--shape", "1", "--part", "0..1", "a.old", "--part", "0..1", "a.old", "to"], 12, "Cell 0 is held twice");
    begin(&["--shape", "1", "--part", "0..1", "b.old", "to"], 9, "b.old: refusal 9: Reading stopped at byte 0 of 9");
    begin(&["--shape", "1", "--part", "0..1", "none.old", "to"], 74, "none.old");
    begin(&["--shape", "1", "--part", "0..1", "new.bin", "to"], 67, "new.bin.dpx");
    begin(&["--shape", "1", "--part", "0..1", "a.old", "full"], 73, "full is there already");
    begin(&["--shape", "1", "--part", "0..1", "a.old", "a.old"], 73, "a.old is there already");
    // More than memory holds, together.
    for file in ["c.old", "d.old"] {
        fs::File::create(folder.join(file)).unwrap().set_len(1 << 42).unwrap();
    }
    let parts = ["migrate", "begin", "--shape", "2", "--part", "0..1", "c.old", "--part", "1..2", "d.old", "to"];
    let said = run(&folder, &parts, b"");
    let told = "the table: its chunks have 8796093022208 bytes, and there is no memory for 3 times as many";
    assert_eq!((said.status, said.err), (74, format!("durpaxeta: cannot read {told}\n")));
    for words in
        [&["step", "none"][..], &["run", "a.old"], &["show", "full"], &["cut", "--subset", "0..1", "full", "-"]]
    {
        assert_eq!(run(&folder, &[&["migrate"], words].concat(), b"").status, 74, "{words:?}");
    }
}

/// No output takes the place of an old file, or of what was moved.
#[test]
fn outputs_that_are_inputs() {
    let folder = rows("migrate-outputs", 2, 2);
    good(&folder, &["migrate", "step", "moving"]);
    for out in ["row0.old", "row1.old", "moving/area.bin", "moving/moved.txt", "moving/chunks.txt"] {
        let said = run(&folder, &["migrate", "cut", "--subset", "0..1,0..1", "moving", out], b"");
        assert_eq!(said.status, 64, "{out}: {}", said.err);
    }
    for (words, status) in [
        (&["--subset", "0..0,0..1"][..], 2),
        (&["--subset", "0..3,0..1"], 3),
        (&["--kind", KIND, "--subset", "0..1,0..1"], 64),
        (&[], 64),
        (&["--no-clobber", "--subset", "0..1,0..1"], 73),
    ] {
        let said = run(&folder, &[&["migrate", "cut"], words, &["moving", "whole.bin"]].concat(), b"");
        assert_eq!(said.status, status, "{words:?}: {}", said.err);
    }
    // The name of an old file may be any, and the command may run in another folder.
    let odd = "a | \"b\n\u{9B}.old";
    fs::copy(folder.join("row0.old"), folder.join(odd)).unwrap();
    good(&folder, &["migrate", "begin", "--shape", "1x2", "--part", "0..1,0..2", odd, "odd"]);
    let said = good(Path::new("/"), &["migrate", "run", folder.join("odd").to_str().unwrap()]);
    assert!(said.text().contains("1 of 1 chunks moved"), "{}", said.text());
}

#[test]
fn the_page() {
    prints_what_the_page_says("18", 10);
}
