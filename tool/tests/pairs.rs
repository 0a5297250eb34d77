//! A table and its description belong together at every moment: beside any number of writers, and after any end of one.

mod common;

use common::*;
use std::fs;
use std::path::{Path, PathBuf};
use std::process::{Command, Stdio};
use std::thread;
use std::time::{Duration, Instant};

/// How long the two tests with many writers run, beside each other. DURPAXETA_PAIRS_SECONDS says another time.
const SECONDS: u64 = 20;

/// The end of a test that runs a share of that time.
fn end(share: u32) -> Instant {
    let told = std::env::var("DURPAXETA_PAIRS_SECONDS").ok().map(|text| text.parse().expect("a number of seconds"));
    Instant::now() + Duration::from_secs(told.unwrap_or(SECONDS)) / share
}

/// The worksheets that are written: other values, other shapes, other kinds, and the same bytes as tables of three kinds.
const SHEETS: [&str; 6] = [
    "durpaxeta worksheet 1\nkind: depth 0, ragged, width 4, index at start\nshape: 2\n0 | - | value \"a\"\n1 | - | value \"b\"\n",
    "durpaxeta worksheet 1\nkind: depth 0, ragged, width 4, index at start\nshape: 2\n0 | - | value \"a\"\n1 | - | value \"c\"\n",
    "durpaxeta worksheet 1\nkind: depth 1, ragged, width 8, index at end\nshape: 1x3\n0,0 | 01 | value \"one\"\n\
     0,1 | 00 | null at level 1\n0,2 | 01 | value \"\"\n",
    "durpaxeta worksheet 1\nkind: depth 0, fixed, size 1, little order\nshape: 4\n0 | - | value \"a\"\n1 | - | value \"b\"\n\
     2 | - | value \"c\"\n3 | - | value \"d\"\n",
    "durpaxeta worksheet 1\nkind: depth 0, fixed, size 1, little order\nshape: 2x2\n0,0 | - | value \"a\"\n\
     0,1 | - | value \"b\"\n1,0 | - | value \"c\"\n1,1 | - | value \"d\"\n",
    "durpaxeta worksheet 1\nkind: depth 0, fixed, size 2, little order\nshape: 2\n0 | - | value \"ab\"\n1 | - | value \"cd\"\n",
];

/// A folder with the worksheets, and how `show` prints the tables of them.
fn sheets(name: &str) -> (PathBuf, Vec<Vec<u8>>) {
    let folder = folder(name);
    let shown = SHEETS.iter().enumerate().map(|(number, sheet)| {
        fs::write(folder.join(format!("{number}.txt")), sheet).unwrap();
        good(&folder, &["write", "--describe", &format!("{number}.txt"), &format!("{number}.bin")]);
        good(&folder, &["show", &format!("{number}.bin")]).out
    });
    let shown = shown.collect();
    (folder, shown)
}

/// Names in a folder that are no user's.
fn left_over(folder: &Path) -> Vec<String> {
    let names = fs::read_dir(folder).unwrap().map(|entry| entry.unwrap().file_name().into_string().unwrap());
    names.filter(|name| name.starts_with('.')).collect()
}

/// Reads a table until a time, and tells how often. Nothing but the tables that are written may be seen.
fn reads(folder: &Path, table: &str, shown: &[Vec<u8>], end: Instant) -> usize {
    let mut count = 0;
    while Instant::now() < end {
        good(folder, &["check", table]);
        let said = good(folder, &["show", table]).out;
        assert!(shown.contains(&said), "{}", String::from_utf8_lossy(&said));
        count += 2;
    }
    count
}

/// Writes one worksheet after the other until a time, beginning with one of them.
fn writes(folder: &Path, table: &str, first: usize, end: Instant) -> usize {
    let mut count = 0;
    while Instant::now() < end {
        let sheet = format!("{}.txt", (first + count * (1 + first)) % SHEETS.len());
        good(folder, &["write", "--describe", &sheet, table]);
        count += 1;
    }
    count
}

/// Readers beside writers of one file: each reader finds a pair.
#[test]
fn readers_beside_writers() {
    let (folder, shown) = sheets("pairs-beside");
    let end = end(1);
    let (read, written) = thread::scope(|scope| {
        let (folder, shown) = (&folder, &shown);
        let readers: Vec<_> = (0..2).map(|_| scope.spawn(move || reads(folder, "0.bin", shown, end))).collect();
        let writers: Vec<_> = (0..3).map(|first| scope.spawn(move || writes(folder, "0.bin", first, end))).collect();
        let sum = |threads: Vec<thread::ScopedJoinHandle<'_, usize>>| -> usize {
            threads.into_iter().map(|thread| thread.join().unwrap()).sum()
        };
        (sum(readers), sum(writers))
    });
    println!("{read} reads beside {written} writes");
    assert!(read > 10 && written > 10, "{read} reads beside {written} writes");
    reads(&folder, "0.bin", &shown, Instant::now() + Duration::from_millis(1));
    assert_eq!(left_over(&folder), [""; 0]);
}

/// Two writers at a time, and after a while both are killed: what is there then is a pair, and the next write clears up.
#[test]
fn killed_writers() {
    let (folder, shown) = sheets("pairs-killed");
    let end = end(1);
    let began = Instant::now();
    good(&folder, &["write", "--describe", "0.txt", "k.bin"]);
    let longest = 3 * began.elapsed().as_micros() as usize;
    let mut draw = draws(began.elapsed().as_nanos() as u64 | 1);
    let (mut rounds, mut left, mut half) = (0, 0, 0);
    while Instant::now() < end {
        let start = |number: usize| {
            Command::new(TOOL)
                .args(["write", "--describe", &format!("{}.txt", number % SHEETS.len()), "k.bin"])
                .current_dir(&folder)
                .stderr(Stdio::null())
                .spawn()
                .unwrap()
        };
        let mut writers = [start(rounds), start(draw(SHEETS.len()))];
        thread::sleep(Duration::from_micros(draw(longest) as u64));
        for writer in &mut writers {
            writer.kill().unwrap();
        }
        for mut writer in writers {
            writer.wait().unwrap();
        }
        left += usize::from(!left_over(&folder).is_empty());
        let description = fs::read_to_string(folder.join("k.bin.dpx")).unwrap();
        half += usize::from(description.matches("durpaxeta description 1").count() == 2);
        reads(&folder, "k.bin", &shown, Instant::now() + Duration::from_micros(1));
        if rounds % 8 == 7 {
            good(&folder, &["write", "--describe", "1.txt", "k.bin"]);
            assert_eq!(left_over(&folder), [""; 0]);
        }
        rounds += 1;
    }
    println!("{rounds} rounds, {left} left something to clear up, {half} ended half-way");
    assert!(rounds > 10 && left > 0 && half > 0, "{rounds} rounds, {left} left something, {half} ended half-way");
}

/// Whoever sees a table that was written for the first time finds its description, too.
#[test]
fn first_writes() {
    let (folder, shown) = sheets("pairs-first");
    let end = end(4);
    let mut rounds = 0;
    while Instant::now() < end {
        let name = format!("new{rounds}.bin");
        let mut writer = piped(&folder, &["write", "--describe", &format!("{}.txt", rounds % SHEETS.len()), &name]);
        while !folder.join(&name).exists() {
            thread::yield_now();
        }
        reads(&folder, &name, &shown, Instant::now() + Duration::from_micros(1));
        assert!(writer.wait().unwrap().success());
        fs::remove_file(folder.join(&name)).unwrap();
        fs::remove_file(folder.join(format!("{name}.dpx"))).unwrap();
        rounds += 1;
    }
    assert!(rounds > 10, "{rounds} rounds");
}

/// A table that has no description can be read by one who knows it, while it gets one.
#[test]
fn described_for_the_first_time() {
    let (folder, shown) = sheets("pairs-undescribed");
    let end = end(4);
    let show = ["show", "--kind", "depth 0, ragged, width 4, index at start", "--shape", "2", "t.bin"];
    let mut rounds = 0;
    while Instant::now() < end {
        let _ = fs::remove_file(folder.join("t.bin.dpx"));
        good(&folder, &["write", "0.txt", "t.bin"]);
        let mut writer = piped(&folder, &["write", "--describe", "1.txt", "t.bin"]);
        while writer.try_wait().unwrap().is_none() {
            assert!(shown[..2].contains(&good(&folder, &show).out));
        }
        assert_eq!(good(&folder, &["show", "t.bin"]).out, shown[1]);
        rounds += 1;
    }
    assert!(rounds > 10, "{rounds} rounds");
}

/// Two tables of two kinds that have one length and one checksum: none is taken for the other.
#[test]
fn tables_that_collide() {
    let folder = folder("pairs-collide");
    let one =
        "durpaxeta worksheet 1\nkind: depth 0, fixed, size 5, little order\nshape: 1\n0 | - | value hex 0000000000\n";
    let other = "durpaxeta worksheet 1\nkind: depth 0, fixed, size 1, little order\nshape: 5\n0 | - | value hex F1\n\
                 1 | - | value hex 76\n2 | - | value hex EC\n3 | - | value hex 05\n4 | - | value hex 01\n";
    let [first, second] = [one, other].map(|sheet| {
        let said = run(&folder, &["write", "--describe", "-", "t.bin"], sheet.as_bytes());
        assert_eq!((said.status, said.err.as_str()), (0, ""));
        let description = fs::read_to_string(folder.join("t.bin.dpx")).unwrap();
        let (_, checked) = description.split_once("bytes: 5\n").unwrap();
        (checked.to_string(), good(&folder, &["show", "t.bin"]).out)
    });
    assert_eq!(first.0, second.0);
    let written = [first.1, second.1];
    let end = end(4);
    thread::scope(|scope| {
        let (folder, written) = (&folder, &written);
        scope.spawn(move || {
            while Instant::now() < end {
                for sheet in [one, other] {
                    assert_eq!(run(folder, &["write", "--describe", "-", "t.bin"], sheet.as_bytes()).status, 0);
                }
            }
        });
        while Instant::now() < end {
            let said = run(folder, &["show", "t.bin"], b"");
            match said.status {
                0 => assert!(written.contains(&said.out), "{}", said.text()),
                status => assert!(status == 64 && said.err.contains("there is no t.bin.dpx"), "{}", said.err),
            }
        }
    });
    assert_eq!(good(&folder, &["show", "t.bin"]).out, written[1]);
}

/// A reader that is slow: between the description and the table that it opens, both are replaced.
#[test]
fn a_slow_reader() {
    let (folder, shown) = sheets("pairs-slow");
    let copy = |from: &str, to: &str| {
        fs::copy(folder.join(from), folder.join("copy")).unwrap();
        fs::rename(folder.join("copy"), folder.join(to)).unwrap();
    };
    let given = ["--kind", "depth 0, ragged, width 4, index at start", "--shape", "2"];
    for (described, line) in [(true, &["show", "t.bin"][..]), (false, &[&["show"], &given[..], &["t.bin"]].concat())] {
        // Whoever opens a pipe waits for the other end.
        assert_eq!(sh(&folder, "rm -f t.bin t.bin.dpx && mkfifo t.bin").status, 0);
        if described {
            copy("0.bin.dpx", "t.bin.dpx");
        }
        let reader = piped(&folder, line);
        thread::sleep(Duration::from_millis(500));
        fs::rename(folder.join("t.bin"), folder.join("pipe")).unwrap();
        copy("1.bin.dpx", "t.bin.dpx");
        copy("1.bin", "t.bin");
        drop(fs::OpenOptions::new().read(true).write(true).open(folder.join("pipe")).unwrap());
        let said = reader.wait_with_output().unwrap();
        assert_eq!(
            (said.status.code(), &said.stdout),
            (Some(0), &shown[1]),
            "{}",
            String::from_utf8_lossy(&said.stderr)
        );
    }
}

/// What a killed command leaves, made by hand: a description of two tables beside either of them.
#[test]
fn descriptions_of_two_tables() {
    let (folder, shown) = sheets("pairs-two");
    let text = |number: usize| fs::read_to_string(folder.join(format!("{number}.bin.dpx"))).unwrap();
    for (new, old) in [(0, 2), (2, 0), (3, 1)] {
        fs::write(folder.join("t.bin.dpx"), text(new) + &text(old)).unwrap();
        for there in [new, old] {
            fs::copy(folder.join(format!("{there}.bin")), folder.join("t.bin")).unwrap();
            good(&folder, &["check", "t.bin"]);
            assert_eq!(good(&folder, &["show", "t.bin"]).out, shown[there]);
            assert_eq!(good(&folder, &["same", "t.bin", &format!("{there}.bin")]).status, 0);
            assert_eq!(run(&folder, &["write", &format!("{new}.txt"), "t.bin"], b"").status, 64);
        }
        // Neither of the two.
        let neither = (0..3).find(|number| ![new, old].contains(number)).unwrap();
        fs::copy(folder.join(format!("{neither}.bin")), folder.join("t.bin")).unwrap();
        let said = run(&folder, &["show", "t.bin"], b"");
        assert!([68, 69].contains(&said.status) && said.err.contains(" or "), "{}", said.err);
        good(&folder, &["write", "--describe", &format!("{old}.txt"), "t.bin"]);
        assert_eq!(fs::read_to_string(folder.join("t.bin.dpx")).unwrap(), text(old));
    }
}

/// Draws numbers below a limit.
fn draws(mut seed: u64) -> impl FnMut(usize) -> usize {
    move |limit| {
        seed ^= seed << 13;
        seed ^= seed >> 7;
        seed ^= seed << 17;
        (seed >> 11) as usize % limit
    }
}
