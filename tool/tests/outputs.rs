//! The command loses nothing: what was in a file before a failure, a signal or a mistyped name is in it afterwards.

mod common;

use common::*;
use std::fs::{self, Permissions};
use std::io::{Read, Write};
use std::os::unix::fs::{symlink, MetadataExt, PermissionsExt};
use std::os::unix::process::{CommandExt, ExitStatusExt};
use std::path::Path;
use std::process::{Child, Command, ExitStatus, Stdio};
use std::thread;
use std::time::{Duration, Instant};

extern "C" {
    fn kill(process: i32, signal: i32) -> i32;
    fn signal(number: i32, handler: usize) -> usize;
}

const SIGNALS: [(i32, &str); 3] = [(1, "SIGHUP"), (2, "SIGINT"), (15, "SIGTERM")];
const SIGCONT: i32 = 18;
const SIGSTOP: i32 = 19;

/// A folder with the affinity table, a long table and a file to be kept.
fn prepared(name: &str, length: usize) -> std::path::PathBuf {
    let folder = folder(name);
    affinity(&folder);
    fs::write(folder.join("long.bin"), long(length)).unwrap();
    fs::write(folder.join("keep.bin"), b"kept as it was").unwrap();
    folder
}

fn cut_long(out: &str) -> String {
    format!("durpaxeta cut --kind '{LONG}' --shape 1 --subset 0..1 long.bin {out}")
}

// ------------------------------------------------------------------------------------------ failures while writing

#[test]
fn a_limit_on_file_sizes_keeps_the_old_file() {
    let folder = prepared("limit", 600_000);
    let before = contents(&folder);
    for out in ["keep.bin", "new.bin"] {
        for describe in ["", " --describe"] {
            let said = sh(&folder, &format!("ulimit -f 100; {}{describe}", cut_long(out)));
            assert_eq!(said.status, 74, "{}", said.err);
            assert_eq!(said.err, format!("durpaxeta: cannot write {out}: File too large\n"));
            assert!(contents(&folder) == before, "{out}{describe}");
        }
    }
    // Standard output has no old file; the error is told.
    let said = sh(&folder, &format!("ulimit -f 100; {} > out.bin", cut_long("-")));
    assert_eq!((said.status, said.err.as_str()), (74, "durpaxeta: cannot write standard output: File too large\n"));
}

#[test]
fn a_full_disk_keeps_the_old_file() {
    let folder = prepared("full", 600_000);
    fs::create_dir(folder.join("disk")).unwrap();
    good(&folder, &["write", "--describe", "guests.txt", "guests.bin"]);
    let sheet = fs::read_to_string(folder.join("guests.txt")).unwrap();
    fs::write(folder.join("other.txt"), sheet.replace("0-3,8", "0-3,9")).unwrap();
    // A file system of its own, seen by this shell alone.
    let mounted = |line: &str| {
        let line = format!("mount -t tmpfs -o size=128k tmpfs disk && {{ {line}; }}");
        sh(&folder, &format!("unshare --mount --map-root-user sh -c \"{}\"", line.replace('$', "\\$")))
    };
    let tried = mounted("true");
    if tried.status != 0 {
        println!("skipped: no file system can be mounted here: {}", tried.err);
        return;
    }
    let said = mounted(&format!(
        "echo kept > disk/keep.bin; {}; echo status $?; {}; echo status $?; ls -A disk; cat disk/keep.bin",
        cut_long("disk/keep.bin"),
        cut_long("disk/new.bin --describe")
    ));
    assert_eq!(said.text(), "status 74\nstatus 74\nkeep.bin\nkept\n", "{}", said.err);
    assert!(said.err.contains("cannot write disk/keep.bin: No space left on device"), "{}", said.err);
    assert!(said.err.contains("cannot write disk/new.bin: No space left on device"), "{}", said.err);
    // A pair stays one: with no room for the table, and with none for so much as a description.
    let said = mounted(&format!(
        "durpaxeta write --describe guests.txt disk/t.bin; {}; echo status $?; head -c 200k /dev/zero > disk/fill 2> /dev/null; \
         durpaxeta write --describe other.txt disk/t.bin; echo status $?; ls -A disk; cmp disk/t.bin guests.bin && \
         cmp disk/t.bin.dpx guests.bin.dpx && durpaxeta show disk/t.bin > shown.txt",
        cut_long("disk/t.bin --describe"),
    ));
    assert_eq!((said.status, said.text()), (0, "status 74\nstatus 74\nfill\nt.bin\nt.bin.dpx\n"), "{}", said.err);
}

#[test]
fn outputs_that_are_no_files() {
    let folder = prepared("streams", 70_000);
    let before = contents(&folder);
    let table = fs::read(folder.join("long.bin")).unwrap();
    for line in [cut_long("/dev/full"), format!("{} > /dev/full", cut_long("-")), cut_long("/dev/stdout > /dev/full")] {
        let said = sh(&folder, &line);
        assert_eq!(said.status, 74, "{line}");
        assert!(said.err.contains("No space left on device"), "{line}: {}", said.err);
    }
    for line in ["durpaxeta example > /dev/full", "durpaxeta help > /dev/full", "durpaxeta --version > /dev/full"] {
        assert_eq!(sh(&folder, line).status, 74, "{line}");
    }
    // A device stays one, and --no-clobber replaces nothing there.
    assert_eq!(sh(&folder, &cut_long("--no-clobber /dev/null")).status, 0);
    assert!(!fs::metadata("/dev/null").unwrap().is_file());
    // Standard output under its other names: a pipe, and a file that is added to.
    for name in ["-", "/dev/stdout", "/dev/fd/1", "/proc/self/fd/1"] {
        assert!(sh(&folder, &cut_long(name)).out == table, "{name}");
        let added = sh(&folder, &format!("(echo first; {}; echo last) >> {}.out", cut_long(name), name.len()));
        assert_eq!((added.status, added.err.as_str()), (0, ""));
        let file = folder.join(format!("{}.out", name.len()));
        assert!(fs::read(&file).unwrap() == [b"first\n", &table[..], b"last\n"].concat(), "{name}");
        fs::remove_file(file).unwrap();
    }
    let piped = sh(&folder, &format!("mkfifo pipe && {{ cat pipe & {}; wait; }}", cut_long("pipe")));
    assert!(piped.status == 0 && piped.out == table, "{}", piped.err);
    assert_eq!(sh(&folder, "test -p pipe && rm pipe").status, 0);
    let directory = sh(&folder, &format!("mkdir -p d; {}", cut_long("d")));
    assert_eq!((directory.status, directory.err.as_str()), (74, "durpaxeta: cannot write d: it is a directory\n"));
    assert!(contents(&folder) == before);
}

// ------------------------------------------------------------------------------------------------------- signals

/// Starts a line; signals have their usual meaning in it, whatever they have here.
fn start(folder: &Path, arguments: &[&str]) -> Child {
    start_telling(folder, arguments, Stdio::piped())
}

fn start_telling(folder: &Path, arguments: &[&str], error: Stdio) -> Child {
    let mut command = Command::new(TOOL);
    command.args(arguments).current_dir(folder).env("TERM", "xterm");
    command.stdin(Stdio::null()).stdout(Stdio::null()).stderr(error);
    // SAFETY: `signal` may be called between fork and exec.
    unsafe {
        command.pre_exec(|| {
            SIGNALS.iter().for_each(|&(number, _)| {
                signal(number, 0);
            });
            Ok(())
        });
    }
    command.spawn().unwrap()
}

fn send(child: &Child, number: i32) {
    // SAFETY: the child is not waited for yet, so the number is its own.
    assert_eq!(unsafe { kill(child.id() as i32, number) }, 0);
}

/// Whether a command left anything but its output, or still has it.
fn temporary(folder: &Path) -> bool {
    hidden(folder).next().is_some()
}

/// Whether a command has its turn and writes: before that there is its lock alone.
fn writing(folder: &Path) -> bool {
    hidden(folder).any(|name| !name.ends_with("-lock"))
}

fn hidden(folder: &Path) -> impl Iterator<Item = String> {
    let names = fs::read_dir(folder).unwrap().map(|entry| entry.unwrap().file_name().into_string().unwrap());
    names.filter(|name| name.starts_with(".durpaxeta-"))
}

/// Stops a child in the middle of its writing: its temporary file is there, and stays there. None if it was too quick.
fn stopped_while_writing(folder: &Path, mut child: Child) -> Option<Child> {
    let deadline = Instant::now() + Duration::from_secs(30);
    while !writing(folder) {
        assert!(Instant::now() < deadline, "nothing is written");
        if child.try_wait().unwrap().is_some() {
            return None;
        }
    }
    send(&child, SIGSTOP);
    let state = format!("/proc/{}/stat", child.id());
    loop {
        // Behind the name in brackets: T is stopped, Z is over.
        let line = fs::read_to_string(&state).unwrap();
        match line.rsplit(") ").next().unwrap().chars().next() {
            Some('T') if writing(folder) => return Some(child),
            Some('T' | 'Z') => break,
            _ => assert!(Instant::now() < deadline, "it does not stop"),
        }
    }
    let _ = child.kill();
    let _ = child.wait();
    None
}

fn ended(folder: &Path, number: i32, out: &str) -> Option<ExitStatus> {
    let cut = ["cut", "--kind", LONG, "--shape", "1", "--subset", "0..1", "--describe", "long.bin", out];
    let mut child = stopped_while_writing(folder, start(folder, &cut))?;
    send(&child, number);
    send(&child, SIGCONT);
    Some(child.wait().unwrap())
}

#[test]
fn a_signal_during_a_write_leaves_nothing() {
    let folder = prepared("signals", 8_000_000);
    let before = contents(&folder);
    for (number, name) in SIGNALS {
        for out in ["keep.bin", "new.bin"] {
            let mut tries = 0;
            let status = loop {
                if let Some(status) = ended(&folder, number, out) {
                    // Too late where all was in its place already.
                    if fs::metadata(folder.join(out)).map_or(true, |about| about.len() < 8_000_000) {
                        break status;
                    }
                }
                tries += 1;
                assert!(tries < 100, "{name} never came in time");
                let _ = fs::remove_file(folder.join(out));
                let _ = fs::remove_file(folder.join(format!("{out}.dpx")));
                if out == "keep.bin" {
                    fs::write(folder.join(out), b"kept as it was").unwrap();
                }
                // What was killed outright leaves its temporary file and its lock.
                sh(&folder, "rm -f .durpaxeta-*");
            };
            assert_eq!(status.signal(), Some(number), "{name}, {out}: {status}");
            assert!(contents(&folder) == before, "{name}, {out}: something was left");
        }
    }
}

/// A cut of the long table that was stopped while it writes.
fn stopped_cut(folder: &Path, more: &[&str]) -> Child {
    let cut = [&["cut", "--kind", LONG, "--shape", "1", "--subset", "0..1"], more].concat();
    let one = |_| {
        sh(folder, "rm -f .durpaxeta-*");
        stopped_while_writing(folder, start(folder, &cut))
    };
    (0..100).find_map(one).expect("it never was slow enough")
}

/// Who writes a file that another command writes waits, says so, and can be stopped.
#[test]
fn a_second_writer_waits() {
    let folder = prepared("turns", 8_000_000);
    let mut first = stopped_cut(&folder, &["--describe", "long.bin", "keep.bin"]);
    let before = fs::read(folder.join("keep.bin")).unwrap();
    let write = |out: &str| {
        let (shows, has) = terminal();
        (shows, start_telling(&folder, &["write", "--describe", "guests.txt", out], has.into()))
    };
    let mut waiting = [write("keep.bin"), write("keep.bin")];
    // Another file has another turn.
    assert!(write("other.bin").1.wait().unwrap().success());
    for (shows, _) in &mut waiting {
        let told = "durpaxeta: waiting for another command that writes keep.bin";
        let all = shown(shows, Some(told));
        assert!(all.contains(told), "{all:?}");
    }
    let [(mut shows, mut stopped), (_shows, mut second)] = waiting;
    send(&stopped, 15);
    assert_eq!(stopped.wait().unwrap().signal(), Some(15));
    let all = shown(&mut shows, None);
    assert!(all.ends_with(ERASED), "{all:?}");
    assert!(first.try_wait().unwrap().is_none() && second.try_wait().unwrap().is_none());
    assert!(fs::read(folder.join("keep.bin")).unwrap() == before);
    send(&first, SIGCONT);
    assert!(first.wait().unwrap().success() && second.wait().unwrap().success());
    good(&folder, &["check", "keep.bin"]);
    assert_eq!(fs::read(folder.join("keep.bin")).unwrap(), fs::read(folder.join("guests.bin")).unwrap());
    assert!(!temporary(&folder));
}

/// What a command that was killed left is removed by the next one that writes the file, and by no other.
#[test]
fn what_was_left_is_removed() {
    let folder = prepared("left-over", 8_000_000);
    for describe in [&["--describe"][..], &[]] {
        let mut child = stopped_cut(&folder, &[describe, &["long.bin", "out.bin"]].concat());
        child.kill().unwrap();
        child.wait().unwrap();
        assert!(temporary(&folder));
        good(&folder, &["write", "guests.txt", "other.bin"]);
        assert!(temporary(&folder));
        good(&folder, &[&["write"], describe, &["guests.txt", "out.bin"]].concat());
        assert!(!temporary(&folder));
        sh(&folder, "rm -f out.bin out.bin.dpx");
    }
}

/// The most files that one command makes.
const SET: [&str; 7] = ["arrangement", "--kind", KIND, "--cells", "4", "--all", "set"];

/// A folder of files is whole or not there.
#[test]
fn a_signal_while_a_folder_is_made_leaves_nothing() {
    let folder = prepared("folders", 10);
    let before = contents(&folder);
    for (number, name) in SIGNALS {
        let mut tries = 0;
        loop {
            let status = stopped_while_writing(&folder, start(&folder, &SET)).map(|mut child| {
                send(&child, number);
                send(&child, SIGCONT);
                child.wait().unwrap()
            });
            let there = folder.join("set").exists();
            match status {
                Some(status) if !there => {
                    assert_eq!(status.signal(), Some(number), "{name}: {status}");
                    break;
                }
                // Too late, or it was killed outright and left its temporary folder.
                _ => sh(&folder, "rm -rf set .durpaxeta-*"),
            };
            tries += 1;
            assert!(tries < 100, "{name} never came in time");
        }
        assert!(!temporary(&folder), "{name}: something was left");
        assert!(contents(&folder) == before, "{name}: something was changed");
    }
}

/// Who makes a folder that another command makes waits, and then finds it or makes it; what a command that was killed left is removed.
#[test]
fn a_folder_has_its_turns_too() {
    let folder = prepared("folder-turns", 10);
    let stopped = || {
        let one = |_| {
            sh(&folder, "rm -rf set .durpaxeta-*");
            stopped_while_writing(&folder, start(&folder, &SET))
        };
        (0..100).find_map(one).expect("it never was slow enough")
    };
    let one = ["arrangement", "--kind", KIND, "--cells", "1", "--all", "set"];
    let (mut first, (mut shows, has)) = (stopped(), terminal());
    let mut second = start_telling(&folder, &one, has.into());
    let told = "durpaxeta: waiting for another command that writes set";
    let all = shown(&mut shows, Some(told));
    assert!(all.contains(told), "{all:?}");
    send(&first, SIGCONT);
    assert!(first.wait().unwrap().success());
    let all = shown(&mut shows, None);
    assert!(all.ends_with(&format!("{ERASED}durpaxeta: set is there already, and is no empty folder\r\n")), "{all:?}");
    assert_eq!(second.wait().unwrap().code(), Some(73));
    assert_eq!(fs::read_dir(folder.join("set")).unwrap().count(), 1297);
    assert!(!temporary(&folder));

    let mut killed = stopped();
    killed.kill().unwrap();
    killed.wait().unwrap();
    assert!(writing(&folder) && !folder.join("set").exists());
    good(&folder, &["write", "guests.txt", "other.bin"]);
    assert!(writing(&folder));
    good(&folder, &one);
    assert_eq!(fs::read_dir(folder.join("set")).unwrap().count(), 7);
    assert!(!temporary(&folder));
}

/// A signal that was ignored stays so: a command under nohup goes on.
#[test]
fn an_ignored_signal_stays_ignored() {
    let folder = prepared("nohup", 8_000_000);
    let line = format!("trap '' HUP; exec {}", cut_long("keep.bin").replace("durpaxeta", TOOL));
    for _ in 0..100 {
        let child = Command::new("sh").args(["-c", &line]).current_dir(&folder).spawn().unwrap();
        let Some(mut child) = stopped_while_writing(&folder, child) else {
            sh(&folder, "rm -f .durpaxeta-*");
            continue;
        };
        send(&child, 1);
        send(&child, SIGCONT);
        assert_eq!(child.wait().unwrap().code(), Some(0));
        assert!(fs::read(folder.join("keep.bin")).unwrap() == long(8_000_000));
        return;
    }
    panic!("it never was slow enough");
}

// ----------------------------------------------------------------------------------------------- readers that left

/// Runs a line whose reader has left before anything was written; answers its status and what it told. A child that another test is
/// starting may hold the reader's end for a moment yet: then what is written is delivered, with status 0, and the line runs again.
fn unread(folder: &Path, arguments: &[&str], input: &[u8]) -> (Option<i32>, String) {
    for _ in 0..100 {
        let mut child = piped(folder, arguments);
        drop(child.stdout.take());
        child.stdin.take().unwrap().write_all(input).unwrap();
        let out = child.wait_with_output().unwrap();
        if out.status.code() != Some(0) {
            return (out.status.code(), told(out.stderr));
        }
    }
    panic!("what was written always found a reader");
}

/// As any tool before `head`: what is not read is not written, and nothing is told; the status is that of a command that SIGPIPE ended.
#[test]
fn a_reader_that_leaves_is_no_error() {
    let folder = prepared("head", 10);
    good(&folder, &["write", "--describe", "guests.txt", "described.bin"]);
    good(&folder, &["generate", "--kind", KIND, "--shape", "256x256", "--start", "7", "--describe", "load.bin"]);
    good(&folder, &["table", "make", "--store", "99", "described.bin", "work.txt"]);
    fs::write(folder.join("plane.txt"), "1\n".repeat(65_536)).unwrap();
    for (line, first) in [
        ("show load.bin", "durpaxeta worksheet 1\n"),
        ("show --json load.bin", "{\"is\":\"null\",\"cell\":[0,0],\"masks\":[0,0],\"null\":1}\n"),
        ("guest show --rights-file plane.txt load.bin", "durpaxeta worksheet 1\n"),
        ("explain load.bin", "load.bin: depth 2, ragged, width 4, index at start; 256x256; 407884 bytes\n"),
    ] {
        let said = sh(&folder, &format!("{{ durpaxeta {line}; echo status $? >&2; }} | head -n 1"));
        let status = if line.starts_with("explain") { 0 } else { 141 };
        assert_eq!((said.text(), &said.err), (first, &format!("status {status}\n")), "{line}");
    }
    for words in [
        &["show", "described.bin"][..],
        &["show", "--json", "described.bin"],
        &["check", "described.bin"],
        &["same", "described.bin", "described.bin"],
        &["explain", "described.bin"],
        &["write", "guests.txt", "-"],
        &["cut", "--subset", "0..1,0..2", "described.bin", "-"],
        &["merge", "--shape", "2x2", "--part", "0..2,0..2", "described.bin", "-"],
        &["generate", "--kind", KIND, "--shape", "2x2", "--start", "1", "-"],
        &["table", "make", "--store", "9", "described.bin", "-"],
        &["table", "show", "work.txt"],
        &["table", "set", "--cell", "0,0", "--to", "null at level 1", "work.txt", "/dev/stdout"],
        &["table", "preview", "--cell", "0,0", "--to", "null at level 1", "work.txt"],
        &["table", "pack", "--most", "1", "work.txt", "-"],
        &["guest", "show", "--rights", "1,1,1,1", "described.bin"],
        &["guest", "read", "--rights", "1,1,1,1", "described.bin", "-"],
        &["guest", "edit", "--rights", "1,1,1,1", "--cell", "0,0", "--to", "null at level 1", "work.txt", "-"],
        &["arrangement", "--kind", KIND, "--cells", "2", "--number", "8"],
        &["arrangement", "--kind", KIND, "--cells", "2", "--count"],
        &["example"],
        &["help"],
        &["help", "show"],
        &["--version"],
    ] {
        assert_eq!(unread(&folder, words, b""), (Some(141), String::new()), "{words:?}");
    }
    // The reader of a named pipe is another matter: OUT was not written.
    let said = sh(&folder, "mkfifo pipe; head -c 1 pipe > first & durpaxeta cut --subset 0..256,0..256 load.bin pipe");
    assert_eq!((said.status, said.err.as_str()), (74, "durpaxeta: cannot write pipe: whoever reads it has left\n"));
}

#[test]
fn a_refusal_keeps_its_status_when_the_reader_leaves() {
    let folder = prepared("left", 10);
    let stored = fs::read(folder.join("guests.bin")).unwrap();
    let nothing = String::new();
    for command in ["check", "explain"] {
        let line = [command, "--kind", KIND, "--shape", "2x2", "-"];
        for _ in 0..10 {
            assert_eq!(unread(&folder, &line, &stored[..63]), (Some(8), nothing.clone()));
        }
        assert_eq!(unread(&folder, &line, &stored), (Some(141), nothing.clone()), "what is valid was not delivered");
    }
    let same = ["same", "--kind", KIND, "--shape", "2x2", "guests.bin", "-"];
    let other = [&stored[..63], b"9"].concat();
    for (input, status) in [(&stored[..63], 8), (&other, 71), (&stored, 141)] {
        assert_eq!(unread(&folder, &same, input), (Some(status), nothing.clone()));
    }
    let (status, told) = unread(&folder, &["show", "--kind", KIND, "--shape", "2x2", "-"], &stored[..63]);
    assert!(status == Some(8) && told.starts_with("durpaxeta: standard input: refusal 8: "), "{told}");
}

#[test]
fn a_closed_output_is_an_error() {
    let folder = prepared("closed", 10);
    let table = format!("--kind '{KIND}' --shape 2x2");
    let closed = "durpaxeta: cannot write standard output: it is closed\n";
    for line in ["show TABLE guests.bin", "check TABLE guests.bin", "example", "help", "write guests.txt -"] {
        let said = sh(&folder, &format!("durpaxeta {} >&-", line.replace("TABLE", &table)));
        assert_eq!((said.status, said.err.as_str()), (74, closed), "{line}");
    }
    let damaged = sh(&folder, &format!("head -c 63 guests.bin > damaged.bin; durpaxeta check {table} damaged.bin >&-"));
    assert_eq!((damaged.status, damaged.err.as_str()), (8, closed));
    assert_eq!(sh(&folder, "durpaxeta write guests.txt /dev/stdout >&-").status, 74);
    let said = sh(&folder, &format!("durpaxeta check {table} - <&-"));
    assert_eq!((said.status, said.err.as_str()), (74, "durpaxeta: cannot read standard input: it is closed\n"));
    // Without standard error nothing can be told; the status stands.
    assert_eq!(sh(&folder, &format!("durpaxeta check {table} damaged.bin >&- 2>&-")).status, 8);
    // With all closed, a file is still written right, and into no other.
    assert_eq!(sh(&folder, "durpaxeta write guests.txt again.bin <&- >&- 2>&-").status, 0);
    assert_eq!(fs::read(folder.join("again.bin")).unwrap(), fs::read(folder.join("guests.bin")).unwrap());
}

// ------------------------------------------------------------------------------------------------ inputs as outputs

#[test]
fn an_output_that_is_an_input_is_refused() {
    let folder = prepared("links", 10);
    symlink("guests.txt", folder.join("symlink.txt")).unwrap();
    symlink("symlink.txt", folder.join("symlink2.txt")).unwrap();
    fs::hard_link(folder.join("guests.txt"), folder.join("hardlink.txt")).unwrap();
    fs::create_dir(folder.join("d")).unwrap();
    let before = contents(&folder);
    for files in [
        "guests.txt guests.txt",
        "guests.txt ./guests.txt",
        "guests.txt d/../guests.txt",
        "guests.txt symlink.txt",
        "guests.txt symlink2.txt",
        "symlink2.txt guests.txt",
        "guests.txt hardlink.txt",
        "- guests.txt < guests.txt",
        "guests.txt - >> guests.txt",
        "guests.txt /dev/stdout >> guests.txt",
        "guests.txt /dev/fd/3 3>> guests.txt",
    ] {
        let said = sh(&folder, &format!("durpaxeta write {files}"));
        assert_eq!(said.status, 64, "{files}: {}", said.err);
        assert!(said.err.contains("give the output another name"), "{files}: {}", said.err);
        assert!(contents(&folder) == before, "{files}");
    }
    // What a pipeline reads it may write: all is read before anything is written.
    let table = format!("--kind '{KIND}' --shape 2x2");
    assert_eq!(sh(&folder, &format!("durpaxeta show {table} guests.bin | durpaxeta write - guests.bin")).status, 0);
    assert!(contents(&folder) == before);
}

/// The same for all other commands, and for a description.
#[test]
fn no_input_of_any_command_is_replaced() {
    let folder = prepared("inputs", 10);
    let row = ["--kind", KIND, "--shape", "2x2", "--subset"];
    good(&folder, &[&["cut"][..], &row, &["0..1,0..2", "guests.bin", "row0.bin"]].concat());
    good(&folder, &[&["cut"][..], &row, &["1..2,0..2", "guests.bin", "row1.bin"]].concat());
    fs::write(folder.join("old.bin"), [1, 0, 0, 0, 1, 0, 0, 0, b'A']).unwrap();
    fs::write(folder.join("plane.txt"), "1,1\n1,1\n").unwrap();
    good(&folder, &["table", "make", "--kind", KIND, "--shape", "2x2", "--store", "9", "guests.bin", "work.txt"]);
    fs::hard_link(folder.join("row1.bin"), folder.join("linked.bin")).unwrap();
    // A worksheet that has the name of a description.
    fs::copy(folder.join("guests.txt"), folder.join("table.dpx")).unwrap();
    let before = contents(&folder);
    let kind = "depth 0, ragged, width 4, index at end";
    for line in [
        &[&["cut"][..], &row, &["0..2,0..2", "guests.bin", "./guests.bin"]].concat()[..],
        &[
            "merge",
            "--kind",
            KIND,
            "--shape",
            "2x2",
            "--part",
            "0..1,0..2",
            "row0.bin",
            "--part",
            "1..2,0..2",
            "row1.bin",
            "linked.bin",
        ],
        &["convert", "--kind", kind, "--shape", "1", "old.bin", "old.bin"],
        &["write", "--describe", "table.dpx", "table"],
        &["guest", "read", "--kind", KIND, "--shape", "2x2", "--rights", "1,1,1,1", "guests.bin", "guests.bin"],
        &["guest", "read", "--kind", KIND, "--shape", "2x2", "--rights-file", "plane.txt", "guests.bin", "./plane.txt"],
        &["guest", "edit", "--rights", "1,1,1,1", "--cell", "0,0", "--to", "value \"\"", "work.txt", "work.txt"],
        &[
            "guest",
            "edit",
            "--rights-file",
            "plane.txt",
            "--cell",
            "0,0",
            "--to",
            "value \"\"",
            "work.txt",
            "plane.txt",
        ],
    ] {
        let said = run(&folder, line, b"");
        assert_eq!(said.status, 64, "{line:?}: {}", said.err);
        assert!(said.err.contains("give the output another name"), "{line:?}: {}", said.err);
        assert!(contents(&folder) == before, "{line:?}");
    }
}

#[test]
fn no_clobber_replaces_nothing() {
    let folder = prepared("clobber", 10);
    symlink("nowhere.bin", folder.join("dangling.bin")).unwrap();
    fs::write(folder.join("other.bin.dpx"), b"something").unwrap();
    let before = contents(&folder);
    let table = ["--kind", KIND, "--shape", "2x2"];
    let old = ["--kind", LONG, "--shape", "1"];
    let whole = "0..2,0..2";
    for (out, described) in [("keep.bin", false), ("keep.bin", true), ("dangling.bin", false), ("other.bin", true)] {
        let more = if described { &["--no-clobber", "--describe"][..] } else { &["--no-clobber"] };
        for line in [
            [&["write"][..], more, &["guests.txt", out]].concat(),
            [&["cut"][..], &table, more, &["--subset", whole, "guests.bin", out]].concat(),
            [&["merge"][..], &table, more, &["--part", whole, "guests.bin", out]].concat(),
            [&["convert"][..], &old, more, &["-", out]].concat(),
            [&["guest", "read"][..], &table, more, &["--rights", "1,1,1,1", "guests.bin", out]].concat(),
        ] {
            let said = run(&folder, &line, &[1, 0, 0, 0, 1, 0, 0, 0, b'A']);
            assert_eq!(said.status, 73, "{line:?}: {}", said.err);
            assert!(said.err.contains("is there already, and --no-clobber keeps it"), "{}", said.err);
            assert!(contents(&folder) == before && !folder.join("nowhere.bin").exists(), "{line:?}");
        }
    }
    good(&folder, &["write", "--no-clobber", "guests.txt", "new.bin"]);
    assert_eq!(fs::read(folder.join("new.bin")).unwrap(), fs::read(folder.join("guests.bin")).unwrap());
    fs::remove_file(folder.join("new.bin")).unwrap();
    assert!(contents(&folder) == before);
}

// ----------------------------------------------------------------------------------------------------- what is kept

#[test]
fn modes_and_links_stay() {
    let folder = prepared("modes", 10);
    let mode = |name: &str| fs::metadata(folder.join(name)).unwrap().mode() & 0o7777;
    for wanted in [0o600, 0o640, 0o664, 0o755] {
        fs::set_permissions(folder.join("keep.bin"), Permissions::from_mode(wanted)).unwrap();
        good(&folder, &["write", "guests.txt", "keep.bin"]);
        assert_eq!(mode("keep.bin"), wanted);
    }
    assert_eq!(sh(&folder, "umask 027; durpaxeta write --describe guests.txt new.bin").status, 0);
    assert_eq!((mode("new.bin"), mode("new.bin.dpx")), (0o640, 0o640));
    // A symlink stays one, and what it leads to is replaced; also where nothing was there yet.
    fs::create_dir(folder.join("d")).unwrap();
    for (link, target) in [("link.bin", "d/target.bin"), ("link2.bin", "link.bin")] {
        symlink(target, folder.join(link)).unwrap();
        good(&folder, &["write", "guests.txt", link]);
        assert!(fs::symlink_metadata(folder.join(link)).unwrap().is_symlink());
        let target = fs::symlink_metadata(folder.join("d/target.bin")).unwrap();
        assert!(target.is_file() && target.len() == 64);
    }
    // Another name of the old file keeps the old bytes.
    fs::write(folder.join("one.bin"), b"old").unwrap();
    fs::hard_link(folder.join("one.bin"), folder.join("two.bin")).unwrap();
    good(&folder, &["write", "guests.txt", "one.bin"]);
    assert_eq!(fs::read(folder.join("two.bin")).unwrap(), b"old");
    symlink("circle.bin", folder.join("circle.bin")).unwrap();
    let circle = run(&folder, &["write", "guests.txt", "circle.bin"], b"");
    assert_eq!(circle.status, 74, "{}", circle.err);
    // A name of 255 bytes has room for no longer one beside it.
    let name = "n".repeat(255);
    good(&folder, &["write", "guests.txt", &name]);
    good(&folder, &["check", "--kind", KIND, "--shape", "2x2", &name]);
}

#[test]
fn a_protected_file_is_not_replaced() {
    let folder = prepared("protected", 10);
    fs::set_permissions(folder.join("keep.bin"), Permissions::from_mode(0o444)).unwrap();
    fs::set_permissions(&folder, Permissions::from_mode(0o777)).unwrap();
    let before = contents(&folder);
    // The administrator may write to any file, so that one runs it as nobody.
    let line = "durpaxeta write guests.txt keep.bin";
    let administrator = fs::OpenOptions::new().write(true).open(folder.join("keep.bin")).is_ok();
    let nobody = "setpriv --reuid 65534 --regid 65534 --clear-groups";
    if administrator && sh(&folder, &format!("{nobody} durpaxeta --version && {nobody} test -w .")).status != 0 {
        println!("skipped: whoever runs this may write to a protected file");
        return;
    }
    let said = if administrator { sh(&folder, &format!("{nobody} {line}")) } else { sh(&folder, line) };
    assert_eq!((said.status, said.err.as_str()), (74, "durpaxeta: cannot write keep.bin: Permission denied\n"));
    assert!(contents(&folder) == before);
}

/// Two at once: each file that is seen is a whole one.
#[test]
fn readers_see_whole_files() {
    let folder = prepared("whole", 3_000_000);
    fs::write(folder.join("short.bin"), long(10)).unwrap();
    fs::copy(folder.join("short.bin"), folder.join("out.bin")).unwrap();
    let writer = {
        let folder = folder.clone();
        thread::spawn(move || {
            for round in 0..6 {
                let from = ["long.bin", "short.bin"][round % 2];
                good(&folder, &["cut", "--kind", LONG, "--shape", "1", "--subset", "0..1", from, "out.bin"]);
            }
        })
    };
    let mut seen = 0;
    while !writer.is_finished() {
        let mut bytes = Vec::new();
        fs::File::open(folder.join("out.bin")).unwrap().read_to_end(&mut bytes).unwrap();
        assert!([24 + 10, 24 + 3_000_000].contains(&bytes.len()), "{}", bytes.len());
        seen += 1;
    }
    writer.join().unwrap();
    assert!(seen > 0);
    assert!(!temporary(&folder));
}
