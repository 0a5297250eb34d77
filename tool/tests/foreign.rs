//! Text of others (names of files, worksheets, descriptions, working tables, rights planes, the command line itself) reaches the screen
//! on one line and as it is: it moves no cursor, hides nothing, and forges no line of the command's own.

mod common;

use common::*;
use std::collections::BTreeSet;
use std::ffi::{OsStr, OsString};
use std::fs;
use std::os::unix::ffi::{OsStrExt, OsStringExt};
use std::path::Path;
use std::process::{Command, Stdio};

/// What would come raw: line ends, ESC, BEL, a C1 control, DEL, bidi controls, what is not seen, what is no UTF-8.
const RAW: [&[u8]; 14] = [
    b"\n",
    b"\r",
    b"\t",
    b"\x1B[2J\x1B[H",
    b"\x07",
    b"\x7F",
    "\u{9B}2J".as_bytes(),
    "\u{85}".as_bytes(),
    "\u{2028}".as_bytes(),
    "\u{202E}".as_bytes(),
    "\u{2066}".as_bytes(),
    "\u{200B}".as_bytes(),
    b"\xFF",
    b"\xE2\x80",
];
const FORGED: &str = "guests.bin: valid";

/// The raw bytes, and then what would be a line of its own behind them.
fn evil(raw: &[u8]) -> OsString {
    OsString::from_vec([b"x", raw, FORGED.as_bytes()].concat())
}

/// Whether a character may come to the screen; said here once more, and not by the command's own rule.
fn harmless(character: char) -> bool {
    let seen = !character.is_control() && character != '\u{FFFD}';
    seen && !matches!(character, '\u{200B}'..='\u{200F}' | '\u{2028}'..='\u{202E}' | '\u{2060}'..='\u{206F}' | '\u{FEFF}')
}

/// Runs a line whose words need be no text, and looks at all that it says. Answers its status and what it said.
fn said(folder: &Path, words: &[OsString]) -> (i32, String) {
    let out = Command::new(TOOL).args(words).current_dir(folder).stdin(Stdio::null()).output().unwrap();
    let text = String::from_utf8([out.stdout, out.stderr].concat());
    let text = text.unwrap_or_else(|error| panic!("{words:?}: no text: {error}"));
    for line in text.lines() {
        assert!(line.chars().all(harmless), "{words:?}: {line:?}");
        assert!(!line.trim_start_matches("durpaxeta: ").starts_with(FORGED), "{words:?} forges a line: {text}");
    }
    assert!(text.is_empty() || text.ends_with('\n'), "{words:?}: {text}");
    (out.status.code().unwrap(), text)
}

/// A line with a hostile word in the place of `%`.
fn line(words: &str, word: &OsStr) -> Vec<OsString> {
    let kind = |one: &str| if one == "KIND" { OsString::from(KIND) } else { OsString::from(one) };
    let filled = |one: &str| match one.split_once('%') {
        Some((before, behind)) => OsString::from_vec([before.as_bytes(), word.as_bytes(), behind.as_bytes()].concat()),
        None => kind(one),
    };
    words.split(' ').map(filled).collect()
}

/// Each command with hostile names of files, there and not there, good and damaged.
const FILES: [&str; 60] = [
    "show --kind KIND --shape 2x2 none%",
    "show none%",
    "show described/%",
    "show --kind KIND --shape 2x2 damaged/%",
    "show --kind KIND --shape 3x3 described/%",
    "write none% out",
    "write sheets/% none/%",
    "write damaged/% out",
    "write sheets/% sheets/%",
    "write sheets/% described/%",
    "write --no-clobber sheets/% described/%",
    "cut --kind KIND --shape 2x2 --subset 0..1,0..2 damaged/% out",
    "cut --subset 0..1,0..2 none% out",
    "merge --kind KIND --shape 2x2 --part 0..2,0..2 damaged/% out",
    "merge --shape 2x2 --part 0..1,0..2 described/% --part 1..2,0..2 none% out",
    "merge described/% out",
    "merge none% out",
    "merge parts/% parts/p out",
    "merge parts/% parts/% out",
    "merge --shape 3x3 parts/% out",
    "merge --part 1..2,0..2 parts/% out",
    "cut --subset 0..1,0..2 --describe described/% parts/%",
    "cut --subset 0..1,0..2 --describe described/% none/%",
    "cut --subset 0..1,0..2 --describe --no-clobber described/% parts/%",
    "write --describe sheets/s directories/%",
    "guest read --rights 1,0,1,0 described/% parts/%",
    "convert --kind depth%0,ragged,width%4,index%at%start --shape 2 damaged/% out",
    "convert --to-interleaved described/% out",
    "generate --kind KIND --shape 2x2 --start 1 none/%",
    "arrangement --kind KIND --cells 1 --all none/%",
    "arrangement --kind KIND --cells 1 --all tables/%",
    "arrangement --kind KIND --cells 1 --all %/..",
    "arrangement --kind KIND --cells 4 --number 1296 %",
    "check described/%",
    "check --kind KIND --shape 2x2 tables/%",
    "check --kind KIND --shape 2x2 damaged/%",
    "check --interleaved --shape 2 old/%",
    "same described/% described/%",
    "same --kind KIND --shape 2x2 tables/% other/%",
    "same --kind KIND --shape 2x2 tables/% damaged/%",
    "explain --kind KIND --shape 2x2 tables/%",
    "explain --kind KIND --shape 2x2 damaged/%",
    "explain mistaken/%",
    "table make --kind KIND --shape 2x2 --store 1 tables/% out",
    "table make --store 12 described/% parts/%",
    "table set --cell 0,0 --to null%at%level%1 works/w parts/%",
    "table show damaged/%",
    "table set --cell 0,0 --to null%at%level%1 works/% works/%",
    "table preview --cell 9,9 --to null works/%",
    "table pack --most 1 works/% out",
    "guest show --rights-file damaged/% described/%",
    "guest read --rights 1,0,1 described/% out",
    "guest edit --rights 0,0,0,0 --cell 0,0 --to null works/% out",
    "migrate begin --shape 2 --part 0..2 damaged/% none%",
    "migrate begin --shape 2 --part 0..2 old/% tables/%",
    "migrate begin --shape 2 --part 0..2 old/% moving%",
    "migrate show moving%",
    "migrate cut --subset 0..2 moving% old/%",
    "migrate run moving%",
    "migrate step works/%",
];

/// Hostile words on the command line.
const WORDS: [&str; 33] = [
    "%",
    "help %",
    "help show %",
    "--version %",
    "table %",
    "guest %",
    "example %",
    "show --% f",
    "show --hex=% --%=1 f",
    "show --kind % --shape 2x2 f",
    "show --kind KIND --shape % f",
    "show --kind KIND --shape 2x2% f",
    "write a b %",
    "cut --kind KIND --shape 2x2 --subset % tables/t out",
    "cut --kind KIND --shape 2x2 --subset 0..9,0..9% tables/t out",
    "merge --kind KIND --shape 2x2 --part % f out",
    "convert --kind % --shape 2 f out",
    "generate --kind KIND --shape 2x2 --start % out",
    "arrangement --kind depth%9,%ragged --cells 2 --count",
    "arrangement --kind KIND --cells % --count",
    "arrangement --kind KIND --cells 2 --number %",
    "arrangement --kind KIND --cells 2 --number 99 %",
    "check --strict=% f",
    "same --kind % a b",
    "explain --shape % f",
    "table make --store % --kind KIND --shape 2x2 tables/t out",
    "table set --cell % --to null works/w out",
    "table set --cell 0,0 --to % works/w out",
    "table pack --most % works/w out",
    "guest show --rights % f",
    "migrate %",
    "migrate begin --shape 2 --part % f out",
    "migrate cut --subset % moving out",
];

#[test]
fn names_of_files_and_words() {
    let mut commands = BTreeSet::new();
    for (number, raw) in RAW.iter().enumerate() {
        let folder = folder(&format!("foreign-{number}"));
        affinity(&folder);
        let (name, table) = (evil(raw), fs::read(folder.join("guests.bin")).unwrap());
        good(&folder, &["write", "--describe", "guests.txt", "described.bin"]);
        good(&folder, &["table", "make", "--kind", KIND, "--shape", "2x2", "--store", "12", "guests.bin", "work.txt"]);
        good(&folder, &["cut", "--subset", "0..1,0..2", "--describe", "described.bin", "part.bin"]);
        let read = |file: &str| fs::read(folder.join(file)).unwrap();
        for (place, bytes) in [
            ("tables", table.clone()),
            ("described", table.clone()),
            ("mistaken", [&table[..63], b"9"].concat()),
            ("other", [&table[..63], b"9"].concat()),
            ("parts", read("part.bin")),
            ("damaged", table[..63].to_vec()),
            ("sheets", read("guests.txt")),
            ("works", read("work.txt")),
            ("old", vec![2, 0, 0, 0, 1, 0, 0, 0, b'A', 0, 0, 0, 0, b'!']),
        ] {
            fs::create_dir(folder.join(place)).unwrap();
            fs::write(folder.join(place).join(&name), &bytes).unwrap();
            fs::write(folder.join(place).join(&place[..1]), &bytes).unwrap();
            if place == "described" || place == "mistaken" {
                let beside = OsString::from_vec([name.as_bytes(), b".dpx"].concat());
                fs::write(folder.join(place).join(beside), read("described.bin.dpx")).unwrap();
            }
        }
        let beside = OsString::from_vec([name.as_bytes(), b".dpx"].concat());
        fs::write(folder.join("parts").join(&beside), read("part.bin.dpx")).unwrap();
        fs::write(folder.join("parts/p.dpx"), read("part.bin.dpx")).unwrap();
        fs::create_dir_all(folder.join("directories").join(&beside)).unwrap();
        let mut told = 0;
        for words in FILES.iter().chain(&WORDS) {
            commands.extend(words.split(' ').next().map(str::to_string));
            let (_, text) = said(&folder, &line(words, &name));
            told += usize::from(text.contains(FORGED));
        }
        // Most say what they were given; an option's value that is no text is not said.
        assert!(told > 30, "{told} of {raw:02X?}");
    }
    let help = run(Path::new("."), &["help"], b"");
    let all = help.text().lines().filter_map(|line| line.strip_prefix("  durpaxeta ")?.split(' ').next());
    for command in all.filter(|word| !word.starts_with("--")) {
        assert!(commands.contains(command), "{command} is not tried");
    }
}

/// As it is: each byte of a name is there, in the words of a worksheet.
#[test]
fn a_name_as_it_is() {
    let folder = folder("foreign-name");
    affinity(&folder);
    for (name, told) in [
        (&b"x\nguests.bin"[..], "x\\nguests.bin"),
        (b"a\tb\rc\x1B[2Jd", "a\\tb\\rc\\x1B[2Jd"),
        (b"\xFFz\xE2\x80", "\\xFFz\\xE2\\x80"),
        ("\u{202E}nib.\u{9B}".as_bytes(), "\\xE2\\x80\\xAEnib.\\xC2\\x9B"),
        ("Kühlung 25 °C 冷却 \"a\\b\"".as_bytes(), "Kühlung 25 °C 冷却 \"a\\b\""),
    ] {
        let name = OsStr::from_bytes(name);
        fs::copy(folder.join("guests.bin"), folder.join(name)).unwrap();
        let (status, text) = said(&folder, &line("check --kind KIND --shape 2x2 %", name));
        assert_eq!((status, text.lines().next()), (0, Some(&*format!("{told}: valid"))));
        fs::remove_file(folder.join(name)).unwrap();
        let (status, text) = said(&folder, &line("check --kind KIND --shape 2x2 %", name));
        assert_eq!((status, text), (74, format!("durpaxeta: cannot open {told}: No such file or directory\n")));
        // A description of that name, where OUT is not described anew.
        let beside = OsString::from_vec([name.as_bytes(), b".dpx"].concat());
        fs::write(folder.join(&beside), "").unwrap();
        let (status, text) = said(&folder, &line("write guests.txt %", name));
        assert!(status == 64 && text.starts_with(&format!("durpaxeta: {told}.dpx is there and ")), "{text}");
        fs::remove_file(folder.join(&beside)).unwrap();
        let (status, text) = said(&folder, &line("explain %", name));
        assert!(status == 64 && text.contains(&format!("and there is no {told}.dpx; for example")), "{text}");
    }
}

/// What is in a file, wherever it stands there.
#[test]
fn lines_of_files() {
    let folder = folder("foreign-lines");
    affinity(&folder);
    let kind = format!("kind: {KIND}\n");
    let sheet = format!("durpaxeta worksheet 1\n{kind}shape: 1\n");
    let work = format!("durpaxeta working table 1\n{kind}shape: 1\nstore: 4\n");
    let texts = [
        ("write", "%\n".to_string()),
        ("write", "durpaxeta worksheet %\n".into()),
        ("write", format!("{sheet}0 | 01 01 | value \"%\n")),
        ("write", format!("{sheet}0 | 01 01 | value \"\" %\n")),
        ("write", format!("{sheet}0 | 01 01 | value hex %\n")),
        ("write", format!("{sheet}0 | 01 01 | null at level %\n")),
        ("write", format!("{sheet}0 | 01 01 | %\n")),
        ("write", format!("{sheet}0 | % | value \"\"\n")),
        ("write", format!("{sheet}% | 01 01 | value \"\"\n")),
        ("write", "durpaxeta worksheet 1\nkind: %\n".into()),
        ("write", "durpaxeta worksheet 1\nkind: depth 1, %\n".into()),
        ("write", "durpaxeta worksheet 1\nkind: depth 9, fixed, size 1,\u{2003}little\n".into()),
        ("write", format!("durpaxeta worksheet 1\n{kind}shape: %\n")),
        ("table show", "%\n".into()),
        ("table show", "durpaxeta working table %\n".into()),
        ("table show", format!("{work}% | 01 01 | start 0, length 0\n")),
        ("table show", format!("{work}0 | % | start 0, length 0\n")),
        ("table show", format!("{work}0 | 01 01 | %\n")),
        ("table show", format!("{}0 | 01 01 | % | start 0, length 0\n", work.replace("table 1", "table 2"))),
        ("table show", format!("{work}at 0 | \"%\n")),
        ("table show", format!("{work}at 0 | hex %\n")),
        ("table show", format!("{work}at % | \"\"\n")),
        ("table show", format!("{work}store: %\n")),
        ("table show", "durpaxeta working table 1\nkind: %\n".into()),
        ("table show", format!("durpaxeta working table 1\n{kind}shape: %\n")),
        ("guest show --rights-file", "%\n".into()),
        ("guest show --rights-file", "1,%\n".into()),
        ("show", "%\n".into()),
        ("show", "durpaxeta description %\n".into()),
        ("show", "durpaxeta description 1\nkind: %\n".into()),
        ("show", "durpaxeta description 1\nshape: %\n".into()),
        ("show", "durpaxeta description 1\npart: %\n".into()),
        ("show", "durpaxeta description 1\npart: 0..1,0..2 of %\n".into()),
        ("show", "durpaxeta description 1\npart: %0..1,0..2 of 2x2\n".into()),
        ("show", "durpaxeta description 1\nbytes: 1\ndurpaxeta description %\n".into()),
        ("show", "durpaxeta description 1\nbytes: %\n".into()),
        ("show", "durpaxeta description 1\ncrc-32c: %\n".into()),
        ("show", "durpaxeta description 1\n%: 1\n".into()),
    ];
    for raw in RAW {
        for (command, text) in &texts {
            let text = line(&text.replace(' ', "\0"), &evil(raw)).remove(0).into_vec();
            let text: Vec<u8> = text.into_iter().map(|byte| if byte == 0 { b' ' } else { byte }).collect();
            let file = if *command == "show" { "guests.bin.dpx" } else { "text" };
            fs::write(folder.join(file), &text).unwrap();
            let rest = match *command {
                "show" => "guests.bin",
                "write" => "text out",
                "table show" => "text",
                _ => "text --kind KIND --shape 2x2 guests.bin",
            };
            let (status, told) = said(&folder, &line(&format!("{command} {rest}"), OsStr::new("")));
            assert_ne!(status, 0, "{command}: {told}");
            let _ = fs::remove_file(folder.join("guests.bin.dpx"));
        }
    }
}
