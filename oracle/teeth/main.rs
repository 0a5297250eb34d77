//! Puts each mistake of mistakes.txt into a copy of the judge, builds it in the archive's place and asks the driver whether it sees it.
//!
//!   teeth FOLDER SEED REQUESTS [WORD]     FOLDER holds the driver; the copies are made there. WORD: only mistakes with it in their name

use std::fs;
use std::process::Command;

struct Mistake {
    name: String,
    file: String,
    old: String,
    new: String,
}

fn mistakes(text: &str) -> Vec<Mistake> {
    let mut list = vec![];
    for line in text.lines() {
        let Some((key, rest)) = line.split_once(": ") else { continue };
        let rest = rest.to_string();
        match key {
            "name" => list.push(Mistake { name: rest, file: String::new(), old: String::new(), new: String::new() }),
            "file" => list.last_mut().unwrap().file = rest,
            "old" => list.last_mut().unwrap().old = rest.replace("\\n", "\n"),
            "new" => list.last_mut().unwrap().new = rest.replace("\\n", "\n"),
            _ => {}
        }
    }
    list
}

fn build(folder: &str, at: usize, m: &Mistake) -> Result<String, String> {
    let copy = format!("{folder}/teeth");
    fs::create_dir_all(&copy).map_err(|e| e.to_string())?;
    for file in ["lib.rs", "c.rs"] {
        let mut text = fs::read_to_string(format!("oracle/judge/{file}")).map_err(|e| e.to_string())?;
        if file == m.file {
            if text.matches(&m.old).count() != 1 {
                return Err(format!("the text stands {} times in {file}", text.matches(&m.old).count()));
            }
            text = text.replace(&m.old, &m.new);
        }
        fs::write(format!("{copy}/{file}"), text).map_err(|e| e.to_string())?;
    }
    let object = format!("{copy}/libmistake{at}.so");
    let done = Command::new("rustc")
        .args(["--edition", "2024", "-C", "opt-level=1", "-C", "panic=abort", "-A", "warnings"])
        .args(["--crate-type", "cdylib", "--crate-name", "mistake", "-o", &object])
        .arg(format!("{copy}/c.rs"))
        .output()
        .map_err(|e| e.to_string())?;
    if done.status.success() { Ok(object) } else { Err(String::from_utf8_lossy(&done.stderr).into_owned()) }
}

fn main() {
    let args: Vec<String> = std::env::args().skip(1).collect();
    let [folder, seed, requests, words @ ..] = &args[..] else { panic!("teeth FOLDER SEED REQUESTS [WORD]") };
    let text = fs::read_to_string("oracle/teeth/mistakes.txt").unwrap();
    let mut list = mistakes(&text);
    list.retain(|m| words.iter().all(|word| m.name.contains(word)));
    let mut caught = 0;
    for (at, m) in list.iter().enumerate() {
        let object = match build(folder, at, m) {
            Ok(object) => object,
            Err(e) => {
                println!("{:>3}  NOT BUILT  {}: {e}", at + 1, m.name);
                continue;
            }
        };
        let run =
            Command::new(format!("{folder}/driver")).args(["compare", &object, seed, requests, "--first"]).output().unwrap();
        let out = String::from_utf8_lossy(&run.stdout).into_owned();
        let how = match run.status.code() {
            Some(0) => None,
            Some(1) => out.lines().find_map(|l| l.strip_prefix("first difference at ")).map(str::to_string),
            Some(_) => None,
            None => out
                .lines()
                .find(|l| l.starts_with("the process ended"))
                .map(|l| l.split_whitespace().collect::<Vec<_>>().join(" ")),
        };
        match how {
            Some(how) => {
                caught += 1;
                println!("{:>3}  caught  {}\n             {how}", at + 1, m.name);
            }
            None => println!("{:>3}  NOT CAUGHT  {}", at + 1, m.name),
        }
        let _ = fs::remove_file(object);
    }
    println!("{} mistakes, {caught} caught", list.len());
    std::process::exit(i32::from(caught != list.len()));
}
