//! Each public function has an example, and if it can be refused, its errors.

use std::fs;
use std::path::Path;

#[test]
fn examples_and_errors() {
    let source = Path::new(env!("CARGO_MANIFEST_DIR")).join("src");
    let mut functions = 0;
    for file in fs::read_dir(source).unwrap() {
        let path = file.unwrap().path();
        // Behind the public functions, for this crate alone.
        if path.ends_with("ffi.rs") || path.ends_with("sizes.rs") {
            continue;
        }
        let text = fs::read_to_string(&path).unwrap();
        let lines: Vec<&str> = text.lines().map(str::trim).collect();
        for (number, line) in lines.iter().enumerate() {
            if !line.starts_with("pub fn ") && !line.starts_with("pub const fn ") {
                continue;
            }
            functions += 1;
            let page: Vec<&str> = lines[..number].iter().rev().take_while(|line| !line.is_empty()).copied().collect();
            let body = lines[number..].iter().position(|line| line.ends_with('{')).unwrap();
            let head = lines[number..=number + body].concat();
            let place = format!("{}: {line}", path.display());
            let example = |line: &&str| *line == "/// ```" || line.starts_with("#[doc = example!(");
            assert!(page.iter().any(example), "{place} has no example");
            assert_eq!(page.contains(&"/// # Errors"), head.contains("-> Result<"), "{place}: errors");
        }
    }
    assert!(functions > 40, "{functions} functions found");
}
