//! Copies the plain implementation once for each edit in edits/ and applies the edit. An edit is three lines, or several times
//! three: the file, a text that stands there exactly once, and what takes its place.

use std::fs;
use std::path::{Path, PathBuf};

struct Change {
    file: String,
    old: String,
    new: String,
}

fn changes(edit: &str) -> Vec<Change> {
    let lines: Vec<&str> = edit.lines().collect();
    let after = |line: &str, word: &str| line.strip_prefix(word).expect("an edit has file, old and new").to_string();
    let change = |three: &[&str]| Change {
        file: after(three[0], "file: "),
        old: after(three[1], "old: "),
        new: after(three[2], "new: "),
    };
    lines.chunks(3).map(change).collect()
}

/// The text with the changes made, all found in the text as it was.
fn changed(text: &str, changes: &[&Change]) -> String {
    let mut places: Vec<(usize, &Change)> = vec![];
    for change in changes {
        let found: Vec<usize> = text.match_indices(&change.old).map(|(at, _)| at).collect();
        assert_eq!(found.len(), 1, "{:?} stands {} times in {}", change.old, found.len(), change.file);
        places.push((found[0], change));
    }
    places.sort_by_key(|(at, _)| std::cmp::Reverse(*at));
    let mut text = text.to_string();
    for (at, change) in places {
        text.replace_range(at..at + change.old.len(), &change.new);
    }
    text
}

/// Writes the mutant's modules into a folder.
fn write_mutant(plain: &Path, folder: &Path, changes: &[Change]) {
    fs::create_dir_all(folder).expect("the build's folder can be written");
    for source in fs::read_dir(plain).expect("the plain implementation is there") {
        let source = source.expect("it can be read").path();
        let name = source.file_name().expect("a file has a name").to_string_lossy().to_string();
        let text = fs::read_to_string(&source).expect("it can be read");
        let here: Vec<&Change> = changes.iter().filter(|c| c.file == name).collect();
        fs::write(folder.join(&name), changed(&text, &here)).expect("the build's folder can be written");
    }
}

fn main() {
    println!("cargo::rerun-if-changed=edits");
    println!("cargo::rerun-if-changed=../src/plain");
    let out = PathBuf::from(std::env::var("OUT_DIR").expect("cargo sets it"));
    let mut edits: Vec<PathBuf> =
        fs::read_dir("edits").expect("edits are there").map(|e| e.expect("it can be read").path()).collect();
    edits.sort();
    let (mut modules, mut all) = (String::new(), String::new());
    for edit in edits {
        let name = edit.file_stem().expect("an edit has a name").to_string_lossy().to_string();
        let folder = out.join(&name);
        write_mutant(Path::new("../src/plain"), &folder, &changes(&fs::read_to_string(&edit).expect("it can be read")));
        let path = folder.join("mod.rs");
        modules += &format!("#[path = {path:?}]\nmod {name};\n");
        modules +=
            &format!("pub mod {name}_provided {{ pub struct Mutant; harness::provide!(Mutant, super::{name}); }}\n");
        all += &format!("    (\"{name}\", || Box::new({name}_provided::Mutant)),\n");
    }
    let list = format!("{modules}\npub const ALL: &[(&str, fn() -> Box<dyn Mutant>)] = &[\n{all}];\n");
    fs::write(out.join("mutants.rs"), list).expect("the build's folder can be written");
}
