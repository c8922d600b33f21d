//! Copies the tool once for each planted fault, with one edit in it, and declares the copies as modules.

use std::path::{Path, PathBuf};

/// File, what stands there once, what takes its place.
const FAULTS: &[(&str, &str, &str)] = &[
    ("input.rs", "column += word.len() + 1", "column += word.len()"),
    ("input.rs", "MOST: usize = 772", "MOST: usize = 773"),
    ("input.rs", ".or(zero.then_some(0))", ""),
    ("input.rs", "split(|&byte| byte == b' ')", r"split(|&byte| byte == b' ' || byte == b'\t')"),
    ("card.rs", "('N', self.n, 1, 60)", "('N', self.n, 1, 61)"),
    ("card.rs", "let wanted = 4 + 2 * p + l", "let wanted = 4 + p + l"),
    ("card.rs", "numbers.get(4 + p + production)", "numbers.get(4 + 2 * p - 1 - production)"),
    ("card.rs", "lefts.iter().position", "lefts.iter().rposition"),
    ("card.rs", "symbols.iter().position", "symbols.iter().rposition"),
    ("card.rs", "if sum > l {", "if sum >= l {"),
    ("card.rs", "at - before + 1", "at - before"),
    ("card.rs", "if reached[*left] {", "if reached[*left] && productive[*left] {"),
    ("card.rs", "if !reached[lowest] {", "if !productive[lowest] {"),
    ("card.rs", "|| !productive[x]", ""),
    ("states.rs", "waiting.push((fresh, 0));", ""),
    ("states.rs", "begun |= carried;", ""),
    ("states.rs", "right.iter().take(nullable + 1)", "right.iter().take(1)"),
    ("states.rs", "empty[*left] |= nullable == right.len();", "empty[*left] |= right.is_empty();"),
    ("states.rs", "(production, dot + 1), carried)", "(production, dot + 1), begun)"),
    ("states.rs", "Some(state) = waiting.pop_front()", "Some(state) = waiting.pop_back()"),
    ("states.rs", "if kernels.len() > MOST {", "if kernels.len() >= MOST {"),
    ("states.rs", "range(self.card.t..)", "range(self.card.t + 1..)"),
    ("states.rs", "if accepts { ACCEPT } else", "if accepts { REDUCE } else"),
    ("states.rs", "for terminal in 0..self.card.t {", "for terminal in 1..self.card.t {"),
    ("lib.rs", "match conflicts.len() - 1 {", "match conflicts.len() {"),
    ("lib.rs", "let production = value - REDUCE;", "let production = (value - REDUCE).saturating_sub(1);"),
    ("lib.rs", "for &value in &first.values {", "for &value in &first.values[..2] {"),
    ("lib.rs", "(0..64).filter", "(1..64).filter"),
    ("lib.rs", "get(dot) == Some(&terminal)", "get(dot).is_some()"),
    ("lib.rs", "(None, _) => 2,", "(None, _) => 1,"),
    ("lib.rs", "match maker(&numbers.values) {", "match sidumza::generator::table_of(&numbers.values) {"),
];

fn main() {
    let here = PathBuf::from(std::env::var_os("CARGO_MANIFEST_DIR").expect("cargo sets it"));
    let out = PathBuf::from(std::env::var_os("OUT_DIR").expect("cargo sets it"));
    let source = here.join("../../tools/explain/src");
    println!("cargo:rerun-if-changed={}", source.display());
    println!("cargo:rerun-if-changed=build.rs");
    let (mut modules, mut list) = (String::new(), String::new());
    for (number, (file, old, new)) in FAULTS.iter().enumerate() {
        let copy = out.join(format!("wrong{number}"));
        std::fs::create_dir_all(&copy).expect("a folder");
        for name in ["lib.rs", "input.rs", "card.rs", "states.rs"] {
            let text = std::fs::read_to_string(source.join(name)).expect("a source");
            let edited = if name == *file { edit(&source, name, &text, old, new) } else { text };
            std::fs::write(copy.join(name), edited).expect("a copy");
        }
        let path = copy.join("lib.rs");
        modules += &format!("#[allow(warnings)]\n#[path = {path:?}]\nmod wrong{number};\n");
        let name = format!("{file}: {}", if new.is_empty() { format!("without {old}") } else { new.to_string() });
        list += &format!(
            "    ({name:?}, |text, maker| {{ let t = wrong{number}::explain(text, maker); (t.text, t.status) }}),\n"
        );
    }
    let text = format!("{modules}\npub const WRONG: &[(&str, crate::Explain)] = &[\n{list}];\n");
    std::fs::write(out.join("wrong.rs"), text).expect("the list");
}

fn edit(folder: &Path, name: &str, text: &str, old: &str, new: &str) -> String {
    let found = text.matches(old).count();
    assert!(found == 1, "{found} times in {}/{name}: {old}", folder.display());
    text.replace(old, new)
}
