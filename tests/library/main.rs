//! The header of the library against the Rattle source: every exported function with its parameters, every constant,
//! and the declarations that Rust programs of this repository make. What the source has no name for, `use.c` tries.

mod header;
mod source;

use std::collections::BTreeMap;
use std::fs;
use std::process::exit;

/// Constants of the header that the source has no name for: where columns begin, the order of the figures at noon, the
/// lengths of lines and pages, and what the search takes and writes.
const BY_BEHAVIOUR: [&str; 17] = [
    "TERMS_PRICE",
    "TERMS_BUDGET",
    "COUNTS_PLAYS",
    "COUNTS_TURNS",
    "COUNTS_AGE",
    "COUNTS_NAMED",
    "NOON_FULL",
    "NOON_CLAIM",
    "NOON_FLOOR",
    "MAX_LINE",
    "LINE_ROOM",
    "LINE_BUFFER",
    "REPLY_ROOM",
    "PAGE_LINE",
    "PAGE_ROOM",
    "MAX_HANDED_IN",
    "NOBODY",
];

/// Programs in Rust that declare functions of the library.
const RUST: [&str; 9] = [
    "examples/rust/day.rs",
    "tests/states/library.rs",
    "tests/lines/product.rs",
    "tests/page/product.rs",
    "tests/search/product.rs",
    "bench/lines.rs",
    "bench/page.rs",
    "bench/search.rs",
    "bench/view/library.rs",
];

/// The sources of the library itself: its functions, and its constants.
const LIBRARY: [&str; 3] = ["crates/wezghuli_c/src", "crates/wezghuli/src", "crates/encoding/src"];

/// What is compared.
#[derive(Clone)]
struct Texts {
    header: String,
    /// The sources of the library, and those of the crates below it.
    library: String,
    below: String,
    rust: Vec<(&'static str, String)>,
}

fn read(path: &str) -> String {
    fs::read_to_string(path).unwrap_or_else(|e| {
        println!("{path}: {e}");
        exit(1)
    })
}

fn sources(folder: &str) -> String {
    let mut files: Vec<_> = fs::read_dir(folder)
        .map(|dir| dir.flatten().map(|f| f.path()).collect())
        .unwrap_or_default();
    files.sort();
    files
        .iter()
        .filter(|f| f.extension().is_some_and(|e| e == "rt"))
        .map(|f| read(&f.to_string_lossy()))
        .collect()
}

fn texts() -> Texts {
    let mut crates: Vec<_> = fs::read_dir("crates")
        .expect("the folder crates")
        .flatten()
        .map(|c| c.path().join("src").to_string_lossy().into_owned())
        .filter(|c| !LIBRARY.contains(&c.as_str()))
        .collect();
    crates.sort();
    Texts {
        header: read("include/wezghuli.h"),
        library: LIBRARY.map(sources).concat(),
        below: crates.iter().map(|c| sources(c)).collect(),
        rust: RUST.map(|path| (path, read(path))).to_vec(),
    }
}

/// What was compared and found alike, and what was not.
#[derive(Default)]
struct Findings {
    alike: u64,
    differ: Vec<String>,
}

impl Findings {
    fn same<T: PartialEq + std::fmt::Debug>(
        &mut self,
        what: &str,
        header: Option<T>,
        source: Option<T>,
    ) {
        if header.is_some() && header == source {
            self.alike += 1;
        } else {
            self.differ.push(format!(
                "{what}: declared {header:?}, in the source {source:?}"
            ));
        }
    }
}

fn names<'a, V, W>(a: &'a BTreeMap<String, V>, b: &'a BTreeMap<String, W>) -> Vec<&'a String> {
    let mut all: Vec<_> = a.keys().chain(b.keys()).collect();
    all.sort();
    all.dedup();
    all
}

fn compare(texts: &Texts) -> Findings {
    let mut found = Findings::default();
    let exported = source::functions(&texts.library);
    let declared = header::functions(&texts.header);
    for name in names(&declared, &exported) {
        let due = exported.get(name).map(|f| f.in_c());
        found.same(name, declared.get(name).cloned(), due);
    }
    let fields = exported.get("wezghuli_blank").map(|f| f.fields_in_c());
    found.same("wezghuli_day", header::fields(&texts.header, "day"), fields);

    let own = source::constants(&texts.library);
    let below = source::constants(&texts.below);
    let defined = header::constants(&texts.header);
    for name in names(&defined, &own) {
        if !BY_BEHAVIOUR.contains(&name.as_str()) {
            let due = own.get(name).or(below.get(name));
            found.same(name, defined.get(name), due);
        }
    }
    for name in BY_BEHAVIOUR {
        found.same(name, defined.get(name).map(|_| ()), Some(()));
    }
    for (path, text) in &texts.rust {
        for (name, declaration) in header::rust_functions(text) {
            let due = exported.get(&name).map(|f| f.in_rust());
            found.same(&format!("{path}: {name}"), Some(declaration), due);
        }
        for (name, value) in source::constants(text) {
            if defined.contains_key(&name) {
                found.same(&format!("{path}: {name}"), Some(&value), defined.get(&name));
            }
        }
    }
    found
}

/// Changes of one side alone, each of which must be found.
const CHANGES: [(&str, &str, &str); 15] = [
    (
        "header",
        "uint64_t depth, uint64_t width",
        "uint64_t width, uint64_t depth",
    ),
    (
        "header",
        "uint64_t set, uint64_t answer[5]",
        "uint64_t set, uint64_t answer[4]",
    ),
    (
        "header",
        "uint64_t campaign, uint64_t answer",
        "uint32_t campaign, uint64_t answer",
    ),
    (
        "header",
        "const uint64_t words[6], uint8_t",
        "uint64_t words[6], uint8_t",
    ),
    ("header", "uint32_t terms[128];", "uint32_t terms[64];"),
    ("header", "uint64_t head[7]; ", "uint64_t head[6]; "),
    ("header", "const uint64_t head[7]", "const uint64_t head[6]"),
    ("header", "#define WEZGHULI_HEAD_PAUSED 6", "#define WEZGHULI_HEAD_PAUSED 5"),
    ("header", "#define WEZGHULI_FORM_RESUME 12", "#define WEZGHULI_FORM_RESUME 11"),
    (
        "header",
        "#define WEZGHULI_ANSWER_NOBODY 3",
        "#define WEZGHULI_ANSWER_NOBODY 4",
    ),
    (
        "header",
        "#define WEZGHULI_MAX_WIDTH 16",
        "#define WEZGHULI_MAX_WIDTH 32",
    ),
    ("header", "#define WEZGHULI_FORM_VIEW 3", ""),
    ("library", "fn wezghuli_close", "fn wezghuli_end"),
    ("library", "fn wezghuli_pause", "fn wezghuli_paused"),
    (
        "library",
        "pub const STATUS_NO_FORM: u64 = 101;",
        "pub const STATUS_NO_FORM: u64 = 102;",
    ),
];

fn changed(texts: &Texts, (side, old, new): (&str, &str, &str)) -> Option<Texts> {
    let mut next = texts.clone();
    let text = match side {
        "header" => &mut next.header,
        _ => &mut next.library,
    };
    if !text.contains(old) {
        return None;
    }
    *text = text.replacen(old, new, 1);
    Some(next)
}

fn main() {
    let texts = texts();
    let found = compare(&texts);
    let (mut passed, mut failed) = (found.alike, found.differ.len());
    found.differ.iter().for_each(|d| println!("{d}"));
    for change in CHANGES {
        match changed(&texts, change).map(|t| compare(&t).differ.len()) {
            Some(n) if n > found.differ.len() => passed += 1,
            other => {
                println!("the change {change:?} was not found: {other:?}");
                failed += 1;
            }
        }
    }
    println!("{passed} passed, {failed} failed");
    exit(i32::from(failed > 0));
}
