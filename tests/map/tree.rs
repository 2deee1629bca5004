//! The files of the tree, and the names that each defines.

use std::collections::HashSet;
use std::fs;
use std::path::{Path, PathBuf};

/// The words before a name that is defined.
const KEYWORDS: [&str; 14] = [
    "pub", "abbrev", "unfoldable", "record", "data", "module", "extern", "\"C\"", "fn", "struct", "enum", "trait",
    "const", "mod",
];

/// Names of the machine and of the kit.
const ELSEWHERE: [&str; 8] =
    ["cargo", "rustc", "ldd", "abort", "requires", "libc::read", "libc::write", "os::c::rattle_errno"];

/// Where the paths of the documents begin.
const ROOTS: [&str; 9] = ["crates", "docs", "tests", "second", "bench", "examples", "include", ".ci", "run"];

pub struct Tree {
    files: Vec<(PathBuf, HashSet<String>)>,
}

fn is_part(c: char) -> bool {
    c.is_alphanumeric() || "-_'′".contains(c)
}

/// A name, as `Record.field` or `module::function`.
pub fn is_name(span: &str) -> bool {
    let part = |part: &str| part.starts_with(char::is_alphabetic) && part.chars().all(is_part);
    // a function may stand with its parameters
    parts(span.split('(').next().unwrap_or(span)).all(part)
}

fn parts(name: &str) -> impl Iterator<Item = &str> {
    name.split("::").flat_map(|part| part.split('.'))
}

fn words(text: &str) -> impl Iterator<Item = &str> {
    text.split(|c| !is_part(c)).filter(|word| !word.is_empty())
}

/// The name that a line of a file of a crate defines: the first word behind those of the language, or before a colon;
/// a variant has a line of its own.
fn defined(line: &str) -> Option<&str> {
    let text = line.trim_start();
    let name_at = text.split(' ').take_while(|word| KEYWORDS.contains(word)).map(|word| word.len() + 1).sum();
    let name = words(text.get(name_at..)?).next().filter(|name| text[name_at..].starts_with(name))?;
    let behind = text[name_at + name.len()..].trim_start();
    let variant = name.starts_with(char::is_uppercase) && [",", "(", "{"].iter().any(|c| behind.starts_with(c));
    (name_at > 0 || behind.starts_with(':') || variant).then_some(name)
}

/// The names that a file defines: its own, and in a crate those of its lines; elsewhere every word counts. Of an edit
/// the name alone counts.
fn names_of(file: &Path) -> HashSet<String> {
    let text = fs::read_to_string(file).unwrap_or_default();
    let own = file.file_stem().map(|stem| stem.to_string_lossy().into_owned());
    let edits = file.components().any(|part| ["must-fail", "edits"].iter().any(|name| part.as_os_str() == *name));
    let ending = file.extension().and_then(|ending| ending.to_str()).filter(|_| !edits);
    let of_text: Vec<&str> = match ending.unwrap_or_default() {
        "antt" | "rt" => text.lines().filter_map(defined).collect(),
        "rs" | "c" | "h" => words(&text).collect(),
        _ => vec![],
    };
    of_text.into_iter().map(str::to_string).chain(own).collect()
}

/// The files of definitions that a file imports, as `Rattle.CRATE.specs.File`; what the code declares has no file.
pub fn imports(file: &Path) -> Vec<PathBuf> {
    let text = fs::read_to_string(file).unwrap_or_default();
    let imported = |line: &str| {
        let (of_crate, path) = line.strip_prefix("use Rattle.")?.split_once('.')?;
        let name = words(path.strip_prefix("specs.")?).next()?;
        at(&Path::new("crates").join(of_crate).join("specs").join(name))
    };
    text.lines().filter_map(imported).collect()
}

fn walk(folder: &Path, files: &mut Vec<PathBuf>) {
    for path in fs::read_dir(folder).into_iter().flatten().flatten().map(|entry| entry.path()) {
        match path.is_dir() {
            true if path.ends_with("target") || path.ends_with("out") => {}
            true => walk(&path, files),
            false => files.push(path),
        }
    }
}

/// The file or folder at a path, with the ending that it has.
fn at(path: &Path) -> Option<PathBuf> {
    let with = |ending: &str| PathBuf::from(format!("{}{ending}", path.display()));
    ["", ".antt", ".rt"].iter().map(|ending| with(ending)).find(|path| path.exists())
}

impl Tree {
    pub fn new() -> Tree {
        let mut files = vec![];
        ROOTS.iter().for_each(|root| walk(Path::new(root), &mut files));
        Tree { files: files.into_iter().map(|file| (file.clone(), names_of(&file))).collect() }
    }

    /// Whether each part of a name is defined in a file, or in a file below a folder.
    pub fn defines(&self, at: &Path, name: &str) -> bool {
        // a function may stand with its parameters
        let name = name.split('(').next().unwrap_or(name);
        let below = || self.files.iter().filter(|(file, _)| file.starts_with(at));
        parts(name).all(|part| below().any(|(_, names)| names.contains(part)))
    }

    /// Whether a name is that of a file or a folder, or none of ours.
    pub fn knows(&self, name: &str) -> bool {
        let file = || self.files.iter().any(|(file, _)| file.ends_with(name));
        ELSEWHERE.contains(&name) || Path::new(name).exists() || file()
    }

    /// The edit that `CRATE/NAME` stands for.
    fn edit(&self, path: &str) -> Option<PathBuf> {
        let (of_crate, name) = path.split_once('/')?;
        let (of_crate, edit) = (Path::new("crates").join(of_crate), format!("{name}.edit"));
        let mut files = self.files.iter().map(|(file, _)| file);
        files.find(|file| file.starts_with(&of_crate) && file.ends_with(&edit)).cloned()
    }

    /// What a span in backticks says, if it begins with a path: the file or folder, if there is one, and the name
    /// behind it. `own` is the crate of a crate's own page, `last` the path before it in the line.
    pub fn path<'a>(&self, span: &'a str, own: Option<&str>, last: Option<&Path>)
        -> Option<(Option<PathBuf>, Option<&'a str>)> {
        let (path, name) = split(span.strip_prefix("./").unwrap_or(span));
        let first = path.split('/').next()?;
        let of_crate = Path::new("crates").join(first);
        let plain = path.chars().all(|c| c.is_ascii_alphanumeric() || "_-/.+".contains(c));
        if !plain || first.is_empty() || path.contains("NAME") || !name.is_none_or(is_name) {
            return None;
        }
        if ROOTS.contains(&first) && path.contains('/') {
            return Some((at(Path::new(path)), name));
        }
        if let Some(own) = own.filter(|_| ["specs", "proofs", "src"].contains(&first) && path.contains('/')) {
            return Some((at(&Path::new("crates").join(own).join(path)), name));
        }
        if of_crate.is_dir() {
            return Some((at(&Path::new("crates").join(path)).or_else(|| self.edit(path)), name));
        }
        // another file of the same crate, whose definitions and proofs may share a name
        let folder: PathBuf = last?.components().take(2).collect();
        let files = ["specs", "proofs"].map(|part| at(&folder.join(part).join(path)));
        let mut files = files.into_iter().flatten().filter(|_| path.starts_with(char::is_uppercase));
        let fits = |file: &PathBuf| name.is_none_or(|name| self.defines(file, name));
        let file = files.clone().find(fits).or_else(|| files.next())?;
        Some((Some(file), name))
    }
}

/// A span as a path and the name behind it.
fn split(span: &str) -> (&str, Option<&str>) {
    let function = || span.split_once("::").filter(|_| span.starts_with(char::is_lowercase));
    let (path, name) = match span.split_once(": ").or_else(function) {
        Some((path, name)) => (path, Some(name)),
        None => (span, None),
    };
    let ended = [".antt", ".rt", ".rs", ".c", ".h", ".md", ".edit", ".list", ".answers"];
    match path.split_once('.').filter(|_| name.is_none() && !ended.iter().any(|e| path.ends_with(e))) {
        Some((path, name)) if !path.is_empty() => (path, Some(name)),
        _ => (path, name),
    }
}
