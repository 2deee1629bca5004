//! The paths and names that the documents give, looked up in the sources, and the counts of docs/TRUST.md, whose rows
//! of the demands list every file that is imported.
//!
//! - A path in backticks leads to a file or folder. `CRATE/specs/File` stands for `crates/CRATE/specs/File.antt`;
//!   behind a path of a crate, `File` is another of its files; a crate's own page leaves the crate out.
//! - A name that belongs to a path is defined there: `path: name`, `path.name`, `CRATE::name`, the names behind
//!   "`path`: ", and those before " of `path`" or " in `path`".
//! - Every other name in backticks is defined somewhere.
//!
//! A crate defines what its files `.antt` and `.rt` define (to import or to use a name is not to define it); of its
//! edits the names are known, and not what they change. Lines between fences are not looked at.

mod tree;

use std::fs;
use std::path::{Path, PathBuf};
use std::process::exit;
use tree::Tree;

/// What was looked up.
struct Findings<'a> {
    tree: &'a Tree,
    /// The crate of a crate's own page.
    own: Option<String>,
    place: String,
    right: u64,
    wrong: Vec<String>,
}

impl Findings<'_> {
    fn add(&mut self, good: bool, wrong: impl FnOnce() -> String) {
        if good {
            self.right += 1;
        } else {
            self.wrong.push(format!("{}: {}", self.place, wrong()));
        }
    }

    /// A name that a document places in a file or a crate.
    fn name(&mut self, at: &Path, name: &str) {
        let good = self.tree.defines(at, name);
        self.add(good, || format!("`{name}` is not defined in {}", at.display()));
    }

    /// A name that a document places nowhere.
    fn loose(&mut self, name: &str) {
        let good = self.tree.defines(Path::new(""), name) || self.tree.knows(name);
        self.add(good, || format!("`{name}` is defined nowhere"));
    }

    /// Every path of a line and the names of each; the files are handed back.
    fn line(&mut self, text: &str) -> Vec<PathBuf> {
        let (mut last, mut files): (Option<PathBuf>, Vec<PathBuf>) = (None, vec![]);
        // whether names behind a path are listed; those before one, and whether they belong to it
        let (mut listing, mut before, mut belong): (bool, Vec<&str>, bool) = (false, vec![], false);
        for (i, span) in text.split('`').enumerate() {
            if i % 2 == 0 {
                let goes_on = [", ", " and "].contains(&span);
                listing = span == ": " || listing && goes_on;
                belong = [" of ", " in "].contains(&span);
                before.retain(|_| goes_on || belong);
                last = last.filter(|_| !span.contains('|'));
                continue;
            }
            let here = last.clone().filter(|at| listing && self.tree.defines(at, span));
            let found = if here.is_some() { None } else { self.tree.path(span, self.own.as_deref(), last.as_deref()) };
            if let Some((path, name)) = found {
                self.add(path.is_some(), || format!("no file `{span}`"));
                let Some(path) = path else { continue };
                let before = before.drain(..).filter(|_| belong);
                name.into_iter().chain(before).for_each(|name| self.name(&path, name));
                files.push(path.clone());
                last = Some(path);
            } else if tree::is_name(span) {
                match last.as_ref().filter(|_| listing) {
                    Some(at) => self.name(at, span),
                    None => self.loose(span),
                }
                before.retain(|_| !belong);
                before.push(span);
            }
        }
        files
    }
}

/// The lines of a file.
fn lines(file: &PathBuf) -> usize {
    fs::read_to_string(file).map_or(0, |text| text.lines().count())
}

/// The lines of all definitions but those that serve the contracts of inner functions.
fn all_definitions() -> usize {
    let files = |folder: PathBuf| fs::read_dir(folder).into_iter().flatten().flatten().map(|entry| entry.path());
    let inner = |file: &PathBuf| file.ends_with("Cited.antt") || file.ends_with("Lib.antt");
    files("crates".into()).flat_map(|c| files(c.join("specs"))).filter(|file| !inner(file)).map(|f| lines(&f)).sum()
}

/// A row of docs/TRUST.md with files and how many lines they have, or all rows above it, in which no file is missing.
fn counted(row: &str, files: &[PathBuf], sum: &mut usize, found: &mut Findings) {
    let cells: Vec<&str> = row.split('|').map(str::trim).collect();
    let Some(Ok(said)) = cells.get(2).map(|cell| cell.parse::<usize>()) else { return };
    let here: usize = files.iter().map(lines).sum();
    *sum += here;
    let due = if cells[1] == "in all" { all_definitions() } else { here };
    let complete = cells[1] != "in all" || *sum == due;
    found.add(due == said && complete, || format!("{said} lines are said, and there are {due}"));
}

/// A row of docs/TRUST.md that ends in `N: files`: they are N, and what one of them imports is another.
fn closed(row: &str, files: &[PathBuf], found: &mut Findings) {
    let said = row.rsplit("| ").next().and_then(|cell| cell.split_once(": `")).map(|(said, _)| said.parse::<usize>());
    let Some(Ok(said)) = said else { return };
    let files: Vec<&PathBuf> = files.iter().filter(|file| file.is_file()).collect();
    found.add(files.len() == said, || format!("{said} files are said, and {} are named", files.len()));
    for import in files.iter().flat_map(|file| tree::imports(file)) {
        found.add(files.contains(&&import), || format!("{} is imported and not named", import.display()));
    }
}

/// Every line of a document that stands outside of fences.
fn document(path: &Path, found: &mut Findings) {
    let text = fs::read_to_string(path).unwrap_or_default();
    let folder = path.strip_prefix("crates").ok().and_then(Path::parent);
    found.own = folder.map(|folder| folder.to_string_lossy().into_owned());
    found.place = path.display().to_string();
    found.add(!text.is_empty(), || "no text".to_string());
    let (mut sum, mut fenced) = (0, false);
    for (i, row) in text.lines().enumerate() {
        found.place = format!("{}:{}", path.display(), i + 1);
        if row.starts_with("```") {
            fenced = !fenced;
        } else if !fenced {
            let files = found.line(row);
            if path.ends_with("docs/TRUST.md") {
                counted(row, &files, &mut sum, found);
                closed(row, &files, found);
            }
        }
    }
}

fn main() {
    let tree = Tree::new();
    let mut found = Findings { tree: &tree, own: None, place: String::new(), right: 0, wrong: vec![] };
    let pages = ["ARCHITECTURE", "TRUST", "SALES-SHEET", "MANUAL", "INTEGRATION"];
    let mut documents: Vec<PathBuf> = pages.iter().map(|page| format!("docs/{page}.md").into()).collect();
    documents.push("README.md".into());
    let crates = fs::read_dir("crates").expect("the folder crates").flatten();
    documents.extend(crates.map(|entry| entry.path().join("README.md")));
    documents.sort();
    documents.iter().for_each(|path| document(path, &mut found));
    found.wrong.iter().for_each(|wrong| println!("{wrong}"));
    println!("{} passed, {} failed", found.right, found.wrong.len());
    exit(i32::from(!found.wrong.is_empty()));
}
