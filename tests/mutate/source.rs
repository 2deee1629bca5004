//! A Rattle source file in the formatter's layout: its functions and constants, and the tokens of a line.

use std::collections::{BTreeMap, BTreeSet};
use std::ops::Range;

/// A function or a constant, its parameters that are numbers, and the lines of its body, counted from 0.
pub struct Item {
    pub name: String,
    pub parameters: BTreeSet<String>,
    pub body: Range<usize>,
}

fn indent(line: &str) -> usize {
    line.len() - line.trim_start().len()
}

/// The name behind a keyword, if the line declares one.
fn declared<'a>(line: &'a str, keyword: &str) -> Option<&'a str> {
    let line = line.trim_start();
    let rest = line.strip_prefix("pub ").unwrap_or(line);
    let rest = rest.strip_prefix("extern \"C\" ").unwrap_or(rest);
    let name = rest.strip_prefix(keyword)?.strip_prefix(' ')?;
    name.split(|c: char| !c.is_alphanumeric() && c != '_').next()
}

/// The first line from `at` on that has this indent and closes what was opened there.
fn closing(lines: &[&str], at: usize, indent_of: usize, closed: &[&str]) -> usize {
    let ends = |line: &&str| indent(line) == indent_of && closed.contains(&line.trim_start());
    lines[at..].iter().position(ends).map_or(lines.len(), |n| at + n)
}

/// The functions and constants. The layout puts the brackets of a body at the indent of its declaration.
pub fn items(lines: &[&str]) -> Vec<Item> {
    let mut found = vec![];
    let mut owner = String::new();
    for (at, line) in lines.iter().enumerate() {
        let depth = indent(line);
        if depth == 0 && !line.is_empty() {
            owner = declared(line, "impl").map_or(String::new(), |name| format!("{name}::"));
        }
        if let Some(name) = declared(line, "fn") {
            let end = closing(lines, at, depth, &["}"]);
            let opens = |n: &usize| lines[*n].ends_with('{') && !lines[*n].contains('⌜');
            let start = (at..end).find(opens).map_or(end, |n| n + 1);
            let parameters = typed(&lines[at..start]).filter(|(_, number)| *number).map(|(name, _)| name).collect();
            // a trait's function may have no body
            if lines[at..start].iter().all(|line| !line.ends_with(';')) {
                found.push(Item { name: format!("{owner}{name}"), parameters, body: start..end });
            }
        }
        if let Some(name) = declared(line, "const") {
            let end = if line.ends_with(';') { at } else { closing(lines, at, depth, &["];", "};"]) };
            found.push(Item { name: format!("{owner}{name}"), parameters: BTreeSet::new(), body: at..end + 1 });
        }
    }
    found
}

#[derive(Clone, Copy, PartialEq)]
pub enum Kind {
    Word,
    Number,
    /// A byte or bytes in quotes.
    Quoted,
    Mark,
}

#[derive(Clone)]
pub struct Token<'a> {
    pub kind: Kind,
    pub text: &'a str,
    pub at: usize,
    /// Whether a space stands on both sides, as around an operator and not around a lifetime or a reference.
    pub apart: bool,
}

const MARKS: [&str; 17] =
    ["..=", "<=", ">=", "==", "!=", "->", "=>", "::", "..", "<<", ">>", "+=", "-=", "|=", "&&", "||", "//"];

fn length(rest: &str) -> (Kind, usize) {
    let run = |ok: fn(char) -> bool| rest.find(|c| !ok(c)).unwrap_or(rest.len());
    let first = rest.chars().next().unwrap_or(' ');
    if let Some(quoted) = rest.strip_prefix("b'").or(rest.strip_prefix("b\"")) {
        let quote = rest.as_bytes()[1] as char;
        let escaped = usize::from(quoted.starts_with('\\'));
        return (Kind::Quoted, 2 + escaped + quoted[escaped..].find(quote).map_or(0, |n| n + 1));
    }
    if first.is_ascii_digit() {
        return (Kind::Number, run(|c| c.is_ascii_alphanumeric() || c == '_'));
    }
    if first.is_alphabetic() || first == '_' {
        return (Kind::Word, run(|c| c.is_alphanumeric() || c == '_'));
    }
    let mark = MARKS.iter().find(|m| rest.starts_with(**m)).map_or(first.len_utf8(), |m| m.len());
    (Kind::Mark, mark)
}

/// The tokens of a line up to its comment.
pub fn tokens(line: &str) -> Vec<Token<'_>> {
    let mut found = vec![];
    let mut at = indent(line);
    while at < line.len() {
        let rest = &line[at..];
        if rest.starts_with("//") {
            break;
        }
        if rest.starts_with(' ') {
            at += 1;
            continue;
        }
        let (kind, size) = length(rest);
        let apart = line[..at].ends_with(' ') && line[at + size..].starts_with(' ');
        found.push(Token { kind, text: &rest[..size], at, apart });
        at += size;
    }
    found
}

/// The names that some lines declare with a type, and whether the type is a whole number's.
fn typed<'a>(lines: &'a [&'a str]) -> impl Iterator<Item = (String, bool)> + 'a {
    lines.iter().filter(|line| !line.contains('⌜')).flat_map(|line| {
        let all = tokens(line);
        let of = |w: &[Token]| {
            let number = matches!(w[2].text, "u16" | "u32" | "u64" | "usize");
            (w[0].kind == Kind::Word && w[1].text == ":").then(|| (w[0].text.to_string(), number))
        };
        all.windows(3).filter_map(of).collect::<Vec<_>>()
    })
}

/// The struct fields that are numbers wherever they are declared.
pub fn numbers(sources: &[String]) -> BTreeSet<String> {
    let (mut numbers, mut others) = (BTreeSet::new(), BTreeSet::new());
    for source in sources {
        let lines: Vec<&str> = source.lines().collect();
        for (at, line) in lines.iter().enumerate() {
            if declared(line, "struct").is_none() {
                continue;
            }
            let end = closing(&lines, at, indent(line), &["}"]);
            for (name, number) in typed(&lines[at..end]) {
                if number {
                    numbers.insert(name)
                } else {
                    others.insert(name)
                };
            }
        }
    }
    numbers.difference(&others).cloned().collect()
}

/// For each enum's case, the other cases that hold the same: either can stand where the other does.
pub fn siblings(sources: &[String]) -> BTreeMap<String, Vec<String>> {
    let mut groups: BTreeMap<(String, String), Vec<String>> = BTreeMap::new();
    for source in sources {
        let lines: Vec<&str> = source.lines().collect();
        for (at, line) in lines.iter().enumerate() {
            let Some(name) = declared(line, "enum") else { continue };
            let end = closing(&lines, at, indent(line), &["}"]);
            for case in at + 1..end {
                let text = lines[case].trim();
                if indent(lines[case]) != indent(line) + 4 || !text.starts_with(char::is_uppercase) {
                    continue;
                }
                let word: String = text.chars().take_while(|c| c.is_alphanumeric()).collect();
                // a case with named fields is its own kind
                let holds = if text.ends_with('{') { text } else { &text[word.len()..] };
                groups.entry((name.into(), holds.trim_end_matches(',').into())).or_default().push(word);
            }
        }
    }
    let mut found = BTreeMap::new();
    for ((name, _), cases) in groups {
        for case in &cases {
            let others = cases.iter().filter(|c| *c != case).map(|c| format!("{name}::{c}")).collect();
            found.insert(format!("{name}::{case}"), others);
        }
    }
    found
}
