//! The single changes that keep the shape of a line of code.

use crate::source::{tokens, Kind, Token};
use std::collections::{BTreeMap, BTreeSet};

pub struct Change {
    pub operator: &'static str,
    pub line: String,
}

/// Fields and names that hold the same type, so that one in place of the other still compiles.
const ALIKE: [&[&str]; 7] = [
    &["plays", "turns", "named", "age"],
    &["plays", "turns", "ages", "named"],
    &["price", "budget"],
    &["prices", "budgets"],
    &["depth", "width"],
    &["takings", "claim", "full"],
    &["up", "down"],
];

/// Functions of the language that take and give the same types.
const CALLS: [(&str, &str); 4] = [
    ("count_ones", "trailing_zeros"),
    ("trailing_zeros", "count_ones"),
    ("leading_zeros", "trailing_zeros"),
    ("wrapping_add", "wrapping_sub"),
];

pub struct Changer<'a> {
    pub siblings: &'a BTreeMap<String, Vec<String>>,
    /// The fields that hold a number in every struct that has them.
    pub numbers: &'a BTreeSet<String>,
}

/// What can be named in an item.
pub struct Scope {
    /// Its parameters that are numbers.
    pub parameters: BTreeSet<String>,
    /// The names that it uses, a field with what it is a field of.
    pub names: BTreeSet<String>,
}

impl Scope {
    pub fn of(parameters: BTreeSet<String>, lines: &[&str]) -> Scope {
        let mut names = BTreeSet::new();
        for line in lines {
            let all = tokens(line);
            for (i, token) in all.iter().enumerate().filter(|t| t.1.kind == Kind::Word) {
                let field = i > 1 && all[i - 1].text == ".";
                names.insert(if field { format!("{}.{}", all[i - 2].text, token.text) } else { token.text.into() });
            }
        }
        Scope { parameters, names }
    }
}

/// The line with the bytes of one token replaced.
fn replaced(line: &str, token: &Token, by: &str) -> String {
    format!("{}{by}{}", &line[..token.at], &line[token.at + token.text.len()..])
}

fn comparison(mark: &str) -> &'static [&'static str] {
    match mark {
        "<" => &["<=", ">"],
        "<=" => &["<", ">="],
        ">" => &[">=", "<"],
        ">=" => &[">", "<="],
        "==" => &["!="],
        "!=" => &["=="],
        _ => &[],
    }
}

fn arithmetic(mark: &str) -> &'static [&'static str] {
    match mark {
        "+" => &["-"],
        "-" => &["+"],
        "*" => &["+"],
        "/" => &["%"],
        "%" => &["/"],
        "&" => &["|"],
        "|" => &["&"],
        "<<" => &[">>"],
        ">>" => &["<<"],
        "+=" => &["-="],
        "-=" => &["+="],
        _ => &[],
    }
}

/// A number one more and one less; a byte the next one; a truth value the other.
fn constants(token: &Token) -> Vec<String> {
    match (token.kind, token.text) {
        (Kind::Number, text) => match text.replace('_', "").parse::<u64>() {
            Ok(n) => n.checked_add(1).into_iter().chain(n.checked_sub(1)).map(|n| n.to_string()).collect(),
            Err(_) => vec![],
        },
        (Kind::Word, "true") => vec!["false".into()],
        (Kind::Word, "false") => vec!["true".into()],
        (Kind::Quoted, text) => {
            // the last byte before the quote, unless it is written with a backslash
            let mut bytes = text.as_bytes().to_vec();
            let last = bytes.len() - 2;
            if bytes[last - 1] == b'\\' || !(32..126).contains(&bytes[last]) {
                return vec![];
            }
            bytes[last] += if matches!(bytes[last] + 1, b'"' | b'\'' | b'\\') { 2 } else { 1 };
            String::from_utf8(bytes).into_iter().collect()
        }
        _ => vec![],
    }
}

/// The bounds of the simple operand that ends (or begins) beside the operator: a path, a field, a call or an index.
fn operand(line: &str, all: &[Token], operator: usize, left: bool) -> Option<(usize, usize)> {
    let keyword = |t: &Token| matches!(t.text, "if" | "in" | "let" | "match" | "mut" | "return" | "while");
    let simple = |t: &Token| t.kind != Kind::Mark && !keyword(t) || matches!(t.text, "." | "::");
    if left {
        let from = (0..operator).rev().take_while(|i| simple(&all[*i])).last()?;
        (line.as_bytes()[all[from].at..].first() != Some(&b'.')).then_some((all[from].at, all[operator].at - 1))
    } else {
        let to = (operator + 1..all.len()).take_while(|i| simple(&all[*i])).last()?;
        // not where a call or an index goes on
        let next = all.get(to + 1).map_or("", |t| t.text);
        (!matches!(next, "(" | "[")).then_some((all[operator + 1].at, all[to].at + all[to].text.len()))
    }
}

/// Both operands of an operator whose order counts, exchanged.
fn swapped(line: &str, all: &[Token], at: usize) -> Option<String> {
    let (from, left_end) = operand(line, all, at, true)?;
    let (right, to) = operand(line, all, at, false)?;
    let (a, b) = (&line[from..left_end], &line[right..to]);
    let plain = |s: &str| !s.contains(" as ");
    (a != b && plain(a) && plain(b)).then(|| format!("{}{b} {} {a}{}", &line[..from], all[at].text, &line[to..]))
}

/// The place of the bracket that closes the one at `open`.
fn closed(all: &[Token], open: usize) -> Option<usize> {
    let mut depth = 0;
    for (i, token) in all.iter().enumerate().skip(open) {
        match token.text {
            "[" | "(" | "{" => depth += 1,
            "]" | ")" | "}" => depth -= 1,
            _ => {}
        }
        if depth == 0 {
            return Some(i);
        }
    }
    None
}

impl Changer<'_> {
    fn at_token(&self, line: &str, all: &[Token], at: usize, scope: &Scope, found: &mut Vec<Change>) {
        let token = &all[at];
        let before = at.checked_sub(1).map_or("", |i| all[i].text);
        let after = all.get(at + 1).map_or("", |t| t.text);
        let mut add = |operator, line| found.push(Change { operator, line });
        if token.apart {
            comparison(token.text).iter().for_each(|by| add("comparison", replaced(line, token, by)));
            arithmetic(token.text).iter().for_each(|by| add("operation", replaced(line, token, by)));
            if matches!(token.text, "-" | "/" | "%" | "<<" | ">>") {
                swapped(line, all, at).into_iter().for_each(|by| add("operands", by));
            }
        }
        // another arm has the next number of a match, and an array's length is its type
        if after != "=>" && before != ";" {
            constants(token).iter().for_each(|by| add("constant", replaced(line, token, by)));
        }
        if let Some((name, n)) = token.text.rsplit_once('_').filter(|_| token.kind == Kind::Word) {
            let other = n.parse::<u64>().map(|n| format!("{name}_{}", n + 1)).into_iter();
            other.filter(|other| scope.names.contains(other)).for_each(|by| add("case", replaced(line, token, &by)));
        }
        if token.kind == Kind::Word && after != ":" && after != "(" && before != "let" {
            // a field, where the same value's other field is used too, or a row of powers that is handed on
            let owner = if before == "." {
                format!("{}.", at.checked_sub(2).map_or("", |i| all[i].text))
            } else {
                String::new()
            };
            let used = |other: &&&str| **other != token.text && scope.names.contains(&format!("{owner}{other}"));
            let group = ALIKE.iter().filter(|g| g.contains(&token.text) && (before == "." || g[0] == "up"));
            let by = group.flat_map(|g| g.iter()).find(used);
            by.into_iter().for_each(|by| add("field", replaced(line, token, by)));
        }
        for (_, by) in CALLS.iter().filter(|(name, _)| *name == token.text) {
            add("call", replaced(line, token, by));
        }
        if token.text == "[" && at > 0 && (all[at - 1].kind == Kind::Word || matches!(before, "]" | ")")) {
            let inside = closed(all, at).map(|end| (token.at + 1, all[end].at));
            if let Some((_, to)) = inside.filter(|(from, to)| from < to && !line[*from..*to].contains("..")) {
                add("index", format!("{} + 1{}", &line[..to], &line[to..]));
            }
        }
        // a number that is handed on, one more; before `=>` stands a pattern
        let field = before == "." && self.numbers.contains(token.text);
        let parameter = matches!(before, "(" | "," | ":") && scope.parameters.contains(token.text);
        if (field || parameter) && matches!(after, "," | ")" | ";" | "") && !line[token.at..].contains("=>") {
            add("argument", replaced(line, token, &format!("{} + 1", token.text)));
        }
        if token.text == "as" && !matches!(after, "u8" | "") {
            let end = all[at + 1].at + after.len();
            add("argument", format!("{} + 1{}", &line[..end], &line[end..]));
        }
        if let (Some(path), Some(case)) = (all.get(at + 1).filter(|t| t.text == "::"), all.get(at + 2)) {
            let whole = &line[token.at..case.at + case.text.len()];
            // a case in a pattern would be there twice
            let pattern = line[path.at..].contains("=>");
            for by in self.siblings.get(whole).into_iter().flatten().filter(|_| !pattern) {
                add("case", format!("{}{by}{}", &line[..token.at], &line[token.at + whole.len()..]));
            }
        }
    }

    /// A store that leaves what was there, a branch that is never taken, or one taken on the opposite.
    fn whole_line(&self, line: &str, found: &mut Vec<Change>) {
        let (space, text) = line.split_at(line.len() - line.trim_start().len());
        let mut add = |operator, text: String| found.push(Change { operator, line: format!("{space}{text}") });
        let store = text.strip_suffix(';').filter(|_| !text.starts_with("let ") && !text.starts_with("return"));
        if let Some((place, _)) = store.and_then(|s| s.split_once(" = ")).filter(|s| !s.0.contains(':')) {
            add("store", format!("{place} = {place};"));
        }
        if let Some((place, by)) = store.and_then(|s| s.split_once(" += ").or(s.split_once(" -= "))) {
            if by.parse::<u64>() != Ok(1) {
                add("store", format!("{place} += 0;"));
            }
        }
        if let Some(test) = text.strip_prefix("if ").and_then(|t| t.strip_suffix(" {")) {
            add("branch", "if false {".into());
            match test.strip_prefix('!') {
                Some(other) => add("branch", format!("if {other} {{")),
                None => add("branch", format!("if !({test}) {{")),
            }
        }
    }

    /// All changes of one line of a body, or of a constant's value.
    pub fn changes(&self, line: &str, scope: &Scope) -> Vec<Change> {
        let all = tokens(line);
        let mut found = vec![];
        let constant = all.iter().take(2).any(|t| t.text == "const");
        let value = if constant { all.iter().position(|t| t.text == "=").unwrap_or(0) } else { 0 };
        for at in value..all.len() {
            self.at_token(line, &all, at, scope, &mut found);
        }
        self.whole_line(line, &mut found);
        found.retain(|change| change.line != line);
        found
    }
}
