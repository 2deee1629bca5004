//! What the header declares, and what programs in Rust declare of the library.

use std::collections::BTreeMap;

fn without_comments(text: &str) -> String {
    let mut kept = String::new();
    for (i, part) in text.split("/*").enumerate() {
        let code = if i == 0 {
            Some(part)
        } else {
            part.split_once("*/").map(|(_, code)| code)
        };
        kept.push_str(code.unwrap_or(""));
    }
    kept
}

fn spaced(text: &str) -> String {
    text.split_whitespace().collect::<Vec<_>>().join(" ")
}

/// The declarations of functions, by name.
pub fn functions(text: &str) -> BTreeMap<String, String> {
    let text = without_comments(text);
    let lines: Vec<_> = text.lines().filter(|l| !l.starts_with('#')).collect();
    lines
        .join("\n")
        .split([';', '{', '}'])
        .filter_map(|statement| {
            let statement = spaced(statement);
            let (head, _) = statement.split_once('(')?;
            let name = head.split(' ').next_back()?;
            Some((name.to_string(), statement))
        })
        .collect()
}

/// The fields of `wezghuli_NAME`.
pub fn fields(text: &str, name: &str) -> Option<String> {
    let text = without_comments(text);
    let end = format!("wezghuli_{name};");
    text.split("typedef struct {").skip(1).find_map(|rest| {
        let (fields, after) = rest.split_once('}')?;
        after.trim_start().starts_with(&end).then(|| spaced(fields))
    })
}

/// The macros that are numbers, by what follows `WEZGHULI_`.
pub fn constants(text: &str) -> BTreeMap<String, u64> {
    without_comments(text)
        .lines()
        .filter_map(|line| {
            let mut words = line.strip_prefix("#define WEZGHULI_")?.split_whitespace();
            let name = words.next()?;
            Some((name.to_string(), words.next()?.parse().ok()?))
        })
        .collect()
}

/// The functions of the library that a program in Rust declares.
pub fn rust_functions(text: &str) -> BTreeMap<String, String> {
    let text = spaced(text).replace("( ", "(").replace(", )", ")");
    text.split("fn wezghuli_")
        .skip(1)
        .filter_map(|part| {
            let (name, _) = part.split_once('(')?;
            let (declaration, _) = part.split_once(';')?;
            Some((
                format!("wezghuli_{name}"),
                format!("fn wezghuli_{declaration}"),
            ))
        })
        .collect()
}
