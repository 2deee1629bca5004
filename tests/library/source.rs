//! The exported functions and the constants of Rattle sources.

use std::collections::BTreeMap;

/// A parameter's type.
enum Kind {
    Number,
    /// An array of so many numbers of so many bits, lent to be read or to be written.
    Array(bool, String, String),
    Slice(bool, String),
}

pub struct Function {
    name: String,
    parameters: Vec<(String, Kind)>,
    returns: bool,
}

fn without_comments(text: &str) -> String {
    text.lines()
        .map(|line| line.split("//").next().unwrap_or(""))
        .collect::<Vec<_>>()
        .join("\n")
}

fn kind(text: &str) -> Kind {
    let text = text.trim();
    let Some(lent) = text.strip_prefix('&') else {
        assert_eq!(text, "u64", "a parameter's type");
        return Kind::Number;
    };
    let lent = lent.trim_start_matches("'a ");
    let (writes, lent) = match lent.strip_prefix("mut ") {
        Some(rest) => (true, rest),
        None => (false, lent),
    };
    let inside = lent.trim_start_matches('[').trim_end_matches(']');
    match inside.split_once("; ") {
        Some((item, length)) => Kind::Array(writes, item.into(), length.into()),
        None => Kind::Slice(writes, inside.into()),
    }
}

/// Every `pub extern "C" fn`.
pub fn functions(text: &str) -> BTreeMap<String, Function> {
    let text = without_comments(text);
    let mut all = BTreeMap::new();
    for part in text.split("pub extern \"C\" fn ").skip(1) {
        let (head, rest) = part.split_once('(').expect("parameters");
        let name = head.split('<').next().unwrap_or(head).trim().to_string();
        let (list, after) = rest.split_once(')').expect("the end of the parameters");
        let parameters = list
            .split(',')
            .filter_map(|p| p.split_once(':'))
            .map(|(name, text)| (name.trim().to_string(), kind(text)))
            .collect();
        let after = after.trim_start();
        let returns = after.starts_with("-> u64");
        assert!(
            returns || !after.starts_with("->"),
            "{name}: what it returns"
        );
        all.insert(
            name.clone(),
            Function {
                name,
                parameters,
                returns,
            },
        );
    }
    all
}

/// Every `const NAME: TYPE = NUMBER;`.
pub fn constants(text: &str) -> BTreeMap<String, u64> {
    let text = without_comments(text);
    let mut all = BTreeMap::new();
    for part in text.split("const ").skip(1) {
        let Some((name, rest)) = part.split_once(':') else {
            continue;
        };
        let value = rest.split_once('=').and_then(|(_, v)| v.split_once(';'));
        let number = value.and_then(|(v, _)| v.trim().replace('_', "").parse().ok());
        if let Some(number) = number {
            all.insert(name.trim().to_string(), number);
        }
    }
    all
}

fn c_number(item: &str) -> String {
    format!("uint{}_t", &item[1..])
}

impl Function {
    fn declared(&self, one: impl Fn(&str, &Kind) -> String) -> String {
        let list: Vec<_> = self.parameters.iter().map(|(n, k)| one(n, k)).collect();
        list.join(", ")
    }

    pub fn in_c(&self) -> String {
        let result = if self.returns { "uint64_t" } else { "void" };
        let list = self.declared(|name, kind| match kind {
            Kind::Number => format!("uint64_t {name}"),
            Kind::Array(true, item, length) => format!("{} {name}[{length}]", c_number(item)),
            Kind::Array(false, item, length) => {
                format!("const {} {name}[{length}]", c_number(item))
            }
            Kind::Slice(true, item) => format!("{} *{name}, size_t {name}_len", c_number(item)),
            Kind::Slice(false, item) => {
                format!("const {} *{name}, size_t {name}_len", c_number(item))
            }
        });
        format!("{result} {}({list})", self.name)
    }

    /// The arrays as the fields of a struct.
    pub fn fields_in_c(&self) -> String {
        let mut fields = self.in_c();
        fields = fields[fields.find('(').map_or(0, |i| i + 1)..].replace(", ", "; ");
        fields.replace(')', ";")
    }

    pub fn in_rust(&self) -> String {
        let list = self.declared(|name, kind| match kind {
            Kind::Number => format!("{name}: u64"),
            Kind::Array(true, item, _) => format!("{name}: *mut {item}"),
            Kind::Array(false, item, _) => format!("{name}: *const {item}"),
            Kind::Slice(true, item) => format!("{name}: *mut {item}, {name}_len: usize"),
            Kind::Slice(false, item) => format!("{name}: *const {item}, {name}_len: usize"),
        });
        let result = if self.returns { " -> u64" } else { "" };
        format!("fn {}({list}){result}", self.name)
    }
}
