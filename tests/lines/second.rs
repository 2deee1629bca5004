// A second reader and printer of bracket lines, by other means than the product's: a record is printed with `format!`,
// and a line is read by cutting it into words, taking their numbers, printing the record again and comparing the two.
#[derive(Clone, Debug, PartialEq)]
pub struct Rec {
    pub form: u64,
    pub numbers: [u64; 5],
}

// the greatest number of an input line, of an output line, and of money in one or of a set
const I: u64 = 999_999_999_999;
const U: u64 = 4_294_967_295;
const W: u64 = u64::MAX;

// for each form: its word, and the label, the least and the greatest of each of its numbers
pub const FORMS: [(&str, &[(&str, u64, u64)]); 13] = [
    ("plan", &[("depth", 0, I), ("width", 0, I)]),
    ("campaign", &[("price", 0, I), ("budget", 0, I)]),
    ("start", &[]),
    ("view", &[("*", 0, W)]),
    ("close", &[]),
    ("ok", &[]),
    ("play", &[("", 0, 63), ("paid", 0, U)]),
    ("nobody", &[]),
    ("refused", &[("", 1, 19)]),
    ("closed", &[("takings", 0, W), ("claim", 0, W), ("full", 0, W)]),
    ("tally", &[("", 0, 63), ("plays", 0, U), ("turns", 0, U), ("age", 0, U), ("named", 0, U)]),
    ("pause", &[("", 0, 63)]),
    ("resume", &[("", 0, 63)]),
];

pub fn in_range(r: &Rec) -> bool {
    FORMS[r.form as usize].1.iter().zip(r.numbers).all(|(f, n)| f.1 <= n && n <= f.2)
}

pub fn print(r: &Rec) -> String {
    let (word, fields) = FORMS[r.form as usize];
    let mut out = format!("({word}");
    for (field, n) in fields.iter().zip(r.numbers) {
        match field.0 {
            "*" => (0..64).filter(|i| n >> i & 1 == 1).for_each(|i| out += &format!(" {i}")),
            "" => out += &format!(" {n}"),
            label => out += &format!(" ({label} {n})"),
        }
    }
    out + ")"
}

fn guess(line: &str) -> Option<Rec> {
    let words: Vec<&str> = line.split(|c| "() ".contains(c)).filter(|w| !w.is_empty()).collect();
    let form = FORMS.iter().position(|f| Some(&f.0) == words.first())?;
    let found: Vec<u64> = words.iter().filter_map(|w| w.parse().ok()).collect();
    let mut numbers = [0; 5];
    if form == 3 {
        numbers[0] = found.iter().filter(|n| **n < 64).fold(0, |v, n| v | 1 << n);
    } else {
        found.iter().take(5).enumerate().for_each(|(i, n)| numbers[i] = *n);
    }
    Some(Rec { form: form as u64, numbers })
}

pub fn read(line: &[u8]) -> Result<Rec, u64> {
    if line.len() > 200 {
        return Err(16);
    }
    let text = std::str::from_utf8(line).map_err(|_| 17u64)?;
    guess(text).filter(|r| in_range(r) && print(r) == text).ok_or(17)
}

pub fn write(r: &Rec, out: &mut [u8]) -> Result<usize, u64> {
    if !in_range(r) {
        return Err(17);
    }
    let line = print(r) + "\n";
    if out.len() < line.len() {
        return Err(18);
    }
    out[..line.len()].copy_from_slice(line.as_bytes());
    Ok(line.len())
}
