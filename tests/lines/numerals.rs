//! Numerals in every slot of every form. Those on both sides of each limit are read up to the slot's own. Those beyond
//! every range, of up to 300 digits, make the line no form or too long: a reader that wraps around in 64 bits takes
//! some of them for 1.

use crate::second::{print, Rec, FORMS};
use crate::Tally;

const MOST_DIGITS: usize = 300;

/// Twice a numeral.
fn doubled(digits: &[u8]) -> Vec<u8> {
    let mut out = vec![];
    let mut carry = 0;
    for digit in digits.iter().rev() {
        let n = (digit - b'0') * 2 + carry;
        out.push(b'0' + n % 10);
        carry = n / 10;
    }
    if carry > 0 {
        out.push(b'0' + carry);
    }
    out.reverse();
    out
}

/// Each power of 2 from 2^64 on and 1 more, which is 1 in 64 bits; of each length 1 with zeros, nines, 1 behind zeros.
fn long() -> Vec<String> {
    let mut found = vec![];
    let mut power = b"18446744073709551616".to_vec();
    while power.len() <= MOST_DIGITS {
        let mut next = power.clone();
        // a power of 2 ends in 2, 4, 6 or 8
        *next.last_mut().expect("a digit") += 1;
        found.push(String::from_utf8(next).expect("digits"));
        power = doubled(&power);
    }
    for n in 21..=MOST_DIGITS {
        found.extend([format!("1{}", "0".repeat(n - 1)), "9".repeat(n), format!("{}1", "0".repeat(n - 1))]);
    }
    found
}

/// The texts of a form with a numeral in one of its slots and 1 in the others.
fn filled(form: usize, numeral: &str) -> Vec<String> {
    const MARK: u64 = 62;
    let slots = FORMS[form].1.len();
    let with = |at: usize| {
        let mut numbers = [1; 5];
        numbers[at] = MARK;
        print(&Rec { form: form as u64, numbers }).replacen(&MARK.to_string(), numeral, 1)
    };
    match FORMS[form].0 {
        "view" => vec![format!("(view {numeral})"), format!("(view 0 {numeral})"), format!("(view {numeral} 63)")],
        _ => (0..slots).map(with).collect(),
    }
}

/// The greatest number of each slot, by its form's number: the documents' ranges.
const GREATEST: [&[u64]; FORMS.len()] = [
    &[999999999999, 999999999999],
    &[999999999999, 999999999999],
    &[],
    &[63, 63, 62],
    &[],
    &[],
    &[63, 4294967295],
    &[],
    &[19],
    &[u64::MAX, u64::MAX, u64::MAX],
    &[63, 4294967295, 4294967295, 4294967295, 4294967295],
    &[63],
    &[63],
];

/// Numbers on both sides of the limits, of 11 to 14 and of 20 digits.
const NUMBERS: [u64; 17] = [
    2,
    19,
    20,
    62,
    63,
    64,
    4294967295,
    4294967296,
    99999999999,
    100000000000,
    999999999999,
    1000000000000,
    9999999999999,
    10000000000000,
    9999999999999999999,
    10000000000000000000,
    u64::MAX,
];

/// Each number in each slot, as it is and behind zeros that make 12 and 13 digits of it, or one more.
fn beside_limits(t: &mut Tally) {
    for (form, greatest) in GREATEST.into_iter().enumerate() {
        for n in NUMBERS {
            let zeros = [format!("0{n}"), format!("{n:012}"), format!("{n:013}")];
            for (line, most) in filled(form, &n.to_string()).into_iter().zip(greatest) {
                let read = crate::product::read(line.as_bytes()).map(|r| r.form);
                t.same(line.as_bytes(), read, if n <= *most { Ok(form as u64) } else { Err(17) });
                t.read(line.as_bytes());
            }
            for numeral in zeros.iter().filter(|z| z.starts_with('0')) {
                filled(form, numeral).iter().for_each(|line| t.expect(line.as_bytes(), Err(17)));
            }
        }
    }
}

/// The records of a form with a number in all its slots, or in one of them and 1 in the others.
pub fn records(form: u64, n: u64) -> Vec<Rec> {
    let one = |at: usize| {
        let mut numbers = [1; 5];
        numbers[at] = n;
        Rec { form, numbers }
    };
    (0..FORMS[form as usize].1.len()).map(one).chain([Rec { form, numbers: [n; 5] }]).collect()
}

pub fn all(t: &mut Tally) {
    beside_limits(t);
    for numeral in long() {
        for line in (0..FORMS.len()).flat_map(|form| filled(form, &numeral)) {
            t.expect(line.as_bytes(), Err(if line.len() > 200 { 16 } else { 17 }));
        }
    }
}
