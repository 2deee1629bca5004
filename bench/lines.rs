//! Times the product's reader and writer against plain Rust on the same lines, in one run, once both gave the same
//! results. A ratio is Rust's time over the product's.
mod plain_lines;
use plain_lines::Record;
use std::hint::black_box;
use std::time::Instant;

extern "C" {
    fn wezghuli_read_line(line: *const u8, line_len: usize, words: *mut u64) -> u64;
    fn wezghuli_write_line(words: *const u64, out: *mut u8, out_len: usize, written: *mut u64) -> u64;
}

struct Rng(u64);

impl Rng {
    fn next(&mut self) -> u64 {
        self.0 ^= self.0 << 13;
        self.0 ^= self.0 >> 7;
        self.0 ^= self.0 << 17;
        self.0
    }

    fn number(&mut self, max: u64) -> u64 {
        let shift = self.next() % 64;
        let n = self.next() >> shift;
        if max == u64::MAX {
            n
        } else {
            n % (max + 1)
        }
    }
}

/// Lines of a race over all forms, and of one over a single form.
const MIXED: usize = 2_000;
const OF_A_FORM: usize = 500;

const NAMES: [&str; 13] = [
    "plan", "campaign", "start", "view", "close", "ok", "play", "nobody", "refused", "closed", "tally", "pause",
    "resume",
];
const MOST: [[u64; 5]; 13] = {
    const U: u64 = 4294967295;
    const W: u64 = u64::MAX;
    [
        [U, U, 0, 0, 0],
        [U, U, 0, 0, 0],
        [0; 5],
        [W, 0, 0, 0, 0],
        [0; 5],
        [0; 5],
        [63, U, 0, 0, 0],
        [0; 5],
        [18, 0, 0, 0, 0],
        [W, W, W, 0, 0],
        [63, U, U, U, U],
        [63, 0, 0, 0, 0],
        [63, 0, 0, 0, 0],
    ]
};

type Made = (u64, [u64; 5]);

fn record(rng: &mut Rng, form: usize) -> Made {
    let mut n = [0; 5];
    (0..5).for_each(|i| n[i] = rng.number(MOST[form][i]));
    if form == 8 {
        n[0] += 1;
    }
    (form as u64, n)
}

fn plain((form, n): Made) -> Record {
    match form {
        0 => Record::Plan { depth: n[0], width: n[1] },
        1 => Record::Campaign { price: n[0], budget: n[1] },
        2 => Record::Start,
        3 => Record::View(n[0]),
        4 => Record::Close,
        5 => Record::Done,
        6 => Record::Play { campaign: n[0], paid: n[1] },
        7 => Record::Nobody,
        8 => Record::Refused(n[0]),
        9 => Record::Closed { takings: n[0], claim: n[1], full: n[2] },
        10 => Record::Tally { campaign: n[0], plays: n[1], turns: n[2], age: n[3], named: n[4] },
        11 => Record::Pause(n[0]),
        _ => Record::Resume(n[0]),
    }
}

fn made(r: Record) -> Made {
    match r {
        Record::Plan { depth, width } => (0, [depth, width, 0, 0, 0]),
        Record::Campaign { price, budget } => (1, [price, budget, 0, 0, 0]),
        Record::Start => (2, [0; 5]),
        Record::View(set) => (3, [set, 0, 0, 0, 0]),
        Record::Close => (4, [0; 5]),
        Record::Done => (5, [0; 5]),
        Record::Play { campaign, paid } => (6, [campaign, paid, 0, 0, 0]),
        Record::Nobody => (7, [0; 5]),
        Record::Refused(number) => (8, [number, 0, 0, 0, 0]),
        Record::Closed { takings, claim, full } => (9, [takings, claim, full, 0, 0]),
        Record::Tally { campaign, plays, turns, age, named } => (10, [campaign, plays, turns, age, named]),
        Record::Pause(campaign) => (11, [campaign, 0, 0, 0, 0]),
        Record::Resume(campaign) => (12, [campaign, 0, 0, 0, 0]),
    }
}

/// The product's reader: a record, or the number of the refusal.
fn read(line: &[u8]) -> Result<Made, u64> {
    let mut words = [0; 6];
    match unsafe { wezghuli_read_line(line.as_ptr(), line.len(), words.as_mut_ptr()) } {
        0 => Ok((words[0], [words[1], words[2], words[3], words[4], words[5]])),
        refused => Err(refused),
    }
}

/// The product's writer: the length, or the number of the refusal.
fn write(r: Made, out: &mut [u8]) -> Result<usize, u64> {
    let words = [r.0, r.1[0], r.1[1], r.1[2], r.1[3], r.1[4]];
    let mut length = [0];
    match unsafe { wezghuli_write_line(words.as_ptr(), out.as_mut_ptr(), out.len(), length.as_mut_ptr()) } {
        0 => Ok(length[0] as usize),
        refused => Err(refused),
    }
}

/// Both read each line alike, or nothing is timed.
fn same_records(name: &str, lines: &[Vec<u8>]) {
    for l in lines {
        let (ours, rust) = (read(l), plain_lines::read_line(l).map(made));
        assert_eq!(ours, rust, "{name}: {}", l.escape_ascii());
    }
}

/// Both write each record alike, into too short a buffer too, and leave the same bytes; or nothing is timed.
fn same_lines(name: &str, records: &[Made]) {
    for r in records {
        let whole = line(*r).len() + 1;
        for room in [whole - 1, whole, 256] {
            let (mut ours, mut rust) = (vec![7; room], vec![7; room]);
            let written = (write(*r, &mut ours), plain_lines::write_line(plain(*r), &mut rust));
            assert_eq!(written.0, written.1, "{name}: {r:?} into {room} bytes");
            assert_eq!(ours, rust, "{name}: {r:?} into {room} bytes");
        }
    }
}

fn line(r: Made) -> Vec<u8> {
    let mut out = [0; 201];
    let n = plain_lines::write_line(plain(r), &mut out).unwrap();
    out[..n - 1].to_vec()
}

// the least of several rounds, in nanoseconds for each item; the two take turns
fn race(name: &str, items: usize, mut ours: impl FnMut(), mut rust: impl FnMut()) {
    let (mut a, mut b) = (f64::MAX, f64::MAX);
    for _ in 0..400 {
        let t = Instant::now();
        ours();
        a = a.min(t.elapsed().as_nanos() as f64);
        let t = Instant::now();
        rust();
        b = b.min(t.elapsed().as_nanos() as f64);
    }
    let (a, b) = (a / items as f64, b / items as f64);
    println!("{name:24} {a:7.1} ns   plain Rust {b:7.1} ns   ratio {:.2}", b / a);
}

fn read_race(name: &str, lines: &[Vec<u8>]) {
    same_records(name, lines);
    let ours = || {
        for l in lines {
            let mut n = [0u64; 6];
            black_box(unsafe { wezghuli_read_line(l.as_ptr(), l.len(), n.as_mut_ptr()) });
            black_box(n);
        }
    };
    let rust = || {
        for l in lines {
            let _ = black_box(plain_lines::read_line(l));
        }
    };
    race(name, lines.len(), ours, rust);
}

fn write_race(name: &str, records: &[Made]) {
    same_lines(name, records);
    let plains: Vec<Record> = records.iter().map(|r| plain(*r)).collect();
    let words: Vec<[u64; 6]> = records.iter().map(|(f, n)| [*f, n[0], n[1], n[2], n[3], n[4]]).collect();
    let mut length = [0];
    let mut out = [0u8; 256];
    let mut back = [0u8; 256];
    let ours = || {
        for w in &words {
            black_box(unsafe { wezghuli_write_line(w.as_ptr(), out.as_mut_ptr(), out.len(), length.as_mut_ptr()) });
        }
    };
    let rust = || {
        for r in &plains {
            let _ = black_box(plain_lines::write_line(*r, &mut back));
        }
    };
    race(name, records.len(), ours, rust);
}

fn main() {
    let mut rng = Rng(0x1234_5678_9abc_def1);
    let mix: Vec<Made> = (0..MIXED)
        .map(|_| {
            let form = rng.next() as usize % NAMES.len();
            record(&mut rng, form)
        })
        .collect();
    let valid: Vec<Vec<u8>> = mix.iter().map(|r| line(*r)).collect();
    let mut damage = |l: &Vec<u8>| {
        let mut l = l.clone();
        let at = rng.next() as usize % l.len();
        l[at] = b"() 0xZ"[rng.next() as usize % 6];
        l
    };
    let damaged: Vec<Vec<u8>> = valid.iter().map(&mut damage).collect();
    let views: Vec<Vec<u8>> = (0..MIXED).map(|_| line((3, [rng.next() & rng.next(), 0, 0, 0, 0]))).collect();
    read_race("read valid", &valid);
    read_race("read damaged", &damaged);
    read_race("read views", &views);
    for (form, name) in NAMES.iter().enumerate() {
        let lines: Vec<Vec<u8>> = (0..OF_A_FORM).map(|_| line(record(&mut rng, form))).collect();
        read_race(&format!("read {name}"), &lines);
    }
    write_race("write all forms", &mix);
    for (form, name) in NAMES.iter().enumerate() {
        let records: Vec<Made> = (0..OF_A_FORM).map(|_| record(&mut rng, form)).collect();
        write_race(&format!("write {name}"), &records);
    }
}
