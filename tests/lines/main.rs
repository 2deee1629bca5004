//! Compares the product's reader and writer with a second program: the edges that the documents name, numerals beside
//! every limit and long ones in every slot, and many generated records and damaged lines.
mod numerals;
mod product;
mod records;
mod second;
use program::lines;
use records::record;
use second::{Rec, FORMS};

struct Rng(u64);

impl Rng {
    fn next(&mut self) -> u64 {
        self.0 ^= self.0 << 13;
        self.0 ^= self.0 >> 7;
        self.0 ^= self.0 << 17;
        self.0
    }

    fn below(&mut self, n: usize) -> usize {
        (self.next() % n as u64) as usize
    }

    // numbers of every length, and those beside a limit
    fn number(&mut self) -> u64 {
        const LIMITS: [u64; 12] = [
            0, 1, 9, 10, 19, 63, 4_294_967_295, 99_999_999_999, 999_999_999_999, 9_999_999_999_999,
            9_999_999_999_999_999_999, u64::MAX,
        ];
        match self.below(4) {
            0 => LIMITS[self.below(LIMITS.len())].wrapping_add(self.next() % 3).wrapping_sub(1),
            1 => self.next() % 64,
            _ => self.next() >> self.below(64),
        }
    }

    fn record(&mut self) -> Rec {
        let form = self.below(FORMS.len());
        let mut numbers = [0; 5];
        for (i, f) in FORMS[form].1.iter().enumerate() {
            let n = self.number();
            let tame = f.2 < u64::MAX && self.below(8) > 0;
            numbers[i] = if tame { f.1 + n % (f.2 - f.1 + 1) } else { n };
        }
        Rec { form: form as u64, numbers }
    }

    fn damage(&mut self, line: &mut Vec<u8>) {
        const BYTES: &[u8] = b"() 019ASaz\n\r\0\t#-+\x80\xff";
        for _ in 0..1 + self.below(2) {
            let at = self.below(line.len() + 1);
            let b = if self.below(4) == 0 { self.next() as u8 } else { BYTES[self.below(BYTES.len())] };
            match self.below(5) {
                0 => line.insert(at, b),
                1 if at < line.len() => drop(line.remove(at)),
                2 if at < line.len() => line[at] = b,
                3 if at < line.len() => line.insert(at, line[at]),
                _ => line.truncate(at),
            }
        }
    }
}

struct Tally {
    passed: u64,
    failed: u64,
}

impl Tally {
    fn same<T: PartialEq + std::fmt::Debug>(&mut self, what: &[u8], a: T, b: T) {
        if a == b {
            self.passed += 1;
        } else {
            self.failed += 1;
            println!("{:?}: the product {a:?}, the second {b:?}", String::from_utf8_lossy(what));
        }
    }

    fn read(&mut self, line: &[u8]) {
        self.same(line, product::read(line), second::read(line));
        self.same(line, product::read(line).map(|r| record(&r)), lines::read(line));
    }

    fn expect(&mut self, line: &[u8], want: Result<(u64, &[u64]), u64>) {
        let got = product::read(line).map(|r| (r.form, r.numbers[..FORMS[r.form as usize].1.len()].to_vec()));
        self.same(line, got, want.map(|(f, n)| (f, n.to_vec())));
        self.read(line);
    }

    // all three write into a buffer of this length, and every byte of it is compared
    fn write(&mut self, r: &Rec, len: usize) {
        let before: Vec<u8> = (0..len).map(|i| (i * 7 + 3) as u8).collect();
        let (mut a, mut b, mut c) = (before.clone(), before.clone(), before);
        let got = product::write(r, &mut a);
        let want = second::write(r, &mut b);
        self.same(&a, got, want);
        self.same(&b, &a, &b);
        self.same(&a, got, lines::write(&record(r), &mut c));
        self.same(&c, &a, &c);
    }
}

/// Lines that are no form of the documents.
const NO_FORMS: [&[u8]; 59] = [
    b"", b"(", b")", b"()", b"(start", b"start)", b"(start) ", b" (start)", b"(start)\n", b"(start)\r", b"\n(start)",
    b"(START)", b"(Start)", b"(start\0", b"(view 64)", b"(view 0 0)", b"(view 1 0)", b"(view  0)", b"(view 0 )",
    b"(view 00)", b"(view 01)", b"(view 0  1)", b"(view 18446744073709551616)", b"(view -1)", b"(refused 0)",
    b"(refused 20)", b"(play 64 (paid 5))", b"(plan (depth 02) (width 2))", b"(plan (depth 1000000000000) (width 2))",
    b"(plan (depth 2) (width 1000000000000))", b"(campaign (price 1000000000000) (budget 2))",
    b"(campaign (price 1) (budget 1000000000000))", b"(plan (depth 0000000000001) (width 2))",
    b"(play 0 (paid 4294967296))", b"(tally 0 (plays 4294967296) (turns 0) (age 0) (named 0))",
    b"(tally 0 (plays 0) (turns 0) (age 0) (named 999999999999))",
    b"(plan  (depth 2) (width 2))", b"(closed (takings 16) (claim 0) (full 18446744073709551616))",
    b"(nobody\xff", b"(plan (depth ) (width 2))",
    b"(pause)", b"(resume)", b"(pause 64)", b"(resume 64)", b"(pause 0 1)", b"(resume  0)", b"(pause 00)",
    b"(resume 0 )", b"(pause (campaign 0))", b"(paused 0)", b"(resumed 0)", b"(pause 0", b"(resume\n0)", b"(Pause 0)",
    b"(tally 0)", b"(tally 63)", b"(closed)", b"(play 0)", b"(refused)",
];

fn edges(t: &mut Tally) {
    const NO: Result<(u64, &[u64]), u64> = Err(17);
    t.expect(b"(plan (depth 2) (width 2))", Ok((0, &[2, 2])));
    t.expect(b"(campaign (price 0) (budget 4294967295))", Ok((1, &[0, 4294967295])));
    t.expect(b"(campaign (price 4294967296) (budget 4294967296))", Ok((1, &[4294967296, 4294967296])));
    t.expect(b"(plan (depth 4294967296) (width 999999999999))", Ok((0, &[4294967296, 999999999999])));
    t.expect(b"(campaign (price 999999999999) (budget 999999999999))", Ok((1, &[999999999999; 2])));
    t.expect(b"(play 0 (paid 4294967295))", Ok((6, &[0, 4294967295])));
    t.expect(b"(start)", Ok((2, &[])));
    t.expect(b"(view)", Ok((3, &[0])));
    t.expect(b"(view 0 63)", Ok((3, &[1 | 1 << 63])));
    t.expect(b"(close)", Ok((4, &[])));
    t.expect(b"(ok)", Ok((5, &[])));
    t.expect(b"(play 63 (paid 5))", Ok((6, &[63, 5])));
    t.expect(b"(nobody)", Ok((7, &[])));
    t.expect(b"(refused 19)", Ok((8, &[19])));
    t.expect(b"(closed (takings 16) (claim 0) (full 18446744073709551615))", Ok((9, &[16, 0, u64::MAX])));
    t.expect(b"(tally 0 (plays 2) (turns 2) (age 0) (named 4))", Ok((10, &[0, 2, 2, 0, 4])));
    t.expect(b"(pause 0)", Ok((11, &[0])));
    t.expect(b"(pause 63)", Ok((11, &[63])));
    t.expect(b"(resume 0)", Ok((12, &[0])));
    t.expect(b"(resume 63)", Ok((12, &[63])));
    NO_FORMS.iter().for_each(|line| t.expect(line, NO));
    for (len, want) in [(0, 17), (199, 17), (200, 17), (201, 16), (1000, 16)] {
        for b in [b' ', b'0', b'(', 0, 255] {
            t.expect(&vec![b; len], Err(want));
        }
    }
    let full = second::print(&Rec { form: 3, numbers: [u64::MAX, 0, 0, 0, 0] });
    t.expect(full.as_bytes(), Ok((3, &[u64::MAX])));
    for form in 0..FORMS.len() as u64 {
        for n in [0, 1, 19, 20, 63, 64, 4294967295, 4294967296, 999999999999, 1000000000000, u64::MAX] {
            for r in numerals::records(form, n) {
                let len = second::print(&r).len() + 1;
                [0, 1, len - 1, len, len + 1, 300].iter().for_each(|room| t.write(&r, *room));
            }
        }
    }
}

fn main() {
    let mut t = Tally { passed: 0, failed: 0 };
    edges(&mut t);
    numerals::all(&mut t);
    let mut rng = Rng(0x5eed_1234_9876_abcd);
    for _ in 0..200_000 {
        let r = rng.record();
        let len = rng.below(230);
        t.write(&r, len);
        let mut line = second::print(&r).into_bytes();
        t.read(&line);
        rng.damage(&mut line);
        t.read(&line);
    }
    for _ in 0..50_000 {
        let len = rng.below(210);
        let line: Vec<u8> = (0..len).map(|_| rng.next() as u8).collect();
        t.read(&line);
    }
    println!("{} passed, {} failed", t.passed, t.failed);
    std::process::exit((t.failed > 0) as i32);
}
