// The product's reader and writer, by the C functions of crates/wezghuli_c.
use crate::second::Rec;

extern "C" {
    fn wezghuli_read_line(line: *const u8, line_len: usize, words: *mut u64) -> u64;
    fn wezghuli_write_line(words: *const u64, out: *mut u8, out_len: usize, written: *mut u64) -> u64;
}

pub fn read(line: &[u8]) -> Result<Rec, u64> {
    let mut words = [UNTOUCHED; 6];
    let status = unsafe { wezghuli_read_line(line.as_ptr(), line.len(), words.as_mut_ptr()) };
    if status > 0 {
        assert_eq!(words, [UNTOUCHED; 6], "a refusal wrote");
        return Err(status);
    }
    let [form, numbers @ ..] = words;
    Ok(Rec { form, numbers })
}

pub fn write(r: &Rec, out: &mut [u8]) -> Result<usize, u64> {
    let mut words = [r.form; 6];
    words[1..].copy_from_slice(&r.numbers);
    let mut length = [UNTOUCHED];
    let status = unsafe { wezghuli_write_line(words.as_ptr(), out.as_mut_ptr(), out.len(), length.as_mut_ptr()) };
    if status > 0 {
        assert_eq!(length, [UNTOUCHED], "a refusal wrote");
        return Err(status);
    }
    Ok(length[0] as usize)
}

const UNTOUCHED: u64 = 0x5a5a_5a5a_5a5a_5a5a;
