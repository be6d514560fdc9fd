// How much stack each call takes: the unused part of a thread's stack is painted before a question, and looked at after it.
use std::arch::asm;

#[repr(C)]
#[derive(Clone, Copy, Default)]
struct Reply {
    words: [u64; 11],
}

extern "C" {
    fn breezedrum_check(table: *const u64, words: usize) -> Reply;
    fn breezedrum_read_sheet(sheet: *const u8, bytes: usize, table: *mut u64, words: usize) -> Reply;
    fn breezedrum_write_sheet(table: *const u64, words: usize, sheet: *mut u8, bytes: usize) -> Reply;
    fn breezedrum_report(sheet: *const u8, bytes: usize, out: *mut u8, room: usize) -> Reply;
    fn breezedrum_quorum(table: *const u64, words: usize, out: u64, set: u64) -> Reply;
    fn breezedrum_greatest(table: *const u64, words: usize, out: u64, set: u64) -> Reply;
    fn breezedrum_blocks(table: *const u64, words: usize, set: u64, node: u64) -> Reply;
    fn breezedrum_verdict(table: *const u64, words: usize, out: u64, allowance: u64) -> Reply;
    fn breezedrum_minimal(table: *const u64, words: usize, allowance: u64, sets: *mut u64, room: usize) -> Reply;
    fn breezedrum_blocking(table: *const u64, words: usize, allowance: u64, sets: *mut u64, room: usize) -> Reply;
    fn breezedrum_intact(table: *const u64, words: usize, ill: u64, allowance: u64) -> Reply;
}

const DEPTH: usize = 512 * 1024;
const PAINT: u8 = 0xa5;
const NAMES: [&str; 11] = ["check", "read", "write", "quorum", "greatest", "blocks", "verdict", "minimal", "blocking", "intact", "report"];

#[inline(never)]
fn below(question: &mut dyn FnMut()) -> usize {
    let here: usize;
    unsafe { asm!("mov {}, rsp", out(reg) here) };
    let low = here - DEPTH;
    let ground = here - 256;
    for at in low..ground {
        unsafe { std::ptr::write_volatile(at as *mut u8, PAINT) };
    }
    question();
    let mut at = low;
    while at < ground && unsafe { std::ptr::read_volatile(at as *const u8) } == PAINT {
        at += 1;
    }
    here - at
}

// The bytes of stack that each function takes on one sheet, in the order of NAMES.
fn taken(sheet: &[u8]) -> [usize; 11] {
    let (mut table, mut sets, mut text) = (vec![0u64; 512], vec![0u64; 1024], vec![0u8; 1 << 20]);
    let allowance = 100_000;
    unsafe {
        let (s, t) = (sheet.as_ptr(), table.as_mut_ptr());
        let (l, x) = (sets.as_mut_ptr(), text.as_mut_ptr());
        let n = breezedrum_read_sheet(s, sheet.len(), t, 512).words[9] as usize;
        let nodes = breezedrum_check(t, n).words[2];
        let all = u64::MAX >> (64 - nodes);
        [
            below(&mut || { breezedrum_check(t, n); }),
            below(&mut || { breezedrum_read_sheet(s, sheet.len(), t, 512); }),
            below(&mut || { breezedrum_write_sheet(t, n, x, 1 << 20); }),
            below(&mut || { breezedrum_quorum(t, n, 0, all); }),
            below(&mut || { breezedrum_greatest(t, n, 0, all); }),
            below(&mut || { breezedrum_blocks(t, n, 0, 0); }),
            below(&mut || { breezedrum_verdict(t, n, 0, allowance); }),
            below(&mut || { breezedrum_minimal(t, n, allowance, l, 1024); }),
            below(&mut || { breezedrum_blocking(t, n, allowance, l, 1024); }),
            below(&mut || { breezedrum_intact(t, n, 1, allowance); }),
            below(&mut || { breezedrum_report(s, sheet.len(), x, 1 << 20); }),
        ]
    }
}

fn line(shape: &str, columns: impl Iterator<Item = String>) {
    println!("{shape:19}{}", columns.map(|c| format!(" {c:>8}")).collect::<String>());
}

fn main() {
    line("shape", NAMES.iter().map(|n| n.to_string()));
    for path in std::env::args().skip(1) {
        let sheet = std::fs::read(&path).expect("a sheet");
        let thread = std::thread::Builder::new().stack_size(4 * DEPTH);
        let used = thread.spawn(move || taken(&sheet)).unwrap().join().unwrap();
        line(path.rsplit('/').next().unwrap().trim_end_matches(".sheet"), used.iter().map(|u| u.to_string()));
    }
}
