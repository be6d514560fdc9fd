// The proved library and a plain Rust program for the same trees, on the same tables in one run. Answers and visits must be equal.
use std::time::Instant;

#[repr(C)]
#[derive(Clone, Copy, Default)]
struct Reply {
    number: u64,
    place: u64,
    nodes: u64,
    records: u64,
    answer: u64,
    set: u64,
    rounds: u64,
    first: u64,
    second: u64,
    count: u64,
    visits: u64,
}

extern "C" {
    fn breezedrum_read_sheet(sheet: *const u8, bytes: usize, table: *mut u64, words: usize) -> Reply;
    fn breezedrum_verdict(table: *const u64, words: usize, out: u64, allowance: u64) -> Reply;
    fn breezedrum_minimal(table: *const u64, words: usize, allowance: u64, sets: *mut u64, room: usize) -> Reply;
    fn breezedrum_blocking(table: *const u64, words: usize, allowance: u64, sets: *mut u64, room: usize) -> Reply;
}

// ---- the plain program: masks, popcount, no tricks
struct Set {
    threshold: u32,
    members: u64,
    inner: Vec<Set>,
}

fn parse(table: &[u64], at: &mut usize, level: u64) -> Set {
    let control = table[2 * *at];
    // A threshold of 0 is an unknown archive's, which nobody satisfies: as high as none can reach, it costs judging no test.
    let threshold = if control % 256 == 0 { u32::MAX } else { (control % 256) as u32 };
    let mut set = Set { threshold, members: table[2 * *at + 1], inner: Vec::new() };
    *at += 1;
    while 2 * *at < table.len() && table[2 * *at] / 256 > level {
        set.inner.push(parse(table, at, level + 1));
    }
    set
}

fn satisfied(set: &Set, u: u64) -> bool {
    let mut have = (set.members & u).count_ones();
    for inner in &set.inner {
        if satisfied(inner, u) {
            have += 1;
        }
    }
    have >= set.threshold
}

struct System {
    nodes: Vec<Set>,
    all: u64,
}

impl System {
    fn round(&self, present: u64, with: u64) -> u64 {
        let (mut keep, mut left) = (0, present);
        while left != 0 {
            let v = left.trailing_zeros();
            if satisfied(&self.nodes[v as usize], with) {
                keep |= 1 << v;
            }
            left &= left - 1;
        }
        keep
    }

    fn greatest(&self, out: u64, u: u64) -> u64 {
        let mut present = u & !out;
        while present != 0 {
            let keep = self.round(present, present | out);
            if keep == present {
                return keep;
            }
            present = keep;
        }
        0
    }

    fn quorum(&self, out: u64, c: u64) -> bool {
        c != 0 && c & out == 0 && self.round(c, c | out) == c
    }

    // Some(Some(pair)): no; Some(None): yes; None: the allowance ends first.
    fn verdict(&self, out: u64, ground: u64, c: u64, r: u64, left: &mut u64) -> Option<Option<(u64, u64)>> {
        if *left == 0 {
            return None;
        }
        *left -= 1;
        if c.count_ones() > ground.count_ones() / 2 {
            return Some(None);
        }
        let g = self.greatest(out, c | r);
        if g == 0 || c & !g != 0 {
            return Some(None);
        }
        if self.quorum(out, c) {
            let h = self.greatest(out, ground & !c);
            return Some(if h != 0 { Some((c, h)) } else { None });
        }
        let m = g & !c;
        let v = m & m.wrapping_neg();
        match self.verdict(out, ground, c, m & !v, left)? {
            Some(pair) => Some(Some(pair)),
            None => self.verdict(out, ground, c | v, m & !v, left),
        }
    }

    fn each(c: u64, test: impl Fn(u64) -> bool) -> bool {
        let mut left = c;
        while left != 0 {
            if !test(left & left.wrapping_neg()) {
                return false;
            }
            left &= left - 1;
        }
        true
    }

    fn minimal(&self, c: u64, r: u64, left: &mut u64, sets: &mut Vec<u64>) -> Option<()> {
        if *left == 0 {
            return None;
        }
        *left -= 1;
        let g = self.greatest(0, c | r);
        if g == 0 || c & !g != 0 {
            return Some(());
        }
        if self.quorum(0, c) {
            if Self::each(c, |v| self.greatest(0, c & !v) == 0) {
                sets.push(c);
            }
            return Some(());
        }
        let m = g & !c;
        let v = m & m.wrapping_neg();
        self.minimal(c, m & !v, left, sets)?;
        self.minimal(c | v, m & !v, left, sets)
    }

    fn blocking(&self, c: u64, r: u64, left: &mut u64, sets: &mut Vec<u64>) -> Option<()> {
        if *left == 0 {
            return None;
        }
        *left -= 1;
        if self.greatest(0, self.all & !(c | r)) != 0 {
            return Some(());
        }
        let g = self.greatest(0, self.all & !c);
        if g == 0 {
            if Self::each(c, |v| self.greatest(0, self.all & !(c & !v)) != 0) {
                sets.push(c);
            }
            return Some(());
        }
        let m = r & g;
        let v = m & m.wrapping_neg();
        self.blocking(c, r & !v, left, sets)?;
        self.blocking(c | v, r & !v, left, sets)
    }
}

fn plain_list(found: Option<()>, sets: &[u64], spent: u64, allowance: u64, lent: &mut [u64]) -> Reply {
    if found.is_none() {
        return Reply { number: 9, visits: allowance, ..Default::default() };
    }
    if sets.len() > lent.len() {
        return Reply { number: 10, count: sets.len() as u64, ..Default::default() };
    }
    lent[..sets.len()].copy_from_slice(sets);
    Reply { number: 0, count: sets.len() as u64, visits: spent, ..Default::default() }
}

fn timed(mut f: impl FnMut() -> Reply) -> (Reply, f64) {
    let mut best = f64::MAX;
    let mut reply = Reply::default();
    for _ in 0..3 {
        let start = Instant::now();
        reply = f();
        best = best.min(start.elapsed().as_nanos() as f64);
        if best > 2e9 {
            break;
        }
    }
    (reply, best)
}

fn main() {
    let allowance = 1_000_000u64;
    println!("{:19} {:9} {:>3} {:>9} {:>10} {:>10} {:>6}", "shape", "question", "no", "visits", "proved", "plain", "ratio");
    for path in std::env::args().skip(1) {
        let sheet = std::fs::read(&path).expect("a sheet");
        let mut table = [0u64; 512];
        let read = unsafe { breezedrum_read_sheet(sheet.as_ptr(), sheet.len(), table.as_mut_ptr(), 512) };
        assert_eq!(read.number, 0, "{path}");
        let t = &table[..read.count as usize];
        let mut system = System { nodes: Vec::new(), all: 0 };
        let mut at = 0;
        while 2 * at < t.len() {
            system.nodes.push(parse(t, &mut at, 0));
        }
        let n = system.nodes.len();
        system.all = if n == 64 { u64::MAX } else { (1 << n) - 1 };
        let shape = path.rsplit('/').next().unwrap().trim_end_matches(".sheet");
        let (mut ours, mut theirs) = (vec![0u64; 1024], vec![0u64; 1024]);
        for question in ["verdict", "minimal", "blocking"] {
            let (a, proved) = timed(|| unsafe {
                match question {
                    "verdict" => breezedrum_verdict(t.as_ptr(), t.len(), 0, allowance),
                    "minimal" => breezedrum_minimal(t.as_ptr(), t.len(), allowance, ours.as_mut_ptr(), 1024),
                    _ => breezedrum_blocking(t.as_ptr(), t.len(), allowance, ours.as_mut_ptr(), 1024),
                }
            });
            let mut visits = 0;
            let (b, plain) = timed(|| {
                let mut left = allowance;
                let reply = match question {
                    "verdict" => match system.verdict(0, system.all, 0, system.all, &mut left) {
                        None => Reply { number: 9, visits: allowance, ..Default::default() },
                        Some(None) => Reply { answer: 1, visits: allowance - left, ..Default::default() },
                        Some(Some((p, q))) => Reply { first: p, second: q, visits: allowance - left, ..Default::default() },
                    },
                    list => {
                        let mut sets = Vec::new();
                        let found = if list == "minimal" {
                            system.minimal(0, system.all, &mut left, &mut sets)
                        } else {
                            system.blocking(0, system.all, &mut left, &mut sets)
                        };
                        plain_list(found, &sets, allowance - left, allowance, &mut theirs)
                    }
                };
                visits = allowance - left;
                reply
            });
            assert_eq!(
                (a.number, a.answer, a.first, a.second, a.count, a.visits),
                (b.number, b.answer, b.first, b.second, b.count, b.visits),
                "{shape} {question}"
            );
            assert_eq!(ours, theirs, "{shape} {question}");
            let each = |ns: f64| ns / visits as f64;
            println!(
                "{shape:19} {question:9} {:3} {visits:9} {:8.1}ns {:8.1}ns {:6.2}",
                a.number, each(proved), each(plain), plain / proved
            );
        }
    }
}
