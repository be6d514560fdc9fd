//! Breezedrum from Rust: safe functions over the static library (`tools/build`). Every function takes any input; an answer is a
//! `Reply`, the number (SPECIFICATION 7) and its fields, 0 where the number does not name a field. A number above 0 leaves every lent
//! buffer as it was. A record of two words 0 that has no inner sets is an archive whose sheet is unknown: a node that no set satisfies.

#[repr(C)]
#[derive(Clone, Copy, Debug, Default, PartialEq, Eq)]
pub struct Reply {
    pub number: u64,
    pub place: u64,
    pub nodes: u64,
    pub records: u64,
    /// 1 yes, 0 no
    pub answer: u64,
    pub set: u64,
    pub rounds: u64,
    pub first: u64,
    pub second: u64,
    pub count: u64,
    pub visits: u64,
}

/// The nodes of a set, rising.
pub fn ids(set: u64) -> Vec<u32> {
    (0..64).filter(|node| set >> node & 1 == 1).collect()
}

mod c {
    use super::Reply;
    extern "C" {
        pub fn breezedrum_check(table: *const u64, words: usize) -> Reply;
        pub fn breezedrum_read_sheet(sheet: *const u8, bytes: usize, table: *mut u64, words: usize) -> Reply;
        pub fn breezedrum_write_sheet(table: *const u64, words: usize, sheet: *mut u8, bytes: usize) -> Reply;
        pub fn breezedrum_report(sheet: *const u8, bytes: usize, out: *mut u8, room: usize) -> Reply;
        pub fn breezedrum_quorum(table: *const u64, words: usize, out: u64, set: u64) -> Reply;
        pub fn breezedrum_greatest(table: *const u64, words: usize, out: u64, set: u64) -> Reply;
        pub fn breezedrum_blocks(table: *const u64, words: usize, set: u64, node: u64) -> Reply;
        pub fn breezedrum_verdict(table: *const u64, words: usize, out: u64, allowance: u64) -> Reply;
        pub fn breezedrum_minimal(table: *const u64, words: usize, allowance: u64, sets: *mut u64, room: usize) -> Reply;
        pub fn breezedrum_blocking(table: *const u64, words: usize, allowance: u64, sets: *mut u64, room: usize) -> Reply;
        pub fn breezedrum_intact(table: *const u64, words: usize, ill: u64, allowance: u64) -> Reply;
    }
}

/// Checks a packed table.
pub fn check(table: &[u64]) -> Reply {
    unsafe { c::breezedrum_check(table.as_ptr(), table.len()) }
}

/// Reads a sheet into `table`. The threshold of an unknown archive is written `?`; a written 0 gives number 5.
pub fn read_sheet(sheet: &[u8], table: &mut [u64]) -> Reply {
    unsafe { c::breezedrum_read_sheet(sheet.as_ptr(), sheet.len(), table.as_mut_ptr(), table.len()) }
}

/// Writes a table as a sheet into `sheet`.
pub fn write_sheet(table: &[u64], sheet: &mut [u8]) -> Reply {
    unsafe { c::breezedrum_write_sheet(table.as_ptr(), table.len(), sheet.as_mut_ptr(), sheet.len()) }
}

/// Writes the report on a sheet into `out`: what the report program prints, a bad sheet's one line included.
pub fn report(sheet: &[u8], out: &mut [u8]) -> Reply {
    unsafe { c::breezedrum_report(sheet.as_ptr(), sheet.len(), out.as_mut_ptr(), out.len()) }
}

/// Is `set` a quorum, with `out` counted out?
pub fn is_quorum(table: &[u64], out: u64, set: u64) -> Reply {
    unsafe { c::breezedrum_quorum(table.as_ptr(), table.len(), out, set) }
}

/// The greatest quorum within `set`, with `out` counted out, and its rounds.
pub fn greatest(table: &[u64], out: u64, set: u64) -> Reply {
    unsafe { c::breezedrum_greatest(table.as_ptr(), table.len(), out, set) }
}

/// Does `set` block `node`: is `node` in `set`, or do the nodes outside `set` not satisfy it?
pub fn blocks(table: &[u64], set: u64, node: u64) -> Reply {
    unsafe { c::breezedrum_blocks(table.as_ptr(), table.len(), set, node) }
}

/// Do all quorums intersect, with `out` counted out?
pub fn verdict(table: &[u64], out: u64, allowance: u64) -> Reply {
    unsafe { c::breezedrum_verdict(table.as_ptr(), table.len(), out, allowance) }
}

/// The minimal quorums, in the listing order, into `sets`.
pub fn minimal(table: &[u64], allowance: u64, sets: &mut [u64]) -> Reply {
    unsafe { c::breezedrum_minimal(table.as_ptr(), table.len(), allowance, sets.as_mut_ptr(), sets.len()) }
}

/// The minimal blocking sets, in the listing order, into `sets`. Where there is no quorum at all, the empty set is the only one.
pub fn blocking(table: &[u64], allowance: u64, sets: &mut [u64]) -> Reply {
    unsafe { c::breezedrum_blocking(table.as_ptr(), table.len(), allowance, sets.as_mut_ptr(), sets.len()) }
}

/// The nodes that stay intact for the ill set `ill`.
pub fn intact(table: &[u64], ill: u64, allowance: u64) -> Reply {
    unsafe { c::breezedrum_intact(table.as_ptr(), table.len(), ill, allowance) }
}
