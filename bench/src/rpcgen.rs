//! rpcgen's reader and writer behind safe functions.

#[repr(C)]
#[derive(Clone, Copy)]
pub struct Entry {
    pub card: u32,
    pub p: u64,
    pub c: u64,
}

mod raw {
    use super::Entry;

    extern "C" {
        pub fn rpcgen_write_increment(
            sender: u32,
            sequence: u64,
            counter: u32,
            p: u64,
            start: u32,
            amount: u32,
            out: *mut u8,
            len: usize,
        ) -> usize;
        pub fn rpcgen_write_clear(
            sender: u32,
            sequence: u64,
            counter: u32,
            entries: *mut Entry,
            count: usize,
            out: *mut u8,
            len: usize,
        ) -> usize;
        pub fn rpcgen_read(bytes: *const u8, len: usize) -> u64;
        pub fn rpcgen_read_allocating(bytes: *const u8, len: usize) -> u64;
    }
}

// SAFETY of every block: pointer and length are those of one slice; nothing is kept.

pub fn write_increment(
    sender: u32,
    sequence: u64,
    counter: u32,
    p: u64,
    start: bool,
    amount: u32,
    out: &mut [u8],
) -> usize {
    unsafe {
        let (at, len) = (out.as_mut_ptr(), out.len());
        raw::rpcgen_write_increment(sender, sequence, counter, p, start.into(), amount, at, len)
    }
}

pub fn write_clear(
    sender: u32,
    sequence: u64,
    counter: u32,
    entries: &mut [Entry],
    out: &mut [u8],
) -> usize {
    unsafe {
        let (at, len) = (out.as_mut_ptr(), out.len());
        let list = entries.as_mut_ptr();
        raw::rpcgen_write_clear(sender, sequence, counter, list, entries.len(), at, len)
    }
}

pub fn read(bytes: &[u8]) -> u64 {
    unsafe { raw::rpcgen_read(bytes.as_ptr(), bytes.len()) }
}

pub fn read_allocating(bytes: &[u8]) -> u64 {
    unsafe { raw::rpcgen_read_allocating(bytes.as_ptr(), bytes.len()) }
}
