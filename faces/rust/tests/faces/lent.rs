//! The C face as a C program calls it, on bytes between two pages that no one may touch: a read or a write outside them ends the test.
use std::ffi::c_void;

mod c {
    use std::ffi::c_void;

    extern "C" {
        pub fn sm_magnitude(x: u64) -> u64;
        pub fn sm_trunc(x: u64) -> u64;
        pub fn sm_floor(x: u64) -> u64;
        pub fn sm_round(x: u64) -> u64;
        pub fn sm_root(x: u64) -> u64;
        pub fn sm_fused(x: u64, y: u64, z: u64) -> u64;
        pub fn sm_remainder(x: u64, y: u64) -> u64;
        pub fn sm_evaluate(function: u8, a: u64, b: u64, c: u64, out: *mut u64, len: usize) -> u8;
        pub fn sm_blank(sheet: *mut u8, len: usize, rows: u32) -> u8;
        pub fn sm_edit(sheet: *mut u8, len: usize, row: u32, function: u8, a: u64, b: u64, c: u64, times: u16) -> u8;
        pub fn sm_row_at(sheet: *const u8, len: usize, row: u32) -> usize;
        pub fn sm_row_refusal(sheet: *const u8, len: usize, row: u32) -> u8;
        pub fn sm_row_times(sheet: *const u8, len: usize, row: u32) -> u16;
        pub fn sm_forth(sheet: *mut u8, len: usize) -> u8;
        pub fn sm_back(sheet: *mut u8, len: usize) -> u8;
        pub fn sm_forth_row(sheet: *const u8, len: usize) -> u32;
        pub fn sm_back_row(sheet: *const u8, len: usize) -> u32;
        pub fn sm_total(sheet: *const u8, len: usize) -> u64;
        pub fn sm_total_refusal(sheet: *const u8, len: usize) -> u8;

        pub fn mmap(at: *mut c_void, len: usize, access: i32, flags: i32, file: i32, offset: i64) -> *mut c_void;
        pub fn mprotect(at: *mut c_void, len: usize, access: i32) -> i32;
        pub fn munmap(at: *mut c_void, len: usize) -> i32;
    }
}

pub fn single(name: &str, x: u64) -> u64 {
    // SAFETY: numbers in, a number out.
    unsafe {
        match name {
            "magnitude" => c::sm_magnitude(x),
            "trunc" => c::sm_trunc(x),
            "floor" => c::sm_floor(x),
            "round" => c::sm_round(x),
            "root" => c::sm_root(x),
            _ => unreachable!(),
        }
    }
}

pub fn fused(x: u64, y: u64, z: u64) -> u64 {
    unsafe { c::sm_fused(x, y, z) }
}

pub fn remainder(x: u64, y: u64) -> u64 {
    unsafe { c::sm_remainder(x, y) }
}

pub fn evaluate(function: u8, [a, b, c]: [u64; 3], out: &mut [u64]) -> u8 {
    // SAFETY: as many numbers are lent as is said.
    unsafe { c::sm_evaluate(function, a, b, c, out.as_mut_ptr(), out.len()) }
}

/// Refusal number and two answers.
pub fn answers(function: u8, arguments: [u64; 3]) -> (u8, u64, u64) {
    let mut out = [u64::MAX; 2];
    let refusal = evaluate(function, arguments, &mut out);
    (refusal, out[0], out[1])
}

/// What every call over bytes answers for no bytes at all, the pointer null.
pub fn of_nothing(row: u32, rows: u32) -> (u8, u8, usize, u8, u16, u64, u8, u8, u8, u8, u32, u32) {
    let (no_bytes, no_numbers) = (std::ptr::null_mut(), std::ptr::null_mut());
    // SAFETY: of no bytes none is lent.
    unsafe {
        (
            c::sm_blank(no_bytes, 0, rows),
            c::sm_edit(no_bytes, 0, row, 1, 0, 0, 0, 1),
            c::sm_row_at(no_bytes, 0, row),
            c::sm_row_refusal(no_bytes, 0, row),
            c::sm_row_times(no_bytes, 0, row),
            c::sm_total(no_bytes, 0),
            c::sm_total_refusal(no_bytes, 0),
            c::sm_evaluate(1, 0, 0, 0, no_numbers, 0),
            c::sm_forth(no_bytes, 0),
            c::sm_back(no_bytes, 0),
            c::sm_forth_row(no_bytes, 0),
            c::sm_back_row(no_bytes, 0),
        )
    }
}

const PAGE: usize = 4096;
const NO_ACCESS: i32 = 0;
const READ_AND_WRITE: i32 = 3;
const PRIVATE_AND_OF_NO_FILE: i32 = 0x22;

/// Pages of which the first and the last may not be touched.
struct Pages {
    start: *mut u8,
    pages: usize,
}

impl Pages {
    fn holding(bytes: usize) -> Pages {
        let pages = bytes.div_ceil(PAGE).max(1) + 2;
        // SAFETY: a new mapping, of which the inner pages are then opened.
        unsafe {
            let start = c::mmap(std::ptr::null_mut(), pages * PAGE, NO_ACCESS, PRIVATE_AND_OF_NO_FILE, -1, 0) as *mut u8;
            assert_ne!(start as isize, -1, "mmap");
            assert_eq!(c::mprotect(start.add(PAGE) as *mut c_void, (pages - 2) * PAGE, READ_AND_WRITE), 0, "mprotect");
            Pages { start, pages }
        }
    }
}

impl Drop for Pages {
    fn drop(&mut self) {
        // SAFETY: the mapping is this value's own.
        unsafe { c::munmap(self.start as *mut c_void, self.pages * PAGE) };
    }
}

/// Bytes that touch the page before them, or the one after them.
pub struct Lent {
    pages: Pages,
    at: usize,
    length: usize,
}

impl Lent {
    pub fn new(bytes: &[u8], at_the_end: bool) -> Lent {
        let pages = Pages::holding(bytes.len());
        let at = if at_the_end { (pages.pages - 1) * PAGE - bytes.len() } else { PAGE };
        let mut lent = Lent { pages, at, length: bytes.len() };
        lent.bytes_mut().copy_from_slice(bytes);
        lent
    }

    fn start(&self) -> *mut u8 {
        // SAFETY: within the mapping.
        unsafe { self.pages.start.add(self.at) }
    }

    pub fn bytes(&self) -> &[u8] {
        // SAFETY: `length` bytes from there on are open, here and below.
        unsafe { std::slice::from_raw_parts(self.start(), self.length) }
    }

    pub fn bytes_mut(&mut self) -> &mut [u8] {
        unsafe { std::slice::from_raw_parts_mut(self.start(), self.length) }
    }

    pub fn blank(&mut self, rows: u32) -> u8 {
        unsafe { c::sm_blank(self.start(), self.length, rows) }
    }

    pub fn edit(&mut self, row: u32, function: u8, [a, b, c]: [u64; 3], times: u16) -> u8 {
        unsafe { c::sm_edit(self.start(), self.length, row, function, a, b, c, times) }
    }

    pub fn row_at(&self, row: u32) -> usize {
        unsafe { c::sm_row_at(self.start(), self.length, row) }
    }

    pub fn row_refusal(&self, row: u32) -> u8 {
        unsafe { c::sm_row_refusal(self.start(), self.length, row) }
    }

    pub fn row_times(&self, row: u32) -> u16 {
        unsafe { c::sm_row_times(self.start(), self.length, row) }
    }

    /// What refuses the way forth or back, and the row that is named before it.
    pub fn convert(&mut self, forth: bool) -> (u8, u32) {
        unsafe {
            if forth {
                let row = c::sm_forth_row(self.start(), self.length);
                (c::sm_forth(self.start(), self.length), row)
            } else {
                let row = c::sm_back_row(self.start(), self.length);
                (c::sm_back(self.start(), self.length), row)
            }
        }
    }

    pub fn total(&self) -> u64 {
        unsafe { c::sm_total(self.start(), self.length) }
    }

    pub fn total_refusal(&self) -> u8 {
        unsafe { c::sm_total_refusal(self.start(), self.length) }
    }
}
