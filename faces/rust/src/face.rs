//! The proved library by its C names, and all unsafe code of this crate. A slice goes over as its start and its length.

mod c {
    extern "C" {
        pub fn sm_evaluate(function: u8, a: u64, b: u64, c: u64, out: *mut u64, len: usize) -> u8;
        pub fn sm_rounds(function: u8, a: u64, b: u64, c: u64) -> usize;
        pub fn sm_blank(sheet: *mut u8, len: usize, rows: u32) -> u8;
        pub fn sm_edit(sheet: *mut u8, len: usize, row: u32, function: u8, a: u64, b: u64, c: u64, times: u16) -> u8;
        pub fn sm_row_at(sheet: *const u8, len: usize, row: u32) -> usize;
        pub fn sm_row_refusal(sheet: *const u8, len: usize, row: u32) -> u8;
        pub fn sm_row_class(sheet: *const u8, len: usize, row: u32) -> usize;
        pub fn sm_row_times(sheet: *const u8, len: usize, row: u32) -> u16;
        pub fn sm_forth(sheet: *mut u8, len: usize) -> u8;
        pub fn sm_back(sheet: *mut u8, len: usize) -> u8;
        pub fn sm_forth_row(sheet: *const u8, len: usize) -> u32;
        pub fn sm_back_row(sheet: *const u8, len: usize) -> u32;
        pub fn sm_count(sheet: *const u8, len: usize, class: u8) -> u32;
        pub fn sm_total(sheet: *const u8, len: usize) -> u64;
        pub fn sm_total_refusal(sheet: *const u8, len: usize) -> u8;
    }
}

// SAFETY, here and below: the callee answers for every value of its arguments, touches only the elements that are lent, keeps no
// pointer, and has no state of its own.
pub fn evaluate(function: u8, a: u64, b: u64, c: u64) -> (u8, [u64; 2]) {
    let mut out = [0; 2];
    let refusal = unsafe { c::sm_evaluate(function, a, b, c, out.as_mut_ptr(), out.len()) };
    (refusal, out)
}

pub fn rounds(function: u8, a: u64, b: u64, c: u64) -> usize {
    unsafe { c::sm_rounds(function, a, b, c) }
}

pub fn blank(sheet: &mut [u8], rows: u32) -> u8 {
    unsafe { c::sm_blank(sheet.as_mut_ptr(), sheet.len(), rows) }
}

pub fn edit(sheet: &mut [u8], row: u32, function: u8, [a, b, c]: [u64; 3], times: u16) -> u8 {
    unsafe { c::sm_edit(sheet.as_mut_ptr(), sheet.len(), row, function, a, b, c, times) }
}

pub fn row_at(sheet: &[u8], row: u32) -> usize {
    unsafe { c::sm_row_at(sheet.as_ptr(), sheet.len(), row) }
}

pub fn row_refusal(sheet: &[u8], row: u32) -> u8 {
    unsafe { c::sm_row_refusal(sheet.as_ptr(), sheet.len(), row) }
}

pub fn total(sheet: &[u8]) -> u64 {
    unsafe { c::sm_total(sheet.as_ptr(), sheet.len()) }
}

pub fn total_refusal(sheet: &[u8]) -> u8 {
    unsafe { c::sm_total_refusal(sheet.as_ptr(), sheet.len()) }
}

/// A count as it stands in the sheet; 0 where the bytes are no sheet, or for a class above 4.
pub fn count(sheet: &[u8], class: u8) -> u32 {
    unsafe { c::sm_count(sheet.as_ptr(), sheet.len(), class) }
}

/// The row's class, 0 to 4; 5 where a first answer that is NaN decides, or where the row can't be read.
pub fn row_class(sheet: &[u8], row: u32) -> usize {
    unsafe { c::sm_row_class(sheet.as_ptr(), sheet.len(), row) }
}

/// How often the row was driven; 0 where it can't be read.
pub fn row_times(sheet: &[u8], row: u32) -> u16 {
    unsafe { c::sm_row_times(sheet.as_ptr(), sheet.len(), row) }
}

/// Forth, or back.
pub fn convert(sheet: &mut [u8], forth: bool) -> u8 {
    let call = if forth { c::sm_forth } else { c::sm_back };
    unsafe { call(sheet.as_mut_ptr(), sheet.len()) }
}

/// The row that a refusal of it is about; the number of rows where that is the counts.
pub fn convert_row(sheet: &[u8], forth: bool) -> u32 {
    let call = if forth { c::sm_forth_row } else { c::sm_back_row };
    unsafe { call(sheet.as_ptr(), sheet.len()) }
}
