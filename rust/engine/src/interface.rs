//! The functions of `include/touchchart.h` with slices: the only unsafe code. Each slice is handed over as a pointer and a length;
//! the engine reads and writes nothing outside of them, which is proved.

extern "C" {
    fn touchchart_open(file: *const u8, file_len: usize, out: *mut u8, out_len: usize) -> u64;
    fn touchchart_sweep(sheet: *const u8, sheet_len: usize, out: *mut u8, out_len: usize) -> u64;
    fn touchchart_offer(
        sheet: *const u8,
        sheet_len: usize,
        labels: *const u8,
        labels_len: usize,
        out: *mut u8,
        out_len: usize,
    ) -> u64;
    fn touchchart_turn(
        sheet: *const u8,
        sheet_len: usize,
        pairs: *const u16,
        pairs_len: usize,
        direction: u8,
        out: *mut u8,
        out_len: usize,
    ) -> u64;
    fn touchchart_chart(sheet: *const u8, sheet_len: usize, out: *mut u8, out_len: usize) -> u64;
    fn touchchart_scan(sheet: *const u8, sheet_len: usize) -> u64;
    fn touchchart_same(a: *const u8, a_len: usize, b: *const u8, b_len: usize) -> u64;
    fn touchchart_ring(file: *const u8, file_len: usize, context: u16) -> u64;
}

/// Opens a file and writes the sheet's file to `out`.
pub fn open_into(file: &[u8], out: &mut [u8]) -> u64 {
    unsafe { touchchart_open(file.as_ptr(), file.len(), out.as_mut_ptr(), out.len()) }
}

/// Sweeps a sheet and writes the new one's file to `out`.
pub fn sweep_into(sheet: &[u8], out: &mut [u8]) -> u64 {
    unsafe { touchchart_sweep(sheet.as_ptr(), sheet.len(), out.as_mut_ptr(), out.len()) }
}

/// Offers labels to a sheet and writes the new one's file to `out`.
pub fn offer_into(sheet: &[u8], labels: &[u8], out: &mut [u8]) -> u64 {
    unsafe {
        touchchart_offer(
            sheet.as_ptr(),
            sheet.len(),
            labels.as_ptr(),
            labels.len(),
            out.as_mut_ptr(),
            out.len(),
        )
    }
}

/// Turns labels of a sheet and writes the new one's file to `out`.
pub fn turn_into(sheet: &[u8], pairs: &[u16], direction: u8, out: &mut [u8]) -> u64 {
    unsafe {
        touchchart_turn(
            sheet.as_ptr(),
            sheet.len(),
            pairs.as_ptr(),
            pairs.len(),
            direction,
            out.as_mut_ptr(),
            out.len(),
        )
    }
}

/// Charts a sheet and writes the new one's file to `out`.
pub fn chart_into(sheet: &[u8], out: &mut [u8]) -> u64 {
    unsafe { touchchart_chart(sheet.as_ptr(), sheet.len(), out.as_mut_ptr(), out.len()) }
}

/// Scans a sheet.
pub fn scan_of(sheet: &[u8]) -> u64 {
    unsafe { touchchart_scan(sheet.as_ptr(), sheet.len()) }
}

/// Compares two sheets.
pub fn same_of(a: &[u8], b: &[u8]) -> u64 {
    unsafe { touchchart_same(a.as_ptr(), a.len(), b.as_ptr(), b.len()) }
}

/// Finds a ring in a file.
pub fn ring_of(file: &[u8], context: u16) -> u64 {
    unsafe { touchchart_ring(file.as_ptr(), file.len(), context) }
}
