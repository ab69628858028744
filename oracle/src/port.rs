//! The entries of the proved archive that are compared, as include/virginalmimas.h declares them.

mod entries {
    unsafe extern "C" {
        pub fn vm_read(list: *const u32, len: usize) -> u64;
        pub fn vm_verify(
            list: *const u32,
            len: usize,
            calls: *mut u32,
            room: usize,
            recorded: *mut u8,
            slots: usize,
        ) -> u64;
        pub fn vm_verify_mode(
            mode: u32,
            list: *const u32,
            len: usize,
            calls: *mut u32,
            room: usize,
            recorded: *mut u8,
            slots: usize,
        ) -> u64;
        pub fn vm_counts(list: *const u32, len: usize, counts: *mut u64, room: usize) -> u64;
        pub fn vm_counts_mode(mode: u32, list: *const u32, len: usize, counts: *mut u64, room: usize) -> u64;
    }
}

pub fn read(list: &[u32]) -> u64 {
    unsafe { entries::vm_read(list.as_ptr(), list.len()) }
}

/// `vm_verify_mode`, or without a mode `vm_verify`.
pub fn verify(mode: Option<u32>, list: &[u32], calls: &mut [u32], recorded: &mut [u8]) -> u64 {
    let (list, len, room, slots) = (list.as_ptr(), list.len(), calls.len(), recorded.len());
    let (calls, recorded) = (calls.as_mut_ptr(), recorded.as_mut_ptr());
    match mode {
        None => unsafe { entries::vm_verify(list, len, calls, room, recorded, slots) },
        Some(mode) => unsafe { entries::vm_verify_mode(mode, list, len, calls, room, recorded, slots) },
    }
}

/// `vm_counts_mode`, or without a mode `vm_counts`.
pub fn counts(mode: Option<u32>, list: &[u32], counts: &mut [u64]) -> u64 {
    let (list, len, counts, room) = (list.as_ptr(), list.len(), counts.as_mut_ptr(), counts.len());
    match mode {
        None => unsafe { entries::vm_counts(list, len, counts, room) },
        Some(mode) => unsafe { entries::vm_counts_mode(mode, list, len, counts, room) },
    }
}
