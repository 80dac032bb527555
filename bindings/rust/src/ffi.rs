//! The exported calls as they are: see include/duottarok.h for what each asks of its pointers.
#![allow(missing_docs)]

extern "C" {
    pub fn dpe_validate(image: *const u8, image_len: usize) -> u64;
    pub fn dpe_lookup(image: *const u8, image_len: usize, handle: *const u8, locality: u32, slot: *mut u64) -> u64;
    pub fn dpe_initialize_context(
        image: *mut u8,
        image_len: usize,
        flags: u32,
        locality: u32,
        candidates: *const u8,
        candidates_len: usize,
        new_handle: *mut u8,
    ) -> u64;
    pub fn dpe_rotate_context(
        image: *mut u8,
        image_len: usize,
        handle: *const u8,
        locality: u32,
        flags: u32,
        candidates: *const u8,
        candidates_len: usize,
        new_handle: *mut u8,
    ) -> u64;
    pub fn dpe_destroy_context(image: *mut u8, image_len: usize, handle: *const u8, locality: u32) -> u64;
    pub fn dpe_descendants(image: *const u8, image_len: usize, slot: usize, marks: *mut u64) -> u64;
    pub fn dpe_path(image: *const u8, image_len: usize, slot: usize, slots: *mut u8, length: *mut u64) -> u64;
    pub fn dpe_count(image: *const u8, image_len: usize, state: u8, count: *mut u64) -> u64;
}
