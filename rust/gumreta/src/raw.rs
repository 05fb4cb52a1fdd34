//! The library's functions as they stand in c/gumreta.h.

extern "C" {
    pub fn gumreta_version() -> u64;

    pub fn gumreta_annotate(file: *const u8, file_bytes: usize, out: *mut u8, out_bytes: usize, written: *mut usize) -> u64;

    pub fn gumreta_check(file: *const u8, file_bytes: usize) -> u64;

    pub fn gumreta_run(
        file: *const u8,
        file_bytes: usize,
        cells: *mut u32,
        cell_words: usize,
        regions: *mut u32,
        region_words: usize,
        frames: *mut u32,
        frame_words: usize,
        prints: *mut u32,
        print_words: usize,
        steps: usize,
        done: *mut usize,
        printed: *mut usize,
    ) -> u64;
}
