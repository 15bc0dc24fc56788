//! The product's C entries, with a pointer and a length for each slice, as safe functions.

mod entries {
    extern "C" {
        pub fn valaiyoth_check(image: *const u8, image_len: usize) -> u64;
        pub fn valaiyoth_judge(
            image: *const u8,
            image_len: usize,
            word: *const u8,
            word_len: usize,
            limit: u64,
            marks: *mut u8,
            marks_len: usize,
        ) -> u64;
        pub fn valaiyoth_compile(text: *const u8, text_len: usize, image: *mut u8, image_len: usize) -> u64;
    }
}

pub fn check(image: &[u8]) -> u64 {
    // SAFETY: the slice is valid
    unsafe { entries::valaiyoth_check(image.as_ptr(), image.len()) }
}

pub fn judge(image: &[u8], word: &[u8], limit: u64, marks: &mut [u8]) -> u64 {
    let (i, w, m) = (image.as_ptr(), word.as_ptr(), marks.as_mut_ptr());
    // SAFETY: the slices are valid, and the marks overlap no other
    unsafe { entries::valaiyoth_judge(i, image.len(), w, word.len(), limit, m, marks.len()) }
}

/// Only for a program that links the office's archive.
#[allow(dead_code)]
pub fn compile(text: &[u8], image: &mut [u8]) -> u64 {
    // SAFETY: the slices are valid and do not overlap
    unsafe { entries::valaiyoth_compile(text.as_ptr(), text.len(), image.as_mut_ptr(), image.len()) }
}
