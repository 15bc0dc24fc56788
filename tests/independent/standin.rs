//! A stand-in for the product's archives: its C entries over the independent implementation, to try the tests themselves with.
//! tests/independent/standin makes it.

use independent::{compile, image, judge};
use std::slice::{from_raw_parts, from_raw_parts_mut};

/// # Safety
/// As include/valaiyoth.h says.
#[no_mangle]
pub unsafe extern "C" fn valaiyoth_check(image: *const u8, image_len: usize) -> u64 {
    judge::check(from_raw_parts(image, image_len))
}

/// # Safety
/// As include/valaiyoth.h says.
#[no_mangle]
pub unsafe extern "C" fn valaiyoth_judge(
    image: *const u8,
    image_len: usize,
    word: *const u8,
    word_len: usize,
    limit: u64,
    marks: *mut u8,
    marks_len: usize,
) -> u64 {
    let (image, word) = (from_raw_parts(image, image_len), from_raw_parts(word, word_len));
    judge::judge(image, word, limit, from_raw_parts_mut(marks, marks_len))
}

/// # Safety
/// As include/valaiyoth.h says.
#[no_mangle]
pub unsafe extern "C" fn valaiyoth_compile(text: *const u8, text_len: usize, image: *mut u8, image_len: usize) -> u64 {
    match compile::compile(from_raw_parts(text, text_len), image_len) {
        Err(refusal) => refusal.answer(),
        Ok(table) => {
            let bytes = image::encode(&table);
            from_raw_parts_mut(image, image_len)[..bytes.len()].copy_from_slice(&bytes);
            bytes.len() as u64
        }
    }
}
