//! The exported calls. All unsafe code of the crate is here.

use crate::image::{Image, Memory};

// A slice goes over as its address and its length; dbchoco.h has the contracts.
extern "C" {
    fn dbchoco_fresh(
        image: *mut u8,
        image_len: usize,
        height: u32,
        width: u32,
        colours: *const u8,
        colours_len: usize,
        clues: *const i32,
        clues_len: usize,
    ) -> u32;
    fn dbchoco_decide(image: *mut u8, image_len: usize, border: u32, side: u32) -> u32;
    fn dbchoco_undo(image: *mut u8, image_len: usize) -> u32;
    fn dbchoco_check(image: *const u8, image_len: usize, memory: *mut u8, memory_len: usize)
        -> u32;
    fn dbchoco_calls(
        image: *mut u8,
        image_len: usize,
        codes: *const u16,
        codes_len: usize,
    ) -> usize;
}

pub fn fresh(image: &mut Image, height: u32, width: u32, colours: &[u8], clues: &[i32]) -> u32 {
    // SAFETY: as in `decide`; colours and clues are only read, and the borrows do not overlap.
    unsafe {
        dbchoco_fresh(
            image.as_mut_ptr(),
            image.len(),
            height,
            width,
            colours.as_ptr(),
            colours.len(),
            clues.as_ptr(),
            clues.len(),
        )
    }
}

pub fn decide(image: &mut Image, border: u32, side: u32) -> u32 {
    // SAFETY: the address and the length are those of an array that is borrowed, alone, through the call; the call
    // reads and writes nothing else, and keeps no address.
    unsafe { dbchoco_decide(image.as_mut_ptr(), image.len(), border, side) }
}

pub fn undo(image: &mut Image) -> u32 {
    // SAFETY: as in `decide`.
    unsafe { dbchoco_undo(image.as_mut_ptr(), image.len()) }
}

pub fn check(image: &Image, memory: &mut Memory) -> u32 {
    // SAFETY: as in `decide`; the image is only read, and the two borrows do not overlap.
    unsafe {
        let (memory, length) = (memory.as_mut_ptr(), memory.len());
        dbchoco_check(image.as_ptr(), image.len(), memory, length)
    }
}

pub fn calls(image: &mut Image, codes: &[u16]) -> usize {
    // SAFETY: as in `decide`; the codes are only read, and the two borrows do not overlap.
    unsafe { dbchoco_calls(image.as_mut_ptr(), image.len(), codes.as_ptr(), codes.len()) }
}

/// A check without memory, which is refused: 5 for an alien image, else 9.
pub fn check_without_memory(image: &Image) -> u32 {
    let none: &mut [u8] = &mut [];
    // SAFETY: as in `check`; the memory is an empty slice, whose address is not null.
    unsafe { dbchoco_check(image.as_ptr(), image.len(), none.as_mut_ptr(), none.len()) }
}
