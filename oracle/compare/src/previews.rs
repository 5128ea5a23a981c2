//! Safe calls of crate probe: the proved preview, on the board that an image spells.

use crate::checks::{answer, reason_length};
use crate::images::decided;
use crate::ours::Memory;
use oracle::book::Answer;
use oracle::page::{code, Literal};

// A slice goes over as its address and its length.
extern "C" {
    fn probe_previews(
        image: *const u8,
        image_length: usize,
        code: usize,
        times: usize,
        memory: *mut u16,
        memory_length: usize,
    ) -> usize;
}

/// The number of the last of so many previews of the literal; 0 for none.
pub fn previews(image: &[u8], literal: Literal, times: usize, memory: &mut [u16]) -> usize {
    // SAFETY: addresses and lengths are those of slices that live through the call.
    unsafe {
        probe_previews(
            image.as_ptr(),
            image.len(),
            code(&literal),
            times,
            memory.as_mut_ptr(),
            memory.len(),
        )
    }
}

/// What one preview answers. The image, and the memory beyond the reason, must be as they were.
pub fn preview(image: &[u8], literal: Literal, memory: &mut Memory) -> Answer {
    let before = image.to_vec();
    let once = |places: &mut [u16]| previews(image, literal, 1, places);
    let (number, written) = memory.lend_for(once, reason_length);
    assert!(image == before, "image after a preview of {literal:?}");
    answer(number, &written, decided(image) + 1)
}
