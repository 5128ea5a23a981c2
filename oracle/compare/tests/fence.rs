//! The exported calls between memory that may not be touched: a byte read or written before the start
//! or past the end of an image, of reason memory or of a list ends the test program.

#![cfg(target_os = "linux")]

use compare::images::{our_fresh, ours, ImageCall, MEMORY};
use oracle::page::{Board, Puzzle};
use oracle::random::Random;
use oracle::{bench, generate, image};
use std::ffi::{c_int, c_void};
use std::{ptr, slice};

extern "C" {
    fn mmap(
        at: *mut c_void,
        length: usize,
        access: c_int,
        flags: c_int,
        file: c_int,
        from: i64,
    ) -> *mut c_void;
    fn mprotect(at: *mut c_void, length: usize, access: c_int) -> c_int;
}

const READ_AND_WRITE: c_int = 3;
const PRIVATE_AND_ANONYMOUS: c_int = 0x22;

/// A multiple of the page size of any machine on which this runs.
const FENCE: usize = 65_536;

/// A stretch of FENCE bytes that may be used, with as many on both sides that may not.
struct Fenced(*mut u8);

impl Fenced {
    fn new() -> Fenced {
        // SAFETY: a mapping of its own, which is never given back.
        unsafe {
            let start = mmap(ptr::null_mut(), 3 * FENCE, 0, PRIVATE_AND_ANONYMOUS, -1, 0);
            assert!(start as isize != -1, "no mapping");
            let middle = start.cast::<u8>().add(FENCE);
            assert_eq!(mprotect(middle.cast(), FENCE, READ_AND_WRITE), 0);
            Fenced(middle)
        }
    }

    /// The bytes, laid at the end of the stretch or at its start.
    fn lay(&mut self, bytes: &[u8], at_end: bool) -> &mut [u8] {
        let from = if at_end { FENCE - bytes.len() } else { 0 };
        // SAFETY: the part lies in the stretch, and is borrowed as the stretch is.
        let part = unsafe { slice::from_raw_parts_mut(self.0.add(from), bytes.len()) };
        part.copy_from_slice(bytes);
        part
    }

    /// Clues, laid so.
    fn lay_clues(&mut self, clues: &[i32], at_end: bool) -> &[i32] {
        let bytes: Vec<u8> = clues.iter().flat_map(|clue| clue.to_ne_bytes()).collect();
        // SAFETY: any four bytes are a number.
        let (before, laid, behind) = unsafe { self.lay(&bytes, at_end).align_to() };
        assert!(before.is_empty() && behind.is_empty());
        laid
    }
}

fn images() -> Vec<Vec<u8>> {
    let mut random = Random::new(95);
    let one = Board {
        puzzle: Puzzle::without_clues(1, 1, vec![1]),
        decided: vec![],
    };
    let noise = generate::noise(&mut random, 32, 32);
    let mut boards = vec![one, bench::all_open(&noise.puzzle), noise];
    boards.extend(bench::boards().into_iter().map(|named| named.board));
    boards.extend((0..300).map(|_| generate::board(&mut random, 32, 32)));
    boards.iter().map(image::write).collect()
}

const CALLS: [ImageCall; 4] = [
    ImageCall::Check,
    ImageCall::Decide(0, 1),
    ImageCall::Decide(u32::MAX, 1),
    ImageCall::Undo,
];

#[test]
fn nothing_beside_an_image_or_memory_is_touched() {
    let (mut image, mut memory) = (Fenced::new(), Fenced::new());
    let mut answered = 0;
    for bytes in images() {
        for length in [MEMORY, MEMORY + 1, 0, 1, MEMORY - 1] {
            for (call, at_end) in CALLS.iter().flat_map(|&call| [(call, true), (call, false)]) {
                let memory = memory.lay(&vec![7; length], at_end);
                let number = ours(image.lay(&bytes, at_end), memory, call);
                answered += usize::from(number == 0 || number >= 32);
            }
        }
    }
    assert!(answered > 1000, "{answered}");
}

#[test]
fn nothing_past_an_image_of_any_length_is_touched() {
    let (mut image, mut memory) = (Fenced::new(), Fenced::new());
    let bytes = [&images()[1][..], &[0; 24]].concat();
    for length in 0..=11_100 {
        for call in CALLS {
            let memory = memory.lay(&[7; MEMORY], true);
            let number = ours(image.lay(&bytes[..length], true), memory, call);
            assert_eq!(number == 5, length != image::LENGTH, "{length} {call:?}");
        }
    }
}

#[test]
fn nothing_beside_what_an_image_is_made_of_is_touched() {
    let (mut image, mut colours, mut clues) = (Fenced::new(), Fenced::new(), Fenced::new());
    let mut made = 0;
    for (h, w) in [(1, 1), (1, 2), (3, 5), (32, 32), (33, 32), (0, 7), (257, 1)] {
        let cells = (h * w) as usize;
        for (few, less) in [(0, 0), (1, 0), (0, 1), (cells, cells)] {
            let (many_colours, many_clues) =
                (cells.saturating_sub(few), cells.saturating_sub(less));
            for length in [image::LENGTH, image::LENGTH - 1, image::LENGTH + 1, 1, 0] {
                for at_end in [true, false] {
                    let image = image.lay(&vec![7; length], at_end);
                    let colours = colours.lay(&vec![1; many_colours], at_end);
                    let clues = clues.lay_clues(&vec![-1; many_clues], at_end);
                    let number = our_fresh(image, h, w, colours, clues);
                    made += usize::from(number == 0);
                }
            }
        }
    }
    assert_eq!(made, 8, "four sizes, laid at both ends");
}
