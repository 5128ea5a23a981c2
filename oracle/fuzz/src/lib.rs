//! A libFuzzer target over the exported calls. The input is read as a page, damages of it, and a list of calls and
//! damages of its image: an image is made of the damaged page and then of the page, and the calls are made on it. Each
//! call is judged as in `compare::images`, and a difference panics.
//!
//! The judge is instrumented, the published check in it too, and so leads the fuzzer; the library is not.

use compare::images::{compare_fresh, ImageCall, Judge, Lent, Page, MEMORY};
use oracle::image::{self, PARTS};
use oracle::random::Random;

/// The rest of the input.
struct Input<'a>(&'a [u8]);

impl Input<'_> {
    /// The next byte, 0 past the end.
    fn byte(&mut self) -> u8 {
        match self.0.split_first() {
            None => 0,
            Some((&first, rest)) => {
                self.0 = rest;
                first
            }
        }
    }

    fn word(&mut self) -> usize {
        usize::from(self.byte()) + 256 * usize::from(self.byte())
    }
}

/// A page of at most 8 by 8, or 32 by 32 in one case of eight; a clue on some cells.
fn page(input: &mut Input) -> Page {
    let size = input.byte();
    let most = if size % 8 == 0 { 32 } else { 8 };
    let (h, w) = (1 + size / 8 % most, 1 + input.byte() % most);
    let cells = usize::from(h) * usize::from(w);
    let mut page = Page {
        h: u32::from(h),
        w: u32::from(w),
        colours: vec![0; cells],
        clues: vec![-1; cells],
    };
    let (mut bits, mut left) = (0, 0);
    for colour in &mut page.colours {
        if left == 0 {
            (bits, left) = (input.byte(), 8);
        }
        *colour = bits & 1;
        (bits, left) = (bits >> 1, left - 1);
    }
    for _ in 0..input.byte() % 4 {
        let cell = usize::from(input.byte()) % cells;
        page.clues[cell] = i32::from(input.byte() % 8) - 1;
    }
    page
}

/// The page with up to three damages: a side, the length of a list, a colour or a clue.
fn damaged(input: &mut Input, page: &Page) -> Page {
    let mut page = page.clone();
    for _ in 0..input.byte() % 4 {
        let (kind, number) = (input.byte(), input.word());
        let cell = number % 1_024;
        match kind % 6 {
            0 => page.h = (number as u32) << (kind / 6 % 17),
            1 => page.w = (number as u32) << (kind / 6 % 17),
            2 => page.colours.resize(number % 1_100, 0),
            3 => page.clues.resize(number % 1_100, -1),
            4 => {
                if let Some(colour) = page.colours.get_mut(cell) {
                    *colour = kind;
                }
            }
            _ => {
                if let Some(clue) = page.clues.get_mut(cell) {
                    *clue -= number as i32;
                }
            }
        }
    }
    page
}

/// One step: a call, or a damage of the image.
fn step(input: &mut Input, judge: &mut Judge, image: &mut Lent, memory: &mut Lent) {
    let kind = input.byte();
    match kind % 8 {
        0..=3 => {
            // Mostly a border of the page.
            let borders = image::read(image.content()).map_or(0, |board| board.puzzle.borders());
            let number = input.word();
            let border = if kind < 224 && borders > 0 {
                number % borders
            } else {
                number << (kind % 17)
            };
            judge.call(
                image,
                memory,
                ImageCall::Decide(border as u32, u32::from(kind / 8 % 2)),
            );
        }
        4 => {
            judge.call(image, memory, ImageCall::Undo);
        }
        5 | 6 => {
            judge.call(image, memory, ImageCall::Check);
        }
        _ => {
            // A byte of one part of the image.
            let part = usize::from(kind / 8) % (PARTS.len() - 1);
            let at = PARTS[part] + input.word() % (PARTS[part + 1] - PARTS[part]);
            image.content_mut()[at] = input.byte();
        }
    }
}

/// libFuzzer's entry.
///
/// # Safety
/// `data` is the address of `size` bytes, which libFuzzer lends for the call.
#[no_mangle]
pub unsafe extern "C" fn LLVMFuzzerTestOneInput(data: *const u8, size: usize) -> i32 {
    let bytes = if size == 0 {
        &[]
    } else {
        std::slice::from_raw_parts(data, size)
    };
    let mut input = Input(bytes);
    let mut random = Random::new(1);
    let page = page(&mut input);
    let mut image = Lent::memory(&mut random, image::LENGTH);
    compare_fresh(&mut image, &damaged(&mut input, &page));
    assert_eq!(compare_fresh(&mut image, &page), 0);
    let mut memory = Lent::memory(&mut random, MEMORY);
    let mut judge = Judge::default();
    while !input.0.is_empty() {
        step(&mut input, &mut judge, &mut image, &mut memory);
    }
    judge.call(&mut image, &mut memory, ImageCall::Check);
    0
}
