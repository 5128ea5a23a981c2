//! The exported calls on an image, over bytes of any length between guard bytes, and the judge that
//! holds each call against the plain image calls of `oracle::image`.

// The host's crate links the static library of crate image.
use dbchoco as _;

use crate::checks::{look_at_reason, reason_length};
use crate::expected;
use oracle::image;
use oracle::page::{Board, Literal, Puzzle};
use oracle::random::Random;

// A slice goes over as its address and its length.
extern "C" {
    fn dbchoco_fresh(
        image: *mut u8,
        image_length: usize,
        height: u32,
        width: u32,
        colours: *const u8,
        colours_length: usize,
        clues: *const i32,
        clues_length: usize,
    ) -> u32;
    fn dbchoco_decide(image: *mut u8, image_length: usize, border: u32, side: u32) -> u32;
    fn dbchoco_undo(image: *mut u8, image_length: usize) -> u32;
    fn dbchoco_check(
        image: *const u8,
        image_length: usize,
        memory: *mut u8,
        memory_length: usize,
    ) -> u32;
    fn dbchoco_calls(
        image: *mut u8,
        image_length: usize,
        codes: *const u16,
        codes_length: usize,
    ) -> usize;
}

/// The code of an undo in a list of calls; any other is that of a literal, which is decided.
pub const UNDO: u16 = 65_535;

/// The least length of reason memory, in bytes.
pub const MEMORY: usize = 3_968;

/// Guard bytes before and behind what is lent.
const GUARD: usize = 64;

/// Bytes to lend, with guard bytes on both sides. Their address is seldom a multiple of 2.
#[derive(Clone)]
pub struct Lent {
    bytes: Vec<u8>,
    guards: [[u8; GUARD]; 2],
    from: usize,
}

impl Lent {
    pub fn new(random: &mut Random, content: &[u8]) -> Lent {
        let guards = [(); 2].map(|()| [(); GUARD].map(|()| random.word() as u8));
        let from = GUARD + random.below(16);
        let mut bytes = vec![0; from];
        bytes[from - GUARD..].copy_from_slice(&guards[0]);
        bytes.extend(content);
        bytes.extend(guards[1]);
        Lent {
            bytes,
            guards,
            from,
        }
    }

    /// Memory of this length, filled by chance.
    pub fn memory(random: &mut Random, length: usize) -> Lent {
        let words = (0..length.div_ceil(8)).map(|_| random.word().to_le_bytes());
        let bytes: Vec<u8> = words.flatten().collect();
        Lent::new(random, &bytes[..length])
    }

    pub fn content(&self) -> &[u8] {
        &self.bytes[self.from..self.bytes.len() - GUARD]
    }

    pub fn content_mut(&mut self) -> &mut [u8] {
        let end = self.bytes.len() - GUARD;
        &mut self.bytes[self.from..end]
    }

    /// The bytes on both sides must be as they were.
    pub fn look_at_guards(&self) {
        let behind = self.bytes.len() - GUARD;
        assert_eq!(self.bytes[self.from - GUARD..self.from], self.guards[0]);
        assert_eq!(self.bytes[behind..], self.guards[1]);
    }
}

/// The kinds of damage that `damage` does.
pub const DAMAGES: usize = 13;
/// Those of them that keep every image good: two entries of the stack exchanged, and a decided border
/// turned together with the tally.
pub const HARMLESS: [usize; 2] = [5, 11];

/// The number of two bytes from this place on.
fn two(bytes: &[u8], at: usize) -> u16 {
    u16::from_le_bytes([bytes[at], bytes[at + 1]])
}

/// How many borders an image says are decided; none where it has another length.
pub fn decided(bytes: &[u8]) -> usize {
    if bytes.len() != image::LENGTH {
        return 0;
    }
    usize::from(two(bytes, 7_106))
}

/// Damage of one kind. Many keep the image good, or nearly so.
pub fn damage(random: &mut Random, bytes: &mut [u8], kind: usize) {
    let count = decided(bytes);
    let entry = |random: &mut Random| 7_108 + 2 * random.below(count.clamp(1, 1_984));
    let low = |random: &mut Random| random.below(4) as u8;
    match kind {
        0 => bytes[random.below(2)] = random.below(40) as u8,
        1 => bytes[2 + random.below(64)] = low(random),
        2 => bytes[1_026 + random.below(256)] = *random.pick(&[0, 1, 127, 128, 254, 255]),
        3 => bytes[5_122 + random.below(128)] = low(random),
        4 => bytes[7_106] = bytes[7_106].wrapping_add(*random.pick(&[1, 255])),
        5 => {
            let (a, b) = (entry(random), entry(random));
            bytes.swap(a, b);
            bytes.swap(a + 1, b + 1);
        }
        6 => bytes[entry(random)] = random.below(128) as u8,
        7 => {
            let (a, b) = (random.below(128), random.below(128));
            bytes.swap(5_122 + a, 5_122 + b);
        }
        8 => bytes[entry(random) + 1] = low(random),
        9 => bytes[11_076 + random.below(6)] = random.below(256) as u8,
        10 => add(
            bytes,
            11_076 + 2 * random.below(3),
            *random.pick(&[1, u16::MAX]),
        ),
        11 => {
            let at = entry(random);
            turn(bytes, at);
        }
        _ => bytes[random.below(image::LENGTH)] = random.word() as u8,
    }
}

/// Adds to a number of two bytes; 65,535 takes one off.
fn add(bytes: &mut [u8], at: usize, more: u16) {
    let number = two(bytes, at).wrapping_add(more);
    bytes[at..at + 2].copy_from_slice(&number.to_le_bytes());
}

/// Turns the border of a stack entry, if it is decided, and the tally with it.
fn turn(bytes: &mut [u8], entry: usize) {
    let border = 5_122 + usize::from(two(bytes, entry));
    let (turned, less, more) = match bytes.get(border) {
        Some(1) => (2, 11_078, 11_080),
        Some(2) => (1, 11_080, 11_078),
        _ => return,
    };
    bytes[border] = turned;
    add(bytes, less, u16::MAX);
    add(bytes, more, 1);
}

/// A call on an image.
#[derive(Clone, Copy, Debug, PartialEq, Eq)]
pub enum ImageCall {
    Decide(u32, u32),
    Undo,
    Check,
}

/// The compiled call.
pub fn ours(image: &mut [u8], memory: &mut [u8], call: ImageCall) -> u32 {
    let (address, length) = (image.as_mut_ptr(), image.len());
    // SAFETY: addresses and lengths are those of two slices that live through the call.
    unsafe {
        match call {
            ImageCall::Decide(border, side) => dbchoco_decide(address, length, border, side),
            ImageCall::Undo => dbchoco_undo(address, length),
            ImageCall::Check => dbchoco_check(address, length, memory.as_mut_ptr(), memory.len()),
        }
    }
}

/// The compiled call of a list of decides and undos: how many are made.
pub fn our_calls(image: &mut [u8], codes: &[u16]) -> usize {
    // SAFETY: addresses and lengths are those of two slices that live through the call.
    unsafe { dbchoco_calls(image.as_mut_ptr(), image.len(), codes.as_ptr(), codes.len()) }
}

/// The plain image calls of the codes one by one, up to the first that is refused: how many are made.
fn plain_calls(image: &mut [u8], codes: &[u16]) -> usize {
    let mut single = |&code: &u16| match code {
        UNDO => image::undo(image),
        _ => image::decide(image, u32::from(code / 2), u32::from(code % 2)),
    };
    let refused = codes.iter().position(|code| single(code) != 0);
    refused.unwrap_or(codes.len())
}

/// A list of calls in one, compared with the plain calls one by one, every byte of the image and the guards.
pub fn compare_calls(image: &mut Lent, codes: &[u16]) -> usize {
    let mut wanted_image = image.content().to_vec();
    let wanted = plain_calls(&mut wanted_image, codes);
    let made = our_calls(image.content_mut(), codes);
    assert_eq!(made, wanted, "{codes:?} {:?}", image::read(image.content()));
    assert!(image.content() == wanted_image, "image after {codes:?}");
    image.look_at_guards();
    made
}

/// A page as it is handed over to be made an image of. Nothing is promised of it.
#[derive(Clone, Debug)]
pub struct Page {
    pub h: u32,
    pub w: u32,
    pub colours: Vec<u8>,
    pub clues: Vec<i32>,
}

impl Page {
    /// The page as a puzzle.
    fn puzzle(&self) -> Puzzle {
        Puzzle {
            h: self.h as usize,
            w: self.w as usize,
            colours: self
                .colours
                .iter()
                .map(|&colour| i32::from(colour))
                .collect(),
            clues: self.clues.clone(),
        }
    }
}

/// The compiled call that makes a fresh image.
pub fn our_fresh(image: &mut [u8], h: u32, w: u32, colours: &[u8], clues: &[i32]) -> u32 {
    // SAFETY: addresses and lengths are those of three slices that live through the call.
    unsafe {
        dbchoco_fresh(
            image.as_mut_ptr(),
            image.len(),
            h,
            w,
            colours.as_ptr(),
            colours.len(),
            clues.as_ptr(),
            clues.len(),
        )
    }
}

/// An image made in lent bytes, compared with the plain writer, every byte and the guards. Gives the number.
pub fn compare_fresh(image: &mut Lent, page: &Page) -> u32 {
    let mut wanted_image = image.content().to_vec();
    let wanted = image::fresh(&mut wanted_image, &page.puzzle());
    let (colours, clues) = (&page.colours[..], &page.clues[..]);
    let number = our_fresh(image.content_mut(), page.h, page.w, colours, clues);
    assert_eq!(number, wanted, "{page:?}");
    assert!(image.content() == wanted_image, "bytes after {page:?}");
    image.look_at_guards();
    number
}

/// The published check, with its last answer, which the book and the plain image calls both ask for.
#[derive(Default)]
pub struct Judge {
    last: Option<(Board, Option<Vec<Literal>>)>,
}

impl Judge {
    pub fn reason(&mut self, puzzle: &Puzzle, decided: &[Literal]) -> Option<Vec<Literal>> {
        if let Some((board, reason)) = &self.last {
            if board.puzzle == *puzzle && board.decided == decided {
                return reason.clone();
            }
        }
        let board = Board {
            puzzle: puzzle.clone(),
            decided: decided.to_vec(),
        };
        let reason = expected::reason(&board);
        self.last = Some((board, reason.clone()));
        reason
    }

    fn plain(&mut self, image: &mut [u8], memory: &mut [u8], call: ImageCall) -> u32 {
        match call {
            ImageCall::Decide(border, side) => image::decide(image, border, side),
            ImageCall::Undo => image::undo(image),
            ImageCall::Check => {
                let mut check = |puzzle: &Puzzle, decided: &[Literal]| self.reason(puzzle, decided);
                image::check(image, memory, &mut check)
            }
        }
    }

    /// The number of a call, after comparing it, every byte of image and memory, and the guards, and after
    /// a look at its reason.
    pub fn call(&mut self, image: &mut Lent, memory: &mut Lent, call: ImageCall) -> u32 {
        let mut image_wanted = image.content().to_vec();
        let mut memory_wanted = memory.content().to_vec();
        let wanted = self.plain(&mut image_wanted, &mut memory_wanted, call);
        let number = ours(image.content_mut(), memory.content_mut(), call);
        assert_eq!(
            number,
            wanted,
            "{call:?} {:?}",
            image::read(image.content())
        );
        assert!(image.content() == image_wanted, "image after {call:?}");
        assert!(memory.content() == memory_wanted, "memory after {call:?}");
        image.look_at_guards();
        memory.look_at_guards();
        let literals = 0..reason_length(number as usize);
        let codes: Vec<u16> = literals.map(|i| two(memory.content(), 2 * i)).collect();
        look_at_reason(&codes, decided(image.content()));
        number
    }
}
