//! Safe calls of crate probe, and a memory that is looked after.

use oracle::page::{Board, Kind, State};
use oracle::random::Random;

/// The least memory that a call takes which is no check, no preview and no transform.
pub const ROOM: usize = 16_384;
/// The least memory that a transform takes.
pub const TRANSFORM_ROOM: usize = 6_144;
/// What an unfit call gives.
pub const UNFIT: usize = 65_535;

// A slice goes over as its address and its length.
extern "C" {
    fn probe_groups(
        h: usize,
        w: usize,
        colours: *const u8,
        colours_length: usize,
        borders: *const u8,
        borders_length: usize,
        kind: u32,
        memory: *mut u16,
        memory_length: usize,
    ) -> usize;
    fn probe_reason(
        h: usize,
        w: usize,
        colours: *const u8,
        colours_length: usize,
        borders: *const u8,
        borders_length: usize,
        kind: u32,
        side: u32,
        group: usize,
        memory: *mut u16,
        memory_length: usize,
    ) -> usize;
    fn probe_path(
        h: usize,
        w: usize,
        borders: *const u8,
        borders_length: usize,
        a: usize,
        b: usize,
        memory: *mut u16,
        memory_length: usize,
    ) -> usize;
    fn probe_transform(
        image: *const u8,
        image_length: usize,
        unit: usize,
        k: usize,
        counts: *mut usize,
        counts_length: usize,
        memory: *mut i32,
        memory_length: usize,
    );
    fn probe_asked(
        image: *const u8,
        image_length: usize,
        kind: u32,
        memory: *mut u16,
        memory_length: usize,
    ) -> usize;
    fn probe_part(
        image: *const u8,
        image_length: usize,
        which: u32,
        group: usize,
        memory: *mut u16,
        memory_length: usize,
    ) -> usize;
}

/// A page with colours and borders as the proved functions take them. Nothing is promised of them.
#[derive(Clone, Debug)]
pub struct Ours {
    pub h: usize,
    pub w: usize,
    pub colours: Vec<u8>,
    pub borders: Vec<u8>,
}

/// What asking for a transform returns: the outcome's number, how many transforms the unit has, and
/// how many cells and connections the one asked for has.
#[derive(Clone, Copy, Debug, PartialEq)]
pub struct Counts {
    pub outcome: usize,
    pub listed: usize,
    pub cells: usize,
    pub connections: usize,
}

impl Counts {
    /// No transform.
    pub fn none(outcome: usize, listed: usize) -> Counts {
        Counts {
            outcome,
            listed,
            cells: 0,
            connections: 0,
        }
    }
}

fn kind_number(kind: Kind) -> u32 {
    match kind {
        Kind::Blocks => 0,
        Kind::Units => 1,
        Kind::Potential => 2,
    }
}

impl Ours {
    pub fn new(board: &Board) -> Ours {
        let puzzle = &board.puzzle;
        let code = |state: &State| match state {
            State::Undecided => 0,
            State::Wall => 1,
            State::Open => 2,
        };
        Ours {
            h: puzzle.h,
            w: puzzle.w,
            colours: puzzle.colours.iter().map(|&colour| colour as u8).collect(),
            borders: board.states().iter().map(code).collect(),
        }
    }

    /// The groups of one kind: numbers (1,024 places), cells (1,024), starts (1,025), count.
    pub fn groups(&self, kind: Kind, memory: &mut [u16]) -> usize {
        // SAFETY: addresses and lengths are those of slices that live through the call.
        unsafe {
            probe_groups(
                self.h,
                self.w,
                self.colours.as_ptr(),
                self.colours.len(),
                self.borders.as_ptr(),
                self.borders.len(),
                kind_number(kind),
                memory.as_mut_ptr(),
                memory.len(),
            )
        }
    }

    fn reason(&self, kind: Kind, side: u32, group: usize, memory: &mut [u16]) -> usize {
        // SAFETY: addresses and lengths are those of slices that live through the call.
        unsafe {
            probe_reason(
                self.h,
                self.w,
                self.colours.as_ptr(),
                self.colours.len(),
                self.borders.as_ptr(),
                self.borders.len(),
                kind_number(kind),
                side,
                group,
                memory.as_mut_ptr(),
                memory.len(),
            )
        }
    }

    pub fn inside(&self, kind: Kind, group: usize, memory: &mut [u16]) -> usize {
        self.reason(kind, 0, group, memory)
    }

    /// Edge of a potential unit.
    pub fn edge(&self, group: usize, memory: &mut [u16]) -> usize {
        self.reason(Kind::Potential, 1, group, memory)
    }

    pub fn path(&self, a: usize, b: usize, memory: &mut [u16]) -> usize {
        // SAFETY: addresses and lengths are those of slices that live through the call.
        unsafe {
            probe_path(
                self.h,
                self.w,
                self.borders.as_ptr(),
                self.borders.len(),
                a,
                b,
                memory.as_mut_ptr(),
                memory.len(),
            )
        }
    }
}

/// Transform k of a unit of the board that an image spells, as two numbers for each cell and then
/// for each connection.
pub fn transform(image: &[u8], unit: usize, k: usize, memory: &mut [i32]) -> Counts {
    let mut counts = [usize::MAX; 5];
    // SAFETY: addresses and lengths are those of slices that live through the call.
    unsafe {
        probe_transform(
            image.as_ptr(),
            image.len(),
            unit,
            k,
            counts.as_mut_ptr(),
            counts.len(),
            memory.as_mut_ptr(),
            memory.len(),
        );
    }
    let [outcome, listed, cells, connections, beyond] = counts;
    assert_eq!(beyond, usize::MAX, "counts beyond");
    Counts {
        outcome,
        listed,
        cells,
        connections,
    }
}

/// The groups of one kind, asked of the board that an image spells: the refusal's number, or as
/// `Ours::groups`.
pub fn asked(image: &[u8], kind: Kind, memory: &mut [u16]) -> usize {
    // SAFETY: addresses and lengths are those of slices that live through the call.
    unsafe {
        probe_asked(
            image.as_ptr(),
            image.len(),
            kind_number(kind),
            memory.as_mut_ptr(),
            memory.len(),
        )
    }
}

/// The two lists that have parts, by their number.
pub const PARTED: [Kind; 2] = [Kind::Units, Kind::Potential];

/// The cells of a group of the board that an image spells, as a part of the list with this number in
/// `PARTED`.
pub fn part(image: &[u8], which: usize, group: usize, memory: &mut [u16]) -> usize {
    // SAFETY: addresses and lengths are those of slices that live through the call.
    unsafe {
        probe_part(
            image.as_ptr(),
            image.len(),
            which as u32,
            group,
            memory.as_mut_ptr(),
            memory.len(),
        )
    }
}

/// Memory to lend.
pub struct Memory<T = u16> {
    places: Vec<T>,
}

impl Memory<u16> {
    /// Memory that holds these words.
    pub fn holding(places: Vec<u16>) -> Memory<u16> {
        Memory { places }
    }

    /// Memory of this length, filled by chance.
    pub fn new(random: &mut Random, length: usize) -> Memory<u16> {
        Memory::holding((0..length).map(|_| random.word() as u16).collect())
    }
}

impl Memory<i32> {
    /// Memory for transforms, filled by chance.
    pub fn signed(random: &mut Random, length: usize) -> Memory<i32> {
        let places = (0..length).map(|_| random.word() as i32).collect();
        Memory { places }
    }
}

impl<T: Copy + PartialEq + std::fmt::Debug> Memory<T> {
    /// What a call gives, and what it wrote from the start of the memory: `length` tells how much
    /// by what it gives. The rest of the memory must be as it was.
    pub fn lend_for(
        &mut self,
        call: impl FnOnce(&mut [T]) -> usize,
        length: impl Fn(usize) -> usize,
    ) -> (usize, Vec<T>) {
        let before = self.places.clone();
        let number = call(&mut self.places);
        let written = length(number);
        assert_eq!(self.places[written..], before[written..], "memory beyond");
        (number, self.places[..written].to_vec())
    }

    /// What a call of crate probe wrote, or none if it was unfit.
    pub fn lend(&mut self, call: impl FnOnce(&mut [T]) -> usize) -> Option<Vec<T>> {
        let length = |count| if count == UNFIT { 0 } else { count };
        let (count, written) = self.lend_for(call, length);
        (count != UNFIT).then_some(written)
    }
}
