//! Calls on a board with a lent tally record, or with none. With a record they are safe calls of crate
//! probe, on the board that an image spells.

use crate::checks::{answer, reason_length};
use crate::images::{decided, ours, ImageCall};
use crate::ours::Memory;
use crate::previews::previews;
use oracle::book::{Answer, Asked, Call};
use oracle::image;
use oracle::page::{code, Tally};

// A slice goes over as its address and its length.
extern "C" {
    fn probe_counted(
        image: *const u8,
        image_length: usize,
        which: usize,
        code: usize,
        record: *mut usize,
        record_length: usize,
        memory: *mut u16,
        memory_length: usize,
    ) -> usize;
}

/// The number of the call `which`: 0 a decide, 1 an undo, 2 a check, any other a preview.
pub fn counted(
    image: &[u8],
    which: usize,
    code: usize,
    record: &mut [usize],
    memory: &mut [u16],
) -> usize {
    // SAFETY: addresses and lengths are those of slices that live through the call.
    unsafe {
        probe_counted(
            image.as_ptr(),
            image.len(),
            which,
            code,
            record.as_mut_ptr(),
            record.len(),
            memory.as_mut_ptr(),
            memory.len(),
        )
    }
}

/// The number of a call that is lent this record, and what the record holds afterwards. The words
/// beside it must be as they were.
fn recorded(image: &[u8], call: Call, record: Tally, memory: &mut [u16]) -> (usize, Tally) {
    const GUARD: usize = 0x5a5a_a5a5;
    let (which, code) = match call {
        Call::Decide(literal) => (0, code(&literal)),
        Call::Undo => (1, 0),
        Call::Check(_) => (2, 0),
        Call::Preview(literal, _) => (3, code(&literal)),
    };
    let [undecided, walls, opens] = record.counts();
    let mut words = [GUARD, undecided, walls, opens, GUARD];
    let number = counted(image, which, code, &mut words[1..4], memory);
    let [before, undecided, walls, opens, behind] = words;
    assert_eq!([before, behind], [GUARD; 2], "beside the record");
    (number, Tally::from([undecided, walls, opens]))
}

/// The number of a call that is lent no record.
fn unrecorded(image: &mut [u8], call: Call, memory: &mut [u16]) -> usize {
    let call = match call {
        Call::Decide((border, wall)) => {
            // A larger number is no border either.
            let border = u32::try_from(border).unwrap_or(u32::MAX);
            ImageCall::Decide(border, u32::from(wall))
        }
        Call::Undo => ImageCall::Undo,
        Call::Check(_) => ImageCall::Check,
        Call::Preview(literal, _) => return previews(image, literal, 1, memory),
    };
    let mut bytes: Vec<u8> = memory.iter().flat_map(|word| word.to_le_bytes()).collect();
    let number = ours(image, &mut bytes, call);
    for (word, pair) in memory.iter_mut().zip(bytes.chunks(2)) {
        *word = u16::from_le_bytes([pair[0], pair[1]]);
    }
    number as usize
}

/// The number of a call, and what the record that it is lent holds afterwards. A decide or undo with a
/// record that is done is made on the image too, whose tally must then be the record.
fn called(image: &mut [u8], asked: Asked, memory: &mut [u16]) -> (usize, Option<Tally>) {
    let Some(record) = asked.record else {
        return (unrecorded(image, asked.call, memory), None);
    };
    let before = image.to_vec();
    let (number, now) = recorded(image, asked.call, record, memory);
    assert!(image == before, "image after {asked:?}");
    if number == 0 {
        assert_eq!(unrecorded(image, asked.call, &mut []), 0, "{asked:?}");
        assert_eq!(image::tally(image), now, "{asked:?}");
    }
    (number, Some(now))
}

/// What a call answers, and what the record that it is lent holds afterwards. The image becomes that
/// after the call. The memory beyond the reason must be as it was.
pub fn reply(image: &mut [u8], asked: Asked, memory: &mut Memory) -> (Answer, Option<Tally>) {
    let mut record = None;
    let lent = |places: &mut [u16]| {
        let (number, now) = called(image, asked, places);
        record = now;
        number
    };
    let (number, written) = memory.lend_for(lent, reason_length);
    let previewed = usize::from(matches!(asked.call, Call::Preview(..)));
    let decided = decided(image) + previewed;
    (answer(number, &written, decided), record)
}
