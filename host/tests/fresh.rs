//! Making an image in lent bytes by the exported call: bytes of any content become exactly the image, and a refused
//! call leaves them. An image that a host writes itself is as good.

use dbchoco::{Answer, Board, Refusal, Side, IMAGE_LENGTH};

extern "C" {
    fn dbchoco_fresh(
        image: *mut u8,
        image_len: usize,
        height: u32,
        width: u32,
        colours: *const u8,
        colours_len: usize,
        clues: *const i32,
        clues_len: usize,
    ) -> u32;
}

/// The call on these bytes: its refusal, if it is refused.
fn fresh(bytes: &mut [u8], size: (u32, u32), colours: &[u8], clues: &[i32]) -> Option<Refusal> {
    // SAFETY: addresses and lengths are those of slices that live through the call and do not overlap.
    let number = unsafe {
        dbchoco_fresh(
            bytes.as_mut_ptr(),
            bytes.len(),
            size.0,
            size.1,
            colours.as_ptr(),
            colours.len(),
            clues.as_ptr(),
            clues.len(),
        )
    };
    assert!(number <= 5, "{number}");
    Refusal::from_number(number)
}

/// A page of 2 by 2, its image written as document 01 lays it out, with document 02's tally.
const COLOURS: [u8; 4] = [0, 1, 1, 0];
const CLUES: [i32; 4] = [-1, 258, 0, 2147483647];

fn written() -> [u8; IMAGE_LENGTH] {
    let mut image = [0; IMAGE_LENGTH];
    image[..6].copy_from_slice(&[2, 2, 0, 1, 1, 0]);
    let clues = [
        255, 255, 255, 255, 2, 1, 0, 0, 0, 0, 0, 0, 255, 255, 255, 127,
    ];
    image[1026..1042].copy_from_slice(&clues);
    image[11076] = 4;
    image
}

#[test]
fn bytes_of_any_content_become_the_image() {
    for dirt in [0, 1, 0x5a, 255] {
        let mut bytes = [dirt; IMAGE_LENGTH];
        assert_eq!(fresh(&mut bytes, (2, 2), &COLOURS, &CLUES), None);
        assert_eq!(bytes, written(), "over {dirt}");
    }
}

#[test]
fn a_refused_call_leaves_the_bytes() {
    let long = IMAGE_LENGTH + 1;
    let cases: [(usize, (u32, u32), &[u8], &[i32], Refusal); 11] = [
        (IMAGE_LENGTH, (0, 2), &[], &[], Refusal::Size),
        (IMAGE_LENGTH, (33, 1), &[0; 33], &[-1; 33], Refusal::Size),
        (IMAGE_LENGTH, (258, 2), &COLOURS, &CLUES, Refusal::Size),
        (IMAGE_LENGTH, (2, 65_538), &COLOURS, &CLUES, Refusal::Size),
        (IMAGE_LENGTH, (2, 2), &COLOURS[1..], &CLUES, Refusal::Ragged),
        (IMAGE_LENGTH, (2, 2), &COLOURS, &[-2; 5], Refusal::Ragged),
        (IMAGE_LENGTH, (1, 2), &[0, 2], &[-2; 2], Refusal::Colour),
        (IMAGE_LENGTH, (1, 2), &[0, 1], &[0, i32::MIN], Refusal::Clue),
        (long, (2, 2), &COLOURS, &CLUES, Refusal::Alien),
        (0, (2, 2), &COLOURS, &CLUES, Refusal::Alien),
        (long, (1, 2), &[0, 1], &[0, -2], Refusal::Clue),
    ];
    for (length, size, colours, clues, refusal) in cases {
        let mut bytes = vec![0xa5; length];
        let got = fresh(&mut bytes, size, colours, clues);
        assert_eq!(got, Some(refusal), "{length} {size:?}");
        assert!(bytes.iter().all(|&byte| byte == 0xa5), "{refusal}");
    }
}

#[test]
fn an_image_that_the_host_writes_itself() {
    let own = Board::from_image(&written()).unwrap();
    assert_eq!(Ok(own), Board::fresh(2, 2, &COLOURS, &CLUES));
    let mut pair = [0; IMAGE_LENGTH];
    pair[..4].copy_from_slice(&[1, 2, 0, 1]);
    pair[1026..1034].fill(255);
    assert_eq!(Board::from_image(&pair), Err(Refusal::Alien), "no tally");
    pair[11076] = 1;
    let mut board = Board::from_image(&pair).unwrap();
    board.decide(0, Side::Open).unwrap();
    assert_eq!(board.check(), Answer::Pass { undecided: 0 });
}

/// What the header says of the stack, with some room for the thread itself.
#[test]
fn making_an_image_fits_a_small_stack() {
    let mut bytes = vec![7; IMAGE_LENGTH];
    let small = std::thread::Builder::new().stack_size(80 << 10);
    let run = small.spawn(move || fresh(&mut bytes, (32, 32), &[1; 1024], &[-1; 1024]));
    assert_eq!(run.unwrap().join().unwrap(), None);
}
