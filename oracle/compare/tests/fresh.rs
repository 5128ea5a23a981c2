//! Making an image in lent bytes, beside the plain writer of `oracle::image`: every size, refused pages, bytes of every
//! content and length. Every byte and the guards are compared at each call.

use compare::boards;
use compare::images::{compare_fresh, ImageCall, Judge, Lent, Page, MEMORY};
use oracle::image::LENGTH;
use oracle::random::Random;

/// Clues that are taken, the largest too, and clues that are not.
const CLUES: [i32; 8] = [-1, 0, 1, 127, 256, 65_536, i32::MAX - 1, i32::MAX];
const BELOW: [i32; 6] = [-2, -3, -256, -65_537, i32::MIN + 1, i32::MIN];

/// Heights and widths that no page has. Cut to 8 or 16 bits, or read with a sign, most of them would be one's.
const SIDES: [u32; 12] = [
    0,
    33,
    34,
    64,
    255,
    256,
    257,
    65_536,
    65_537,
    1 << 31,
    (1 << 31) + 1,
    u32::MAX,
];

fn page(random: &mut Random, h: u32, w: u32) -> Page {
    let cells = (h * w) as usize;
    Page {
        h,
        w,
        colours: (0..cells).map(|_| random.below(2) as u8).collect(),
        clues: (0..cells).map(|_| *random.pick(&CLUES)).collect(),
    }
}

/// A page of any size.
fn any_page(random: &mut Random) -> Page {
    let most = *random.pick(&[3, 8, 32]);
    let (h, w) = (random.between(1, most), random.between(1, most));
    page(random, h as u32, w as u32)
}

fn dirty(random: &mut Random) -> Lent {
    Lent::memory(random, LENGTH)
}

#[test]
fn every_size_over_bytes_of_any_content() {
    let mut random = Random::new(100);
    let mut memory = Lent::memory(&mut random, MEMORY);
    for (h, w) in (1..=32).flat_map(|h| (1..=32).map(move |w| (h, w))) {
        let page = page(&mut random, h, w);
        let mut image = dirty(&mut random);
        assert_eq!(compare_fresh(&mut image, &page), 0, "{h} {w}");
        let mut judge = Judge::default();
        let undo = judge.call(&mut image, &mut memory, ImageCall::Undo);
        assert_eq!(undo, 8, "{h} {w}: not alien, and nothing is decided");
        let decide = judge.call(&mut image, &mut memory, ImageCall::Decide(0, 1));
        assert_eq!(decide, if h * w == 1 { 6 } else { 0 });
        assert_eq!(compare_fresh(&mut image, &page), 0, "over a used image");
    }
}

#[test]
fn sizes_that_no_page_has() {
    let mut random = Random::new(101);
    let good = [1, 2, 32];
    let pairs = SIDES.iter().flat_map(|&bad| good.map(|side| (bad, side)));
    let both = SIDES.iter().flat_map(|&a| SIDES.map(|b| (a, b)));
    for (a, b) in pairs.chain(both) {
        for (h, w) in [(a, b), (b, a)] {
            // Lists that fit the size as it is, or cut to 8 bits.
            let fit = (h as usize).saturating_mul(w as usize).min(2_000);
            let cut = usize::from(h as u8) * usize::from(w as u8);
            for cells in [0, 1, fit, cut.min(2_000)] {
                let page = Page {
                    h,
                    w,
                    colours: vec![1; cells],
                    clues: vec![-1; cells],
                };
                assert_eq!(compare_fresh(&mut dirty(&mut random), &page), 1, "{h} {w}");
            }
        }
    }
}

#[test]
fn lists_that_do_not_fit() {
    let mut random = Random::new(102);
    for _ in 0..100 * boards::rounds() {
        let good = any_page(&mut random);
        let cells = good.colours.len();
        let lengths = [
            0,
            cells - 1,
            cells,
            cells + 1,
            2 * cells,
            1_024,
            1_025,
            5_000,
        ];
        for colours in lengths {
            let mut page = good.clone();
            page.colours.resize(colours, 0);
            page.clues.resize(*random.pick(&lengths), -1);
            let fits = page.colours.len() == cells && page.clues.len() == cells;
            let number = compare_fresh(&mut dirty(&mut random), &page);
            assert_eq!(number, if fits { 0 } else { 2 }, "{page:?}");
        }
    }
}

#[test]
fn every_wrong_colour_and_clues_below_minus_one() {
    let mut random = Random::new(103);
    for colour in 2..=255 {
        let mut page = any_page(&mut random);
        let cell = random.below(page.colours.len());
        page.colours[cell] = colour;
        assert_eq!(compare_fresh(&mut dirty(&mut random), &page), 3, "{page:?}");
    }
    for clue in BELOW {
        for _ in 0..20 * boards::rounds() {
            let mut page = any_page(&mut random);
            let cell = random.below(page.clues.len());
            page.clues[cell] = clue;
            assert_eq!(compare_fresh(&mut dirty(&mut random), &page), 4, "{page:?}");
        }
    }
}

/// Each place of the largest page: no cell is left out of the tests, nor of what is written.
#[test]
fn every_cell_of_the_largest_page() {
    let mut random = Random::new(104);
    let good = page(&mut random, 32, 32);
    for cell in 0..1_024 {
        let mut page = good.clone();
        page.colours[cell] ^= 1;
        page.clues[cell] = *random.pick(&CLUES);
        assert_eq!(compare_fresh(&mut dirty(&mut random), &page), 0, "{cell}");
        page.clues[cell] = *random.pick(&BELOW);
        assert_eq!(compare_fresh(&mut dirty(&mut random), &page), 4, "{cell}");
        page.colours[cell] = random.between(2, 255) as u8;
        assert_eq!(compare_fresh(&mut dirty(&mut random), &page), 3, "{cell}");
    }
}

#[test]
fn every_length_of_the_lent_bytes() {
    let mut random = Random::new(105);
    for length in 0..=11_100 {
        let mut page = any_page(&mut random);
        let mut lent = Lent::memory(&mut random, length);
        let wanted = if length == LENGTH { 0 } else { 5 };
        assert_eq!(compare_fresh(&mut lent, &page), wanted, "{length}");
        page.clues[0] = -2;
        assert_eq!(compare_fresh(&mut lent, &page), 4, "4 comes before 5");
    }
}

/// Any number of faults at a time: the lowest number is given.
#[test]
fn several_faults_at_a_time() {
    let mut random = Random::new(106);
    let mut seen = [0; 6];
    for _ in 0..2_000 * boards::rounds() {
        let mut page = any_page(&mut random);
        let cells = page.colours.len();
        if random.chance(30) {
            page.clues[random.below(cells)] = *random.pick(&BELOW);
        }
        if random.chance(30) {
            page.colours[random.below(cells)] = random.between(2, 255) as u8;
        }
        if random.chance(15) {
            page.clues.truncate(random.below(cells + 1));
        }
        if random.chance(15) {
            page.colours.push(random.below(3) as u8);
        }
        if random.chance(20) {
            page.w = *random.pick(&SIDES);
        }
        let length = *random.pick(&[LENGTH, LENGTH, LENGTH - 1, LENGTH + 1, 0]);
        let mut lent = Lent::memory(&mut random, length);
        seen[compare_fresh(&mut lent, &page) as usize] += 1;
    }
    println!("made, and refused with 1 to 5: {seen:?}");
    assert!(seen.iter().all(|&count| count > 100), "{seen:?}");
}
