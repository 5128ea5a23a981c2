//! Blocks, units and potential units of the proved code against the published ones: as whole lists,
//! and group by group as parts of the unit list and of the potential list.

use compare::boards;
use compare::expected::{self, words};
use compare::images::{damage, DAMAGES, HARMLESS};
use compare::ours::{self, Memory, Ours, PARTED, ROOM, UNFIT};
use oracle::image;
use oracle::page::{Board, Groups, Kind, Puzzle, KINDS};
use oracle::random::Random;

#[test]
fn groups_are_the_published_ones() {
    expected::note_source();
    let mut memory = Memory::new(&mut Random::new(41), ROOM + 5);
    let mut groups = 0;
    let count = boards::each(42, |_, board| {
        let ours = Ours::new(board);
        for (&kind, theirs) in KINDS.iter().zip(expected::groups(board)) {
            let written = memory.lend(|places| ours.groups(kind, places));
            assert!(written == Some(words(&theirs)), "{kind:?} {board:?}");
            groups += theirs.lists.len();
        }
    });
    println!("{count} boards, {groups} groups of three kinds");
    assert!(groups > 100_000, "{groups}");
}

#[test]
fn unfit_calls_are_refused() {
    let mut random = Random::new(43);
    let (mut unfit, mut fit) = (0, 0);
    for _ in 0..2000 {
        let side = |random: &mut Random| *random.pick(&[0, 1, 2, 31, 32, 33, 64, usize::MAX]);
        let (h, w) = (side(&mut random), side(&mut random));
        let room = *random.pick(&[0, 3074, ROOM - 1, ROOM, ROOM + 1]);
        let ours = Ours {
            h,
            w,
            colours: vec![1; random.below(1100)],
            borders: vec![2; random.below(2100)],
        };
        let right = (1..=32).contains(&h) && (1..=32).contains(&w) && room >= ROOM;
        let mut memory = Memory::new(&mut random, room);
        let calls = [
            memory.lend(|places| ours.groups(KINDS[0], places)),
            memory.lend(|places| ours.inside(KINDS[1], 0, places)),
            memory.lend(|places| ours.edge(0, places)),
            memory.lend(|places| ours.path(0, 1, places)),
        ];
        assert!(
            calls.iter().all(|call| call.is_some() == right),
            "{h} {w} {room}"
        );
        fit += usize::from(right);
        unfit += usize::from(!right);
    }
    assert!(unfit > 500 && fit > 50, "{unfit} {fit}");
}

#[test]
fn short_lists_read_as_zero() {
    let mut random = Random::new(44);
    let mut memory = Memory::new(&mut random, ROOM);
    boards::each(45, |random, board| {
        let whole = Ours::new(board);
        let mut cut = whole.clone();
        cut.colours.truncate(random.below(whole.colours.len() + 1));
        cut.borders.truncate(random.below(whole.borders.len() + 1));
        let mut filled = cut.clone();
        filled.colours.resize(1024 + random.below(9), 0);
        filled.borders.resize(1984 + random.below(9), 0);
        for kind in KINDS {
            let a = memory.lend(|places| cut.groups(kind, places));
            let b = memory.lend(|places| filled.groups(kind, places));
            assert!(a.is_some() && a == b, "{kind:?} {cut:?}");
        }
    });
}

// ---- groups asked of the board that an image spells

const ALIEN: usize = 5;
/// How many words groups are: numbers, cells, starts and count.
const WORDS: usize = 1024 + 1024 + 1025 + 1;

/// What asking for groups of one kind gives, and what it wrote.
fn asked(memory: &mut Memory, image: &[u8], kind: Kind) -> (usize, Vec<u16>) {
    let length = |number| if number == WORDS { WORDS } else { 0 };
    memory.lend_for(|places| ours::asked(image, kind, places), length)
}

/// The cells of a group as a part of a list of `PARTED`.
fn part(memory: &mut Memory, image: &[u8], which: usize, group: usize) -> Vec<usize> {
    let written = memory.lend(|places| ours::part(image, which, group, places));
    let cells = written.expect("no call is unfit").into_iter();
    cells.map(usize::from).collect()
}

/// Every part of a list by its number, and none past the last; the parts one after the other are the
/// list that `asked` wrote. Gives how many parts there are.
fn judge_parts(memory: &mut Memory, image: &[u8], which: usize, theirs: &Groups) -> usize {
    let mut list = vec![];
    for (group, cells) in theirs.lists.iter().enumerate() {
        let ours = part(memory, image, which, group);
        assert!(ours == *cells, "{which} {group} {:?}", image::read(image));
        list.extend(ours);
    }
    let count = theirs.lists.len();
    for past in [count, count + 1, 1024, 1025, usize::MAX] {
        assert_eq!(part(memory, image, which, past), [], "{which} {past}");
    }
    let (_, written) = asked(memory, image, PARTED[which]);
    let cells = written[1024..].iter().map(|&cell| usize::from(cell));
    assert!(cells.take(list.len()).eq(list), "{:?}", image::read(image));
    count
}

/// The groups of the three kinds, and the parts of both lists. Gives how many parts there are.
fn judge(memory: &mut Memory, image: &[u8], board: &Board) -> [usize; 2] {
    let theirs = expected::groups(board);
    for (&kind, theirs) in KINDS.iter().zip(&theirs) {
        let right = (WORDS, words(theirs));
        assert!(asked(memory, image, kind) == right, "{kind:?} {board:?}");
    }
    [0, 1].map(|which| {
        let kind = KINDS.iter().position(|&kind| kind == PARTED[which]);
        judge_parts(memory, image, which, &theirs[kind.expect("a kind")])
    })
}

#[test]
fn parts_are_the_published_ones() {
    expected::note_source();
    let mut memory = Memory::new(&mut Random::new(46), ROOM + 5);
    let mut parts = [0; 2];
    // Each part is asked for by itself, so that one board in three is enough.
    let rounds = boards::rounds().div_ceil(3);
    let count = boards::each_of(47, rounds, |_, board| {
        let found = judge(&mut memory, &image::write(board), board);
        parts = [parts[0] + found[0], parts[1] + found[1]];
    });
    println!("{count} boards, {parts:?} parts of units and potential units");
    assert!(parts.iter().all(|&parts| parts > 10_000), "{parts:?}");
}

/// "Groups or transforms asked of an alien board give 5 and none": which images are alien is asked of
/// `oracle::image`. A damaged image that is not alien is compared as any other.
#[test]
fn alien_images_give_none() {
    expected::note_source();
    let mut memory = Memory::new(&mut Random::new(48), ROOM);
    // By the kind of damage; the last is another length.
    let (mut alien, mut good) = ([0; DAMAGES + 1], [0; DAMAGES + 1]);
    let mut turn = 0;
    boards::each(49, |random, board| {
        let kind = turn % (DAMAGES + 1);
        turn += 1;
        let mut bytes = image::write(board);
        if kind < DAMAGES {
            damage(random, &mut bytes, kind);
        } else {
            let length = random.below(2 * image::LENGTH);
            let near = [image::LENGTH - 1, image::LENGTH, image::LENGTH + 1];
            bytes.resize(*random.pick(&[0, length, near[0], near[1], near[2]]), 0);
        }
        if let Some(board) = image::read(&bytes) {
            good[kind] += 1;
            judge(&mut memory, &bytes, &board);
            return;
        }
        alien[kind] += 1;
        for kind in KINDS {
            assert_eq!(asked(&mut memory, &bytes, kind), (ALIEN, vec![]));
        }
        for which in [0, 1] {
            for group in [0, random.below(1100), usize::MAX] {
                assert_eq!(part(&mut memory, &bytes, which, group), []);
            }
        }
    });
    println!("by damage: {alien:?} alien images, {good:?} good ones");
    let enough = |kind: usize| HARMLESS.contains(&kind) || alien[kind] > 50;
    assert!((0..=DAMAGES).all(enough));
    assert!(HARMLESS.map(|kind| (alien[kind], good[kind] > 50)) == [(0, true); 2]);
    assert!(good.iter().sum::<usize>() > 500);
}

#[test]
fn short_memory_is_unfit() {
    let mut random = Random::new(50);
    let board = Board {
        puzzle: Puzzle::without_clues(2, 2, vec![0; 4]),
        decided: vec![],
    };
    let bytes = image::write(&board);
    for length in [0, 4, WORDS, ROOM - 1, ROOM, ROOM + 1] {
        let mut memory = Memory::new(&mut random, length);
        let number = asked(&mut memory, &bytes, Kind::Units).0;
        let cells = memory.lend(|places| ours::part(&bytes, 1, 0, places));
        if length < ROOM {
            assert_eq!((number, cells), (UNFIT, None));
        } else {
            assert_eq!((number, cells), (WORDS, Some(vec![0, 1, 2, 3])));
        }
        // 5 comes first.
        let number = asked(&mut memory, &bytes[1..], Kind::Units).0;
        assert_eq!(number, ALIEN);
    }
}
