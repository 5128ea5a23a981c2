//! Boards: document 01's small boards, the image of a fresh board, refusals, saved images, and the tally.

use dbchoco::{Answer, Board, Call, Literal, Refusal, Side, Tally, IMAGE_LENGTH};

/// A board of rows such as "01", without clues, with literals such as "0w 1o" decided.
fn board(rows: &[&str], decided: &str) -> Board {
    let colours: Vec<u8> = rows.concat().bytes().map(|digit| digit - b'0').collect();
    let clues = vec![-1; colours.len()];
    let mut board = Board::fresh(rows.len(), rows[0].len(), &colours, &clues).unwrap();
    for literal in decided.split_whitespace() {
        let (border, side) = literal.split_at(literal.len() - 1);
        let side = Side::from(side == "w");
        board.decide(border.parse().unwrap(), side).unwrap();
    }
    board
}

/// A check's answer as the page program prints it.
fn answer(board: &mut Board) -> String {
    match board.check() {
        Answer::Pass { undecided } => format!("pass {undecided}"),
        Answer::Conflict(reason) => format!("conflict {reason}").trim_end().to_string(),
    }
}

#[test]
fn the_small_boards_of_document_01() {
    let cases: [(&[&str], &str, &str); 9] = [
        (&["0"], "", "conflict"),
        (&["00"], "", "conflict"),
        (&["01"], "", "pass 1"),
        (&["01"], "0o", "pass 0"),
        (&["01"], "0w", "conflict 0w"),
        (&["010"], "0o 1o", "conflict 0o 1o"),
        (&["0011"], "0o 1o 2o", "pass 0"),
        (&["0011"], "0w 1o 2o", "conflict 1o 2o 0w"),
        (&["01", "01"], "0o 1w 2o 3o", "conflict 3o 0o 2o 1w"),
    ];
    for (rows, decided, wanted) in cases {
        let mut board = board(rows, decided);
        let before = *board.image();
        assert_eq!(answer(&mut board), wanted, "{rows:?} {decided}");
        assert_eq!(*board.image(), before, "a check alters nothing");
    }
}

#[test]
fn clues_of_a_pair() {
    for (clue, wanted) in [(1, "pass 1"), (0, "conflict"), (2, "conflict")] {
        let mut board = Board::fresh(1, 2, &[0, 1], &[clue, -1]).unwrap();
        assert_eq!(answer(&mut board), wanted, "clue {clue}");
        assert_eq!((board.clue(0, 0), board.clue(0, 1)), (Some(clue), None));
    }
}

#[test]
fn the_bytes_of_an_image() {
    let mut board = Board::fresh(2, 2, &[0, 1, 1, 0], &[-1, 258, 0, 2147483647]).unwrap();
    let mut wanted = [0; IMAGE_LENGTH];
    wanted[..6].copy_from_slice(&[2, 2, 0, 1, 1, 0]);
    let clues = [
        255, 255, 255, 255, 2, 1, 0, 0, 0, 0, 0, 0, 255, 255, 255, 127,
    ];
    wanted[1026..1042].copy_from_slice(&clues);
    wanted[11076] = 4;
    assert_eq!(*board.image(), wanted);
    board.decide(3, Side::Open).unwrap();
    board.decide(1, Side::Wall).unwrap();
    (wanted[5122 + 3], wanted[5122 + 1]) = (2, 1);
    wanted[7106..7112].copy_from_slice(&[2, 0, 3, 0, 1, 0]);
    wanted[11076..].copy_from_slice(&[2, 0, 1, 0, 1, 0]);
    assert_eq!(*board.image(), wanted);
    board.undo().unwrap();
    wanted[5122 + 1] = 0;
    wanted[7106..7112].copy_from_slice(&[1, 0, 3, 0, 0, 0]);
    wanted[11076..].copy_from_slice(&[3, 0, 0, 0, 1, 0]);
    assert_eq!(*board.image(), wanted);
}

#[test]
fn the_lowest_number_of_making_a_board() {
    let made = |h, w, colours: &[u8], clues: &[i32]| Board::fresh(h, w, colours, clues).err();
    assert_eq!(made(0, 1, &[], &[]), Some(Refusal::Size));
    assert_eq!(made(1, 0, &[], &[]), Some(Refusal::Size));
    assert_eq!(made(33, 1, &[2; 3], &[-2; 4]), Some(Refusal::Size));
    assert_eq!(made(1, usize::MAX, &[], &[]), Some(Refusal::Size));
    assert_eq!(made(1, 2, &[2; 3], &[-2; 2]), Some(Refusal::Ragged));
    assert_eq!(made(1, 2, &[2; 2], &[-2; 3]), Some(Refusal::Ragged));
    assert_eq!(made(1, 2, &[0, 2], &[-2; 2]), Some(Refusal::Colour));
    assert_eq!(made(1, 2, &[0, 1], &[0, -2]), Some(Refusal::Clue));
    assert_eq!(made(32, 32, &[0; 1024], &[-1; 1024]), None);
}

#[test]
fn refused_calls_leave_the_board() {
    let mut board = board(&["01"], "0o");
    let before = board.clone();
    for border in [1, 256, 65_536, u32::MAX as usize, 1 << 32, usize::MAX] {
        assert_eq!(board.decide(border, Side::Wall), Err(Refusal::Border));
    }
    assert_eq!(board.decide(0, Side::Wall), Err(Refusal::Taken));
    assert_eq!(board, before);
    board.undo().unwrap();
    assert_eq!(board.undo(), Err(Refusal::Bare));
    assert_eq!(board.decided().len(), 0);
}

#[test]
fn saved_images() {
    let saved = board(&["011", "010"], "6w 0o 2o");
    assert_eq!(Board::from_image(saved.image()), Ok(saved.clone()));
    for at in 0..IMAGE_LENGTH {
        let mut damaged = *saved.image();
        damaged[at] ^= 0x40;
        assert_eq!(
            Board::from_image(&damaged),
            Err(Refusal::Alien),
            "byte {at}"
        );
    }
    let longer = [&saved.image()[..], &[0]].concat();
    let old = &longer[..11076];
    for bytes in [&longer, &longer[..IMAGE_LENGTH - 1], old, &[]] {
        assert_eq!(Board::from_image(bytes), Err(Refusal::Alien));
    }
    let appended = [old, &[4, 0, 1, 0, 2, 0]].concat();
    assert_eq!(Board::from_image(&appended), Ok(saved));
    assert_eq!(
        Board::from_image(&[0; IMAGE_LENGTH]),
        Err(Refusal::Alien),
        "the all-zero board"
    );
}

#[test]
fn borders_and_sides() {
    let board = board(&["011", "010"], "6w 0o");
    let mut numbers: Vec<usize> = vec![];
    for (y, x) in [(0, 0), (0, 1), (0, 2), (1, 0), (1, 1), (1, 2), (2, 0)] {
        numbers.extend(board.right_of(y, x));
    }
    for (y, x) in [(0, 0), (0, 1), (0, 2), (0, 3), (1, 0)] {
        numbers.extend(board.below(y, x));
    }
    assert_eq!(numbers, (0..board.borders()).collect::<Vec<usize>>());
    let sides = [0, 1, 6, 7, usize::MAX].map(|border| board.side(border));
    assert_eq!(
        sides,
        [Some(Side::Open), None, Some(Side::Wall), None, None]
    );
    assert_eq!((board.colour(1, 2), board.colour(2, 0)), (Some(0), None));
}

#[test]
fn numbers_and_words_of_refusals() {
    let words = "size ragged colour clue alien border taken bare short";
    for (i, word) in words.split(' ').enumerate() {
        let refusal = Refusal::from_number(i as u32 + 1).unwrap();
        assert_eq!((refusal.number(), refusal.word()), (i as u32 + 1, word));
    }
    assert_eq!(Refusal::from_number(0), None);
    assert_eq!(Refusal::from_number(10), None);
}

/// 01's list is 2w 0o 2w: the wall blocks the only placement, and stands at the edge of the unit beside.
#[test]
fn a_repeat_is_struck() {
    assert_eq!(answer(&mut board(&["0011"], "0o 2w")), "conflict 2w 0o");
}

/// The largest page with every border open and a clue that is too small.
#[test]
fn a_reason_that_names_every_border() {
    let mut clues = [-1; 1024];
    clues[0] = 1;
    let mut board = Board::fresh(32, 32, &[0; 1024], &clues).unwrap();
    let open = |border| Call::Decide(literal(border, 0));
    let calls: Vec<Call> = (0..board.borders()).map(open).collect();
    board.apply(&calls).unwrap();
    let mut reason = board.check().reason().unwrap().to_vec();
    reason.sort();
    let every: Vec<Literal> = (0..1984).map(|border| literal(border, 0)).collect();
    assert_eq!(reason, every);
}

#[test]
fn a_reason_from_both_ends() {
    let mut board = board(&["0011"], "0w 1o 2o");
    let reason = board.check().reason().unwrap();
    let words: Vec<String> = reason.iter().rev().map(|l| l.to_string()).collect();
    assert_eq!((words, reason.iter().len()), (reason_words("0w 2o 1o"), 3));
    assert_eq!(reason.to_vec(), reason.into_iter().collect::<Vec<_>>());
}

fn reason_words(words: &str) -> Vec<String> {
    words.split(' ').map(str::to_string).collect()
}

/// What the header says of the stack, with some room for the thread itself.
#[test]
fn a_check_fits_a_small_stack() {
    let pair = ["01".repeat(16), "10".repeat(16)];
    let rows: Vec<&str> = (0..32).map(|y| pair[y % 2].as_str()).collect();
    let mut board = board(&rows, "");
    let small = std::thread::Builder::new().stack_size(208 << 10);
    let run = small.spawn(move || answer(&mut board));
    assert_eq!(run.unwrap().join().unwrap(), "pass 1984");
}

/// Numbers by chance, the same at each run.
fn numbers() -> impl FnMut(usize) -> usize {
    let mut word = 0x2545_f491_4f6c_dd1d_u64;
    move |below| {
        word ^= word << 13;
        word ^= word >> 7;
        word ^= word << 17;
        (word % below as u64) as usize
    }
}

#[test]
fn a_list_of_calls_goes_as_the_calls_one_by_one() {
    let mut number = numbers();
    let (mut whole, mut stopped) = (0, 0);
    for _ in 0..3_000 {
        let (h, w) = (1 + number(6), 1 + number(6));
        let colours: Vec<u8> = (0..h * w).map(|_| number(2) as u8).collect();
        let mut board = Board::fresh(h, w, &colours, &vec![-1; h * w]).unwrap();
        let borders = board.borders() + 1;
        for _ in 0..4 {
            let calls: Vec<Call> = (0..number(12))
                .map(|_| match number(40) {
                    0..=7 => Call::Undo,
                    8 => Call::Decide(literal(32_760 + number(20), number(2))),
                    9 => Call::Decide(literal(usize::MAX - number(2), number(2))),
                    _ => Call::Decide(literal(number(borders), number(2))),
                })
                .collect();
            let mut single = board.clone();
            let wanted = calls.iter().enumerate().try_for_each(|(at, call)| {
                let done = match call {
                    Call::Decide(literal) => single.decide(literal.border, literal.side),
                    Call::Undo => single.undo(),
                };
                done.map_err(|refusal| (at, refusal))
            });
            assert_eq!(board.apply(&calls), wanted, "{calls:?}");
            assert_eq!(board, single, "{calls:?}");
            if wanted.is_ok() {
                whole += 1;
            } else {
                stopped += 1;
            }
        }
    }
    assert!(whole > 1_000 && stopped > 1_000, "{whole} {stopped}");
}

/// The tally counted border by border.
fn counted(board: &Board) -> Tally {
    let sides: Vec<Option<Side>> = (0..board.borders()).map(|b| board.side(b)).collect();
    let count = |wanted| sides.iter().filter(|&&side| side == wanted).count();
    Tally {
        undecided: count(None),
        walls: count(Some(Side::Wall)),
        opens: count(Some(Side::Open)),
    }
}

#[test]
fn the_tally_is_that_of_the_borders() {
    let mut number = numbers();
    let (mut most, mut refused) = (0, 0);
    for round in 0..100 {
        let (h, w) = match round % 50 {
            0 => (32, 32),
            _ => (1 + number(6), 1 + number(6)),
        };
        let mut board = Board::fresh(h, w, &vec![0; h * w], &vec![-1; h * w]).unwrap();
        for _ in 0..=2 * board.borders() {
            let tally = board.tally();
            assert_eq!(tally, counted(&board), "{board:?}");
            most = most.max(tally.walls.min(tally.opens));
            let called = match number(4) {
                0 => board.undo(),
                _ => board.decide(number(board.borders() + 1), Side::from(number(2) == 1)),
            };
            refused += usize::from(called.is_err());
        }
    }
    assert!(most > 256 && refused > 1_000, "{most} {refused}");
}

fn literal(border: usize, side: usize) -> Literal {
    let side = Side::from(side == 1);
    Literal { border, side }
}
