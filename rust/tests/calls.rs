//! Every call on good and on bad input, through the wrapper; and through the C interface itself, that a refused call leaves zero values and
//! unchanged buffers.

use morris::*;

/// Document 01's board 02122011, point 0 first: rank 117, won in one ply.
const BOARD: [u8; 8] = [1, 1, 0, 2, 2, 1, 2, 0];

/// 11112222: four against four, the mover blocked.
const BLOCKED: [u8; 8] = [2, 2, 2, 2, 1, 1, 1, 1];

/// 01011222: all opposing stones stand in a mill, and the stone at 3 may close one.
const SHIELDED: [u8; 8] = [2, 2, 2, 1, 1, 0, 1, 0];

fn filled(edition: u8) -> Vec<u16> {
    let mut tablebase = vec![7; 1302];
    assert_eq!(fill(1, edition, 5, 2000, &mut tablebase), Ok(()));
    tablebase
}

#[test]
fn ranks() {
    assert_eq!(rank(1, &BOARD), Ok(117));
    assert_eq!(rank(1, &[2, 0, 2, 0, 2, 1, 1, 1]), Ok(225));
    assert_eq!(rank(0, &BOARD), Err(Refused(1)));
    assert_eq!(rank(1, &BOARD[..7]), Err(Refused(2)));
    assert_eq!(rank(1, &[]), Err(Refused(2)));
    assert_eq!(rank(1, &[1, 1, 0, 2, 2, 1, 2, 3]), Err(Refused(3)));
    assert_eq!(rank(1, &[1, 1, 0, 2, 2, 0, 2, 0]), Err(Refused(4)));
}

#[test]
fn unranks() {
    let mut target = [7; 8];
    assert_eq!(unrank(1, 3, 3, 117, &mut target), Ok(()));
    assert_eq!(target, BOARD);
    let mut target = [7; 24];
    assert_eq!(unrank(3, 8, 8, 9_465_511_770, &mut target), Err(Refused(5)));
    assert_eq!(unrank(1, 3, 3, 117, &mut target), Err(Refused(6)));
    assert_eq!(unrank(1, 5, 4, 0, &mut target), Err(Refused(4)));
    assert_eq!(unrank(4, 3, 3, 0, &mut target), Err(Refused(1)));
    assert_eq!(target, [7; 24]);
}

#[test]
fn lists_moves() {
    let mut list = [7; MOVES_MAX];
    assert_eq!(moves(1, 1, &BOARD, &mut list), Ok(8));
    assert_eq!(list[..10], [5187, 5188, 5190, 95, 255, 1119, 1279, 5375, 7, 7]);
    let mut short = [7; 7];
    assert_eq!(moves(1, 1, &BOARD, &mut short), Err(Refused(7)));
    assert_eq!(moves(2, 1, &BOARD, &mut short), Err(Refused(2)));
    assert_eq!(short, [7; 7]);
    assert_eq!(moves(1, 1, &BLOCKED, &mut []), Ok(0));
}

#[test]
fn makes_moves() {
    let mut target = [7; 8];
    assert_eq!(make_move(1, 1, &BOARD, 5187, &mut target), Ok(()));
    assert_eq!(target, [2, 2, 2, 0, 1, 0, 1, 0]);
    let mut target = [7; 8];
    assert_eq!(make_move(1, 1, &BOARD, 5186, &mut target), Err(Refused(8)));
    assert_eq!(make_move(1, 1, &BOARD, 5187, &mut target[..7]), Err(Refused(6)));
    assert_eq!(target, [7; 8]);
}

#[test]
fn finds_representatives() {
    assert_eq!(representative(1, &BOARD), Ok(32));
    assert_eq!(representative(4, &BOARD), Err(Refused(1)));
    assert_eq!(representative(1, &[1, 1, 0, 2, 2, 1, 2, 4]), Err(Refused(3)));
}

#[test]
fn fills() {
    let tablebase = filled(1);
    assert_eq!((tablebase[117], tablebase[225]), (1, 2));
    assert_eq!(tablebase.iter().filter(|&&entry| entry == DRAW).count(), 604);
    let mut small = [7; 560];
    assert_eq!(fill(1, 1, 2, 2000, &mut small), Err(Refused(11)));
    assert_eq!(fill(1, 1, 4, 2000, &mut small), Err(Refused(6)));
    assert_eq!(fill(1, 1, 3, 65_534, &mut small), Err(Refused(10)));
    assert_eq!(small, [7; 560]);
    assert_eq!(fill(1, 1, 3, 1, &mut small), Err(Refused(13)));
    assert_eq!(small, [VOID; 560]);
}

#[test]
fn fills_pairs() {
    let mut tablebase = vec![7; 1302];
    for (mover, opponent) in [(3, 3), (4, 3), (4, 4), (5, 3)] {
        assert_eq!(fill_pair(1, 1, mover, opponent, 5, 2000, &mut tablebase), Ok(()));
    }
    assert_eq!(tablebase, filled(1));
    assert_eq!(fill_pair(1, 1, 5, 4, 5, 2000, &mut tablebase), Err(Refused(4)));
    tablebase[600] = VOID;
    let before = tablebase.clone();
    assert_eq!(fill_pair(1, 1, 4, 4, 5, 0, &mut tablebase), Err(Refused(12)));
    assert_eq!(tablebase, before);
}

#[test]
fn looks_up() {
    let mut tablebase = filled(1);
    assert_eq!(lookup(1, 1, &BOARD, 5, &tablebase), Ok(1));
    assert_eq!(lookup(1, 1, &BLOCKED, 5, &tablebase), Ok(0));
    assert_eq!(lookup(1, 1, &BOARD, 10, &tablebase), Err(Refused(11)));
    assert_eq!(lookup(1, 1, &BOARD, 4, &tablebase), Err(Refused(6)));
    tablebase[117] = VOID;
    assert_eq!(lookup(1, 1, &BOARD, 5, &tablebase), Err(Refused(12)));
}

#[test]
fn finds_best_moves() {
    let tablebase = filled(1);
    assert_eq!(best_move(1, 1, &BOARD, 5, &tablebase), Ok(BestMove { number: 5187, entry: 0 }));
    assert_eq!(
        best_move(1, 1, &[2, 0, 2, 0, 2, 1, 1, 1], 5, &tablebase),
        Ok(BestMove { number: 5183, entry: 1 })
    );
    assert_eq!(best_move(1, 1, &BLOCKED, 5, &tablebase), Err(Refused(9)));
    assert_eq!(best_move(1, 1, &BOARD, 5, &tablebase[1..]), Err(Refused(6)));
}

#[test]
fn checks() {
    let mut tablebase = filled(1);
    assert_eq!(check(1, 1, 5, &tablebase), Ok(Checked::Passed));
    assert_eq!(check(1, 1, 9, &tablebase), Ok(Checked::Passed));
    tablebase[117] = 3;
    assert_eq!(check(1, 1, 5, &tablebase), Ok(Checked::Fails(117)));
    tablebase[117] = VOID;
    assert_eq!(check(1, 1, 5, &tablebase), Ok(Checked::Fails(117)));
    assert_eq!(check(1, 1, 5, &[DRAW; 1302]), Ok(Checked::Fails(0)));
    assert_eq!(check(0, 1, 5, &tablebase), Err(Refused(1)));
    assert_eq!(check(4, 3, 2, &[]), Err(Refused(1)));
    assert_eq!(check(1, 1, 2, &tablebase), Err(Refused(11)));
    assert_eq!(check(1, 1, 10, &[]), Err(Refused(11)));
    assert_eq!(check(1, 1, 4, &tablebase), Err(Refused(6)));
    assert_eq!(check(1, 1, 5, &tablebase[1..]), Err(Refused(6)));
    assert_eq!(check(1, 1, 5, &[]), Err(Refused(6)));
}

#[test]
fn reads_and_writes_frames() {
    assert_eq!(
        read_frame(b"018526"),
        Ok(Position {
            rings: 1,
            mover: 35,
            opponent: 88
        })
    );
    assert_eq!(read_frame(b""), Err(Refused(14)));
    assert_eq!(read_frame(b"0185"), Err(Refused(2)));
    assert_eq!(read_frame(b"018527"), Err(Refused(3)));
    let mut frame = [b'.'; FRAME_MAX];
    assert_eq!(write_frame(1, &BOARD, &mut frame), Ok(6));
    assert_eq!(&frame, b"018526........");
    assert_eq!(write_frame(1, &BOARD, &mut frame[..5]), Err(Refused(7)));
    assert_eq!(write_frame(3, &BOARD, &mut frame), Err(Refused(2)));
    assert_eq!(&frame, b"018526........");
}

#[test]
fn lists_and_makes_moves_by_edition() {
    let mut list = [7; 8];
    assert_eq!(moves(1, 1, &SHIELDED, &mut list), Ok(8));
    assert_eq!(list, [3232, 3233, 3234, 3327, 4287, 4351, 6335, 6399]);
    let mut list = [7; 8];
    assert_eq!(moves(1, 2, &SHIELDED, &mut list), Ok(6));
    assert_eq!(list, [3263, 3327, 4287, 4351, 6335, 6399, 7, 7]);
    let mut target = [7; 8];
    assert_eq!(make_move(1, 1, &SHIELDED, 3263, &mut target), Err(Refused(8)));
    assert_eq!(make_move(1, 2, &SHIELDED, 3232, &mut target), Err(Refused(8)));
    assert_eq!(target, [7; 8]);
    assert_eq!(make_move(1, 1, &SHIELDED, 3232, &mut target), Ok(()));
    assert_eq!(target, [0, 1, 1, 0, 2, 2, 2, 0]);
    assert_eq!(make_move(1, 2, &SHIELDED, 3263, &mut target), Ok(()));
    assert_eq!(target, [1, 1, 1, 0, 2, 2, 2, 0]);
}

#[test]
fn fills_and_reads_by_edition() {
    let (first, second) = (filled(1), filled(2));
    assert_eq!(first.iter().zip(&second).filter(|(one, other)| one != other).count(), 32);
    assert_eq!(second.iter().filter(|&&entry| entry == DRAW).count(), 628);
    let mut pairs = vec![7; 1302];
    for (mover, opponent) in [(3, 3), (4, 3), (4, 4), (5, 3)] {
        assert_eq!(fill_pair(1, 2, mover, opponent, 5, 2000, &mut pairs), Ok(()));
    }
    assert_eq!(pairs, second);
    assert_eq!(
        (lookup(1, 1, &SHIELDED, 5, &first), lookup(1, 2, &SHIELDED, 5, &second)),
        (Ok(1), Ok(DRAW))
    );
    assert_eq!(best_move(1, 1, &SHIELDED, 5, &first), Ok(BestMove { number: 3232, entry: 0 }));
    assert_eq!(best_move(1, 2, &SHIELDED, 5, &second), Ok(BestMove { number: 3263, entry: DRAW }));
    assert_eq!(
        (check(1, 1, 5, &first), check(1, 2, 5, &second)),
        (Ok(Checked::Passed), Ok(Checked::Passed))
    );
    for (edition, other) in [(2, &first), (1, &second)] {
        assert!(matches!(check(1, edition, 5, other), Ok(Checked::Fails(_))));
    }
}

#[test]
fn refuses_other_editions() {
    let (mut list, mut target, mut tablebase) = ([7; MOVES_MAX], [7; 8], filled(1));
    let before = tablebase.clone();
    for edition in [0, 3, 255] {
        assert_eq!(moves(1, edition, &BOARD, &mut list), Err(Refused(20)));
        assert_eq!(make_move(1, edition, &BOARD, 5187, &mut target), Err(Refused(20)));
        assert_eq!(fill(1, edition, 5, 2000, &mut tablebase), Err(Refused(20)));
        assert_eq!(fill_pair(1, edition, 3, 3, 5, 2000, &mut tablebase), Err(Refused(20)));
        assert_eq!(lookup(1, edition, &BOARD, 5, &tablebase), Err(Refused(20)));
        assert_eq!(best_move(1, edition, &BOARD, 5, &tablebase), Err(Refused(20)));
        assert_eq!(check(1, edition, 5, &tablebase), Err(Refused(20)));
    }
    assert_eq!((list, target, tablebase), ([7; MOVES_MAX], [7; 8], before));
    assert_eq!(moves(4, 3, &BOARD, &mut list), Err(Refused(1)));
    assert_eq!(moves(1, 0, &BOARD[..7], &mut list), Err(Refused(20)));
    assert_eq!(fill(1, 0, 2, 65_534, &mut []), Err(Refused(20)));
    assert_eq!(fill_pair(1, 3, 2, 2, 2, 65_534, &mut []), Err(Refused(20)));
    assert_eq!(check(1, 3, 2, &[]), Err(Refused(20)));
}

#[test]
fn refused_values_are_zero() {
    let tablebase = [7u16; 3];
    let (mut rank, mut count, mut written, mut passed, mut index) = (7u64, 7usize, 7usize, 7u8, 7u64);
    let (mut number, mut entry, mut rings, mut mover, mut opponent) = (7u16, 7u16, 7u8, 7u32, 7u32);
    let (board, len) = (BOARD.as_ptr(), BOARD.len());
    unsafe {
        assert_eq!(ffi::morris_rank(0, board, len, &mut rank), 1);
        assert_eq!(rank, 0);
        rank = 7;
        assert_eq!(ffi::morris_representative(0, board, len, &mut rank), 1);
        assert_eq!(rank, 0);
        assert_eq!(ffi::morris_moves(1, 1, board, len, [0; 3].as_mut_ptr(), 3, &mut count), 7);
        assert_eq!(count, 0);
        assert_eq!(ffi::morris_lookup(1, 1, board, len, 5, tablebase.as_ptr(), 3, &mut entry), 6);
        assert_eq!(entry, 0);
        entry = 7;
        assert_eq!(
            ffi::morris_best_move(1, 1, board, len, 5, tablebase.as_ptr(), 3, &mut number, &mut entry),
            6
        );
        assert_eq!((number, entry), (0, 0));
        assert_eq!(ffi::morris_check(1, 1, 5, tablebase.as_ptr(), 3, &mut passed, &mut index), 6);
        assert_eq!((passed, index), (0, 0));
        assert_eq!(ffi::morris_read_frame(b"018527".as_ptr(), 6, &mut rings, &mut mover, &mut opponent), 3);
        assert_eq!((rings, mover, opponent), (0, 0, 0));
        assert_eq!(ffi::morris_write_frame(1, board, len, [0; 5].as_mut_ptr(), 5, &mut written), 7);
        assert_eq!(written, 0);
    }
}

#[test]
fn refusals_are_told() {
    assert_eq!(Refused(13).to_string(), "refused 13: a forced end beyond the limit");
    assert_eq!(Refused(9).to_string(), "refused 9: mover blocked");
    assert_eq!(Refused(20).to_string(), "refused 20: edition not 1 or 2");
}

#[test]
fn refuses_unreachable_positions() {
    let (mut board, mut list, mut frame) = ([0; 24], [0; MOVES_MAX], [0; FRAME_MAX]);
    board[..3].fill(1);
    board[3..12].fill(2);
    let tablebase = filled(1);
    for k in [2, 9] {
        assert_eq!(lookup(3, 1, &board, k, &tablebase), Err(Refused(15)));
        assert_eq!(best_move(3, 1, &board, k, &tablebase), Err(Refused(15)));
    }
    assert_eq!(lookup(3, 2, &board, 9, &tablebase), Err(Refused(6)));
    assert_eq!(best_move(3, 2, &board, 2, &tablebase), Err(Refused(11)));
    assert_eq!(rank(3, &board), Ok(219));
    assert_eq!(moves(3, 1, &board, &mut list), Ok(36));
    assert_eq!(write_frame(3, &board, &mut frame), Ok(14));
    assert_eq!(&frame, b"0395aaaa000000");
    assert!(read_frame(&frame).is_ok());
}
