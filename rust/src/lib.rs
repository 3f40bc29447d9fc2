//! Endgame tablebases of Nine Men's Morris: a safe wrapper of the proved calls.
//!
//! A board is 8 × rings bytes, point 0 first: 0 vacant, 1 the side to move, 2 the other side. Every call answers on every input: its result, or
//! [`Refused`] with the number of the first refusal that the arguments meet, and then every buffer is as it was (after 13, too deep, the entries to
//! be filled are [`VOID`]). The repository's `README.md` and `include/morris.h` say the rest.
//!
//! The calls that go by moves or by entries take the rules edition, 1 or 2. In both a closed mill removes one opposing stone that stands outside any
//! mill. Where all opposing stones stand in mills, it removes any one of them in edition 1, and nothing in edition 2. An entry means the outcome under
//! the edition with which its tablebase was filled; reading it under another edition carries no claim.
//!
//! What this wrapper adds is checked by rustc and the tests, not proved: that a slice's pointer and length go together, and that no two overlap.

pub mod ffi;

use std::error::Error;
use std::fmt;

/// The entry of a draw.
pub const DRAW: u16 = 65535;

/// The entry that is void: its table was too deep for the limit.
pub const VOID: u16 = 65534;

/// No position has more moves.
pub const MOVES_MAX: usize = 324;

/// The characters of a frame of three rings; frames of one and two rings have 6 and 10.
pub const FRAME_MAX: usize = 14;

/// The number of a refusal.
#[derive(Clone, Copy, Debug, PartialEq, Eq, Hash)]
pub struct Refused(pub u8);

impl fmt::Display for Refused {
    fn fmt(&self, f: &mut fmt::Formatter<'_>) -> fmt::Result {
        let condition = match self.0 {
            1 => "rings not 1, 2 or 3",
            2 => "length of the board or frame wrong",
            3 => "a value above 2",
            4 => "a count outside 3 to 9, or a sum above the points",
            5 => "rank not below the size",
            6 => "target board or tablebase length wrong",
            7 => "move list or frame target too short",
            8 => "not a listed move",
            9 => "mover blocked",
            10 => "limit above 65,533",
            11 => "K outside 3 to 9, or a count above K",
            12 => "a void entry",
            13 => "a forced end beyond the limit",
            14 => "no frame",
            15 => "unreachable position",
            20 => "edition not 1 or 2",
            _ => "unknown",
        };
        write!(f, "refused {}: {}", self.0, condition)
    }
}

impl Error for Refused {}

fn answer<T>(number: u8, value: T) -> Result<T, Refused> {
    match number {
        0 => Ok(value),
        n => Err(Refused(n)),
    }
}

/// A move with the entry of the successor that it leads to.
#[derive(Clone, Copy, Debug, PartialEq, Eq)]
pub struct BestMove {
    pub number: u16,
    pub entry: u16,
}

/// A tablebase passed the check, or the first index, counted in the tablebase, whose entry is not right.
#[derive(Clone, Copy, Debug, PartialEq, Eq)]
pub enum Checked {
    Passed,
    Fails(u64),
}

/// A position as its rings and two point sets: binary digit p says whether point p is in a set.
#[derive(Clone, Copy, Debug, PartialEq, Eq)]
pub struct Position {
    pub rings: u8,
    pub mover: u32,
    pub opponent: u32,
}

/// The rank of a board. Refusals 1, 2, 3, 4.
pub fn rank(rings: u8, board: &[u8]) -> Result<u64, Refused> {
    let mut rank = 0;
    let number = unsafe { ffi::morris_rank(rings, board.as_ptr(), board.len(), &mut rank) };
    answer(number, rank)
}

/// Writes the board of a rank among those of the given counts over the target, of 8 × rings bytes. Refusals 1, 4, 6, 5.
pub fn unrank(rings: u8, mover: u8, opponent: u8, rank: u64, target: &mut [u8]) -> Result<(), Refused> {
    let number = unsafe { ffi::morris_unrank(rings, mover, opponent, rank, target.as_mut_ptr(), target.len()) };
    answer(number, ())
}

/// Lists a board's moves under an edition at the start of the list, those with a removal by rising number, then the others by rising number, and
/// says how many. Refusals 1, 20, 2, 3, 4, 7.
pub fn moves(rings: u8, edition: u8, board: &[u8], list: &mut [u16]) -> Result<usize, Refused> {
    let mut count = 0;
    let number = unsafe { ffi::morris_moves(rings, edition, board.as_ptr(), board.len(), list.as_mut_ptr(), list.len(), &mut count) };
    answer(number, count)
}

/// Writes the board after a move that is listed under an edition over the target, of 8 × rings bytes; the sides have changed names.
/// Refusals 1, 20, 2, 3, 4, 6, 8.
pub fn make_move(rings: u8, edition: u8, board: &[u8], number: u16, target: &mut [u8]) -> Result<(), Refused> {
    let number = unsafe { ffi::morris_make_move(rings, edition, board.as_ptr(), board.len(), number, target.as_mut_ptr(), target.len()) };
    answer(number, ())
}

/// The rank of the representative of a board's class. Refusals 1, 2, 3, 4.
pub fn representative(rings: u8, board: &[u8]) -> Result<u64, Refused> {
    let mut rank = 0;
    let number = unsafe { ffi::morris_representative(rings, board.as_ptr(), board.len(), &mut rank) };
    answer(number, rank)
}

/// Fills the tablebase of largest count k under an edition: at each place the plies to the end, or draw. Refusals 1, 20, 11, 6, 10, 13.
pub fn fill(rings: u8, edition: u8, k: u8, limit: u32, tablebase: &mut [u16]) -> Result<(), Refused> {
    let number = unsafe { ffi::morris_fill(rings, edition, k, limit, tablebase.as_mut_ptr(), tablebase.len()) };
    answer(number, ())
}

/// Fills the tables of two counts, either way round, under an edition over the entries of their lower tables.
/// Refusals 1, 20, 4, 11, 6, 10, 12, 13.
pub fn fill_pair(rings: u8, edition: u8, mover: u8, opponent: u8, k: u8, limit: u32, tablebase: &mut [u16]) -> Result<(), Refused> {
    let number = unsafe { ffi::morris_fill_pair(rings, edition, mover, opponent, k, limit, tablebase.as_mut_ptr(), tablebase.len()) };
    answer(number, ())
}

/// The entry of a board in a tablebase of largest count k, as it was filled: [`DRAW`], else plies to the end, odd won, even lost.
/// Refusals 1, 20, 2, 3, 4, 15, 11, 6, 12.
pub fn lookup(rings: u8, edition: u8, board: &[u8], k: u8, tablebase: &[u16]) -> Result<u16, Refused> {
    let mut entry = 0;
    let number = unsafe {
        ffi::morris_lookup(
            rings,
            edition,
            board.as_ptr(),
            board.len(),
            k,
            tablebase.as_ptr(),
            tablebase.len(),
            &mut entry,
        )
    };
    answer(number, entry)
}

/// The best move of a board: the first of those listed under an edition among quickest win, else a draw, else longest loss.
/// Refusals 1, 20, 2, 3, 4, 15, 11, 6, 9, 12.
pub fn best_move(rings: u8, edition: u8, board: &[u8], k: u8, tablebase: &[u16]) -> Result<BestMove, Refused> {
    let mut best = BestMove { number: 0, entry: 0 };
    let number = unsafe {
        ffi::morris_best_move(
            rings,
            edition,
            board.as_ptr(),
            board.len(),
            k,
            tablebase.as_ptr(),
            tablebase.len(),
            &mut best.number,
            &mut best.entry,
        )
    };
    answer(number, best)
}

/// Whether every entry of a tablebase of largest count k, whoever filled it, is right under an edition by the entries of the successors. Right is 0
/// for a blocked mover; odd n with a quickest lost successor of n − 1; even n above 0 with all successors won and the slowest at n − 1; [`DRAW`] with
/// no lost successor and at least one that is not won. [`VOID`] is never right, and a void successor is neither won nor lost; a side with two stones
/// counts as lost in 0. A tablebase that passes holds the true outcomes under that edition. Refusals 1, 20, 11, 6.
pub fn check(rings: u8, edition: u8, k: u8, tablebase: &[u16]) -> Result<Checked, Refused> {
    let (mut passed, mut index) = (0, 0);
    let number = unsafe { ffi::morris_check(rings, edition, k, tablebase.as_ptr(), tablebase.len(), &mut passed, &mut index) };
    answer(number, if passed == 1 { Checked::Passed } else { Checked::Fails(index) })
}

/// Reads a frame. Refusals 14, 1, 2, 3, 4.
pub fn read_frame(frame: &[u8]) -> Result<Position, Refused> {
    let mut position = Position {
        rings: 0,
        mover: 0,
        opponent: 0,
    };
    let number = unsafe {
        ffi::morris_read_frame(
            frame.as_ptr(),
            frame.len(),
            &mut position.rings,
            &mut position.mover,
            &mut position.opponent,
        )
    };
    answer(number, position)
}

/// Writes rings and a board as a frame over the start of the target, and says how many characters. Refusals 1, 2, 3, 4, 7.
pub fn write_frame(rings: u8, board: &[u8], target: &mut [u8]) -> Result<usize, Refused> {
    let mut written = 0;
    let number = unsafe { ffi::morris_write_frame(rings, board.as_ptr(), board.len(), target.as_mut_ptr(), target.len(), &mut written) };
    answer(number, written)
}
