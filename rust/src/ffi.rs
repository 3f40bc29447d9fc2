//! The calls as `include/morris.h` declares them. A slice is a pointer and a length.

extern "C" {
    pub fn morris_rank(rings: u8, board: *const u8, board_len: usize, rank: *mut u64) -> u8;
    pub fn morris_unrank(rings: u8, mover: u8, opponent: u8, rank: u64, target: *mut u8, target_len: usize) -> u8;
    pub fn morris_moves(rings: u8, edition: u8, board: *const u8, board_len: usize, moves: *mut u16, moves_len: usize, count: *mut usize) -> u8;
    pub fn morris_make_move(rings: u8, edition: u8, board: *const u8, board_len: usize, number: u16, target: *mut u8, target_len: usize) -> u8;
    pub fn morris_representative(rings: u8, board: *const u8, board_len: usize, rank: *mut u64) -> u8;
    pub fn morris_fill(rings: u8, edition: u8, k: u8, limit: u32, tablebase: *mut u16, tablebase_len: usize) -> u8;
    pub fn morris_fill_pair(rings: u8, edition: u8, mover: u8, opponent: u8, k: u8, limit: u32, tablebase: *mut u16, tablebase_len: usize) -> u8;
    pub fn morris_lookup(
        rings: u8,
        edition: u8,
        board: *const u8,
        board_len: usize,
        k: u8,
        tablebase: *const u16,
        tablebase_len: usize,
        entry: *mut u16,
    ) -> u8;
    pub fn morris_best_move(
        rings: u8,
        edition: u8,
        board: *const u8,
        board_len: usize,
        k: u8,
        tablebase: *const u16,
        tablebase_len: usize,
        number: *mut u16,
        entry: *mut u16,
    ) -> u8;
    pub fn morris_check(rings: u8, edition: u8, k: u8, tablebase: *const u16, tablebase_len: usize, passed: *mut u8, index: *mut u64) -> u8;
    pub fn morris_read_frame(frame: *const u8, frame_len: usize, rings: *mut u8, mover: *mut u32, opponent: *mut u32) -> u8;
    pub fn morris_write_frame(rings: u8, board: *const u8, board_len: usize, frame: *mut u8, frame_len: usize, written: *mut usize) -> u8;
}
