//! The C interface of the desk, as Rust sees it.
unsafe extern "C" {
    pub fn desk_words(which: u32, max_cells: u32, max_changes: u32, max_undos: u32) -> i64;

    pub fn desk_open(
        cells: *mut u32, cells_len: usize,
        pieces: *mut u32, pieces_len: usize,
        undo: *mut u32, undo_len: usize,
        max_cells: u32, max_changes: u32, max_undos: u32,
    ) -> i64;

    pub fn desk_call(
        cells: *mut u32, cells_len: usize,
        pieces: *mut u32, pieces_len: usize,
        undo: *mut u32, undo_len: usize,
        call: *const u8, call_len: usize,
        answer: *mut u8, answer_len: usize,
    ) -> i64;
}
