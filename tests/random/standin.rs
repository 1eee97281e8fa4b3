//! A stand-in for the desk under test: the plain desk behind the same C interface, to try the driver itself.
//! DESK_STAGE is its stage. DESK_FAULT is the number of a fault that it is to have, which the driver must notice; 0 for none.
mod plain;
use plain::{Answer, Became, Call, Desk, Stage, ANSWER_BYTES};
use std::collections::HashMap;
use std::sync::atomic::{AtomicBool, AtomicU32, Ordering};
use std::sync::{Mutex, OnceLock};

/// Desks by where their memory is.
static DESKS: OnceLock<Mutex<HashMap<usize, Desk>>> = OnceLock::new();

/// What the last write forgot: what could be redone, or, where it counted too much itself, undone.
static STALE: AtomicU32 = AtomicU32::new(0);

/// Whether the last call was a write that was refused.
static REFUSED: AtomicBool = AtomicBool::new(false);

fn setting(name: &str) -> String {
    std::env::var(name).unwrap_or_default()
}

fn fault() -> u32 {
    static FAULT: OnceLock<u32> = OnceLock::new();
    *FAULT.get_or_init(|| setting("DESK_FAULT").parse().unwrap_or(0))
}

fn stage() -> Stage {
    Stage::named(&setting("DESK_STAGE")).unwrap_or(Stage::Whole)
}

fn asked(cells: u32, changes: u32, undos: u32) -> [usize; 3] {
    let more = if fault() == 1 { 60_000 } else { 0 };
    [6 * cells as usize, 8 + 8 * changes as usize + 2 * cells as usize + 8000 + more, if stage().can(5) { 16 * undos as usize } else { 0 }]
}

fn refused(number: i64, place: i64) -> i64 {
    -((number << 32) + place)
}

#[unsafe(no_mangle)]
pub extern "C" fn desk_words(which: u32, cells: u32, changes: u32, undos: u32) -> i64 {
    if which > 2 {
        return refused(2, 0);
    }
    match Desk::open(stage(), cells, changes, undos) {
        Ok(_) => asked(cells, changes, undos)[which as usize] as i64,
        Err(_) => refused(3, 1),
    }
}

/// # Safety
/// The pointers and lengths must be of arrays that the caller lends.
#[unsafe(no_mangle)]
pub unsafe extern "C" fn desk_open(
    cells: *mut u32, cells_len: usize, pieces: *mut u32, pieces_len: usize, undo: *mut u32, undo_len: usize, max_cells: u32, max_changes: u32, max_undos: u32,
) -> i64 {
    let lent = unsafe { [std::slice::from_raw_parts_mut(cells, cells_len), std::slice::from_raw_parts_mut(pieces, pieces_len), std::slice::from_raw_parts_mut(undo, undo_len)] };
    let Ok(mut desk) = Desk::open(stage(), max_cells, max_changes, max_undos) else { return refused(3, 1) };
    match fault() {
        13 => desk.max_undos += 1,
        14 => desk.max_undos = max_undos.saturating_sub(1),
        _ => (),
    }
    let asked = asked(max_cells, max_changes, max_undos);
    if (0..3).any(|w| lent[w].len() < asked[w]) {
        return if fault() == 2 { refused(3, 1) } else { refused(3, 0) };
    }
    for w in 0..3 {
        if !(fault() == 3 && w == 1) {
            lent[w][..asked[w]].fill(0);
        }
    }
    lent[1][..3].copy_from_slice(&[max_cells, max_changes, max_undos]);
    DESKS.get_or_init(Default::default).lock().unwrap().insert(pieces as usize, desk);
    0
}

/// A search that goes on after the letter that did not fit, and forgets that the letters may have begun before it.
fn hasty(view: &[u8], from: usize, letters: &[u8]) -> u32 {
    let mut fit = 0;
    for i in from.min(view.len())..view.len() {
        fit = if view[i] == letters[fit] { fit + 1 } else { 0 };
        if fit == letters.len() {
            return (i + 2 - fit) as u32;
        }
    }
    0
}

/// The answer of a desk with the faults of undo, redo, find and save.
fn answered(desk: &mut Desk, bytes: &[u8]) -> Vec<u8> {
    let Ok(call) = Call::read(bytes) else { return desk.call(bytes) };
    let before = desk.clone();
    let right = desk.call(bytes);
    let told = |answer: Answer| answer.bytes();
    if right[0] == 0 {
        if call.number() < 5 {
            REFUSED.store(true, Ordering::Relaxed);
        }
        let stale = STALE.load(Ordering::Relaxed);
        let revived = matches!((fault(), &call), (15, Call::Redo) | (32, Call::Undo)) && stale > 0;
        return if revived { told(Answer::Number(stale)) } else { right };
    }
    if call.number() < 5 {
        let forgotten = match fault() {
            32 if desk.undos() > 0 => 0,
            32 => before.undos(),
            _ => before.redos(),
        };
        STALE.store(forgotten as u32, Ordering::Relaxed);
    }
    let refused_before = REFUSED.swap(false, Ordering::Relaxed);
    match (fault(), &call) {
        // what undo or redo does not bring back: marks, styles, what became of changes
        (16, Call::Undo) => desk.now.cells.iter_mut().for_each(|c| c.struck = 0),
        (17, Call::Undo) => desk.now.cells.iter_mut().for_each(|c| c.put_in = 0),
        (18, Call::Undo) if desk.now.cells.len() == before.now.cells.len() => {
            desk.now.cells.iter_mut().zip(&before.now.cells).for_each(|(c, was)| c.style = was.style);
        }
        (19, Call::Undo) => desk.now.changes.iter_mut().zip(&before.now.changes).for_each(|(c, was)| c.became = was.became),
        (20, Call::Redo) => desk.now.changes.iter_mut().for_each(|c| c.became = if c.became == Became::Rejected { Became::Accepted } else { c.became }),
        // how many there are after
        (21, Call::Undo) => return told(Answer::Number(desk.undos() as u32)),
        (22, Call::Redo) => return told(Answer::Number(desk.redos() as u32)),
        (23, Call::Find { way, from, letters }) if *from < u32::MAX => return desk.call(&Call::Find { way: *way, from: from + 1, letters: letters.clone() }.bytes()),
        (24, Call::Find { from, letters, .. }) => return desk.call(&Call::Find { way: 0, from: *from, letters: letters.clone() }.bytes()),
        (25, Call::Find { way, from, letters }) => {
            let view: Vec<u8> = desk.now.view(*way).iter().map(|c| c.letter).collect();
            return told(Answer::Number(hasty(&view, *from as usize, letters)));
        }
        (26, Call::Find { letters, .. }) if letters.len() == 256 => return told(Answer::Refused { number: 2, place: 0 }),
        (27, Call::Find { way, from, .. }) if *from as usize > desk.now.view(*way).len() => return told(Answer::Refused { number: 4, place: 0 }),
        (28, Call::Save { count: 1024, .. }) => return told(Answer::Refused { number: 2, place: 0 }),
        (29, Call::Save { from, count }) if (*from + *count) as usize == desk.now.file().len() => return told(Answer::Refused { number: 8, place: 0 }),
        (30, Call::Save { from, count }) if *from < 1 + 2 * desk.now.changes.len() as u32 => {
            let file: Vec<u32> = before.now.file().iter().map(|n| if *n == 2 { 1 } else { *n }).collect();
            return told(Answer::Numbers(file[*from as usize..(*from + *count) as usize].to_vec()));
        }
        // a write that was refused, and yet forgot what could be redone
        (31, Call::Redo) if refused_before => return told(Answer::Refused { number: 7, place: 0 }),
        _ => (),
    }
    right
}

/// # Safety
/// The pointers and lengths must be of arrays that the caller lends.
#[unsafe(no_mangle)]
pub unsafe extern "C" fn desk_call(
    cells: *mut u32, cells_len: usize, pieces: *mut u32, pieces_len: usize, undo: *mut u32, undo_len: usize, call: *const u8, call_len: usize, answer: *mut u8, answer_len: usize,
) -> i64 {
    let lent = unsafe { [std::slice::from_raw_parts_mut(cells, cells_len), std::slice::from_raw_parts_mut(pieces, pieces_len), std::slice::from_raw_parts_mut(undo, undo_len)] };
    let (call, answer) = unsafe { (std::slice::from_raw_parts(call, call_len), std::slice::from_raw_parts_mut(answer, answer_len)) };
    if lent[1].len() < 3 || answer.len() < ANSWER_BYTES {
        return -1;
    }
    if Desk::open(stage(), lent[1][0], lent[1][1], lent[1][2]).is_err() {
        return -1;
    }
    let asked = asked(lent[1][0], lent[1][1], lent[1][2]);
    if (0..3).any(|w| lent[w].len() < asked[w]) && fault() != 4 {
        return -1;
    }
    let mut desks = DESKS.get_or_init(Default::default).lock().unwrap();
    let desk = desks.get_mut(&(pieces as usize)).expect("an open desk");
    let mut bytes = if fault() > 14 { answered(desk, call) } else { desk.call(call) };
    match fault() {
        5 if bytes[0] == 0 => lent[1][4] ^= 1,
        6 => answer[bytes.len()] ^= 1,
        7 if bytes[0] == 1 && lent[0].len() > asked[0] => lent[0][asked[0]] ^= 1,
        8 if bytes == [0, 8, 0, 0, 0, 2, 0, 0, 0] => bytes[5] = 0,
        9 if bytes == [0, 4, 0, 0, 0, 1, 0, 0, 0] => bytes[5] = 0,
        10 if bytes.len() > 40 && bytes[0] == 3 => {
            let last = bytes.len() - 12;
            bytes[last] ^= 1; // the style of the last cell that is shown
        }
        11 if bytes[0] == 0 && bytes[1] == 1 => bytes[5] = bytes[5].saturating_sub(1),
        12 if bytes[0] == 0 && bytes[1] == 9 => bytes[1] = 4,
        _ => (),
    }
    answer[..bytes.len()].copy_from_slice(&bytes);
    bytes.len() as i64
}
