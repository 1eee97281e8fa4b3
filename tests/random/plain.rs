//! A plain desk, written from the rules alone: a list of cells, a list of changes, and whole papers for undo.
//! It is slow and simple on purpose: the desk under test has to give the same answers, byte for byte.
#![allow(dead_code)]

pub const ANSWER_BYTES: usize = 262_405;
pub const MOST_CELLS: u32 = 1_000_000;
pub const MOST_CHANGES: u32 = 65_536;
pub const MOST_UNDOS: u32 = 1_000_000;

/// Which calls can be done; each stage does all that the one before it does.
#[derive(Clone, Copy, PartialEq, Eq, PartialOrd, Ord, Debug)]
pub enum Stage {
    Thin,
    Changes,
    Undo,
    Whole,
}

impl Stage {
    pub fn named(name: &str) -> Option<Stage> {
        match name {
            "thin" => Some(Stage::Thin),
            "changes" => Some(Stage::Changes),
            "undo" => Some(Stage::Undo),
            "whole" => Some(Stage::Whole),
            _ => None,
        }
    }

    /// The first stage that can do the call with this first byte.
    fn of(call: u8) -> Stage {
        match call {
            0 | 7 | 9 => Stage::Thin,
            1 | 2 | 3 | 4 | 10 => Stage::Changes,
            5 | 6 => Stage::Undo,
            _ => Stage::Whole,
        }
    }

    pub fn can(self, call: u8) -> bool {
        Stage::of(call) <= self
    }
}

/// Marks are 0 for none, else one more than the change's number.
#[derive(Clone, Copy, PartialEq, Eq, Debug)]
pub struct Cell {
    pub letter: u8,
    pub style: u8,
    pub put_in: u32,
    pub struck: u32,
}

impl Cell {
    pub fn numbers(&self) -> [u32; 4] {
        [self.letter as u32, self.style as u32, self.put_in, self.struck]
    }

    fn seen(&self, way: u32) -> bool {
        match way {
            0 => true,
            1 => self.struck == 0,
            _ => self.put_in == 0,
        }
    }
}

#[derive(Clone, Copy, PartialEq, Eq, Debug)]
pub enum Became {
    Open,
    Accepted,
    Rejected,
}

#[derive(Clone, Copy, PartialEq, Eq, Debug)]
pub struct Change {
    pub author: u8,
    pub became: Became,
}

#[derive(Clone, PartialEq, Eq, Debug, Default)]
pub struct Paper {
    pub cells: Vec<Cell>,
    pub changes: Vec<Change>,
}

#[derive(Clone, PartialEq, Eq, Debug)]
pub enum Call {
    Put { author: u32, place: u32, style: u32, letters: Vec<u8> },
    Strike { author: u32, place: u32, count: u32 },
    Accept { change: u32 },
    Reject { change: u32 },
    Style { place: u32, count: u32, style: u32 },
    Undo,
    Redo,
    Show { way: u32, width: u32, first: u32, count: u32 },
    Find { way: u32, from: u32, letters: Vec<u8> },
    Count { way: u32 },
    Change { change: u32 },
    Save { from: u32, count: u32 },
}

#[derive(Clone, PartialEq, Eq, Debug)]
pub enum Answer {
    Refused { number: u32, place: u32 },
    Number(u32),
    Two(u32, u32),
    Rows(Vec<Vec<[u32; 4]>>),
    Numbers(Vec<u32>),
}

fn word(bytes: &[u8]) -> u32 {
    u32::from_le_bytes([bytes[0], bytes[1], bytes[2], bytes[3]])
}

fn push(out: &mut Vec<u8>, numbers: &[u32]) {
    for n in numbers {
        out.extend_from_slice(&n.to_le_bytes());
    }
}

/// How many fields follow each first byte, and whether letters come after them.
const FORMS: [(usize, bool); 12] = [
    (4, true),
    (3, false),
    (1, false),
    (1, false),
    (3, false),
    (0, false),
    (0, false),
    (4, false),
    (3, true),
    (1, false),
    (1, false),
    (2, false),
];

impl Call {
    /// The call, or the place of the first byte that does not fit.
    pub fn read(bytes: &[u8]) -> Result<Call, usize> {
        let Some(&first) = bytes.first() else { return Err(0) };
        let Some(&(fields, lettered)) = FORMS.get(first as usize) else { return Err(0) };
        let after_fields = 1 + 4 * fields;
        if bytes.len() < after_fields {
            return Err(bytes.len());
        }
        let f: Vec<u32> = bytes[1..after_fields].chunks(4).map(word).collect();
        let letters = if lettered { f[fields - 1] as usize } else { 0 };
        let end = after_fields + letters;
        if bytes.len() < end {
            return Err(bytes.len());
        }
        if bytes.len() > end {
            return Err(end);
        }
        let letters = bytes[after_fields..].to_vec();
        Ok(match first {
            0 => Call::Put { author: f[0], place: f[1], style: f[2], letters },
            1 => Call::Strike { author: f[0], place: f[1], count: f[2] },
            2 => Call::Accept { change: f[0] },
            3 => Call::Reject { change: f[0] },
            4 => Call::Style { place: f[0], count: f[1], style: f[2] },
            5 => Call::Undo,
            6 => Call::Redo,
            7 => Call::Show { way: f[0], width: f[1], first: f[2], count: f[3] },
            8 => Call::Find { way: f[0], from: f[1], letters },
            9 => Call::Count { way: f[0] },
            10 => Call::Change { change: f[0] },
            _ => Call::Save { from: f[0], count: f[1] },
        })
    }

    pub fn number(&self) -> u8 {
        match self {
            Call::Put { .. } => 0,
            Call::Strike { .. } => 1,
            Call::Accept { .. } => 2,
            Call::Reject { .. } => 3,
            Call::Style { .. } => 4,
            Call::Undo => 5,
            Call::Redo => 6,
            Call::Show { .. } => 7,
            Call::Find { .. } => 8,
            Call::Count { .. } => 9,
            Call::Change { .. } => 10,
            Call::Save { .. } => 11,
        }
    }

    pub fn bytes(&self) -> Vec<u8> {
        let mut out = vec![self.number()];
        match self {
            Call::Put { author, place, style, letters } => {
                push(&mut out, &[*author, *place, *style, letters.len() as u32]);
                out.extend_from_slice(letters);
            }
            Call::Strike { author, place, count } => push(&mut out, &[*author, *place, *count]),
            Call::Style { place, count, style } => push(&mut out, &[*place, *count, *style]),
            Call::Undo | Call::Redo => (),
            Call::Show { way, width, first, count } => push(&mut out, &[*way, *width, *first, *count]),
            Call::Find { way, from, letters } => {
                push(&mut out, &[*way, *from, letters.len() as u32]);
                out.extend_from_slice(letters);
            }
            Call::Count { way } => push(&mut out, &[*way]),
            Call::Accept { change } | Call::Reject { change } | Call::Change { change } => push(&mut out, &[*change]),
            Call::Save { from, count } => push(&mut out, &[*from, *count]),
        }
        out
    }
}

impl Answer {
    pub fn bytes(&self) -> Vec<u8> {
        let mut out = Vec::new();
        match self {
            Answer::Refused { number, place } => {
                out.push(0);
                push(&mut out, &[*number, *place]);
            }
            Answer::Number(n) => {
                out.push(1);
                push(&mut out, &[*n]);
            }
            Answer::Two(m, n) => {
                out.push(2);
                push(&mut out, &[*m, *n]);
            }
            Answer::Rows(rows) => {
                out.push(3);
                push(&mut out, &[rows.len() as u32]);
                for row in rows {
                    push(&mut out, &[row.len() as u32]);
                    for cell in row {
                        push(&mut out, cell);
                    }
                }
            }
            Answer::Numbers(numbers) => {
                out.push(4);
                push(&mut out, &[numbers.len() as u32]);
                push(&mut out, numbers);
            }
        }
        out
    }

    /// The answer that these bytes are, if they are one.
    pub fn read(bytes: &[u8]) -> Option<Answer> {
        let (&form, rest) = bytes.split_first()?;
        if rest.len() % 4 != 0 {
            return None;
        }
        let n: Vec<u32> = rest.chunks(4).map(word).collect();
        match (form, n.as_slice()) {
            (0, &[number, place]) => Some(Answer::Refused { number, place }),
            (1, &[n]) => Some(Answer::Number(n)),
            (2, &[m, n]) => Some(Answer::Two(m, n)),
            (3, &[count, ref rest @ ..]) => {
                let mut rest = rest;
                let mut rows = Vec::new();
                for _ in 0..count {
                    let (&long, after) = rest.split_first()?;
                    let words = (long as usize).checked_mul(4)?;
                    if after.len() < words {
                        return None;
                    }
                    rows.push(after[..words].chunks(4).map(|c| [c[0], c[1], c[2], c[3]]).collect());
                    rest = &after[words..];
                }
                if rest.is_empty() { Some(Answer::Rows(rows)) } else { None }
            }
            (4, &[count, ref rest @ ..]) if rest.len() == count as usize => Some(Answer::Numbers(rest.to_vec())),
            _ => None,
        }
    }
}

/// The row that these cells begin with: how many cells it has, and how many after it are not set.
fn row(width: usize, cells: &[Cell]) -> (usize, usize) {
    let reach = &cells[..cells.len().min(width + 1)];
    if let Some(end) = reach.iter().position(|c| c.letter == b'\n') {
        return (end, 1);
    }
    if cells.len() <= width {
        return (cells.len(), 0);
    }
    match reach.iter().rposition(|c| c.letter == b' ') {
        Some(space) => (space, 1),
        None => (width, 0),
    }
}

pub fn rows(width: usize, cells: &[Cell]) -> Vec<&[Cell]> {
    let mut out = Vec::new();
    let mut left = cells;
    while !left.is_empty() {
        let (long, skipped) = row(width, left);
        out.push(&left[..long]);
        left = &left[long + skipped..];
    }
    out
}

impl Paper {
    pub fn view(&self, way: u32) -> Vec<Cell> {
        self.cells.iter().copied().filter(|c| c.seen(way)).collect()
    }

    /// The paper's file.
    pub fn file(&self) -> Vec<u32> {
        let mut out = vec![self.changes.len() as u32];
        for c in &self.changes {
            out.extend([c.author as u32, c.became as u32]);
        }
        for c in &self.cells {
            out.extend(c.numbers());
        }
        out
    }

    fn marked(&self, change: u32) -> usize {
        self.cells.iter().filter(|c| c.put_in == change + 1 || c.struck == change + 1).count()
    }

    fn put(&mut self, author: u8, place: usize, style: u8, letters: &[u8]) {
        let put_in = self.changes.len() as u32 + 1;
        self.cells.splice(place..place, letters.iter().map(|&letter| Cell { letter, style, put_in, struck: 0 }));
        self.changes.push(Change { author, became: Became::Open });
    }

    fn strike(&mut self, author: u8, place: usize, count: usize) {
        let mark = self.changes.len() as u32 + 1;
        let mut stay = Vec::new();
        for &cell in &self.cells[place..place + count] {
            let own = cell.put_in != 0 && self.changes[cell.put_in as usize - 1].author == author;
            if !own {
                stay.push(Cell { struck: if cell.struck == 0 { mark } else { cell.struck }, ..cell });
            }
        }
        self.cells.splice(place..place + count, stay);
        self.changes.push(Change { author, became: Became::Open });
    }

    fn accept(&mut self, change: u32) {
        let mark = change + 1;
        self.cells.retain(|c| c.struck != mark);
        for c in &mut self.cells {
            if c.put_in == mark {
                c.put_in = 0;
            }
        }
        self.changes[change as usize].became = Became::Accepted;
    }

    fn reject(&mut self, change: u32) {
        let mark = change + 1;
        self.cells.retain(|c| c.put_in != mark);
        for c in &mut self.cells {
            if c.struck == mark {
                c.struck = 0;
            }
        }
        self.changes[change as usize].became = Became::Rejected;
    }
}

/// A whole list, kept beside another that has the same front and the same back: so long lists of calls do not keep each cell thousands of times.
#[derive(Clone)]
struct Beside<T> {
    front: usize,
    between: Vec<T>,
    back: usize,
}

impl<T: Copy + PartialEq> Beside<T> {
    fn new(list: &[T], other: &[T]) -> Beside<T> {
        let front = list.iter().zip(other).take_while(|(a, b)| a == b).count();
        let back = list[front..].iter().rev().zip(other[front..].iter().rev()).take_while(|(a, b)| a == b).count();
        Beside { front, between: list[front..list.len() - back].to_vec(), back }
    }

    /// The list, from the other one.
    fn whole(&self, other: &[T]) -> Vec<T> {
        [&other[..self.front], &self.between, &other[other.len() - self.back..]].concat()
    }
}

/// A paper that undo or redo brings back, and how many cells the call between was about.
#[derive(Clone)]
pub struct Kept {
    cells: Beside<Cell>,
    changes: Beside<Change>,
    about: usize,
}

impl Kept {
    fn new(paper: &Paper, now: &Paper, about: usize) -> Kept {
        Kept { cells: Beside::new(&paper.cells, &now.cells), changes: Beside::new(&paper.changes, &now.changes), about }
    }

    fn paper(&self, now: &Paper) -> Paper {
        Paper { cells: self.cells.whole(&now.cells), changes: self.changes.whole(&now.changes) }
    }
}

#[derive(Clone)]
pub struct Desk {
    pub stage: Stage,
    pub max_cells: u32,
    pub max_changes: u32,
    pub max_undos: u32,
    pub now: Paper,
    past: Vec<Kept>,
    future: Vec<Kept>,
}

type Refusal = (u32, u32);

fn good_letters(letters: &[u8], most: usize) -> bool {
    (1..=most).contains(&letters.len()) && letters.iter().all(|l| (32..=126).contains(l) || *l == 10)
}

fn in_range(call: &Call) -> bool {
    match call {
        Call::Put { author, style, letters, .. } => *author < 256 && *style < 256 && good_letters(letters, 1024),
        Call::Strike { author, count, .. } => *author < 256 && *count > 0,
        Call::Style { count, style, .. } => *count > 0 && *style < 256,
        Call::Show { way, width, count, .. } => *way < 3 && (1..=256).contains(width) && (1..=64).contains(count),
        Call::Find { way, letters, .. } => *way < 3 && good_letters(letters, 256),
        Call::Count { way } => *way < 3,
        Call::Save { count, .. } => (1..=1024).contains(count),
        Call::Accept { .. } | Call::Reject { .. } | Call::Change { .. } | Call::Undo | Call::Redo => true,
    }
}

impl Desk {
    pub fn open(stage: Stage, max_cells: u32, max_changes: u32, max_undos: u32) -> Result<Desk, Refusal> {
        if max_cells > MOST_CELLS || max_changes > MOST_CHANGES || max_undos > MOST_UNDOS {
            return Err((3, 1));
        }
        Ok(Desk { stage, max_cells, max_changes, max_undos, now: Paper::default(), past: Vec::new(), future: Vec::new() })
    }

    /// The bytes of a call in, the bytes of its answer out.
    pub fn call(&mut self, bytes: &[u8]) -> Vec<u8> {
        let refused = |(number, place)| Answer::Refused { number, place };
        let answer = match Call::read(bytes) {
            Err(place) => refused((1, u32::try_from(place).unwrap_or(u32::MAX))),
            Ok(call) => self.answer(&call).unwrap_or_else(refused),
        };
        answer.bytes()
    }

    pub fn undos(&self) -> usize {
        self.past.len()
    }

    pub fn redos(&self) -> usize {
        self.future.len()
    }

    fn cells_there(&self, place: u32, count: u32, at: u32) -> Result<(), Refusal> {
        if place as u64 + count as u64 <= self.now.cells.len() as u64 { Ok(()) } else { Err((4, at)) }
    }

    fn change_there(&self, change: u32) -> Result<Change, Refusal> {
        self.now.changes.get(change as usize).copied().ok_or((5, 0))
    }

    fn change_open(&self, change: u32) -> Result<(), Refusal> {
        if self.change_there(change)?.became == Became::Open { Ok(()) } else { Err((6, 0)) }
    }

    /// Refused by 9 if the paper would have so many more cells, or one more change, than the limits let it have.
    fn room(&self, more_cells: usize) -> Result<(), Refusal> {
        let cells = self.now.cells.len() + more_cells <= self.max_cells as usize;
        let changes = self.now.changes.len() < self.max_changes as usize;
        if cells && changes { Ok(()) } else { Err((9, 0)) }
    }

    /// Writes to the paper, by a call about so many cells, and keeps the paper as it was. A desk that cannot undo keeps none.
    fn write(&mut self, about: usize, write: impl FnOnce(&mut Paper)) {
        if !self.stage.can(5) {
            return write(&mut self.now);
        }
        let before = self.now.clone();
        write(&mut self.now);
        self.future.clear();
        self.past.push(Kept::new(&before, &self.now, about));
        while self.counted() > self.max_undos as usize {
            self.past.remove(0);
        }
    }

    /// What can be undone, all together.
    pub fn counted(&self) -> usize {
        self.past.iter().map(|k| 1 + k.about).sum()
    }

    /// Brings a paper back, and gives what it takes to have the present one again.
    fn bring_back(&mut self, kept: &Kept) -> Kept {
        let paper = kept.paper(&self.now);
        let now = Kept::new(&self.now, &paper, kept.about);
        self.now = paper;
        now
    }

    pub fn answer(&mut self, call: &Call) -> Result<Answer, Refusal> {
        if !self.stage.can(call.number()) || !in_range(call) {
            return Err((2, 0));
        }
        match call {
            Call::Put { author, place, style, letters } => {
                self.cells_there(*place, 0, 1)?;
                self.room(letters.len())?;
                self.write(letters.len(), |paper| paper.put(*author as u8, *place as usize, *style as u8, letters));
                Ok(Answer::Number(self.now.changes.len() as u32 - 1))
            }
            Call::Strike { author, place, count } => {
                self.cells_there(*place, *count, 1)?;
                self.room(0)?;
                self.write(*count as usize, |paper| paper.strike(*author as u8, *place as usize, *count as usize));
                Ok(Answer::Number(self.now.changes.len() as u32 - 1))
            }
            Call::Accept { change } => {
                self.change_open(*change)?;
                let marked = self.now.marked(*change);
                self.write(marked, |paper| paper.accept(*change));
                Ok(Answer::Number(marked as u32))
            }
            Call::Reject { change } => {
                self.change_open(*change)?;
                let marked = self.now.marked(*change);
                self.write(marked, |paper| paper.reject(*change));
                Ok(Answer::Number(marked as u32))
            }
            Call::Style { place, count, style } => {
                self.cells_there(*place, *count, 0)?;
                let cells = *place as usize..(*place + *count) as usize;
                self.write(*count as usize, |paper| paper.cells[cells].iter_mut().for_each(|c| c.style = *style as u8));
                Ok(Answer::Number(*count))
            }
            Call::Undo => {
                let before = self.past.len() as u32;
                let kept = self.past.pop().ok_or((7, 0))?;
                let now = self.bring_back(&kept);
                self.future.push(now);
                Ok(Answer::Number(before))
            }
            Call::Redo => {
                let before = self.future.len() as u32;
                let kept = self.future.pop().ok_or((7, 0))?;
                let now = self.bring_back(&kept);
                self.past.push(now);
                Ok(Answer::Number(before))
            }
            Call::Show { way, width, first, count } => {
                let view = self.now.view(*way);
                let rows = rows(*width as usize, &view);
                if *first as u64 + *count as u64 > rows.len() as u64 {
                    return Err((8, 2));
                }
                let shown = &rows[*first as usize..(*first + *count) as usize];
                Ok(Answer::Rows(shown.iter().map(|r| r.iter().map(Cell::numbers).collect()).collect()))
            }
            Call::Find { way, from, letters } => {
                let view: Vec<u8> = self.now.view(*way).iter().map(|c| c.letter).collect();
                let from = (*from as usize).min(view.len());
                let found = view[from..].windows(letters.len()).position(|w| w == &letters[..]);
                Ok(Answer::Number(found.map_or(0, |at| (from + at + 1) as u32)))
            }
            Call::Count { way } => Ok(Answer::Number(self.now.cells.iter().filter(|c| c.seen(*way)).count() as u32)),
            Call::Change { change } => {
                let c = self.change_there(*change)?;
                Ok(Answer::Two(c.author as u32, c.became as u32))
            }
            Call::Save { from, count } => {
                let file = self.now.file();
                if *from as u64 + *count as u64 > file.len() as u64 {
                    return Err((8, 0));
                }
                Ok(Answer::Numbers(file[*from as usize..(*from + *count) as usize].to_vec()))
            }
        }
    }
}
