//! The paper as a plain `Vec` of 16-byte cells, to be measured beside the desk: each call does the same edit in place, goes through all cells
//! to count, and finds rows anew from the start. It writes the same answers, but for how many calls there were to undo or redo.
//! Where calls are to be undone it keeps a copy of all cells and changes at each call that writes, of the last STEPS; undo and redo then only
//! exchange the paper for a copy. In all other cases it keeps nothing.

#[derive(Clone, Copy)]
#[repr(C)]
struct Cell {
    letter: u32,
    style: u32,
    put_in: u32,
    struck: u32,
}

#[derive(Clone)]
pub enum Op {
    Put { author: u32, place: u32, letters: Vec<u8> },
    Strike { author: u32, place: u32, count: u32 },
    Accept { change: u32 },
    Reject { change: u32 },
    Style { place: u32, count: u32, style: u32 },
    Undo,
    Redo,
    Show { way: u32, width: u32, first: u32 },
    Find { way: u32, letters: Vec<u8> },
    Count { way: u32 },
    Save { from: u32, count: u32 },
}

fn push(out: &mut Vec<u8>, numbers: &[u32]) {
    for n in numbers {
        out.extend_from_slice(&n.to_le_bytes());
    }
}

impl Op {
    /// The bytes of the call, the first of which says which call it is.
    pub fn bytes(&self) -> Vec<u8> {
        let (which, fields, letters): (u8, Vec<u32>, &[u8]) = match self {
            Op::Put { author, place, letters } => (0, vec![*author, *place, 0, letters.len() as u32], letters),
            Op::Strike { author, place, count } => (1, vec![*author, *place, *count], &[]),
            Op::Accept { change } => (2, vec![*change], &[]),
            Op::Reject { change } => (3, vec![*change], &[]),
            Op::Style { place, count, style } => (4, vec![*place, *count, *style], &[]),
            Op::Undo => (5, vec![], &[]),
            Op::Redo => (6, vec![], &[]),
            Op::Show { way, width, first } => (7, vec![*way, *width, *first, 1], &[]),
            Op::Find { way, letters } => (8, vec![*way, 0, letters.len() as u32], letters),
            Op::Count { way } => (9, vec![*way], &[]),
            Op::Save { from, count } => (11, vec![*from, *count], &[]),
        };
        let mut out = vec![which];
        push(&mut out, &fields);
        out.extend_from_slice(letters);
        out
    }
}

struct Paper {
    cells: Vec<Cell>,
    changes: Vec<(u32, u32)>,
}

pub struct List {
    cells: Vec<Cell>,
    changes: Vec<(u32, u32)>,
    keeps: bool,
    past: Vec<Paper>,
    future: Vec<Paper>,
}

/// How many calls can be undone.
const STEPS: usize = 60;

fn seen(cell: &Cell, way: u32) -> bool {
    match way {
        0 => true,
        1 => cell.struck == 0,
        _ => cell.put_in == 0,
    }
}

/// The row that the cells begin with: its length, and how many cells after it are not set.
fn row(width: usize, cells: &[Cell]) -> (usize, usize) {
    let mut space = None;
    for (i, cell) in cells.iter().take(width + 1).enumerate() {
        match cell.letter {
            10 => return (i, 1),
            32 => space = Some(i),
            _ => (),
        }
    }
    if cells.len() <= width {
        return (cells.len(), 0);
    }
    space.map_or((width, 0), |s| (s, 1))
}

impl List {
    pub fn new(capacity: usize) -> List {
        List { cells: Vec::with_capacity(capacity), changes: Vec::with_capacity(65_536), keeps: false, past: Vec::new(), future: Vec::new() }
    }

    /// Whether papers are kept from now on. Those that were are forgotten when that ends.
    pub fn keep(&mut self, keeps: bool, capacity: usize) {
        if self.keeps && !keeps {
            self.past.clear();
            self.future.clear();
            self.cells.reserve_exact(capacity - self.cells.len()); // a copy has room for no more than it holds
            self.changes.reserve_exact(65_536 - self.changes.len());
        }
        self.keeps = keeps;
    }

    fn keep_paper(&mut self) {
        if self.keeps {
            if self.past.len() == STEPS {
                self.past.remove(0);
            }
            self.past.push(Paper { cells: self.cells.clone(), changes: self.changes.clone() });
            self.future.clear();
        }
    }

    fn exchange(&mut self, paper: Paper) -> Paper {
        Paper { cells: std::mem::replace(&mut self.cells, paper.cells), changes: std::mem::replace(&mut self.changes, paper.changes) }
    }

    /// How many cells from a place on there are up to the one with which so many are not struck out.
    pub fn reach(&self, place: u32, unstruck: usize) -> u32 {
        let free = self.cells[place as usize..].iter().enumerate().filter(|(_, c)| c.struck == 0).nth(unstruck - 1);
        free.expect("so many cells that are not struck out").0 as u32 + 1
    }

    pub fn len(&self) -> u32 {
        self.cells.len() as u32
    }

    pub fn changes(&self) -> u32 {
        self.changes.len() as u32
    }

    pub fn rows(&self, width: u32) -> u32 {
        let (mut left, mut rows) = (&self.cells[..], 0);
        while !left.is_empty() {
            let (long, skipped) = row(width as usize, left);
            left = &left[long + skipped..];
            rows += 1;
        }
        rows
    }

    fn number(out: &mut Vec<u8>, n: u32) {
        out.push(1);
        push(out, &[n]);
    }

    /// Does it, and writes the answer at the end of `out`.
    pub fn run(&mut self, op: &Op, out: &mut Vec<u8>) {
        if matches!(op, Op::Put { .. } | Op::Strike { .. } | Op::Accept { .. } | Op::Reject { .. } | Op::Style { .. }) {
            self.keep_paper();
        }
        match op {
            Op::Put { author, place, letters } => {
                let place = *place as usize;
                self.changes.push((*author, 0));
                let put_in = self.changes.len() as u32;
                self.cells.splice(place..place, letters.iter().map(|l| Cell { letter: *l as u32, style: 0, put_in, struck: 0 }));
                List::number(out, put_in - 1);
            }
            Op::Strike { author, place, count } => {
                let (from, to) = (*place as usize, (*place + *count) as usize);
                let mark = self.changes.len() as u32 + 1;
                let mut kept = from;
                for i in from..to {
                    let mut cell = self.cells[i];
                    if cell.put_in == 0 || self.changes[cell.put_in as usize - 1].0 != *author {
                        if cell.struck == 0 {
                            cell.struck = mark;
                        }
                        self.cells[kept] = cell;
                        kept += 1;
                    }
                }
                if kept < to {
                    self.cells.drain(kept..to);
                }
                self.changes.push((*author, 0));
                List::number(out, mark - 1);
            }
            Op::Accept { change } => self.decide(*change, 1, out),
            Op::Reject { change } => self.decide(*change, 2, out),
            Op::Style { place, count, style } => {
                for cell in &mut self.cells[*place as usize..(*place + *count) as usize] {
                    cell.style = *style;
                }
                List::number(out, *count);
            }
            Op::Undo => {
                let paper = self.past.pop().expect("a call to undo");
                let now = self.exchange(paper);
                self.future.push(now);
                List::number(out, 0);
            }
            Op::Redo => {
                let paper = self.future.pop().expect("a call to redo");
                let now = self.exchange(paper);
                self.past.push(now);
                List::number(out, 0);
            }
            Op::Show { way, width, first } => {
                let view: Vec<Cell>;
                let mut left = if *way == 0 {
                    &self.cells[..]
                } else {
                    view = self.cells.iter().copied().filter(|c| seen(c, *way)).collect();
                    &view[..]
                };
                for _ in 0..*first {
                    let (long, skipped) = row(*width as usize, left);
                    left = &left[long + skipped..];
                }
                let (long, _) = row(*width as usize, left);
                out.push(3);
                push(out, &[1, long as u32]);
                for c in &left[..long] {
                    push(out, &[c.letter, c.style, c.put_in, c.struck]);
                }
            }
            Op::Find { way, letters } => {
                let view: Vec<u8> = self.cells.iter().filter(|c| seen(c, *way)).map(|c| c.letter as u8).collect();
                let at = view.windows(letters.len()).position(|w| w == &letters[..]);
                List::number(out, at.map_or(0, |at| at as u32 + 1));
            }
            Op::Count { way } => {
                // bit k of a cell's ways: it is seen in way k; so that each way goes through the cells
                let ways = |c: &Cell| 1 | ((c.struck == 0) as u32) << 1 | ((c.put_in == 0) as u32) << 2;
                List::number(out, self.cells.iter().map(|c| ways(c) >> *way & 1).sum());
            }
            Op::Save { from, count } => {
                let head = 1 + 2 * self.changes.len();
                out.push(4);
                push(out, &[*count]);
                for i in *from as usize..(*from + *count) as usize {
                    let number = if i == 0 {
                        self.changes.len() as u32
                    } else if i < head {
                        let (author, became) = self.changes[(i - 1) / 2];
                        if i % 2 == 1 { author } else { became }
                    } else {
                        let c = &self.cells[(i - head) / 4];
                        [c.letter, c.style, c.put_in, c.struck][(i - head) % 4]
                    };
                    push(out, &[number]);
                }
            }
        }
    }

    fn decide(&mut self, change: u32, became: u32, out: &mut Vec<u8>) {
        let mark = change + 1;
        let marked = self.cells.iter().filter(|c| c.put_in == mark || c.struck == mark).count() as u32;
        if became == 1 {
            self.cells.retain(|c| c.struck != mark);
            self.cells.iter_mut().filter(|c| c.put_in == mark).for_each(|c| c.put_in = 0);
        } else {
            self.cells.retain(|c| c.put_in != mark);
            self.cells.iter_mut().filter(|c| c.struck == mark).for_each(|c| c.struck = 0);
        }
        self.changes[change as usize].1 = became;
        List::number(out, marked);
    }
}
