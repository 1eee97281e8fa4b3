//! Random calls, as bytes: mostly such as can be done to the paper as it is, some at and past every limit, and some that cannot be read.
use crate::plain::{rows, Became, Call, Desk};
use crate::rng::Rng;

/// What is to come next, where that is not left to the weights.
#[derive(Clone, Copy)]
enum Next {
    Undo,
    Redo,
    Write,
    Look,
}

/// What is written at a desk, and how.
pub struct Habits {
    alphabet: Vec<u8>,
    /// Letters come from this word again and again, but for a few; if it is empty, from the alphabet.
    again: Vec<u8>,
    put_up_to: u64,
    strike_up_to: u64,
    authors: u64,
    weights: [u64; 12],
    odd: u64,
    /// The way to look and the width of most shows, as of somebody who has one view open: the desk keeps how it found the rows of the last.
    view: Option<(u32, u32)>,
    /// The last comes first.
    planned: Vec<Next>,
}

const MAX: u64 = u32::MAX as u64;

impl Habits {
    pub fn new(rng: &mut Rng, put_up_to: u64) -> Habits {
        let alphabet = match rng.below(7) {
            0 => b"ab \n".to_vec(),
            1 => b"abcdefghijklmnopqrstuvwxyz      \n".to_vec(),
            2 => (32..=126).chain([10, 32, 32]).collect(),
            3 => b"aaaaaaaaaaaaaaaaaaaaaaaaaaaaaab\n".to_vec(),
            4 => b"ab".to_vec(),
            5 => b"a".to_vec(),
            _ => b"the cat sat + - | \\ \" whereas".to_vec(),
        };
        let again = if rng.percent(15) { (0..rng.between(1, 7)).map(|_| rng.pick(b"aab ")).collect() } else { Vec::new() };
        let churn = rng.percent(20); // one author, so that what is struck out goes at once
        let weights = match rng.below(5) {
            //            put str acc rej sty und red sho fin cou cha sav
            _ if churn => [30, 25, 2, 5, 2, 6, 3, 6, 4, 2, 1, 3],
            0 => [20, 10, 5, 5, 5, 5, 3, 14, 8, 5, 3, 6],
            1 => [30, 4, 2, 1, 2, 2, 1, 8, 4, 2, 1, 3],
            2 => [12, 12, 8, 8, 6, 14, 8, 6, 2, 2, 2, 4],
            3 => [14, 16, 10, 10, 4, 5, 3, 6, 3, 2, 2, 3],
            _ => [20, 6, 4, 4, 1, 3, 2, 3, 30, 2, 1, 15],
        };
        Habits {
            alphabet,
            again,
            put_up_to,
            strike_up_to: if churn { put_up_to } else { rng.pick(&[1, 5, 20, 20, 2000]) },
            authors: if churn { 1 } else { rng.between(1, 4) },
            weights,
            odd: rng.pick(&[0, 3, 8, 25]),
            view: rng.percent(70).then(|| (rng.below(3) as u32, rng.between(1, 256) as u32)),
            planned: Vec::new(),
        }
    }

    /// No calls are planned.
    pub fn idle(&self) -> bool {
        self.planned.is_empty()
    }

    pub fn text(&self, rng: &mut Rng, count: u64) -> Vec<u8> {
        let start = rng.below(7);
        let letter = |i: u64| {
            if self.again.is_empty() || rng.percent(1) {
                rng.pick(&self.alphabet)
            } else {
                self.again[((start + i) % self.again.len() as u64) as usize]
            }
        };
        (0..count).map(letter).collect()
    }

    fn letters(&self, rng: &mut Rng, most: u64, usual: u64) -> Vec<u8> {
        let odd = rng.percent(self.odd);
        let count = if odd { rng.pick(&[0, 1, most - 1, most, most + 1, most + 2, 70_000]) } else { rng.between(1, usual.min(most)) };
        let text = self.text(rng, count);
        self.spoilt(rng, text)
    }

    /// Now and then with a letter that is none, or nearly none.
    fn spoilt(&self, rng: &mut Rng, mut letters: Vec<u8>) -> Vec<u8> {
        if rng.percent(self.odd / 3) && !letters.is_empty() {
            let at = rng.below(letters.len() as u64) as usize;
            letters[at] = rng.pick(&[0, 9, 10, 11, 13, 31, 32, 126, 127, 128, 160, 255]);
        }
        letters
    }

    /// A number from 0 to `last`, or now and then one at or past it.
    fn upto(&self, rng: &mut Rng, last: u64) -> u32 {
        if rng.percent(self.odd) {
            let odd = [0, last.saturating_sub(1), last, last + 1, last + 2, 1 << 16, 1 << 31, MAX - 1, MAX];
            rng.pick(&odd).min(MAX) as u32
        } else {
            rng.between(0, last) as u32
        }
    }

    /// How many, from 1 to `last`; now and then none, too many, or so many that first + count overflows.
    fn many(&self, rng: &mut Rng, last: u64, first: u32) -> u32 {
        if last == 0 || rng.percent(self.odd) {
            let odd = [0, 1, last, last + 1, MAX, MAX - first as u64, (MAX - first as u64 + 1).min(MAX), 1 << 31];
            rng.pick(&odd) as u32
        } else {
            rng.between(1, last) as u32
        }
    }

    /// Now and then so many that the call counts about as much as all that can be undone may, or as is left of that; if they are at most `most`.
    fn near_limit(&self, rng: &mut Rng, desk: &Desk, most: u64) -> Option<u64> {
        if !desk.stage.can(5) || !rng.percent(15) {
            return None;
        }
        let limit = desk.max_undos as u64;
        let whole = if rng.percent(50) { limit } else { limit.saturating_sub(desk.counted() as u64) };
        Some((whole + 1).saturating_sub(rng.below(4))).filter(|n| (1..=most).contains(n))
    }

    /// A run of cells to strike or to style: place and count.
    fn run(&self, rng: &mut Rng, desk: &Desk) -> (u32, u32) {
        let cells = desk.now.cells.len() as u64;
        let place = if rng.percent(3) { 0 } else { self.upto(rng, cells.saturating_sub(1)) };
        let left = cells.saturating_sub(place as u64);
        if let Some(count) = self.near_limit(rng, desk, left) {
            return (place, count as u32);
        }
        if rng.percent(3) && left > 0 {
            return (place, left as u32);
        }
        (place, self.many(rng, left.min(self.strike_up_to), place))
    }

    fn change(&self, rng: &mut Rng, desk: &Desk) -> u32 {
        let n = desk.now.changes.len() as u64;
        let guess = self.upto(rng, n.saturating_sub(1));
        if rng.percent(70) {
            let open = |c: &u32| desk.now.changes.get(*c as usize).is_some_and(|c| c.became == Became::Open);
            return (guess..n as u32).find(open).unwrap_or(guess);
        }
        guess
    }

    fn author(&self, rng: &mut Rng) -> u32 {
        if rng.percent(self.odd / 2) { rng.pick(&[254, 255, 256, 257, u32::MAX]) } else { rng.below(self.authors) as u32 }
    }

    fn style(&self, rng: &mut Rng) -> u32 {
        if rng.percent(self.odd / 2) { rng.pick(&[254, 255, 256, 257, u32::MAX]) } else { rng.below(256) as u32 }
    }

    fn width(&self, rng: &mut Rng) -> u32 {
        if rng.percent(self.odd / 2) {
            rng.pick(&[0, 1, 256, 257, 1 << 31, u32::MAX])
        } else if rng.percent(70) {
            rng.pick(&[1, 2, 3, 6, 10, 20, 64, 255, 256])
        } else {
            rng.between(1, 256) as u32
        }
    }

    /// One of these calls, by the weights.
    fn which(&self, rng: &mut Rng, desk: &Desk, among: &[u8]) -> u8 {
        let weight = |n: u8| if desk.stage.can(n) { 8 * self.weights[n as usize] } else { 2 };
        let mut left = rng.below(among.iter().map(|n| weight(*n)).sum());
        for n in among {
            if left < weight(*n) {
                return *n;
            }
            left -= weight(*n);
        }
        0
    }

    /// Several undos, then redos, and then often something new; each followed by a look now and then.
    fn plan_run(&mut self, rng: &mut Rng, desk: &Desk, first: Next) {
        let mut run = Vec::new();
        let some = |rng: &mut Rng, there: usize| match rng.below(16) {
            0..=4 => 1,
            5..=9 => 2,
            10..=13 => rng.between(1, 10) as usize,
            _ => (there + rng.below(2) as usize).min(rng.pick(&[30, 30, 30, 600])),
        };
        let undos = if matches!(first, Next::Undo) { some(rng, desk.undos()) } else { 0 };
        let redos = match rng.below(10) {
            0..=2 if undos > 0 => 0,
            3..=6 => (undos.min(desk.undos()) + desk.redos()).min(600), // all
            _ => some(rng, undos.min(desk.undos()) + desk.redos()),
        };
        let looks = rng.pick(&[0, 20, 100]);
        let mut push = |rng: &mut Rng, next| {
            run.push(next);
            if rng.percent(looks) {
                run.push(Next::Look);
            }
        };
        for _ in 0..undos {
            push(rng, Next::Undo);
        }
        for _ in 0..redos {
            push(rng, Next::Redo);
        }
        if rng.percent(50) {
            push(rng, Next::Write);
            let after = rng.pick(&[Next::Undo, Next::Redo, Next::Write]);
            push(rng, after);
        }
        run.reverse();
        self.planned = run;
    }

    fn show(&self, rng: &mut Rng, desk: &Desk) -> Call {
        let (way, width) = match self.view {
            Some(view) if rng.percent(80) => view,
            _ => (self.upto(rng, 2), self.width(rng)),
        };
        let there = if way < 3 && (1..=256).contains(&width) { rows(width as usize, &desk.now.view(way)).len() as u64 } else { 5 };
        let first = if rng.percent(10) { there.saturating_sub(1) as u32 } else { self.upto(rng, there.saturating_sub(1)) };
        let left = there.saturating_sub(first as u64);
        let count = if rng.percent(self.odd / 2) { rng.pick(&[63, 64, 65]) } else { self.many(rng, left.min(64), first) };
        Call::Show { way, width, first, count }
    }

    /// Letters to look for: such as stand there, nearly stand there, or stand there in another way to look.
    fn wanted(&self, rng: &mut Rng, seen: &[u8]) -> Vec<u8> {
        let long = match rng.below(10) {
            0 => 256,
            1 => rng.between(1, 256),
            2 | 3 => rng.between(1, 40),
            _ => rng.between(1, 6),
        } as usize;
        let at = rng.below(seen.len() as u64) as usize;
        let there: Vec<u8> = seen[at..].iter().copied().take(long).collect();
        let mut letters = match rng.below(10) {
            _ if seen.is_empty() => self.text(rng, long as u64),
            0 => self.text(rng, long as u64),
            1 => vec![seen[at]; long],
            2 | 3 => there.iter().copied().take(rng.between(1, 5) as usize).cycle().take(long).collect(),
            _ => there,
        };
        if rng.percent(30) {
            let at = if rng.percent(70) { letters.len() - 1 } else { rng.below(letters.len() as u64) as usize };
            letters[at] = if rng.percent(50) { b'b' } else { rng.pick(&self.alphabet) };
        }
        letters
    }

    fn find(&self, rng: &mut Rng, desk: &Desk) -> Call {
        let way = self.upto(rng, 2);
        let seen = |way| desk.now.view(way).iter().map(|c| c.letter).collect::<Vec<u8>>();
        let view = seen(if way < 3 { way } else { 0 });
        if rng.percent(self.odd) {
            return Call::Find { way, from: self.upto(rng, view.len() as u64), letters: self.letters(rng, 256, 4) };
        }
        let elsewhere = if rng.percent(25) { seen(rng.below(3) as u32) } else { Vec::new() };
        let letters = self.wanted(rng, if elsewhere.is_empty() { &view } else { &elsewhere });
        let letters = self.spoilt(rng, letters);
        let there = view.len() as u64;
        let first = view.windows(letters.len()).position(|w| w == letters).map_or(there, |at| at as u64);
        let last = view.windows(letters.len()).rposition(|w| w == letters).map_or(there, |at| at as u64);
        let from = match rng.below(10) {
            0 | 1 | 2 => 0,
            3 => first + rng.below(3).saturating_sub(1),
            4 => last,
            5 => last + 1,
            6 => (there + rng.below(3)).saturating_sub(letters.len() as u64 + 1),
            7 => there + rng.below(3),
            _ => self.upto(rng, there) as u64,
        };
        Call::Find { way, from: from as u32, letters }
    }

    fn save(&self, rng: &mut Rng, desk: &Desk) -> Call {
        let head = 1 + 2 * desk.now.changes.len() as u64;
        let there = head + 4 * desk.now.cells.len() as u64;
        let any = rng.between(1, 1024);
        let count = if rng.percent(self.odd / 2) { rng.pick(&[0, 1, 1023, 1024, 1025, 1 << 31, MAX]) } else { rng.pick(&[1, 2, 4, 1024, any]) };
        let from = match rng.below(10) {
            0 => 0,
            1 => (head + 4).saturating_sub(rng.below(count.min(1024) + 8)), // where the changes end and the cells begin
            2 | 3 => there.saturating_sub(count),                           // up to the last number
            4 => (there + 1).saturating_sub(count),
            5 => return Call::Save { from: 0, count: there.min(1024) as u32 },
            _ => {
                let from = self.upto(rng, there - 1);
                let count = if rng.percent(50) { self.many(rng, there.saturating_sub(from as u64).min(1024), from) } else { count as u32 };
                return Call::Save { from, count };
            }
        };
        Call::Save { from: from as u32, count: count as u32 }
    }

    /// A call that tells much of the paper.
    fn look(&self, rng: &mut Rng, desk: &Desk) -> Call {
        let changes = desk.now.changes.len() as u32;
        match rng.below(6) {
            0 => Call::Count { way: rng.below(3) as u32 },
            1 if desk.stage.can(10) => Call::Change { change: changes.saturating_sub(rng.below(3) as u32) },
            2 | 3 if desk.stage.can(11) => {
                let there = 1 + 2 * changes as u64 + 4 * desk.now.cells.len() as u64;
                let from = rng.below(there);
                Call::Save { from: from as u32, count: (there - from).min(1024) as u32 }
            }
            _ => {
                let there = rows(256, &desk.now.cells).len() as u64;
                let first = rng.below(there);
                Call::Show { way: 0, width: 256, first: first as u32, count: (there - first).clamp(1, 64) as u32 }
            }
        }
    }

    fn made(&self, rng: &mut Rng, desk: &Desk, which: u8) -> Call {
        match which {
            0 => {
                let letters = match self.near_limit(rng, desk, 1024) {
                    Some(count) => self.text(rng, count),
                    None => self.letters(rng, 1024, self.put_up_to),
                };
                Call::Put { author: self.author(rng), place: self.upto(rng, desk.now.cells.len() as u64), style: self.style(rng), letters }
            }
            1 => {
                let (place, count) = self.run(rng, desk);
                Call::Strike { author: self.author(rng), place, count }
            }
            2 => Call::Accept { change: self.change(rng, desk) },
            3 => Call::Reject { change: self.change(rng, desk) },
            4 => {
                let (place, count) = self.run(rng, desk);
                Call::Style { place, count, style: self.style(rng) }
            }
            5 => Call::Undo,
            6 => Call::Redo,
            7 => self.show(rng, desk),
            8 => self.find(rng, desk),
            9 => Call::Count { way: self.upto(rng, 2) },
            10 => Call::Change { change: self.change(rng, desk) },
            _ => self.save(rng, desk),
        }
    }

    pub fn call(&mut self, rng: &mut Rng, desk: &Desk) -> Call {
        match self.planned.pop() {
            Some(Next::Undo) => return Call::Undo,
            Some(Next::Redo) => return Call::Redo,
            Some(Next::Look) => return self.look(rng, desk),
            Some(Next::Write) => {
                let which = self.which(rng, desk, &[0, 1, 2, 3, 4]);
                return self.made(rng, desk, which);
            }
            None => (),
        }
        let all = [0, 1, 2, 3, 4, 5, 6, 7, 8, 9, 10, 11];
        let full = desk.now.cells.len() as u64 >= desk.max_cells as u64 || desk.now.changes.len() as u64 >= desk.max_changes as u64;
        let mut which = self.which(rng, desk, &all);
        let in_vain = which < 2 && full || which == 5 && desk.undos() == 0 || which == 6 && desk.redos() == 0;
        if in_vain && rng.percent(75) {
            which = self.which(rng, desk, &all); // not only calls that are refused
        }
        if desk.stage.can(5) && rng.percent(60) {
            match which {
                5 => self.plan_run(rng, desk, Next::Undo),
                6 => self.plan_run(rng, desk, Next::Redo),
                _ => (),
            }
        }
        self.made(rng, desk, which)
    }

    /// The bytes of a call, now and then spoilt.
    pub fn bytes(&mut self, rng: &mut Rng, desk: &Desk) -> Vec<u8> {
        let call = self.call(rng, desk);
        let mut bytes = call.bytes();
        if !rng.percent(self.odd) {
            return bytes;
        }
        let byte = |rng: &mut Rng| rng.below(256) as u8;
        match rng.below(8) {
            0 => bytes.truncate(rng.below(bytes.len() as u64) as usize),
            1 => {
                bytes.pop();
            }
            2 => {
                for _ in 0..rng.between(1, 9) {
                    bytes.push(byte(rng));
                }
            }
            3 => bytes[0] = rng.between(12, 255) as u8,
            4 => bytes[0] = rng.below(12) as u8, // another call's first byte
            5 => bytes = (0..rng.below(40)).map(|_| byte(rng)).collect(),
            6 => {
                // letters that are not as many as the count says
                let count = match &call {
                    Call::Put { .. } => 13,
                    Call::Find { .. } => 9,
                    _ => return bytes,
                };
                let was = u32::from_le_bytes([bytes[count], bytes[count + 1], bytes[count + 2], bytes[count + 3]]);
                let says = rng.pick(&[0, was.wrapping_sub(1), was + 1, was + 1000, 1 << 31, u32::MAX]);
                bytes[count..count + 4].copy_from_slice(&says.to_le_bytes());
            }
            _ => {
                let long = if rng.percent(5) { 300_000 } else { 300 };
                bytes.resize(long, 0);
            }
        }
        bytes
    }
}
