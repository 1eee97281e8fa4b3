//! Drives the desk through its C interface beside the plain desk, with random calls, and compares every answer.
//! usage: random STAGE DESKS CALLS SEED [DESK]
//! STAGE is thin, changes, undo or whole. Each desk gets CALLS random calls, and besides these some that fill its paper first and some that look
//! through it in the end. With DESK only that desk of the run is done, and its calls are printed.
//! Besides the answers it looks at what must not change: every word of memory in a call that is refused, words after the memory that was
//! asked for, words and bytes after what was lent, and the bytes after an answer.
mod calls;
mod desk;
mod plain;
mod rng;
mod text;
use calls::Habits;
use plain::{Answer, Call, Desk, Stage, ANSWER_BYTES, MOST_CELLS, MOST_CHANGES, MOST_UNDOS};
use rng::Rng;

/// Words and bytes after what is lent.
const GUARD: usize = 61;

#[derive(Clone, Copy, Debug)]
struct Limits {
    cells: u32,
    changes: u32,
    undos: u32,
}

fn refused(number: i64, place: i64) -> i64 {
    -((number << 32) + place)
}

/// What went wrong, in words.
type Wrong = String;

fn same<T: PartialEq + std::fmt::Debug>(what: &str, told: T, right: T) -> Result<(), Wrong> {
    if told == right { Ok(()) } else { Err(format!("{what}: {told:?}, and it should be {right:?}")) }
}

fn same_words(what: &str, is: &[u32], was: &[u32]) -> Result<(), Wrong> {
    if is == was {
        return Ok(());
    }
    let at = is.iter().zip(was).position(|(a, b)| a != b).unwrap_or(is.len().min(was.len()));
    Err(format!("{what}: word {at} was {:?} and is {:?}", was.get(at), is.get(at)))
}

const NAMES: [&str; 3] = ["cells", "pieces", "undo"];

/// The three slices that are lent: each has `asked` words, some more that are lent too, and guard words that are not.
#[derive(Clone)]
struct Memory {
    words: [Vec<u32>; 3],
    asked: [usize; 3],
    lent: [usize; 3],
}

impl Memory {
    fn asked(limits: Limits) -> Result<[usize; 3], Wrong> {
        let mut asked = [0; 3];
        for which in 0..3 {
            let words = unsafe { desk::desk_words(which as u32, limits.cells, limits.changes, limits.undos) };
            asked[which] = usize::try_from(words).map_err(|_| format!("desk_words({which}) is {words}"))?;
        }
        let most = 8 * limits.cells as usize + 8 * limits.changes as usize + 16 * limits.undos as usize + 65_536;
        let all: usize = asked.iter().sum();
        if all > most {
            return Err(format!("desk_words: {asked:?} is {all} words, and at most {most} may be asked for"));
        }
        Ok(asked)
    }

    fn new(rng: &mut Rng, asked: [usize; 3], more: [usize; 3]) -> Memory {
        let lent = [0, 1, 2].map(|w| asked[w] + more[w]);
        let words = lent.map(|n| (0..n + GUARD).map(|_| rng.next() as u32).collect());
        Memory { words, asked, lent }
    }

    fn open_with(&mut self, lent: [usize; 3], limits: Limits) -> i64 {
        let [cells, pieces, undo] = &mut self.words;
        unsafe {
            desk::desk_open(
                cells.as_mut_ptr(), lent[0],
                pieces.as_mut_ptr(), lent[1],
                undo.as_mut_ptr(), lent[2],
                limits.cells, limits.changes, limits.undos,
            )
        }
    }

    fn call_with(&mut self, lent: [usize; 3], call: &[u8], answer: &mut [u8]) -> i64 {
        let [cells, pieces, undo] = &mut self.words;
        unsafe {
            desk::desk_call(
                cells.as_mut_ptr(), lent[0],
                pieces.as_mut_ptr(), lent[1],
                undo.as_mut_ptr(), lent[2],
                call.as_ptr(), call.len(),
                answer.as_mut_ptr(), answer.len(),
            )
        }
    }

    fn same_all(&self, before: &Memory, when: &str) -> Result<(), Wrong> {
        for w in 0..3 {
            same_words(&format!("{} changed {when}", NAMES[w]), &self.words[w], &before.words[w])?;
        }
        Ok(())
    }

    /// The words from `from` on are as they were.
    fn same_after(&self, before: &[Vec<u32>; 3], from: [usize; 3]) -> Result<(), Wrong> {
        for w in 0..3 {
            same_words(&format!("{} changed past its end", NAMES[w]), &self.words[w][from[w]..], &before[w])?;
        }
        Ok(())
    }

    fn after(&self, from: [usize; 3]) -> [Vec<u32>; 3] {
        [0, 1, 2].map(|w| self.words[w][from[w]..].to_vec())
    }
}

/// How often each call was done, and each refusal came; and how often what is easily done wrong.
#[derive(Default)]
struct Tally {
    done: [u64; 12],
    refused: [u64; 10],
    random: u64,
    besides: u64,
    /// Writes after which something older could not be undone any more, or nothing at all; writes after which nothing could be redone any more.
    forgot: u64,
    forgot_all: u64,
    not_redone: u64,
    most_undone: usize,
    found: u64,
}

impl Tally {
    /// `before`: how many could be undone and redone.
    fn note(&mut self, call: u8, answer: &[u8], before: (usize, usize), after: (usize, usize)) {
        if answer[0] == 0 {
            self.refused[answer[1] as usize] += 1;
            return;
        }
        self.done[call as usize] += 1;
        if call < 5 {
            self.forgot += (before.0 > 0 && after.0 <= before.0) as u64;
            self.forgot_all += (before.0 > 0 && after.0 == 0) as u64;
            self.not_redone += (before.1 > 0) as u64;
        }
        self.most_undone = self.most_undone.max(after.1);
        self.found += (call == 8 && answer[1..] != [0; 4]) as u64;
    }

    fn print(&self, stage: Stage) {
        let list = |counts: &[u64]| counts.iter().enumerate().filter(|c| *c.1 > 0).map(|(n, c)| format!("{n}: {c}")).collect::<Vec<_>>().join(", ");
        println!("calls done, by first byte: {}", list(&self.done));
        println!("calls refused, by number: {}", list(&self.refused));
        if stage.can(5) {
            println!("writes that forgot older ones: {}, all: {}, what could be redone: {}", self.forgot, self.forgot_all, self.not_redone);
            println!("most that could be redone: {}", self.most_undone);
        }
        if stage.can(8) {
            println!("found: {} of {}", self.found, self.done[8]);
        }
    }
}

/// The desk under test beside the plain one.
struct Pair {
    memory: Memory,
    /// Memory as it was before a call that is refused.
    before: Memory,
    spare: [Vec<u32>; 3],
    plain: Desk,
    answer: Vec<u8>,
    pattern: Vec<u8>,
}

impl Pair {
    /// Opens both, and tries openings that must be refused.
    fn open(rng: &mut Rng, stage: Stage, limits: Limits) -> Result<Pair, Wrong> {
        let asked = Memory::asked(limits)?;
        let more = if rng.percent(50) { [0; 3] } else { [0; 3].map(|_| rng.below(40) as usize) };
        let mut memory = Memory::new(rng, asked, more);

        let before = memory.clone();
        let way_out = rng.pick(&[1, 2, 1 << 31]);
        let too_much = [
            Limits { cells: MOST_CELLS + way_out, ..limits },
            Limits { changes: MOST_CHANGES + way_out, ..limits },
            Limits { undos: MOST_UNDOS + way_out, ..limits },
            Limits { cells: u32::MAX, changes: u32::MAX, undos: u32::MAX },
        ];
        for l in too_much {
            let words = unsafe { desk::desk_words(rng.below(3) as u32, l.cells, l.changes, l.undos) };
            same(&format!("desk_words with {l:?}"), words, refused(3, 1))?;
            let lent = if rng.percent(50) { memory.lent } else { [0; 3] };
            same(&format!("desk_open with {l:?}"), memory.open_with(lent, l), refused(3, 1))?;
        }
        for which in [3, 4, 1 << 31, u32::MAX] {
            let l = if rng.percent(50) { limits } else { too_much[0] };
            let words = unsafe { desk::desk_words(which, l.cells, l.changes, l.undos) };
            same(&format!("desk_words({which})"), words, refused(2, 0))?;
        }
        for w in 0..3 {
            if asked[w] > 0 {
                let mut lent = memory.lent;
                lent[w] = if rng.percent(50) { asked[w] - 1 } else { rng.below(asked[w] as u64) as usize };
                same(&format!("desk_open with {} of {} words of {}", lent[w], asked[w], NAMES[w]), memory.open_with(lent, limits), refused(3, 0))?;
            }
        }
        memory.same_all(&before, "by an opening that was refused")?;

        let past_lent = memory.after(memory.lent);
        same("desk_open", memory.open_with(memory.lent, limits), 0)?;
        memory.same_after(&past_lent, memory.lent)?;
        // what is left there comes from the limits alone, whatever was there before
        let mut other = Memory::new(rng, asked, more);
        same("desk_open, again", other.open_with(other.lent, limits), 0)?;
        for w in 0..3 {
            let what = format!("{} is opened differently over other memory", NAMES[w]);
            same_words(&what, &other.words[w][..asked[w]], &memory.words[w][..asked[w]])?;
        }

        let plain = Desk::open(stage, limits.cells, limits.changes, limits.undos).map_err(|r| format!("the plain desk refuses {r:?}"))?;
        let long = ANSWER_BYTES + if rng.percent(50) { 0 } else { rng.below(40) as usize };
        let pattern: Vec<u8> = (0..long + GUARD).map(|_| rng.next() as u8).collect();
        let spare = memory.after(memory.asked);
        Ok(Pair { before: memory.clone(), memory, spare, plain, answer: pattern.clone(), pattern })
    }

    fn lent_answer(&self) -> usize {
        self.answer.len() - GUARD
    }

    /// Arrays that are too short: -1, and nothing is touched.
    fn too_short(&mut self, rng: &mut Rng, call: &[u8]) -> Result<(), Wrong> {
        let before = self.memory.clone();
        let short = rng.pick(&[0, 1, 9, ANSWER_BYTES - 1]);
        let told = self.memory.call_with(self.memory.lent, call, &mut self.answer[..short]);
        same(&format!("desk_call with {short} bytes for the answer"), told, -1)?;
        for w in 0..3 {
            if self.memory.asked[w] > 0 {
                let mut lent = self.memory.lent;
                lent[w] = if rng.percent(50) { self.memory.asked[w] - 1 } else { rng.below(self.memory.asked[w] as u64) as usize };
                let end = self.lent_answer();
                let told = self.memory.call_with(lent, call, &mut self.answer[..end]);
                same(&format!("desk_call with {} of {} words of {}", lent[w], self.memory.asked[w], NAMES[w]), told, -1)?;
            }
        }
        for limit in 0..3 {
            let was = self.memory.words[1][limit];
            let wrong = rng.pick(&[MOST_CELLS + 1, u32::MAX]);
            self.memory.words[1][limit] = wrong;
            let end = self.lent_answer();
            let told = self.memory.call_with(self.memory.lent, call, &mut self.answer[..end]);
            same(&format!("desk_call with {wrong} as limit {limit}"), told, -1)?;
            same(&format!("limit {limit} after a call that took it for no limit"), self.memory.words[1][limit], wrong)?;
            self.memory.words[1][limit] = was;
        }
        self.memory.same_all(&before, "by a call with too short an array")?;
        if self.answer != self.pattern {
            return Err("the answer's bytes changed by a call with too short an array".to_string());
        }
        Ok(())
    }

    /// One call at both.
    fn call(&mut self, call: &[u8], tally: &mut Tally) -> Result<(), Wrong> {
        let kept = |plain: &Desk| (plain.undos(), plain.redos());
        let before = kept(&self.plain);
        let right = self.plain.call(call);
        tally.note(call.first().copied().unwrap_or(0), &right, before, kept(&self.plain));
        let is_refused = right[0] == 0;
        if is_refused {
            self.before.words.clone_from(&self.memory.words);
        }
        let end = self.lent_answer();
        let told = self.memory.call_with(self.memory.lent, call, &mut self.answer[..end]);
        if told != right.len() as i64 || self.answer[..right.len()] != right[..] {
            let long = usize::try_from(told).unwrap_or(0).min(end);
            return Err(format!("told:  returns {told}, {}\nright: returns {}, {}", shown(&self.answer[..long]), right.len(), shown(&right)));
        }
        if self.answer[right.len()..] != self.pattern[right.len()..] {
            let at = (right.len()..self.answer.len()).find(|i| self.answer[*i] != self.pattern[*i]);
            return Err(format!("byte {at:?} of the answer's array changed; the answer has {}", right.len()));
        }
        self.answer[..right.len()].copy_from_slice(&self.pattern[..right.len()]);
        if is_refused {
            return self.memory.same_all(&self.before, "by a call that was refused");
        }
        self.memory.same_after(&self.spare, self.memory.asked)
    }
}

fn hex(bytes: &[u8]) -> String {
    let mut out: String = bytes.iter().take(48).map(|b| format!("{b:02x} ")).collect();
    if bytes.len() > 48 {
        out.push_str(&format!("... ({} bytes)", bytes.len()));
    }
    out
}

fn clipped(mut text: String) -> String {
    if let Some((at, _)) = text.char_indices().nth(600) {
        text.truncate(at);
        text.push_str("...");
    }
    text
}

fn shown(answer: &[u8]) -> String {
    let text = Answer::read(answer).map_or("no answer".to_string(), |a| text::write_answer(&a));
    format!("{}  [{}]", clipped(text), hex(answer))
}

fn shown_call(call: &[u8]) -> String {
    let text = Call::read(call).map_or("not a call".to_string(), |c| text::write_call(&c));
    format!("{}  [{}]", clipped(text), hex(call))
}

/// A desk to try: its limits, how many letters are put in at once at most, and how many puts of how many letters come first.
struct Plan {
    limits: Limits,
    put_up_to: u64,
    fill: u64,
    fill_by: u64,
}

fn plan(rng: &mut Rng, number: u64, calls: u64) -> Plan {
    if number % 40 == 20 {
        // as large as can be
        let limits = Limits { cells: MOST_CELLS, changes: MOST_CHANGES, undos: rng.pick(&[0, 500, 1000, 100_000, MOST_UNDOS, MOST_UNDOS]) };
        return Plan { limits, put_up_to: 1024, fill: rng.pick(&[30, 300, 970]), fill_by: 1024 };
    }
    let changes = match rng.below(20) {
        0 => rng.pick(&[0, 1, 2]),
        1 | 2 => 10,
        3..=5 => MOST_CHANGES,
        _ => rng.between(20, calls.clamp(2000, MOST_CHANGES as u64)) as u32,
    };
    let few = [0, 1, 2, 3, 5, 10, 20, 21, 30, 50, 100];
    match rng.below(20) {
        0 | 1 => {
            let limits = Limits { cells: rng.pick(&[0, 1, 2]), changes, undos: rng.pick(&few) };
            Plan { limits, put_up_to: 3, fill: 0, fill_by: 1 }
        }
        2..=9 => {
            let limits = Limits { cells: rng.pick(&[60, 60, 20, 200, 300]), changes, undos: rng.pick(&few) };
            Plan { limits, put_up_to: rng.pick(&[1, 2, 5, 20]), fill: 0, fill_by: 1 }
        }
        10..=14 => {
            let undos = if rng.percent(5) { MOST_UNDOS } else { rng.pick(&[0, 20, 30, 300, 2048, 5000]) };
            let limits = Limits { cells: rng.pick(&[2048, 2048, 1024, 1025, 4000]), changes, undos };
            Plan { limits, put_up_to: rng.pick(&[5, 10, 40, 200, 1024]), fill: 0, fill_by: 1 }
        }
        _ => {
            // many pieces, filled to the brim; in a long run half of them by many small puts
            let slowly = calls >= 1000 && rng.percent(50);
            let cells = if slowly { 10 * calls.min(MOST_CELLS as u64 / 10) } else { rng.between(3_000, 40_000) };
            let changes = if slowly { MOST_CHANGES } else { changes.max(300) };
            let limits = Limits { cells: cells as u32, changes, undos: rng.pick(&[0, 20, 300, 3000, 20_000, 200_000]) };
            let fill_by = rng.pick(&[1024, 1023, 700, 513, 100]);
            let fill = if slowly { 0 } else { rng.below(cells / fill_by + 2) };
            let put_up_to = if slowly { rng.pick(&[2, 10, 30]) } else { rng.pick(&[30, 600, 1024]) };
            Plan { limits, put_up_to, fill, fill_by }
        }
    }
}

/// Calls that look through the whole paper, or through its beginning if it is a large one.
fn all_there_is(rng: &mut Rng, desk: &Desk) -> Vec<Call> {
    let large = desk.now.cells.len() > 100_000;
    let mut out = Vec::new();
    for way in 0..3 {
        let width = rng.pick(&[1, 3, 10, 64, 256]);
        let there = plain::rows(width as usize, &desk.now.view(way)).len();
        for first in (0..if large { there.min(200) } else { there }).step_by(64) {
            out.push(Call::Show { way, width, first: first as u32, count: (there - first).min(64) as u32 });
        }
        out.push(Call::Count { way });
    }
    if desk.stage.can(10) {
        out.extend((0..desk.now.changes.len().min(200)).map(|change| Call::Change { change: change as u32 }));
    }
    if desk.stage.can(11) {
        let there = desk.now.file().len();
        let from = (0..if large { there.min(20_000) } else { there }).step_by(1024);
        out.extend(from.map(|from| Call::Save { from: from as u32, count: (there - from).min(1024) as u32 }));
    }
    out
}

struct Failure {
    limits: Limits,
    number: u64,
    call: Vec<u8>,
    wrong: Wrong,
}

/// One desk, from its opening on.
fn desk(stage: Stage, seed: u64, number: u64, calls: u64, loud: bool, tally: &mut Tally) -> Result<(), Failure> {
    let mut rng = Rng::new(seed.wrapping_mul(1_000_003).wrapping_add(number));
    let plan = plan(&mut rng, number, calls);
    let limits = plan.limits;
    if loud {
        println!("limits {} {} {}", limits.cells, limits.changes, limits.undos);
    }
    let failed = |number, call: &[u8], wrong| Failure { limits, number, call: call.to_vec(), wrong };
    let mut pair = Pair::open(&mut rng, stage, limits).map_err(|wrong| failed(0, &[], wrong))?;
    let mut count = 0;
    let mut step = |pair: &mut Pair, bytes: &[u8]| {
        count += 1;
        if loud {
            println!("{count}: {}", shown_call(bytes));
        }
        pair.call(bytes, tally).map_err(|wrong| failed(count, bytes, wrong)).map(|()| count)
    };

    let filling = Habits::new(&mut rng, plan.fill_by);
    let where_to = rng.below(5);
    for _ in 0..plan.fill {
        let cells = pair.plain.now.cells.len() as u64;
        let place = match where_to {
            0 => 0,
            1 => cells / 2,
            2 => cells,
            _ => rng.between(0, cells),
        };
        let letters = filling.text(&mut rng, plan.fill_by);
        step(&mut pair, &Call::Put { author: rng.below(4) as u32, place: place as u32, style: 0, letters }.bytes())?;
    }
    let mut habits = Habits::new(&mut rng, plan.put_up_to);
    let mut renewed = 0;
    for i in 0..calls {
        if i >= renewed + 100 && habits.idle() {
            habits = Habits::new(&mut rng, plan.put_up_to);
            renewed = i;
        }
        let bytes = habits.bytes(&mut rng, &pair.plain);
        let reached = step(&mut pair, &bytes)?;
        if rng.below(150) == 0 {
            pair.too_short(&mut rng, &bytes).map_err(|wrong| failed(reached, &bytes, wrong))?;
        }
    }

    // in the end all that there is; and again after several undos, and after their redos
    let undos = if stage.can(5) { pair.plain.undos().min(60) } else { 0 };
    let rounds = if undos > 0 { vec![(undos, Call::Undo), (undos, Call::Redo)] } else { Vec::new() };
    for call in all_there_is(&mut rng, &pair.plain) {
        step(&mut pair, &call.bytes())?;
    }
    for (times, call) in rounds {
        for _ in 0..times {
            step(&mut pair, &call.bytes())?;
            step(&mut pair, &Call::Count { way: rng.below(3) as u32 }.bytes())?;
        }
        for call in all_there_is(&mut rng, &pair.plain) {
            step(&mut pair, &call.bytes())?;
        }
    }
    tally.random += calls;
    tally.besides += count - calls;
    Ok(())
}

fn main() {
    let args: Vec<String> = std::env::args().skip(1).collect();
    let numbers: Option<Vec<u64>> = args.iter().skip(1).map(|a| a.parse().ok()).collect();
    let (Some(stage), Some(numbers)) = (args.first().and_then(|s| Stage::named(s)), numbers) else { usage() };
    let (desks, calls, seed, only) = match numbers[..] {
        [desks, calls, seed] => (desks, calls, seed, None),
        [desks, calls, seed, only] => (desks, calls, seed, Some(only)),
        _ => usage(),
    };
    let mut tally = Tally::default();
    for number in only.map_or(0..desks, |n| n..n + 1) {
        if let Err(f) = desk(stage, seed, number, calls, only.is_some(), &mut tally) {
            println!("different: seed {seed}, desk {number}, call {}", f.number);
            println!("limits {} {} {}", f.limits.cells, f.limits.changes, f.limits.undos);
            if f.number > 0 {
                println!("call:  {}", shown_call(&f.call));
            }
            println!("{}", f.wrong);
            println!("all calls of this desk: random {} {desks} {calls} {seed} {number}", args[0]);
            std::process::exit(1);
        }
    }
    tally.print(stage);
    println!("{desks} desks with {calls} random calls each: {}, and {} to fill and to look through them; seed {seed}: the same answers", tally.random, tally.besides);
}

fn usage() -> ! {
    eprintln!("usage: random thin|changes|undo|whole DESKS CALLS SEED [DESK]");
    std::process::exit(2);
}
