//! Measures the desk, through its C interface, beside a plain `Vec` of cells, in one run. Both get the same calls, and must give the same answers.
//! usage: bench STAGE     (cases with calls that the stage cannot do are left out)
#[path = "../tests/random/desk.rs"]
mod desk;
mod list;
#[path = "../tests/random/plain.rs"]
mod plain;
#[path = "../tests/random/rng.rs"]
mod rng;
use list::{List, Op};
use plain::Stage;
use rng::Rng;
use std::time::{Duration, Instant};

/// What a size is called, and how many cells the paper is filled with. The limits allow ROOM more.
const SIZES: [(&str, u32); 3] = [("10^4", 10_000), ("10^5", 100_000), ("10^6", 980_000)];
const ROOM: u32 = 20_000;
const CHANGES: u32 = 65_536;
const UNDOS: u32 = 100_000;
const WIDTH: u32 = 64;
/// How wide the column of names is.
const NAMES: usize = 32;
/// Everything is done so many times, with the same calls, and the best time of each call counts: other work on the machine only adds to one.
const RUNS: usize = 5;
/// A case that writes nothing is left when it has taken so long.
const ENOUGH: Duration = Duration::from_millis(100);

/// A call, and whether it is timed.
type Step = (bool, Op);

/// The calls for a paper as it is. A case whose calls the desk cannot do yet is left out.
struct Case {
    name: &'static str,
    /// Its calls, or those of the case before, are undone: the list keeps papers.
    undone: bool,
    steps: Steps,
}

type Steps = fn(&mut Rng, &List) -> Vec<Step>;

const fn case(name: &'static str, steps: Steps) -> Case {
    Case { name, undone: false, steps }
}

const fn undone(name: &'static str, steps: Steps) -> Case {
    Case { name, undone: true, steps }
}

/// What a paper is filled with, and the cases for it.
struct Sheet {
    letters: fn(&mut Rng, u32) -> Vec<u8>,
    cases: &'static [Case],
}

const SHEETS: [Sheet; 2] = [Sheet { letters, cases: CASES }, Sheet { letters: |_, count| vec![b'a'; count as usize], cases: CASES_OF_A }];

const CASES: &[Case] = &[
    case("put 1 letter", |rng, list| puts(rng, list, 505, 1, 5)),
    case("put 20 letters", |rng, list| puts(rng, list, 105, 20, 5)),
    case("put 1 letter, once in use", |rng, list| puts(rng, list, in_use(list) + 500, 1, in_use(list))),
    case("put 20 letters, once in use", |rng, list| puts(rng, list, 105, 20, 5)),
    case("count, way 0", |_, _| timed(100, |_| Op::Count { way: 0 })),
    case("count, way 1", |_, _| timed(100, |_| Op::Count { way: 1 })),
    case("count, way 2", |_, _| timed(100, |_| Op::Count { way: 2 })),
    case("show a row in the middle", |_, list| {
        let middle = list.rows(WIDTH) / 2;
        timed(100, |i| Op::Show { way: 0, width: WIDTH, first: middle - i % 7 })
    }),
    case("show the last row", |_, list| {
        let last = list.rows(WIDTH) - 1;
        timed(100, |_| Op::Show { way: 0, width: WIDTH, first: last })
    }),
    case("show the middle after a put", |rng, list| {
        let middle = list.rows(WIDTH) / 2;
        let put = puts(rng, list, 50, 1, 50);
        put.into_iter().flat_map(|put| [put, (true, Op::Show { way: 0, width: WIDTH, first: middle })]).collect()
    }),
    case("show the end, after a middle put", |_, list| {
        let (middle, end) = (list.len() / 2, list.rows(WIDTH) - 1);
        let put = |i: u32| Op::Put { author: i % 4, place: middle - 30 * i, letters: vec![b'e'] };
        (0..50).flat_map(|i| [(false, put(i)), (true, Op::Show { way: 0, width: WIDTH, first: end })]).collect()
    }),
    case("strike 20 cells", |rng, list| strikes(rng, list, 100)),
    case("style 20 cells", |rng, list| {
        let len = list.len();
        timed(100, |i| Op::Style { place: rng.below((len - 20) as u64) as u32, count: 20, style: i })
    }),
    case("accept a change of 20 cells", |rng, list| decided(rng, list, 50, true, |change| Op::Accept { change })),
    case("reject a change of 20 cells", |rng, list| decided(rng, list, 50, true, |change| Op::Reject { change })),
    undone("put 20 letters, to be undone", |rng, list| puts(rng, list, 55, 20, 5)),
    undone("undo a put of 20 letters", |_, _| timed(50, |_| Op::Undo)),
    undone("redo a put of 20 letters", |_, _| timed(50, |_| Op::Redo)),
    undone("strike 20 cells, to be undone", |rng, list| strikes(rng, list, 50)),
    undone("undo a strike of 20 cells", |_, _| timed(50, |_| Op::Undo)),
    undone("redo a strike of 20 cells", |_, _| timed(50, |_| Op::Redo)),
    undone("undo an accept of 20 cells", |rng, list| {
        then(decided(rng, list, 25, false, |change| Op::Accept { change }), timed(25, |_| Op::Undo))
    }),
    undone("redo an accept of 20 cells", |_, _| timed(25, |_| Op::Redo)),
    undone("undo an accept of 10,000 cells", |_, list| {
        let (place, change) = ((list.len() - 14_000) / 2, list.changes());
        let first = [Op::Strike { author: 9, place, count: list.reach(place, 10_000) }, Op::Accept { change }, Op::Undo, Op::Redo];
        then(first.into_iter().map(|op| (false, op)).collect(), in_turn(20, Op::Undo, Op::Redo))
    }),
    undone("redo an accept of 10,000 cells", |_, _| then(vec![(false, Op::Undo)], in_turn(20, Op::Redo, Op::Undo))),
    case("find what is not there", |_, _| timed(50, |_| Op::Find { way: 1, letters: b"aquaticness~".to_vec() })),
    case("save 1,024 from the middle", |_, list| {
        let from = 1 + 2 * list.changes() + 2 * list.len();
        timed(100, |i| Op::Save { from: from + i, count: 1024 })
    }),
    case("save the last 1,024", |_, list| {
        let there = 1 + 2 * list.changes() + 4 * list.len();
        timed(100, |i| Op::Save { from: there - 1024 - i % 8, count: 1024 })
    }),
];

const CASES_OF_A: &[Case] = &[case("find 255 a and b in all a", |_, _| {
    let letters = [vec![b'a'; 255], vec![b'b']].concat();
    timed(50, |_| Op::Find { way: 1, letters: letters.clone() })
})];

fn timed(count: u32, mut op: impl FnMut(u32) -> Op) -> Vec<Step> {
    (0..count).map(|i| (true, op(i))).collect()
}

fn then(mut first: Vec<Step>, second: Vec<Step>) -> Vec<Step> {
    first.extend(second);
    first
}

/// Two calls by turns; the first is timed.
fn in_turn(count: u32, first: Op, second: Op) -> Vec<Step> {
    (0..count).flat_map(|_| [(true, first.clone()), (false, second.clone())]).collect()
}

/// Words of two to nine letters, and now and then the end of a paragraph.
fn letters(rng: &mut Rng, count: u32) -> Vec<u8> {
    let mut left = 0;
    (0..count)
        .map(|_| {
            if left == 0 {
                left = rng.between(2, 9);
                if rng.percent(2) { b'\n' } else { b' ' }
            } else {
                left -= 1;
                b'a' + rng.below(26) as u8
            }
        })
        .collect()
}

/// Puts at random places; the first `untimed` are not timed.
fn puts(rng: &mut Rng, list: &List, count: u32, long: u32, untimed: u32) -> Vec<Step> {
    let len = list.len();
    (0..count)
        .map(|i| {
            let place = rng.between(0, (len + i * long) as u64) as u32;
            let letters = if long == 1 { vec![b'a' + rng.below(26) as u8] } else { letters(rng, long) };
            (i >= untimed, Op::Put { author: i % 4, place, letters })
        })
        .collect()
}

/// A paper that was just filled by whole blocks is used at some place in each block first: in a large one 500 puts would not get there.
fn in_use(list: &List) -> u32 {
    list.len() / 512
}

/// By somebody who put nothing in, so that no cell goes.
fn strikes(rng: &mut Rng, list: &List, count: u32) -> Vec<Step> {
    let len = list.len();
    timed(count, |_| Op::Strike { author: 9, place: rng.below((len - 20) as u64) as u32, count: 20 })
}

/// Changes of 20 cells each, then each of them decided; these are timed or not.
fn decided(rng: &mut Rng, list: &List, count: u32, time: bool, op: fn(u32) -> Op) -> Vec<Step> {
    let first = list.changes();
    let decide = (0..count).map(|i| (time, op(first + (i * 17) % count))).collect();
    then(puts(rng, list, count, 20, count), decide)
}

/// An open desk and what it is lent.
struct Desk {
    memory: [Vec<u32>; 3],
    answer: Vec<u8>,
}

impl Desk {
    fn open(max_cells: u32) -> Desk {
        // every word is written before opening, so that no page is touched first while timed
        let memory = [0, 1, 2].map(|which| {
            let words = unsafe { desk::desk_words(which, max_cells, CHANGES, UNDOS) };
            vec![1; usize::try_from(words).expect("limits in range")]
        });
        let mut desk = Desk { memory, answer: vec![1; 262_405] };
        let [cells, pieces, undo] = &mut desk.memory;
        let opened = unsafe {
            desk::desk_open(
                cells.as_mut_ptr(), cells.len(), pieces.as_mut_ptr(), pieces.len(), undo.as_mut_ptr(), undo.len(), max_cells, CHANGES, UNDOS,
            )
        };
        assert_eq!(opened, 0, "desk_open");
        desk
    }

    /// The answer.
    fn call(&mut self, call: &[u8]) -> &[u8] {
        let [cells, pieces, undo] = &mut self.memory;
        let long = unsafe {
            desk::desk_call(
                cells.as_mut_ptr(), cells.len(), pieces.as_mut_ptr(), pieces.len(), undo.as_mut_ptr(), undo.len(),
                call.as_ptr(), call.len(), self.answer.as_mut_ptr(), self.answer.len(),
            )
        };
        &self.answer[..usize::try_from(long).expect("an answer")]
    }

}

/// The times of the timed calls, and all answers. `run` does one call and adds its answer to those before.
fn measure(steps: &[Step], mut run: impl FnMut(usize, &mut Vec<u8>) -> Duration) -> (Vec<Duration>, Vec<u8>) {
    let mut answers = Vec::new();
    let reads_only = steps.iter().all(|(_, op)| matches!(op, Op::Show { .. } | Op::Find { .. } | Op::Count { .. } | Op::Save { .. }));
    if reads_only {
        run(0, &mut answers);
        answers.clear();
    }
    let mut times = Vec::new();
    for i in 0..steps.len() {
        let taken = run(i, &mut answers);
        if steps[i].0 {
            times.push(taken);
        }
        if reads_only && times.iter().sum::<Duration>() > ENOUGH {
            break;
        }
    }
    (times, answers)
}

/// The times of the desk's calls and of the list's.
type Times = [Vec<Duration>; 2];

/// One run: the times for each case; none where the stage cannot do it.
fn at_size(sheet: &Sheet, fill: u32, stage: Stage) -> Vec<Option<Times>> {
    let mut rng = Rng::new(fill as u64);
    let capacity = fill + ROOM;
    let mut desk = Desk::open(capacity);
    let mut list = List::new(capacity as usize);
    let mut told = vec![1; 262_405];
    while list.len() < fill {
        let letters = (sheet.letters)(&mut rng, 1024.min(fill - list.len()));
        let op = Op::Put { author: rng.below(4) as u32, place: rng.between(0, list.len() as u64) as u32, letters };
        told.clear();
        list.run(&op, &mut told);
        assert_eq!(desk.call(&op.bytes()), told, "while the paper is filled");
    }
    let mut times = Vec::new();
    for case in sheet.cases {
        if case.undone && !stage.can(5) {
            times.push(None);
            continue;
        }
        let steps = (case.steps)(&mut rng, &list);
        let calls: Vec<Vec<u8>> = steps.iter().map(|(_, op)| op.bytes()).collect();
        if calls.iter().any(|c| !stage.can(c[0])) {
            times.push(None);
            continue;
        }
        list.keep(case.undone, capacity as usize);
        let (desk_time, desk_told) = measure(&steps, |i, answers| {
            let start = Instant::now();
            let answer = desk.call(&calls[i]);
            let taken = start.elapsed();
            answers.extend_from_slice(answer);
            if matches!(steps[i].1, Op::Undo | Op::Redo) {
                answers.truncate(answers.len() - 4); // the list does not know how many there were
                answers.extend([0; 4]);
            }
            taken
        });
        let (list_time, list_told) = measure(&steps, |i, answers| {
            told.clear();
            let start = Instant::now();
            list.run(&steps[i].1, &mut told);
            let taken = start.elapsed();
            answers.extend_from_slice(&told);
            taken
        });
        let both = desk_told.len().min(list_told.len());
        assert!(desk_told[..both] == list_told[..both], "{}: the desk and the list differ", case.name);
        times.push(Some([desk_time, list_time]));
    }
    times
}

/// The mean times of the desk and of the list for each case, in microseconds, where each call has its best time.
fn best_at_size(sheet: &Sheet, fill: u32, stage: Stage) -> Vec<Option<(f64, f64)>> {
    let runs: Vec<Vec<Option<Times>>> = (0..RUNS).map(|_| at_size(sheet, fill, stage)).collect();
    let mean = |case: usize, which: usize| {
        let times: Option<Vec<&Vec<Duration>>> = runs.iter().map(|run| run[case].as_ref().map(|times| &times[which])).collect();
        let times = times?;
        let calls = times.iter().map(|t| t.len()).min()?;
        let best = (0..calls).filter_map(|i| times.iter().map(|t| t[i]).min());
        Some(best.sum::<Duration>().as_secs_f64() * 1e6 / calls as f64)
    };
    (0..sheet.cases.len()).map(|case| mean(case, 0).zip(mean(case, 1))).collect()
}

/// The rows of the table for a paper.
fn print_rows(sheet: &Sheet, stage: Stage) {
    let times: Vec<Vec<Option<(f64, f64)>>> = SIZES.iter().map(|(_, fill)| best_at_size(sheet, *fill, stage)).collect();
    for (case, Case { name, .. }) in sheet.cases.iter().enumerate() {
        let at: Vec<(f64, f64)> = times.iter().filter_map(|t| t[case]).collect();
        if at.len() < SIZES.len() {
            continue;
        }
        print!("{name:NAMES$}");
        for (desk, list) in &at {
            print!(" |{desk:>9.2}{list:>10.2}{:>10.2}", list / desk);
        }
        let growth = |time: fn(&(f64, f64)) -> f64| time(&at[at.len() - 1]) / time(&at[0]);
        println!(" |{:>8.1}{:>9.1}", growth(|t| t.0), growth(|t| t.1));
    }
}

fn main() {
    let Some(stage) = std::env::args().nth(1).and_then(|s| Stage::named(&s)) else {
        eprintln!("usage: bench thin|changes|undo|whole");
        std::process::exit(2);
    };
    println!("Mean time of a call in microseconds, each call's the best of {RUNS} runs: the desk through its C interface, beside a plain Vec of 16-byte cells.");
    println!("Warmed before timing: all lent memory is written and the paper filled by calls of up to 1,024 letters at random places;");
    println!("a case that only reads is run once before, one that puts letters five times. Limits: {ROOM} cells more than the fill (980,000 at 10^6).");
    if stage.can(5) {
        println!("What the list is to undo it keeps by copying all its cells before each call that writes, which the rows \"to be undone\" count; its undo and redo");
        println!("only exchange the paper for a copy. In all other rows it copies nothing. The desk keeps what can be undone, up to {UNDOS}, in every row.");
    }
    println!("list/desk: how many times as long the list takes. growth: the time at 10^6 over the time at 10^4.");
    println!();
    print!("{:NAMES$}", "");
    for (name, _) in SIZES {
        print!(" |{:>29}", format!("{name} cells"));
    }
    println!(" |{:>17}", "growth");
    print!("{:NAMES$}", "");
    for _ in SIZES {
        print!(" |{:>9}{:>10}{:>10}", "desk", "list", "list/desk");
    }
    println!(" |{:>8}{:>9}", "desk", "list");
    for sheet in &SHEETS {
        print_rows(sheet, stage);
    }
}
