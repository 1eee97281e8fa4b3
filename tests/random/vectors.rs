//! The plain desk as a program: `vectors STAGE` reads a file of calls as text on standard input, and prints each answer as a line.
//! Calls and answers go through their bytes.
mod plain;
mod text;
use plain::{Answer, Desk, Stage};
use std::io::{Read, Write};

fn main() {
    let Some(stage) = std::env::args().nth(1).and_then(|s| Stage::named(&s)) else {
        eprintln!("usage: vectors thin|changes|undo|whole < CALLS");
        std::process::exit(2);
    };
    let mut input = Vec::new();
    std::io::stdin().read_to_end(&mut input).expect("standard input");
    let mut lines = input.split(|b| *b == b'\n').filter(|l| !l.is_empty() && l[0] != b'#');
    let Some([cells, changes, undos]) = lines.next().and_then(text::read_limits) else {
        eprintln!("the first line must be: limits CELLS CHANGES UNDOS");
        std::process::exit(2);
    };
    let mut out = std::io::BufWriter::new(std::io::stdout());
    let mut desk = match Desk::open(stage, cells, changes, undos) {
        Ok(desk) => desk,
        Err((number, place)) => {
            println!("{}", text::write_answer(&Answer::Refused { number, place }));
            return;
        }
    };
    for line in lines {
        let answer = match text::read_call(line) {
            Ok(call) => Answer::read(&desk.call(&call.bytes())).expect("an answer"),
            Err(at) => Answer::Refused { number: 1, place: at as u32 },
        };
        writeln!(out, "{}", text::write_answer(&answer)).expect("standard output");
    }
}
