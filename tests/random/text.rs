//! Calls and answers as lines of text.
#![allow(dead_code)]
use crate::plain::{Answer, Call};

#[derive(Clone, Copy, PartialEq)]
enum Field {
    Number,
    Letters,
}
use Field::{Letters, Number};

/// The word of each call and its fields, in the order of the calls' numbers.
const LINES: [(&str, &[Field]); 12] = [
    ("put", &[Number, Number, Number, Letters]),
    ("strike", &[Number, Number, Number]),
    ("accept", &[Number]),
    ("reject", &[Number]),
    ("style", &[Number, Number, Number]),
    ("undo", &[]),
    ("redo", &[]),
    ("show", &[Number, Number, Number, Number]),
    ("find", &[Number, Number, Letters]),
    ("count", &[Number]),
    ("change", &[Number]),
    ("save", &[Number, Number]),
];

/// A line and how much of it was read. Each step hands on its value, or None at the first byte that does not fit.
struct Reader<'a> {
    line: &'a [u8],
    at: usize,
}

impl Reader<'_> {
    fn exactly(&mut self, byte: u8) -> Option<()> {
        if self.line.get(self.at) != Some(&byte) {
            return None;
        }
        self.at += 1;
        Some(())
    }

    fn number(&mut self) -> Option<u32> {
        let start = self.at;
        let mut value = 0u64;
        while let Some(digit) = self.line.get(self.at).filter(|b| b.is_ascii_digit()) {
            let more = value * 10 + (digit - b'0') as u64;
            let after_zero = self.at > start && value == 0;
            if after_zero || more > u32::MAX as u64 {
                return None;
            }
            value = more;
            self.at += 1;
        }
        if self.at == start { None } else { Some(value as u32) }
    }

    fn letters(&mut self) -> Option<Vec<u8>> {
        let mut out = Vec::new();
        self.exactly(b'"')?;
        loop {
            let letter = match *self.line.get(self.at)? {
                b'"' => break,
                b'\\' => {
                    self.at += 1;
                    match *self.line.get(self.at)? {
                        b'n' => b'\n',
                        other @ (b'"' | b'\\') => other,
                        _ => return None,
                    }
                }
                other => other,
            };
            out.push(letter);
            self.at += 1;
        }
        self.exactly(b'"')?;
        Some(out)
    }

    fn call(&mut self, which: usize) -> Option<Call> {
        let (word, fields) = LINES[which];
        for byte in word.bytes() {
            self.exactly(byte)?;
        }
        let mut n = Vec::new();
        let mut letters = Vec::new();
        for field in fields {
            self.exactly(b' ')?;
            match field {
                Number => n.push(self.number()?),
                Letters => letters = self.letters()?,
            }
        }
        if self.at < self.line.len() {
            return None;
        }
        Some(match which {
            0 => Call::Put { author: n[0], place: n[1], style: n[2], letters },
            1 => Call::Strike { author: n[0], place: n[1], count: n[2] },
            2 => Call::Accept { change: n[0] },
            3 => Call::Reject { change: n[0] },
            4 => Call::Style { place: n[0], count: n[1], style: n[2] },
            5 => Call::Undo,
            6 => Call::Redo,
            7 => Call::Show { way: n[0], width: n[1], first: n[2], count: n[3] },
            8 => Call::Find { way: n[0], from: n[1], letters },
            9 => Call::Count { way: n[0] },
            10 => Call::Change { change: n[0] },
            _ => Call::Save { from: n[0], count: n[1] },
        })
    }
}

/// The call of a line, or how long the longest beginning of the line is that some call's line begins with.
pub fn read_call(line: &[u8]) -> Result<Call, usize> {
    let mut furthest = 0;
    for which in 0..LINES.len() {
        let mut reader = Reader { line, at: 0 };
        if let Some(call) = reader.call(which) {
            return Ok(call);
        }
        furthest = furthest.max(reader.at);
    }
    Err(furthest)
}

/// The three limits of the line `limits CELLS CHANGES UNDOS`.
pub fn read_limits(line: &[u8]) -> Option<[u32; 3]> {
    let numbers = line.strip_prefix(b"limits ")?;
    let mut reader = Reader { line: numbers, at: 0 };
    let cells = reader.number()?;
    reader.exactly(b' ')?;
    let changes = reader.number()?;
    reader.exactly(b' ')?;
    let undos = reader.number()?;
    if reader.at == numbers.len() { Some([cells, changes, undos]) } else { None }
}

fn quoted(letters: &[u8]) -> String {
    let mut out = String::from("\"");
    for &l in letters {
        match l {
            b'\n' => out.push_str("\\n"),
            b'"' => out.push_str("\\\""),
            b'\\' => out.push_str("\\\\"),
            32..=126 => out.push(l as char),
            _ => out.push_str(&format!("<{l}>")), // no letter of a paper; only for messages
        }
    }
    out.push('"');
    out
}

pub fn write_call(call: &Call) -> String {
    let word = LINES[call.number() as usize].0;
    match call {
        Call::Put { author, place, style, letters } => format!("{word} {author} {place} {style} {}", quoted(letters)),
        Call::Strike { author, place, count } => format!("{word} {author} {place} {count}"),
        Call::Style { place, count, style } => format!("{word} {place} {count} {style}"),
        Call::Undo | Call::Redo => word.to_string(),
        Call::Show { way, width, first, count } => format!("{word} {way} {width} {first} {count}"),
        Call::Find { way, from, letters } => format!("{word} {way} {from} {}", quoted(letters)),
        Call::Count { way } => format!("{word} {way}"),
        Call::Accept { change } | Call::Reject { change } | Call::Change { change } => format!("{word} {change}"),
        Call::Save { from, count } => format!("{word} {from} {count}"),
    }
}

fn cell(&[letter, _, put_in, struck]: &[u32; 4]) -> String {
    let mark = match (put_in, struck) {
        (0, 0) => "",
        (_, 0) => "+",
        (0, _) => "-",
        _ => "±",
    };
    let letter = char::from_u32(letter).unwrap_or('?');
    let escape = if "+-|\\".contains(letter) { "\\" } else { "" };
    format!("{mark}{escape}{letter}")
}

pub fn write_answer(answer: &Answer) -> String {
    match answer {
        Answer::Refused { number, place } => format!("refused {number} at {place}"),
        Answer::Number(n) => n.to_string(),
        Answer::Two(m, n) => format!("{m} {n}"),
        Answer::Rows(rows) => {
            let rows: String = rows.iter().map(|r| r.iter().map(cell).collect::<String>() + "|").collect();
            format!("rows |{rows}")
        }
        Answer::Numbers(numbers) => {
            let numbers: String = numbers.iter().map(|n| format!(" {n}")).collect();
            format!("numbers{numbers}")
        }
    }
}
