//! The lines of the bench's programs (docs/BENCH.md): how a case is written, and what the rivals answer to a line.

use crate::desk::{self, Call, Record, DESK_BYTES, PLACES, PLACE_BYTES, RECORD_BYTES, STORE_BYTES};
use crate::reader::{self, TEXT_MOST};
use crate::writer;
use std::collections::BTreeSet;

const LINE_MOST: usize = 65_535;
const NAME_MOST: usize = 255;
const PAYLOAD_ROOM: usize = 65_536;

/// Which of reader and writer answers a case file.
#[derive(Clone, Copy, Debug, PartialEq, Eq)]
pub enum Way {
    Read,
    Write,
}

pub fn hex(bytes: &[u8]) -> String {
    const DIGITS: &[u8; 16] = b"0123456789abcdef";
    let digits = |byte: &u8| [byte >> 4, byte & 15].map(|d| DIGITS[d as usize] as char);
    bytes.iter().flat_map(digits).collect()
}

pub fn unhex(text: &[u8]) -> Option<Vec<u8>> {
    let digit = |byte: u8| (byte as char).to_digit(16);
    let pair = |pair: &[u8]| Some((digit(pair[0])? * 16 + digit(*pair.get(1)?)?) as u8);
    text.chunks(2).map(pair).collect()
}

fn number(text: &[u8], most: u32) -> Option<u32> {
    let digits = !text.is_empty() && text.iter().all(u8::is_ascii_digit);
    let add =
        |value: u64, digit: &u8| value.saturating_mul(10).saturating_add((digit - b'0').into());
    let value = text.iter().fold(0, add);
    (digits && value <= most.into()).then_some(value as u32)
}

/// The lines of a file with their line ends cut; the last one may have none.
pub fn lines(file: &[u8]) -> Vec<&[u8]> {
    let mut lines: Vec<&[u8]> = file.split(|&byte| byte == b'\n').collect();
    if lines.last() == Some(&&b""[..]) {
        lines.pop();
    }
    lines
}

/// What lines are answered, each answer with a line end, and the numbers among the answers.
#[derive(Default)]
pub struct Answers {
    pub bytes: Vec<u8>,
    pub numbers: BTreeSet<usize>,
}

impl Answers {
    fn add(&mut self, answer: Vec<u8>, number: Option<u32>) {
        self.bytes.extend(answer);
        self.bytes.push(b'\n');
        self.numbers.extend(number.map(|number| number as usize));
    }
}

/// What the lines of a case file are answered.
pub fn answer_cases(way: Way, lines: &[impl AsRef<[u8]>]) -> Answers {
    let mut answers = Answers::default();
    for (answer, number) in lines.iter().filter_map(|line| answer_case(way, line.as_ref())) {
        answers.add(answer, number);
    }
    answers
}

/// What the lines of a desk's script are answered.
pub fn answer_script(lines: &[impl AsRef<[u8]>]) -> Answers {
    let mut script = Script::default();
    let mut answers = Answers::default();
    for line in lines.iter().map(AsRef::as_ref) {
        if let Some(answer) = script.answer(line) {
            let told = [&b"show"[..], b"bytes"].iter().any(|word| line.starts_with(word));
            let first = answer.split(' ').next().filter(|_| !told);
            let number = first.and_then(|number| number.parse().ok());
            answers.add(answer.into_bytes(), number);
        }
    }
    answers
}

/// A line of a case file; the number is a budget or a room.
pub fn case(name: &str, dictionary: &[u8], bytes: &[u8], number: usize) -> String {
    format!("{name}\t{}\t{}\t{number}", hex(dictionary), hex(bytes))
}

/// What a line of a case file is answered, and the answer's number; nothing for an empty one.
fn answer_case(way: Way, line: &[u8]) -> Option<(Vec<u8>, Option<u32>)> {
    if line.is_empty() {
        return None;
    }
    let fields: Vec<&[u8]> = line.split(|&byte| byte == b'\t').collect();
    let answer = if line.len() > LINE_MOST { None } else { well_formed(way, &fields) };
    let (number, mut told) = match answer {
        Some((number, told)) => (Some(number), [format!("{number}\t").into_bytes(), told].concat()),
        None => (None, b"?".to_vec()),
    };
    let most = if number.is_some() { LINE_MOST } else { NAME_MOST };
    let mut answer = fields[0][..fields[0].len().min(most)].to_vec();
    answer.push(b'\t');
    answer.append(&mut told);
    Some((answer, number))
}

/// The number, and the result or the place.
fn well_formed(way: Way, fields: &[&[u8]]) -> Option<(u32, Vec<u8>)> {
    let (dictionary, bytes, asked) = match fields {
        [_, dictionary, bytes, asked] => {
            (unhex(dictionary)?, unhex(bytes)?, number(asked, u32::MAX)?)
        }
        _ => return None,
    };
    let mut out = vec![0; if way == Way::Read { TEXT_MOST } else { PAYLOAD_ROOM }];
    let answer = match way {
        Way::Read => reader::read(&dictionary, &bytes, asked as usize, &mut out),
        Way::Write => {
            let room = out.len().min(asked as usize);
            writer::write(&dictionary, &bytes, &mut out[..room])
        }
    };
    out.truncate(answer.length);
    let told = match (answer.number, way) {
        (0, Way::Read) => out,
        (0, Way::Write) => hex(&out).into_bytes(),
        _ => answer.place.to_string().into_bytes(),
    };
    Some((answer.number, told))
}

/// A line of a desk's script that makes this call.
pub fn call(call: Call) -> String {
    match call {
        Call::Open(number, kind, declared) => format!("open {number} {kind} {declared}"),
        Call::Feed(number, []) => format!("feed {number}"),
        Call::Feed(number, piece) => format!("feed {number} {}", hex(piece)),
        Call::Start(number) => format!("start {number}"),
        Call::Failed(number) => format!("finish {number} failed"),
        Call::Good(number, results) => format!("finish {number} good {results}"),
        Call::Take(number, n) => format!("take {number} {n}"),
        Call::Kill(number) => format!("kill {number}"),
        Call::Close(number) => format!("close {number}"),
        Call::Status(number) => format!("status {number}"),
        Call::List => "list".to_string(),
    }
}

/// The records of a desk, as `show` tells them and `desk` takes them.
pub fn records(desk: &[u8]) -> String {
    let spelt: Vec<String> =
        desk.chunks_exact(RECORD_BYTES).map(|bytes| record(&Record::of(bytes))).collect();
    spelt.join(" ")
}

fn record(record: &Record) -> String {
    let Record { number, kind, state, declared, received, due } = record;
    format!("{number}:{kind}:{state}:{declared}:{received}:{due}")
}

fn record_of(word: &[u8]) -> Option<Record> {
    let fields: Vec<&[u8]> = word.split(|&byte| byte == b':').collect();
    match fields[..] {
        [n, kind, state, declared, received, due] => Some(Record {
            number: number(n, u16::MAX.into())? as u16,
            kind: number(kind, u8::MAX.into())? as u8,
            state: number(state, u8::MAX.into())? as u8,
            declared: number(declared, u32::MAX)?,
            received: number(received, u32::MAX)?,
            due: number(due, u32::MAX)?,
        }),
        _ => None,
    }
}

/// A desk that a script is told to the rival.
pub struct Script {
    desk: Vec<u8>,
    store: Vec<u8>,
}

impl Default for Script {
    fn default() -> Script {
        Script { desk: vec![0; DESK_BYTES], store: vec![0; STORE_BYTES] }
    }
}

impl Script {
    pub fn records(&self) -> String {
        records(&self.desk)
    }

    /// What a line is answered; nothing for an empty one.
    pub fn answer(&mut self, line: &[u8]) -> Option<String> {
        if line.is_empty() {
            return None;
        }
        let told = if line.len() > LINE_MOST { None } else { self.told(line) };
        Some(told.unwrap_or_else(|| "?".to_string()))
    }

    fn told(&mut self, line: &[u8]) -> Option<String> {
        let words: Vec<&[u8]> = line.split(|&byte| byte == b' ').collect();
        match words[..] {
            [b"show"] => Some(self.records()),
            [b"desk", ref words @ ..] if words.len() == PLACES => {
                let records: Option<Vec<Record>> =
                    words.iter().map(|word| record_of(word)).collect();
                self.desk = records?.iter().flat_map(Record::bytes).collect();
                Some("0".to_string())
            }
            [b"bytes", n] => Some(self.received(number(n, u16::MAX.into())? as u16)),
            _ => {
                let mut piece = Vec::new();
                let call = call_of(&words, &mut piece)?;
                let answer = desk::call(&mut self.desk, &mut self.store, call);
                let told = answer.told.iter().map(|value| format!(" {value}"));
                Some(format!("{}{}", answer.number, told.collect::<String>()))
            }
        }
    }

    /// In hex; nothing where there is no such operation or the desk isn't sound.
    fn received(&mut self, number: u16) -> String {
        let status = desk::call(&mut self.desk, &mut self.store, Call::Status(number));
        let mut records = self.desk.chunks_exact(RECORD_BYTES);
        match (status.number, records.position(|bytes| Record::of(bytes).number == number)) {
            (0, Some(place)) => hex(&self.store[place * PLACE_BYTES..][..status.told[1] as usize]),
            _ => String::new(),
        }
    }
}

fn call_of<'a>(words: &[&[u8]], piece: &'a mut Vec<u8>) -> Option<Call<'a>> {
    let operation = |word: &[u8]| number(word, u16::MAX.into()).map(|n| n as u16);
    let count = |word: &[u8]| number(word, u32::MAX);
    Some(match *words {
        [b"list"] => Call::List,
        [b"open", n, kind, declared] => {
            Call::Open(operation(n)?, number(kind, u8::MAX.into())? as u8, count(declared)?)
        }
        [b"feed", n] => Call::Feed(operation(n)?, piece),
        [b"feed", n, bytes] => {
            *piece = unhex(bytes)?;
            Call::Feed(operation(n)?, piece)
        }
        [b"start", n] => Call::Start(operation(n)?),
        [b"finish", n, b"failed"] => Call::Failed(operation(n)?),
        [b"finish", n, b"good", results] => Call::Good(operation(n)?, count(results)?),
        [b"take", n, amount] => Call::Take(operation(n)?, count(amount)?),
        [b"kill", n] => Call::Kill(operation(n)?),
        [b"close", n] => Call::Close(operation(n)?),
        [b"status", n] => Call::Status(operation(n)?),
        _ => return None,
    })
}
