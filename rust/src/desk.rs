//! Document 01's desk ("The desk's states", refusals 20 to 27), held by plain Rust.
//!
//! It is written from the paper and not from the definitions under crates/: an independent opinion
//! for the tests. A record's byte form is the one of crates/desk/specs/Bytes.antt.

pub const PLACES: usize = 8;
pub const PLACE_BYTES: usize = 4_096;
pub const STORE_BYTES: usize = PLACES * PLACE_BYTES;
pub const DESK_BYTES: usize = PLACES * RECORD_BYTES;
pub const RECORD_BYTES: usize = 16;

#[derive(Clone, Copy, Debug, Default, PartialEq, Eq)]
pub struct Record {
    pub number: u16,
    pub kind: u8,
    pub state: u8,
    pub declared: u32,
    pub received: u32,
    pub due: u32,
}

impl Record {
    pub fn bytes(&self) -> Vec<u8> {
        let mut bytes = self.number.to_le_bytes().to_vec();
        bytes.extend([self.kind, self.state]);
        for count in [self.declared, self.received, self.due] {
            bytes.extend(count.to_le_bytes());
        }
        bytes
    }

    pub fn of(bytes: &[u8]) -> Record {
        let count = |at: usize| u32::from_le_bytes(bytes[at..at + 4].try_into().expect("four"));
        Record {
            number: u16::from_le_bytes([bytes[0], bytes[1]]),
            kind: bytes[2],
            state: bytes[3],
            declared: count(4),
            received: count(8),
            due: count(12),
        }
    }

    fn is_sound(&self) -> bool {
        if self.number == 0 {
            return *self == Record::default();
        }
        let received = match self.state {
            1 => self.received < self.declared,
            2..=6 => self.received == self.declared,
            7 => self.received <= self.declared,
            _ => false,
        };
        suits(self.kind, self.declared) && received && (self.state == 4) == (self.due >= 1)
    }
}

/// "Head, read and delete declare 0 bytes; create, update, replace 1 to 4,096; action 0 to 4,096."
fn suits(kind: u8, declared: u32) -> bool {
    match kind {
        0 | 1 | 3 => declared == 0,
        2 | 4 | 5 => (1..=4_096).contains(&declared),
        6 => declared <= 4_096,
        _ => false,
    }
}

#[derive(Clone, Copy, Debug)]
pub enum Call<'a> {
    Open(u16, u8, u32),
    Feed(u16, &'a [u8]),
    Start(u16),
    Failed(u16),
    Good(u16, u32),
    Take(u16, u32),
    Kill(u16),
    Close(u16),
    Status(u16),
    List,
}

/// How many numbers status tells: state, received, due.
pub const STATUS: usize = 3;

/// What a call answers: its number, and what status or list tell.
#[derive(Debug, PartialEq, Eq)]
pub struct Answer {
    pub number: u32,
    pub told: Vec<u32>,
}

impl Answer {
    fn bare(number: u32) -> Answer {
        Answer { number, told: Vec::new() }
    }
}

/// Makes the call on a desk that is lent as bytes. Only feed looks at the store.
pub fn call(desk: &mut [u8], store: &mut [u8], call: Call) -> Answer {
    if desk.len() != DESK_BYTES {
        return Answer::bare(20);
    }
    let mut records: Vec<Record> = desk.chunks_exact(RECORD_BYTES).map(Record::of).collect();
    let answer = answer(&mut records, store, call);
    if answer.number == 0 {
        desk.copy_from_slice(&records.iter().flat_map(Record::bytes).collect::<Vec<u8>>());
    }
    answer
}

fn is_sound(records: &[Record]) -> bool {
    let numbers: Vec<u16> = records.iter().map(|r| r.number).filter(|&n| n != 0).collect();
    let twice = numbers.iter().any(|n| numbers.iter().filter(|m| *m == n).count() > 1);
    records.iter().all(Record::is_sound) && !twice
}

fn answer(records: &mut [Record], store: &mut [u8], call: Call) -> Answer {
    if !is_sound(records) || matches!(call, Call::Feed(..)) && store.len() != STORE_BYTES {
        return Answer::bare(20);
    }
    let number = match call {
        Call::List => return list(records),
        Call::Open(number, ..) | Call::Feed(number, _) | Call::Good(number, _) => number,
        Call::Start(number) | Call::Failed(number) | Call::Take(number, _) => number,
        Call::Kill(number) | Call::Close(number) | Call::Status(number) => number,
    };
    if number == 0 {
        return Answer::bare(21);
    }
    let place = records.iter().position(|record| record.number == number);
    match (call, place) {
        (Call::Open(_, kind, declared), _) => Answer::bare(open(records, number, kind, declared)),
        (Call::Status(_), _) => {
            let record = place.map_or(Record::default(), |place| records[place]);
            Answer { number: 0, told: vec![record.state.into(), record.received, record.due] }
        }
        (_, None) => Answer::bare(24),
        (_, Some(place)) => {
            let kept = &mut store[..];
            Answer::bare(step(&mut records[place], kept, place, call))
        }
    }
}

fn list(records: &[Record]) -> Answer {
    let mut told: Vec<u32> = records.iter().map(|record| record.number.into()).collect();
    told.retain(|&number| number != 0);
    told.sort_unstable();
    told.resize(PLACES, 0);
    Answer { number: 0, told }
}

fn open(records: &mut [Record], number: u16, kind: u8, declared: u32) -> u32 {
    if records.iter().any(|record| record.number == number) {
        return 22;
    }
    if !suits(kind, declared) {
        return 26;
    }
    match records.iter_mut().find(|record| record.number == 0) {
        None => 23,
        Some(record) => {
            let state = if declared == 0 { 2 } else { 1 };
            *record = Record { number, kind, state, declared, ..Record::default() };
            0
        }
    }
}

/// The moves of one record; `place` is where its bytes are kept.
fn step(record: &mut Record, store: &mut [u8], place: usize, call: Call) -> u32 {
    match (call, record.state) {
        (Call::Feed(_, piece), 1) => {
            let free = (record.declared - record.received) as usize;
            if piece.is_empty() || piece.len() > free {
                return 27;
            }
            let at = place * PLACE_BYTES + record.received as usize;
            store[at..at + piece.len()].copy_from_slice(piece);
            record.received += piece.len() as u32;
            if record.received == record.declared {
                record.state = 2;
            }
        }
        (Call::Start(_), 2) => record.state = 3,
        (Call::Failed(_), 3) => record.state = 6,
        (Call::Good(_, 0), 3) => record.state = 5,
        (Call::Good(_, results), 3) => {
            record.state = 4;
            record.due = results;
        }
        (Call::Take(_, n), 4) => {
            if n == 0 || n > record.due {
                return 27;
            }
            record.due -= n;
            if record.due == 0 {
                record.state = 5;
            }
        }
        (Call::Kill(_), 1..=4) => {
            record.state = 7;
            record.due = 0;
        }
        (Call::Close(_), 5..=7) => *record = Record::default(),
        _ => return 25,
    }
    0
}
