//! Document 01's reader ("The payload", "The text", "What a refusal says"), held by plain Rust.
//!
//! It is written from the paper and not from the definitions under crates/: an independent opinion
//! for the tests, and a plain rival for speed. One pass; the text grows in a `Vec` and is copied to
//! the lent buffer when all is judged.

use crate::dictionary::{is_letter, rows, Row, ARRAY, BOOLEAN, ENUM, INTEGER, SET, STRING};

pub const LEAST: usize = 7;
pub const MOST: usize = 16_384;
pub const TEXT_MOST: usize = 65_535;
pub const DEPTH_MOST: usize = 16;

const NULL: u8 = 2;
const REAL: u8 = 6;

/// What a call answers: number, place, count of tuples, length of the text.
#[derive(Clone, Copy, Debug, Default, PartialEq, Eq)]
pub struct Answer {
    pub number: u32,
    pub place: usize,
    pub count: usize,
    pub length: usize,
}

/// A refusal: number and place.
type Fault = (u32, usize);

pub fn read(dictionary: &[u8], payload: &[u8], budget: usize, out: &mut [u8]) -> Answer {
    match text(dictionary, payload, budget, out.len()) {
        Ok((text, count)) => {
            out[..text.len()].copy_from_slice(&text);
            Answer { count, length: text.len(), ..Answer::default() }
        }
        Err((number, place)) => Answer { number, place, ..Answer::default() },
    }
}

/// The text, and the count of tuples.
fn text(dict: &[u8], bytes: &[u8], budget: usize, room: usize) -> Result<(Vec<u8>, usize), Fault> {
    let rows = rows(dict).ok_or((1, 0))?;
    if !(LEAST..=MOST).contains(&bytes.len()) {
        return Err((2, 0));
    }
    if bytes[..4] != [0x00, 0xF0, 0xF0, 0xF1] || bytes[6] != 0 {
        return Err((3, 0));
    }
    let mut reader = Reader { rows, bytes, left: budget, text: Vec::new() };
    let end = reader.root()?;
    if end < bytes.len() {
        return Err((13, end));
    }
    if reader.text.len() > room.min(TEXT_MOST) {
        return Err((14, 0));
    }
    Ok((reader.text, budget - reader.left))
}

struct Reader<'a> {
    rows: Vec<Row<'a>>,
    bytes: &'a [u8],
    left: usize,
    text: Vec<u8>,
}

/// A tuple's format, and where its value starts and ends.
struct Value {
    format: u8,
    from: usize,
    to: usize,
}

impl Reader<'_> {
    /// The place after the root.
    fn root(&mut self) -> Result<usize, Fault> {
        let (number, at) = self.sequence(LEAST, self.bytes.len())?;
        if number != 0 {
            return Err((6, LEAST));
        }
        let value = self.value(LEAST, at, self.bytes.len(), |format| format == SET)?;
        self.members(0, LEAST, &value, 1)?;
        Ok(value.to)
    }

    /// A set or an array between its brackets; its tuple starts at `start`.
    fn members(&mut self, row: usize, start: usize, v: &Value, depth: usize) -> Result<(), Fault> {
        if depth > DEPTH_MOST {
            return Err((11, start));
        }
        let (count, mut at) = self.number(v.from, v.to).map_err(|fault| (fault, start))?;
        let mut given = vec![false; self.rows[row].child_count];
        self.text.push(if v.format == SET { b'{' } else { b'[' });
        for index in 0..count {
            if index > 0 {
                self.text.push(b',');
            }
            at = self.member(row, index, &mut given, at, v.to, depth)?;
        }
        if at != v.to {
            return Err((10, start));
        }
        self.text.push(if v.format == SET { b'}' } else { b']' });
        Ok(())
    }

    /// The tuple at `start`, which has to end by `end`; answers the place after it.
    fn member(
        &mut self,
        row: usize,
        index: usize,
        given: &mut [bool],
        start: usize,
        end: usize,
        depth: usize,
    ) -> Result<usize, Fault> {
        let (number, at) = self.sequence(start, end)?;
        let parent = &self.rows[row];
        let child = match parent.format {
            SET if number < parent.child_count => parent.first_child() + number,
            ARRAY if number == index => parent.first_child(),
            _ => return Err((6, start)),
        };
        if parent.format == SET {
            if given[number] {
                return Err((7, start));
            }
            given[number] = true;
        }
        let Row { format, nullable, name, .. } = self.rows[child];
        let fits = |own: u8| if own == NULL { nullable } else { own == format };
        let value = self.value(start, at, end, fits)?;
        if self.rows[row].format == SET {
            self.quoted(name);
            self.text.push(b':');
        }
        match value.format {
            SET | ARRAY => self.members(child, start, &value, depth + 1)?,
            _ => self.scalar(child, &value).map_err(|number| (number, start))?,
        }
        Ok(value.to)
    }

    /// Budget, S and selector: the sequence number, and the place after S.
    fn sequence(&mut self, start: usize, end: usize) -> Result<(usize, usize), Fault> {
        if self.left == 0 {
            return Err((12, start));
        }
        self.left -= 1;
        let (number, at) = self.number(start, end).map_err(|fault| (fault, start))?;
        if number % 2 == 1 {
            return Err((8, start));
        }
        Ok((number / 2, at))
    }

    /// F and L, from `at` on.
    fn value(
        &self,
        start: usize,
        at: usize,
        end: usize,
        fits: impl Fn(u8) -> bool,
    ) -> Result<Value, Fault> {
        if at >= end {
            return Err((4, start));
        }
        let format = self.bytes[at] >> 4;
        if self.bytes[at] & 1 == 1 || format == REAL || format > BOOLEAN {
            return Err((8, start));
        }
        if !fits(format) {
            return Err((9, start));
        }
        let (length, from) = self.number(at + 1, end).map_err(|fault| (fault, start))?;
        if length > end - from {
            return Err((4, start));
        }
        Ok(Value { format, from, to: from + length })
    }

    /// A number that has to end by `end`: its value, and the place after it.
    fn number(&self, at: usize, end: usize) -> Result<(usize, usize), u32> {
        if at >= end {
            return Err(4);
        }
        let width = self.bytes[at] as usize;
        if !(1..=4).contains(&width) {
            return Err(5);
        }
        let digits = self.bytes[at + 1..end].get(..width).ok_or(4_u32)?;
        let value = digits.iter().rev().fold(0, |value, &digit| value << 8 | digit as usize);
        Ok((value, at + 1 + width))
    }

    fn scalar(&mut self, row: usize, value: &Value) -> Result<(), u32> {
        let bytes = &self.bytes[value.from..value.to];
        match (value.format, bytes) {
            (NULL, []) => self.text.extend(b"null"),
            (INTEGER, _) if (1..=8).contains(&bytes.len()) && !longer_than_needed(bytes) => {
                self.text.extend(integer(bytes).to_string().as_bytes())
            }
            (BOOLEAN, [0x00]) => self.text.extend(b"false"),
            (BOOLEAN, [0xFF]) => self.text.extend(b"true"),
            (STRING, [letters @ .., 0]) if letters.iter().all(|letter| is_letter(*letter)) => {
                self.quoted(letters)
            }
            (ENUM, _) => {
                let (option, at) = self.number(value.from, value.to)?;
                let parent = &self.rows[row];
                if at != value.to || option >= parent.child_count {
                    return Err(10);
                }
                self.quoted(self.rows[parent.first_child() + option].name);
            }
            _ => return Err(10),
        }
        Ok(())
    }

    fn quoted(&mut self, letters: &[u8]) {
        self.text.push(b'"');
        self.text.extend(letters);
        self.text.push(b'"');
    }
}

/// Two's complement, the lowest byte first.
fn integer(bytes: &[u8]) -> i64 {
    let sign = if bytes[bytes.len() - 1] & 0x80 == 0 { 0x00 } else { 0xFF };
    let mut whole = [sign; 8];
    whole[..bytes.len()].copy_from_slice(bytes);
    i64::from_le_bytes(whole)
}

/// Request 6: "two or more bytes whose top byte only repeats the sign". Without it they say the same.
fn longer_than_needed(bytes: &[u8]) -> bool {
    match bytes {
        [below @ .., _] if !below.is_empty() => integer(below) == integer(bytes),
        _ => false,
    }
}
