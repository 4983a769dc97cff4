//! Document 01's writer ("The text", "What a refusal says"), held by plain Rust.
//!
//! It is written from the paper and not from the definitions under crates/: an independent opinion
//! for the tests, and a plain rival for speed. Each value's bytes are made inside out.

use crate::dictionary::{is_letter, rows, Row, ARRAY, BOOLEAN, ENUM, INTEGER, SET, STRING};
use crate::reader::{Answer, DEPTH_MOST, MOST, TEXT_MOST};

const HEADER: [u8; 7] = [0x00, 0xF0, 0xF0, 0xF1, 0x00, 0x00, 0x00];
const NULL: u8 = 2;
const REAL: u8 = 6;

/// A refusal: number and place.
type Fault = (u32, usize);

pub fn write(dictionary: &[u8], text: &[u8], out: &mut [u8]) -> Answer {
    match payload(dictionary, text, out.len()) {
        Ok((bytes, count)) => {
            out[..bytes.len()].copy_from_slice(&bytes);
            Answer { count, length: bytes.len(), ..Answer::default() }
        }
        Err((number, place)) => Answer { number, place, ..Answer::default() },
    }
}

/// The payload, and the count of tuples.
fn payload(dictionary: &[u8], text: &[u8], room: usize) -> Result<(Vec<u8>, usize), Fault> {
    let rows = rows(dictionary).ok_or((1, 0))?;
    if !(1..=TEXT_MOST).contains(&text.len()) {
        return Err((2, 0));
    }
    let mut writer = Writer { rows, text, at: 0, count: 0 };
    let token = writer.token()?;
    let root = writer.value(0, &token, 1)?;
    writer.skip_spaces();
    if writer.at < text.len() {
        return Err((13, writer.at));
    }
    let mut bytes = HEADER.to_vec();
    put_tuple(&mut bytes, 0, &root);
    if bytes.len() > room.min(MOST) {
        return Err((14, 0));
    }
    Ok((bytes, writer.count))
}

#[derive(Clone, Copy, PartialEq)]
enum Kind<'a> {
    End,
    /// One of `{}[]:,`, or a byte that begins no token.
    Sign(u8),
    String(&'a [u8]),
    /// The longest run of letters, digits and `+-.`
    Run(&'a [u8]),
}

struct Token<'a> {
    start: usize,
    kind: Kind<'a>,
}

struct Value {
    format: u8,
    bytes: Vec<u8>,
}

struct Writer<'a> {
    rows: Vec<Row<'a>>,
    text: &'a [u8],
    at: usize,
    count: usize,
}

impl<'a> Writer<'a> {
    fn skip_spaces(&mut self) {
        let spaces = self.text[self.at..].iter().take_while(|b| b" \t\n\r".contains(b));
        self.at += spaces.count();
    }

    /// The next token, where its own grammar is right.
    fn token(&mut self) -> Result<Token<'a>, Fault> {
        self.skip_spaces();
        let start = self.at;
        let rest = &self.text[start..];
        let run = rest.iter().take_while(|b| b.is_ascii_alphanumeric() || b"+-.".contains(b));
        let kind = match (run.count(), rest) {
            (0, []) => Kind::End,
            (0, [b'"', letters @ ..]) => {
                let length = letters.iter().take_while(|b| is_letter(**b)).count();
                match letters.get(length) {
                    Some(b'"') => Kind::String(&letters[..length]),
                    Some(_) => return Err((15, start)),
                    None => return Err((15, self.text.len())),
                }
            }
            (0, [sign, ..]) => Kind::Sign(*sign),
            (length, _) if is_word(&rest[..length]) || is_number(&rest[..length]) => {
                Kind::Run(&rest[..length])
            }
            _ => return Err((15, start)),
        };
        self.at += match kind {
            Kind::End => 0,
            Kind::Sign(_) => 1,
            Kind::String(letters) => letters.len() + 2,
            Kind::Run(bytes) => bytes.len(),
        };
        Ok(Token { start, kind })
    }

    /// The value that begins with this token, at a row. Row 0 stands only at the root or where a row names it as its
    /// child, and there too it is a set.
    fn value(&mut self, row: usize, token: &Token, depth: usize) -> Result<Value, Fault> {
        let Row { format, nullable, .. } = self.rows[row];
        let own = match token.kind {
            Kind::Sign(b'{') => SET,
            Kind::Sign(b'[') => ARRAY,
            Kind::Run(b"null") => NULL,
            Kind::Run(b"true" | b"false") => BOOLEAN,
            Kind::Run(bytes) if bytes.iter().any(|b| b".eE".contains(b)) => {
                return Err((8, token.start))
            }
            Kind::Run(_) => INTEGER,
            Kind::String(_) if format == ENUM => ENUM,
            Kind::String(_) => STRING,
            Kind::Sign(_) | Kind::End => return Err((15, token.start)),
        };
        if own != NULL && (format == REAL || format > BOOLEAN) {
            return Err((8, token.start));
        }
        let fits = if own == NULL { nullable && depth > 1 } else { own == format };
        if !fits {
            return Err((9, token.start));
        }
        if own <= ARRAY && depth > DEPTH_MOST {
            return Err((11, token.start));
        }
        self.count += 1;
        let bytes = match (own, token.kind) {
            (SET, _) => self.members(row, depth)?,
            (ARRAY, _) => self.elements(row, depth)?,
            (_, kind) => self.scalar(row, own, kind).ok_or((10, token.start))?,
        };
        Ok(Value { format: own, bytes })
    }

    fn scalar(&self, row: usize, own: u8, kind: Kind) -> Option<Vec<u8>> {
        match (own, kind) {
            (INTEGER, Kind::Run(digits)) => integer(digits),
            (BOOLEAN, kind) => Some(vec![if kind == Kind::Run(b"true") { 0xFF } else { 0x00 }]),
            (STRING, Kind::String(letters)) => Some([letters, &[0]].concat()),
            (ENUM, Kind::String(letters)) => self.child(row, letters).map(number),
            _ => Some(Vec::new()),
        }
    }

    /// The position of the child with this name.
    fn child(&self, row: usize, name: &[u8]) -> Option<usize> {
        let parent = &self.rows[row];
        (0..parent.child_count).find(|at| self.rows[parent.first_child() + at].name == name)
    }

    /// After `{`.
    fn members(&mut self, row: usize, depth: usize) -> Result<Vec<u8>, Fault> {
        let mut given = Vec::new();
        let mut tuples = Vec::new();
        let mut token = self.token()?;
        while !(given.is_empty() && token.kind == Kind::Sign(b'}')) {
            let name = match token.kind {
                Kind::String(name) => name,
                _ => return Err((15, token.start)),
            };
            let child = self.child(row, name).ok_or((6, token.start))?;
            if given.contains(&child) {
                return Err((7, token.start));
            }
            given.push(child);
            self.sign(b":")?;
            let first = self.token()?;
            let value = self.value(self.rows[row].first_child() + child, &first, depth + 1)?;
            put_tuple(&mut tuples, child, &value);
            if self.sign(b",}")? == b'}' {
                break;
            }
            token = self.token()?;
        }
        Ok([number(given.len()), tuples].concat())
    }

    /// After `[`.
    fn elements(&mut self, row: usize, depth: usize) -> Result<Vec<u8>, Fault> {
        let mut count = 0;
        let mut tuples = Vec::new();
        let mut token = self.token()?;
        while !(count == 0 && token.kind == Kind::Sign(b']')) {
            let value = self.value(self.rows[row].first_child(), &token, depth + 1)?;
            put_tuple(&mut tuples, count, &value);
            count += 1;
            if self.sign(b",]")? == b']' {
                break;
            }
            token = self.token()?;
        }
        Ok([number(count), tuples].concat())
    }

    /// One of these signs has its turn.
    fn sign(&mut self, signs: &[u8]) -> Result<u8, Fault> {
        let token = self.token()?;
        match token.kind {
            Kind::Sign(sign) if signs.contains(&sign) => Ok(sign),
            _ => Err((15, token.start)),
        }
    }
}

fn put_tuple(bytes: &mut Vec<u8>, sequence: usize, value: &Value) {
    bytes.extend(number(2 * sequence));
    bytes.push(value.format << 4);
    bytes.extend(number(value.bytes.len()));
    bytes.extend(&value.bytes);
}

/// The shortest number.
fn number(value: usize) -> Vec<u8> {
    let mut bytes = (value as u32).to_le_bytes().to_vec();
    while bytes.len() > 1 && bytes.ends_with(&[0]) {
        bytes.pop();
    }
    bytes.insert(0, bytes.len() as u8);
    bytes
}

/// The shortest bytes of an integer that 8 bytes hold; "`-0` is 10."
fn integer(digits: &[u8]) -> Option<Vec<u8>> {
    if digits == b"-0" {
        return None;
    }
    let value: i64 = std::str::from_utf8(digits).ok()?.parse().ok()?;
    let bytes = value.to_le_bytes();
    let fits = |width: &usize| value << (64 - 8 * width) >> (64 - 8 * width) == value;
    let width = (1..=8).find(fits).expect("8 bytes hold it");
    Some(bytes[..width].to_vec())
}

fn is_word(run: &[u8]) -> bool {
    matches!(run, b"true" | b"false" | b"null")
}

/// `-?(0|[1-9][0-9]*)(\.[0-9]+)?([eE][+-]?[0-9]+)?`
fn is_number(run: &[u8]) -> bool {
    let run = run.strip_prefix(b"-").unwrap_or(run);
    let (whole, rest) = digits(run);
    if whole.is_empty() || whole.len() > 1 && whole[0] == b'0' {
        return false;
    }
    let rest = match rest {
        [b'.', rest @ ..] => match digits(rest) {
            ([], _) => return false,
            (_, rest) => rest,
        },
        _ => rest,
    };
    match rest {
        [] => true,
        [b'e' | b'E', b'+' | b'-', rest @ ..] | [b'e' | b'E', rest @ ..] => {
            matches!(digits(rest), ([_, ..], []))
        }
        _ => false,
    }
}

/// The digits in front, and what follows them.
fn digits(run: &[u8]) -> (&[u8], &[u8]) {
    run.split_at(run.iter().take_while(|b| b.is_ascii_digit()).count())
}
