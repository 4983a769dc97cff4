//! Payloads that are right under a dictionary, and the same with a few changes.

use super::draft::{Draft, Row as Drafted};
use crate::dictionary::{rows, Row, ARRAY, BOOLEAN, ENUM, INTEGER, SET, STRING};
use crate::random::Random;
use crate::reader::{DEPTH_MOST, MOST};

const HEADER: [u8; 7] = [0x00, 0xF0, 0xF0, 0xF1, 0x00, 0x00, 0x00];
const NULL: u8 = 2;

/// How a payload uses what the paper leaves free, in chances of a hundred.
#[derive(Clone, Copy)]
pub struct Style {
    /// Numbers with more bytes than they need, flags and unread bits set.
    pub loose: usize,
    /// Integers with bytes on top that only repeat their sign, which is refused.
    pub padded: usize,
    /// Members of a set in another order than the dictionary's.
    pub shuffled: usize,
    /// Members of a set that are left out.
    pub absent: usize,
    /// Strings have fewer letters than this.
    pub letters: usize,
}

pub const PLAIN: Style = Style { loose: 0, padded: 0, shuffled: 0, absent: 0, letters: 48 };
pub const FREE: Style = Style { loose: 20, shuffled: 60, absent: 30, ..PLAIN };

struct Maker<'a> {
    rows: Vec<Row<'a>>,
    random: &'a mut Random,
    style: Style,
    /// Bytes that may still be spent, so that the payload ends by its size.
    room: usize,
}

/// A payload under an accepted dictionary, of about `size` bytes where the dictionary allows it.
pub fn payload(dictionary: &[u8], random: &mut Random, style: Style, size: usize) -> Vec<u8> {
    let rows = rows(dictionary).expect("an accepted dictionary");
    let mut maker = Maker { rows, random, style, room: size.min(MOST - 64) };
    let value = maker.group(0, SET, 1);
    let mut bytes = HEADER.to_vec();
    if maker.slack() {
        bytes[4] = maker.random.byte();
        bytes[5] = maker.random.byte();
    }
    let root = maker.tuple(0, SET, &value);
    bytes.extend(root);
    bytes
}

impl Maker<'_> {
    fn slack(&mut self) -> bool {
        self.random.chance(self.style.loose)
    }

    fn number(&mut self, value: usize) -> Vec<u8> {
        let bytes = (value as u32).to_le_bytes();
        let least = (1..4).find(|&width| value >> (8 * width) == 0).unwrap_or(4);
        let width = if self.slack() { self.random.between(least, 4) } else { least };
        let mut number = vec![width as u8];
        number.extend(&bytes[..width]);
        number
    }

    fn tuple(&mut self, number: usize, format: u8, value: &[u8]) -> Vec<u8> {
        let mut tuple = self.number(2 * number);
        let unread = if self.slack() { self.random.byte() & 0x0E } else { 0 };
        tuple.push(format << 4 | unread);
        tuple.extend(self.number(value.len()));
        tuple.extend(value);
        tuple
    }

    /// V of a set or array.
    fn group(&mut self, row: usize, format: u8, depth: usize) -> Vec<u8> {
        let tuples = match format {
            SET => self.members(row, depth),
            _ => self.elements(row, depth),
        };
        let mut value = self.number(tuples.len());
        value.extend(tuples.concat());
        value
    }

    fn members(&mut self, row: usize, depth: usize) -> Vec<Vec<u8>> {
        let mut numbers: Vec<usize> = (0..self.rows[row].child_count).collect();
        if self.random.chance(self.style.shuffled) {
            for at in (1..numbers.len()).rev() {
                numbers.swap(at, self.random.below(at + 1));
            }
        }
        let mut tuples = Vec::new();
        for number in numbers {
            if !self.random.chance(self.style.absent) {
                let child = self.rows[row].first_child() + number;
                tuples.extend(self.member(child, number, depth));
            }
        }
        tuples
    }

    fn elements(&mut self, row: usize, depth: usize) -> Vec<Vec<u8>> {
        let child = self.rows[row].first_child();
        let count = self.random.below(5);
        let mut tuples = Vec::new();
        while tuples.len() < count {
            match self.member(child, tuples.len(), depth) {
                Some(tuple) => tuples.push(tuple),
                None => break,
            }
        }
        tuples
    }

    /// A tuple of this row, where one can be had in the room and the depth that are left.
    fn member(&mut self, row: usize, number: usize, depth: usize) -> Option<Vec<u8>> {
        const HEAD: usize = 24;
        if self.room < HEAD {
            return None;
        }
        self.room -= HEAD;
        let kind = self.rows[row].format;
        let value = match kind {
            _ if self.rows[row].nullable && self.random.chance(10) => {
                return Some(self.tuple(number, NULL, &[]));
            }
            SET | ARRAY if depth < DEPTH_MOST => self.group(row, kind, depth + 1),
            INTEGER => self.integer(),
            BOOLEAN => vec![self.random.pick(&[0x00, 0xFF])],
            STRING => self.string(),
            ENUM => {
                let option = self.random.below(self.rows[row].child_count);
                self.number(option)
            }
            _ => return None,
        };
        let tuple = self.tuple(number, kind, &value);
        self.room = (self.room + HEAD).saturating_sub(if kind > ARRAY { tuple.len() } else { 8 });
        Some(tuple)
    }

    fn integer(&mut self) -> Vec<u8> {
        let width = self.random.between(1, 8);
        let mut bytes: Vec<u8> = (0..width).map(|_| self.random.byte()).collect();
        if self.random.chance(self.style.padded) {
            let sign = if bytes[width - 1] < 0x80 { 0x00 } else { 0xFF };
            bytes.resize(self.random.between(width, 8), sign);
            return bytes;
        }
        while let [.., last, sign] = bytes[..] {
            let spare = if last < 0x80 { 0x00 } else { 0xFF };
            if sign != spare {
                break;
            }
            bytes.pop();
        }
        bytes
    }

    fn string(&mut self) -> Vec<u8> {
        const LETTERS: &[u8] = b" !#0123456789AZaz[]~{}:,";
        let length = self.random.below(self.style.letters).min(self.room);
        let mut bytes: Vec<u8> = (0..length).map(|_| self.random.pick(LETTERS)).collect();
        bytes.push(0);
        bytes
    }
}

/// The payload with one to three changes, mostly one.
pub fn damaged(good: &[u8], random: &mut Random) -> Vec<u8> {
    const EDGES: [u8; 16] = [
        0x00, 0x01, 0x02, 0x04, 0x05, 0x06, 0x10, 0x20, 0x30, 0x40, 0x50, 0x60, 0x70, 0x7F, 0x80,
        0xFF,
    ];
    let mut bytes = good.to_vec();
    for _ in 0..random.pick(&[1, 1, 1, 1, 2, 3]) {
        let at = random.below(bytes.len());
        match random.below(10) {
            0..=2 => bytes[at] = random.byte(),
            3..=4 => bytes[at] = random.pick(&EDGES),
            5 => bytes[at] ^= 1 << random.below(8),
            6 => bytes[at] = bytes[at].wrapping_add(random.pick(&[1, 2, 0xFF, 0xFE])),
            7 => bytes.insert(at, random.byte()),
            8 if bytes.len() > 1 => drop(bytes.remove(at)),
            _ => bytes.truncate(at.max(1)),
        }
    }
    bytes
}

/// A dictionary of one set with `count` integers, named by their numbers.
pub fn wide_dictionary(count: usize) -> Vec<u8> {
    let mut draft = Draft::default();
    draft.rows.push(Drafted::new(SET, 0, None).with_children(1, count));
    for number in 0..count {
        let name = draft.add_name(format!("n{number:04}").as_bytes());
        draft.rows.push(Drafted::new(INTEGER, number, Some(name)));
    }
    draft.bytes(draft.size())
}

/// A dictionary of one set whose one member, "a", is itself.
pub fn deep_dictionary() -> Vec<u8> {
    let mut draft = Draft::default();
    let name = draft.add_name(b"a");
    draft.rows = vec![Drafted::new(SET, 0, Some(name)).with_children(0, 1)];
    draft.bytes(draft.size())
}

/// A dictionary of one set whose one member is an array of integers.
pub fn array_dictionary() -> Vec<u8> {
    let mut draft = Draft::default();
    let name = draft.add_name(b"n");
    draft.rows.push(Drafted::new(SET, 0, None).with_children(1, 1));
    draft.rows.push(Drafted::new(ARRAY, 0, Some(name)).with_children(2, 1));
    draft.rows.push(Drafted::new(INTEGER, 0, None));
    draft.bytes(draft.size())
}

/// A set with one small integer for each of the numbers, in this order.
pub fn in_order(numbers: impl Iterator<Item = usize>) -> Vec<u8> {
    let root = small_integers(numbers);
    with_root(&root)
}

/// The one array of `array_dictionary`, with `count` small integers.
pub fn array_of(count: usize) -> Vec<u8> {
    with_array(&small_integers(0..count))
}

/// A root whose one member is an array of these enum options.
pub fn options(options: &[u8]) -> Vec<u8> {
    let tuples: Vec<Vec<u8>> = options
        .iter()
        .enumerate()
        .map(|(index, &option)| wide_tuple(index, ENUM, &[1, option]))
        .collect();
    with_array(&[two_bytes(tuples.len()), tuples.concat()].concat())
}

/// A set in a set, `depth` of them, each the first member of the one around it; the innermost has this value.
pub fn nested(depth: usize, innermost: &[u8]) -> Vec<u8> {
    let mut value = innermost.to_vec();
    for _ in 1..depth {
        value = [vec![1, 1], wide_tuple(0, SET, &value)].concat();
    }
    with_root(&value)
}

fn with_array(elements: &[u8]) -> Vec<u8> {
    with_root(&[vec![1, 1], wide_tuple(0, ARRAY, elements)].concat())
}

fn with_root(value: &[u8]) -> Vec<u8> {
    [HEADER.to_vec(), wide_tuple(0, SET, value)].concat()
}

fn small_integers(numbers: impl Iterator<Item = usize>) -> Vec<u8> {
    let tuples: Vec<Vec<u8>> = numbers.map(|number| wide_tuple(number, INTEGER, &[7])).collect();
    [two_bytes(tuples.len()), tuples.concat()].concat()
}

/// Numbers of two bytes everywhere but in the lengths of scalars: a tuple's cost must not hang on its number's width.
fn wide_tuple(number: usize, format: u8, value: &[u8]) -> Vec<u8> {
    let length = if format > ARRAY { vec![1, value.len() as u8] } else { two_bytes(value.len()) };
    [two_bytes(2 * number), vec![format << 4], length, value.to_vec()].concat()
}

fn two_bytes(value: usize) -> Vec<u8> {
    let bytes = u16::try_from(value).expect("two bytes").to_le_bytes();
    vec![2, bytes[0], bytes[1]]
}

#[cfg(test)]
mod tests {
    use super::*;
    use crate::make::ordinary;
    use crate::reader;

    #[test]
    fn right_ones_are_read() {
        let mut out = [0; reader::TEXT_MOST];
        let mut random = Random::new(3);
        for seed in 0..300 {
            let dictionary = ordinary::dictionary(200 + 30 * seed, seed as u64);
            let style = if seed % 2 == 0 { PLAIN } else { FREE };
            let bytes = payload(&dictionary, &mut random, style, 40 * seed);
            let answer = reader::read(&dictionary, &bytes, 1 << 20, &mut out);
            assert_eq!(answer.number, 0, "seed {seed}: {answer:?}");
        }
    }

    #[test]
    fn wide_ones_are_read() {
        let mut out = [0; reader::TEXT_MOST];
        let wide = wide_dictionary(2_000);
        let answer = reader::read(&wide, &in_order((0..2_000).rev()), 2_001, &mut out);
        assert_eq!((answer.number, answer.count), (0, 2_001));
        let answer = reader::read(&array_dictionary(), &array_of(2_000), 2_002, &mut out);
        assert_eq!((answer.number, answer.count), (0, 2_002));
    }
}
