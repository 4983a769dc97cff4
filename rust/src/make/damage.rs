//! A good dictionary with a few changes: single bytes, and edits that know the fields.

use crate::dictionary::{two, ENTRY, HEADER};
use crate::random::Random;

// Where an entry's fields stand.
const FORMAT: usize = 0;
const SEQUENCE: usize = 1;
const CHILD_OFFSET: usize = 3;
const CHILD_COUNT: usize = 5;
const NAME_LENGTH: usize = 7;
const NAME_OFFSET: usize = 8;

/// Bytes on both sides of what a name may have.
const EDGES: [u8; 12] = [0x00, 0x01, 0x1F, 0x20, 0x21, 0x22, 0x23, 0x5C, 0x7E, 0x7F, 0x80, 0xFF];

/// The dictionary with one to three changes, mostly one.
pub fn damaged(good: &[u8], random: &mut Random) -> Vec<u8> {
    let mut bytes = good.to_vec();
    for _ in 0..random.pick(&[1, 1, 1, 1, 2, 3]) {
        damage(&mut bytes, random);
    }
    bytes
}

fn damage(bytes: &mut Vec<u8>, random: &mut Random) {
    let rows = row_count(bytes);
    if rows == 0 {
        bytes.push(random.byte());
        return;
    }
    let row = HEADER + ENTRY * random.below(rows);
    let other = HEADER + ENTRY * random.below(rows);
    match random.below(14) {
        0 => any_byte(bytes, 0, random),
        1 => bytes[random.below(HEADER)] = random.byte(),
        2 => stray(bytes, 2, random),
        3 => resize(bytes, random),
        4 => bytes[1] ^= 1 << random.below(8),
        5 => bytes[row + FORMAT] = random.byte(),
        6 => bytes[row + FORMAT] ^= 1 << random.below(4),
        7 => bytes[row + NAME_LENGTH] = near(bytes[row + NAME_LENGTH].into(), random) as u8,
        8 => stray(bytes, row + random.pick(&[SEQUENCE, CHILD_COUNT]), random),
        9 => stray(bytes, row + random.pick(&[CHILD_OFFSET, NAME_OFFSET]), random),
        10 => bytes.copy_within(other + NAME_LENGTH..other + ENTRY, row + NAME_LENGTH),
        11 => bytes.copy_within(other + CHILD_OFFSET..other + NAME_LENGTH, row + CHILD_OFFSET),
        12 => repeat_letters(bytes, row, other),
        _ => {
            let names = (HEADER + ENTRY * rows).min(bytes.len() - 1);
            any_byte(bytes, names, random);
        }
    }
}

/// The rows that are there, whatever the entry count says.
fn row_count(bytes: &[u8]) -> usize {
    match bytes.len().checked_sub(HEADER) {
        Some(inside) => two(bytes, 2).min(inside / ENTRY),
        None => 0,
    }
}

fn any_byte(bytes: &mut [u8], from: usize, random: &mut Random) {
    let at = random.between(from, bytes.len() - 1);
    bytes[at] = if random.chance(50) { random.pick(&EDGES) } else { random.byte() };
}

/// A number of two bytes becomes one near it.
fn stray(bytes: &mut [u8], at: usize, random: &mut Random) {
    let value = near(two(bytes, at), random) as u16;
    bytes[at..at + 2].copy_from_slice(&value.to_le_bytes());
}

fn near(value: usize, random: &mut Random) -> usize {
    match random.below(8) {
        0 => 0,
        1 => 0xFFFF,
        2 => value.wrapping_sub(1),
        3 => value.wrapping_sub(ENTRY),
        4 => value + 1,
        5 => value + ENTRY,
        6 => value + 0x0100,
        _ => random.below(0x1_0000),
    }
}

/// Bytes cut off or added; the whole size mostly goes along.
fn resize(bytes: &mut Vec<u8>, random: &mut Random) {
    let length = match random.below(4) {
        0 => random.below(bytes.len() + 1),
        1 => bytes.len() - random.below(20).min(bytes.len()),
        _ => bytes.len() + random.below(20),
    };
    bytes.resize(length, random.pick(&EDGES));
    if length >= HEADER && random.chance(80) {
        bytes[8..HEADER].copy_from_slice(&(length as u32).to_le_bytes());
    }
}

/// Two names of the same bytes at two places: one is written over the end of the other.
fn repeat_letters(bytes: &mut [u8], to: usize, from: usize) {
    let length = bytes[from + NAME_LENGTH].min(bytes[to + NAME_LENGTH]) as usize;
    let source = two(bytes, from + NAME_OFFSET);
    let end = two(bytes, to + NAME_OFFSET) + bytes[to + NAME_LENGTH] as usize;
    if source + length <= bytes.len() && end <= bytes.len() {
        bytes.copy_within(source..source + length, end - length);
    }
}

#[cfg(test)]
mod tests {
    use super::*;
    use crate::dictionary::accepts;
    use crate::figure;

    #[test]
    fn some_accepted_and_most_not() {
        let mut random = Random::new(7);
        let dictionaries = (0..1_000).map(|_| damaged(&figure::bytes(), &mut random));
        let accepted = dictionaries.filter(|bytes| accepts(bytes)).count();
        assert!((100..600).contains(&accepted), "{accepted} of 1000");
    }
}
