//! Document 01's rules for a dictionary ("It is accepted exactly when"), held by plain Rust.
//!
//! It is written from the paper and not from the definitions under crates/: an independent opinion
//! for the tests, and a plain rival for speed. Siblings' names are compared pair by pair: on
//! sets of ten to sixty children that is quicker than a `HashSet` of the names. On a hostile
//! dictionary it takes the cube of the row count, so keep those small.

pub const LEAST: usize = 22;
pub const MOST: usize = 65_535;
pub const HEADER: usize = 12;
pub const ENTRY: usize = 10;

// The high nibble of a row's format.
pub const SET: u8 = 0;
pub const ARRAY: u8 = 1;
pub const INTEGER: u8 = 3;
pub const ENUM: u8 = 4;
pub const STRING: u8 = 5;
pub const BOOLEAN: u8 = 7;

pub struct Row<'a> {
    pub format: u8,
    pub nullable: bool,
    sequence: usize,
    child_offset: usize,
    pub child_count: usize,
    /// Without its closing 00; empty where the row has no name.
    pub name: &'a [u8],
}

impl Row<'_> {
    /// Of a row that has children, in an accepted dictionary.
    pub fn first_child(&self) -> usize {
        (self.child_offset - HEADER) / ENTRY
    }
}

/// Whether the dictionary is accepted.
pub fn accepts(bytes: &[u8]) -> bool {
    rows(bytes).is_some()
}

/// The rows of an accepted dictionary.
pub fn rows(bytes: &[u8]) -> Option<Vec<Row<'_>>> {
    let rows = spelt(bytes)?;
    let right = rows[0].format == SET && rows.iter().all(|row| children_are_right(row, &rows));
    right.then_some(rows)
}

/// The rows, where header and names are right.
fn spelt(bytes: &[u8]) -> Option<Vec<Row<'_>>> {
    if !(LEAST..=MOST).contains(&bytes.len()) {
        return None;
    }
    let tag = bytes[0];
    let truncated = bytes[1] & 1 == 1;
    let count = two(bytes, 2);
    let size = u32::from_le_bytes([bytes[8], bytes[9], bytes[10], bytes[11]]);
    let names = HEADER + ENTRY * count;
    if tag != 0 || truncated || size as usize != bytes.len() || count == 0 || names > bytes.len() {
        return None;
    }
    let entries = bytes[HEADER..names].chunks_exact(ENTRY);
    entries.map(|entry| row(bytes, names, entry)).collect()
}

fn row<'a>(bytes: &'a [u8], names: usize, entry: &[u8]) -> Option<Row<'a>> {
    Some(Row {
        format: entry[0] >> 4,
        nullable: entry[0] & 4 == 4,
        sequence: two(entry, 1),
        child_offset: two(entry, 3),
        child_count: two(entry, 5),
        name: name(bytes, names, two(entry, 8), entry[7] as usize)?,
    })
}

/// "A name is offset 0 with length 0, or at least 2 bytes lying after the entries and inside the
/// dictionary, ending in its only 00".
fn name(bytes: &[u8], names: usize, offset: usize, length: usize) -> Option<&[u8]> {
    if offset == 0 && length == 0 {
        return Some(&[]);
    }
    if length < 2 || offset < names {
        return None;
    }
    let (closing, letters) = bytes.get(offset..offset + length)?.split_last()?;
    let right = *closing == 0 && letters.iter().all(|letter| is_letter(*letter));
    right.then_some(letters)
}

/// "From 0x20 to 0x7E without 0x22 and 0x5C."
pub fn is_letter(byte: u8) -> bool {
    (0x20..=0x7E).contains(&byte) && byte != 0x22 && byte != 0x5C
}

fn children_are_right(row: &Row, rows: &[Row]) -> bool {
    match (row.format, children(row, rows)) {
        (SET, Some(c)) => numbered(c) && named_apart(c),
        (ARRAY, Some(c)) => c.len() == 1 && numbered(c),
        (ENUM, Some(c)) => !c.is_empty() && strings(c) && numbered(c) && named_apart(c),
        (SET | ARRAY | ENUM, None) => false,
        (INTEGER | STRING | BOOLEAN, _) => row.child_offset == 0 && row.child_count == 0,
        _ => true,
    }
}

/// "Either offset 0 with count 0, or offset 12+10k with k + count no more than the entry count."
fn children<'r, 'a>(row: &Row, rows: &'r [Row<'a>]) -> Option<&'r [Row<'a>]> {
    if row.child_offset == 0 && row.child_count == 0 {
        return Some(&[]);
    }
    let past = row.child_offset.checked_sub(HEADER)?;
    if past % ENTRY != 0 {
        return None;
    }
    let first = past / ENTRY;
    rows.get(first..first + row.child_count)
}

fn strings(children: &[Row]) -> bool {
    children.iter().all(|child| child.format == STRING)
}

/// "The child at position p has sequence number p."
fn numbered(children: &[Row]) -> bool {
    let mut positions = children.iter().enumerate();
    positions.all(|(position, child)| child.sequence == position)
}

/// "Children of a set or enum are named, no two alike."
fn named_apart(children: &[Row]) -> bool {
    let mut positions = children.iter().enumerate();
    positions.all(|(position, child)| {
        let earlier = &children[..position];
        !child.name.is_empty() && earlier.iter().all(|other| other.name != child.name)
    })
}

/// A number of two bytes.
pub fn two(bytes: &[u8], at: usize) -> usize {
    u16::from_le_bytes([bytes[at], bytes[at + 1]]) as usize
}
