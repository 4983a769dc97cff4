//! Rows and names of a dictionary, laid down as bytes.

use crate::dictionary::{ENTRY, HEADER};

/// The two bytes of an offset, a count or a sequence number.
fn number(value: usize) -> [u8; 2] {
    u16::try_from(value).expect("a dictionary's numbers have two bytes").to_le_bytes()
}

/// A part of the names that ends in their 00.
#[derive(Clone, Copy)]
pub struct Name {
    pub start: usize,
    /// With the closing 00.
    pub length: usize,
}

#[derive(Clone, Copy)]
pub struct Row {
    /// Kind in the high nibble, bits in the low one.
    pub format: u8,
    pub sequence: usize,
    pub first_child: usize,
    pub child_count: usize,
    pub name: Option<Name>,
}

impl Row {
    pub fn new(kind: u8, sequence: usize, name: Option<Name>) -> Row {
        Row { format: kind << 4, sequence, first_child: 0, child_count: 0, name }
    }

    pub fn kind(&self) -> u8 {
        self.format >> 4
    }

    pub fn with_children(self, first_child: usize, child_count: usize) -> Row {
        Row { first_child, child_count, ..self }
    }
}

#[derive(Default)]
pub struct Draft {
    pub rows: Vec<Row>,
    /// Each name is followed by its 00.
    pub names: Vec<u8>,
}

impl Draft {
    pub fn size(&self) -> usize {
        HEADER + ENTRY * self.rows.len() + self.names.len()
    }

    pub fn add_name(&mut self, letters: &[u8]) -> Name {
        let start = self.names.len();
        self.names.extend(letters);
        self.names.push(0);
        Name { start, length: letters.len() + 1 }
    }

    /// A dictionary of `size` bytes: what the draft leaves free, the copyright fills.
    pub fn bytes(&self, size: usize) -> Vec<u8> {
        assert!(self.size() <= size, "the draft has {} bytes, not {size}", self.size());
        let mut bytes = vec![0, 0];
        bytes.extend(number(self.rows.len()));
        bytes.extend([0x00, 0xF0, 0xF0, 0xF1]);
        bytes.extend((size as u32).to_le_bytes());
        for row in &self.rows {
            self.lay_down(row, &mut bytes);
        }
        bytes.extend(&self.names);
        let free = size - bytes.len();
        bytes.extend(b"Copyright ".iter().cycle().take(free));
        bytes
    }

    fn lay_down(&self, row: &Row, bytes: &mut Vec<u8>) {
        let names = HEADER + ENTRY * self.rows.len();
        let child_offset = if row.child_count == 0 { 0 } else { HEADER + ENTRY * row.first_child };
        let (name_length, name_offset) = row.name.map_or((0, 0), |n| (n.length, names + n.start));
        bytes.push(row.format);
        bytes.extend(number(row.sequence));
        bytes.extend(number(child_offset));
        bytes.extend(number(row.child_count));
        bytes.push(u8::try_from(name_length).expect("a name's length has one byte"));
        bytes.extend(number(name_offset));
    }
}
