//! One set of a thousand integers with names of one length, and texts that name them all: what the
//! search for a name costs where it costs most.

use super::draft::{Draft, Row};
use crate::dictionary::{is_letter, INTEGER, SET};

pub const COUNT: usize = 1_000;

const LETTERS: usize = 40;

/// Where the names differ first. There are 93 letters, so a thousand names can't all differ in one place.
#[derive(Clone, Copy, Debug)]
pub enum Differ {
    /// In the last letter from up to 92 others, in the last but one from the rest.
    Last,
    /// In the first letter from all but some ten others, in the second from those.
    First,
}

/// The set, its children in the order of their names' numbers.
pub fn dictionary(differ: Differ) -> Vec<u8> {
    let mut draft = Draft::default();
    draft.rows.push(Row::new(SET, 0, None).with_children(1, COUNT));
    for number in 0..COUNT {
        let name = draft.add_name(&name(differ, number));
        draft.rows.push(Row::new(INTEGER, number, Some(name)));
    }
    draft.bytes(draft.size())
}

/// A text that gives each of these children a value.
pub fn text(differ: Differ, order: impl Iterator<Item = usize>) -> Vec<u8> {
    let members: Vec<Vec<u8>> =
        order.map(|number| [b"\"", &name(differ, number)[..], b"\":7"].concat()).collect();
    [b"{", &members.join(&b","[..])[..], b"}"].concat()
}

fn name(differ: Differ, number: usize) -> Vec<u8> {
    let letters: Vec<u8> = (0..=255).filter(|byte| is_letter(*byte)).collect();
    let mut name = vec![b'a'; LETTERS - 2];
    name.push(letters[number / letters.len()]);
    name.push(letters[number % letters.len()]);
    if let Differ::First = differ {
        name.reverse();
    }
    name
}
