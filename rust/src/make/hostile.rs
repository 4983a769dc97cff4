//! Dictionaries made to be slow to judge: accepted, or refused for the name of their last row only.
//!
//! The child at position p has sequence number p, so blocks that share a row start at the same row.
//! Names of one length differ in two letters only, and many rows find their names in few bytes.

use super::draft::{Draft, Name, Row};
use crate::dictionary::{is_letter, ENUM, SET, STRING};

/// Who has which children.
#[derive(Clone, Copy, Debug, PartialEq)]
pub enum Blocks {
    /// Row 0 is a set of all rows; the others are strings.
    One,
    /// Every row is a set of all rows.
    Shared,
    /// Row i is a set of the rows 0 to i.
    Growing,
    /// Row i is a set of all rows but the last i.
    Falling,
    /// Half of the rows stand in blocks of `width`; the others are sets, each of one of the blocks.
    /// With `again` all blocks have the same names.
    Apart { width: usize, again: bool },
    /// That many rows of a hundred are strings; the others are enums of all of them.
    Options { percent: usize },
}

/// What names of one length have in common.
#[derive(Clone, Copy, Debug, PartialEq)]
pub enum Common {
    /// All but the last two letters. A name may then be a tail of a longer one.
    Front,
    /// All but the first two letters.
    Back,
}

#[derive(Clone, Copy, Debug, PartialEq)]
pub enum Ending {
    Accepted,
    /// The last two rows have the same name.
    Refused,
}

#[derive(Clone, Copy, Debug, PartialEq)]
pub struct Hostile {
    pub blocks: Blocks,
    pub rows: usize,
    pub common: Common,
    /// Letters of the longest names: 2 to 254.
    pub letters: usize,
    pub ending: Ending,
}

/// Every family of blocks, with parameters worth trying.
pub fn families() -> Vec<Blocks> {
    let mut families = vec![Blocks::One, Blocks::Shared, Blocks::Growing, Blocks::Falling];
    for width in [1, 2, 8, 50, 400] {
        families.push(Blocks::Apart { width, again: false });
        families.push(Blocks::Apart { width, again: true });
    }
    for percent in [10, 30, 50, 70, 90] {
        families.push(Blocks::Options { percent });
    }
    families
}

/// Every dictionary of a family with these row counts and letters, whether or not there is one.
pub fn family(blocks: Blocks, rows: &[usize], letters: &[usize]) -> Vec<Hostile> {
    let mut family = Vec::new();
    for &rows in rows {
        for &letters in letters {
            for common in [Common::Front, Common::Back] {
                for ending in [Ending::Accepted, Ending::Refused] {
                    family.push(Hostile { blocks, rows, common, letters, ending });
                }
            }
        }
    }
    family
}

impl Hostile {
    /// Nothing where there is no such dictionary: the names find no room, or the last block has no
    /// two rows to be alike.
    pub fn dictionary(&self, size: usize) -> Option<Vec<u8>> {
        let mut plan = self.plan()?;
        if self.ending == Ending::Refused {
            self.repeat_last_name(&mut plan)?;
        }
        let rows = plan.iter().map(|(row, _)| *row).collect();
        let mut draft = Draft { rows, names: Vec::new() };
        let strings = size.checked_sub(draft.size())? / (self.letters + 1);
        let strings = strings.min(letters().len().pow(2));
        for string in 0..strings {
            draft.add_name(&self.string(string));
        }
        for (row, (_, which)) in draft.rows.iter_mut().zip(plan) {
            row.name = Some(self.name(which, strings)?);
        }
        Some(draft.bytes(size))
    }

    /// The rows without their names, and which name each has.
    fn plan(&self) -> Option<Vec<(Row, usize)>> {
        let n = self.rows;
        let set =
            |i: usize, children: usize| (Row::new(SET, i, None).with_children(0, children), i);
        let string = |i: usize| (Row::new(STRING, i, None), i);
        Some(match self.blocks {
            Blocks::One => (0..n).map(|i| if i == 0 { set(i, n) } else { string(i) }).collect(),
            Blocks::Shared => (0..n).map(|i| set(i, n)).collect(),
            Blocks::Growing => (0..n).map(|i| set(i, i + 1)).collect(),
            Blocks::Falling => (0..n).map(|i| set(i, n - i)).collect(),
            Blocks::Apart { width, again } => apart(n, width, again)?,
            Blocks::Options { percent } => options(n, n * percent / 100)?,
        })
    }

    fn repeat_last_name(&self, plan: &mut [(Row, usize)]) -> Option<()> {
        let before = plan.len().checked_sub(2)?;
        if plan[before + 1].0.sequence == 0 {
            return None;
        }
        plan[before + 1].1 = plan[before].1;
        Some(())
    }

    fn string(&self, which: usize) -> Vec<u8> {
        let letters = letters();
        let differing = [letters[which / letters.len()], letters[which % letters.len()]];
        let common = vec![b'a'; self.letters - 2];
        match self.common {
            Common::Front => [&common[..], &differing].concat(),
            Common::Back => [&differing, &common[..]].concat(),
        }
    }

    /// Whole strings first, then their tails, the longest first.
    fn name(&self, which: usize, strings: usize) -> Option<Name> {
        let tail = which.checked_div(strings)?;
        let most = match self.common {
            Common::Front => self.letters - 2,
            Common::Back => 0,
        };
        let start = (which % strings) * (self.letters + 1) + tail;
        (tail <= most).then_some(Name { start, length: self.letters + 1 - tail })
    }
}

fn apart(rows: usize, width: usize, again: bool) -> Option<Vec<(Row, usize)>> {
    let blocks = rows / 2 / width;
    let sets = rows - blocks * width;
    let set = |i: usize| {
        let block = i.checked_rem(blocks)?;
        Some((Row::new(SET, 0, None).with_children(sets + block * width, width), 0))
    };
    let child = |j: usize| {
        let position = j % width;
        Some((Row::new(STRING, position, None), if again { position } else { j }))
    };
    (0..sets).map(set).chain((0..blocks * width).map(child)).collect()
}

fn options(rows: usize, options: usize) -> Option<Vec<(Row, usize)>> {
    let enums = rows.checked_sub(options + 1).filter(|_| options > 0)?;
    let root = (Row::new(SET, 0, None), 0);
    let choice = (Row::new(ENUM, 0, None).with_children(1 + enums, options), 0);
    let option = |i: usize| (Row::new(STRING, i, None), i);
    let parents = std::iter::once(root).chain(std::iter::repeat(choice).take(enums));
    Some(parents.chain((0..options).map(option)).collect())
}

/// The letters that a name may have.
fn letters() -> Vec<u8> {
    (0..=255).filter(|byte| is_letter(*byte)).collect()
}

#[cfg(test)]
mod tests {
    use super::*;
    use crate::dictionary::accepts;

    #[test]
    fn accepted_or_refused_as_their_ending_says() {
        for hostile in families().into_iter().flat_map(|b| family(b, &[120], &[9, 12, 60])) {
            if let Some(bytes) = hostile.dictionary(4_000) {
                assert_eq!(bytes.len(), 4_000);
                assert_eq!(accepts(&bytes), hostile.ending == Ending::Accepted, "{hostile:?}");
            }
        }
    }

    #[test]
    fn every_family_has_one_of_either_ending() {
        for blocks in families() {
            for ending in [Ending::Accepted, Ending::Refused] {
                let made = family(blocks, &[3_000], &[9]).into_iter().any(|hostile| {
                    hostile.ending == ending && hostile.dictionary(65_535).is_some()
                });
                // A block of one row holds no two rows that could be alike.
                let none =
                    ending == Ending::Refused && matches!(blocks, Blocks::Apart { width: 1, .. });
                assert_eq!(made, !none, "{blocks:?}, {ending:?}");
            }
        }
    }

    #[test]
    fn thousands_of_rows_find_their_names() {
        let tails = Hostile {
            blocks: Blocks::Shared,
            rows: 5_900,
            common: Common::Front,
            letters: 254,
            ending: Ending::Accepted,
        };
        assert_eq!(tails.dictionary(65_535).map(|bytes| bytes.len()), Some(65_535));
        let prefixes = Hostile { rows: 3_270, letters: 9, ..tails };
        assert_eq!(prefixes.dictionary(65_535).map(|bytes| bytes.len()), Some(65_535));
    }
}
