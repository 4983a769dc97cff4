//! Dictionaries of a few rows near the edges of the rules: blocks that are shared, that hold their
//! own parent or that reach too far, kinds that the rules leave free, tails of names as names.

use super::draft::{Draft, Name, Row};
use crate::dictionary::{ARRAY, BOOLEAN, ENUM, INTEGER, SET, STRING};
use crate::random::Random;

const MOST_ROWS: usize = 9;
const KINDS: [u8; 12] = [SET, SET, SET, ARRAY, ARRAY, ENUM, STRING, STRING, INTEGER, BOOLEAN, 2, 6];

struct Block {
    first: usize,
    count: usize,
    options: bool,
}

/// Accepted or not; `slips` is the chance in a hundred that a row has a field that strays.
pub fn dictionary(random: &mut Random, slips: usize) -> Vec<u8> {
    let count = random.between(1, MOST_ROWS);
    let blocks = blocks(random, count);
    let mut draft = Draft::default();
    for string in [b"abcdefghi", b"ABCDEFGHI"] {
        draft.add_name(string);
    }
    for block in &blocks {
        for position in 0..block.count {
            let row = some_row(random, block, position, &blocks);
            draft.rows.push(row);
        }
    }
    for row in &mut draft.rows {
        if random.chance(slips) {
            slip(random, row, count);
        }
    }
    let free = random.below(3);
    draft.bytes(draft.size() + free)
}

/// Blocks that share no row and hold all rows.
fn blocks(random: &mut Random, rows: usize) -> Vec<Block> {
    let mut blocks = Vec::new();
    let mut first = 0;
    while first < rows {
        let count = random.between(1, rows - first);
        blocks.push(Block { first, count, options: first > 0 && random.chance(40) });
        first += count;
    }
    blocks
}

fn some_row(random: &mut Random, block: &Block, position: usize, blocks: &[Block]) -> Row {
    let index = block.first + position;
    let kind = match block.options {
        true => STRING,
        false if index == 0 => SET,
        false => random.pick(&KINDS),
    };
    let name = some_name(random, index);
    let row = Row::new(kind, position, random.chance(97).then_some(name));
    let of = &blocks[random.below(blocks.len())];
    match kind {
        SET if random.chance(20) => row,
        SET => row.with_children(of.first, random.between(1, of.count)),
        ARRAY => row.with_children(of.first, 1),
        ENUM => {
            let of = blocks.iter().find(|block| block.options).unwrap_or(of);
            row.with_children(of.first, random.between(1, of.count))
        }
        INTEGER | STRING | BOOLEAN => row,
        _ => row.with_children(random.below(20), random.below(20)),
    }
}

/// A tail of one of the two strings of nine letters, another one for each index.
fn some_name(random: &mut Random, index: usize) -> Name {
    Name { start: 10 * random.below(2) + index, length: 10 - index }
}

fn slip(random: &mut Random, row: &mut Row, rows: usize) {
    match random.below(6) {
        0 => row.sequence = random.below(rows + 1),
        1 => row.first_child = random.below(rows + 2),
        2 => row.child_count = random.below(rows + 2),
        3 => row.format = random.byte(),
        4 => row.name = None,
        _ => {
            let index = random.below(MOST_ROWS);
            row.name = Some(some_name(random, index));
        }
    }
}

#[cfg(test)]
mod tests {
    use super::*;
    use crate::dictionary::accepts;

    #[test]
    fn some_accepted_and_some_not() {
        for slips in [0, 10] {
            let mut random = Random::new(5);
            let accepted = (0..1_000).filter(|_| accepts(&dictionary(&mut random, slips))).count();
            assert!((200..900).contains(&accepted), "{accepted} of 1000 with {slips} slips");
        }
    }
}
