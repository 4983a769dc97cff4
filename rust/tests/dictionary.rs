//! The proved dictionary checker against the rival, which was written apart from it, and against
//! the answers that document 01 gives.

use trials::cases::{self, Codec};
use trials::dictionary::{ENTRY, HEADER, MOST, SET, STRING};
use trials::guard::{End, Guarded};
use trials::make::draft::{Draft, Row};
use trials::make::hostile::{families, family, Ending, Hostile};
use trials::make::ordinary;
use trials::trial::{draw, Trial};
use trials::{figure, proved};

/// A comparison that sees one answer only says little.
fn both_answers_are_frequent(trial: &Trial, what: &str) {
    let (compared, accepted) = (trial.seen.total(), trial.seen.times(0));
    println!("{what}: {compared} compared, {accepted} of them accepted");
    assert!(accepted * 20 > compared && (compared - accepted) * 20 > compared);
}

fn with_size(bytes: &[u8], size: usize) -> Vec<u8> {
    let mut bytes = bytes.to_vec();
    bytes[8..HEADER].copy_from_slice(&(size as u32).to_le_bytes());
    bytes
}

fn resized(bytes: &[u8], length: usize) -> Vec<u8> {
    let mut bytes = with_size(bytes, length);
    bytes.resize(length, 0);
    bytes
}

#[test]
fn figure_6_is_accepted() {
    let mut trial = Trial::default();
    assert!(trial.accepts(&figure::bytes()));
}

#[test]
fn figure_6_with_each_byte_changed() {
    let mut trial = Trial::default();
    for at in 0..figure::bytes().len() {
        for change in 1..=255 {
            let mut bytes = figure::bytes();
            bytes[at] ^= change;
            trial.accepts(&bytes);
        }
    }
    both_answers_are_frequent(&trial, "Figure 6 with one byte changed");
}

/// Figure 6 with the bytes of one field of a row, or of the header, put in place of its own.
struct Case {
    says: &'static str,
    at: usize,
    bytes: &'static [u8],
    accepted: bool,
}

const fn case(says: &'static str, at: usize, bytes: &'static [u8], accepted: bool) -> Case {
    Case { says, at, bytes, accepted }
}

const fn row(index: usize) -> usize {
    HEADER + ENTRY * index
}

const CASES: [Case; 33] = [
    case("an array has one child, not none", row(1) + 3, &[0, 0, 0, 0], false),
    case("an array has one child, not two", row(1) + 5, &[2, 0], false),
    case("an enum has a child", row(7) + 3, &[0, 0, 0, 0], false),
    case("a set may be empty", row(5) + 3, &[0, 0, 0, 0], true),
    case("an empty set may have an offset", row(5) + 5, &[0, 0], true),
    case("an empty set's offset may be the entries' end", row(5) + 3, &[122, 0, 0, 0], true),
    case("no offset lies past the entries' end", row(5) + 3, &[132, 0, 0, 0], false),
    case("an offset is that of a row", row(5) + 3, &[73, 0], false),
    case("an offset lies after the header", row(5) + 3, &[2, 0, 0, 0], false),
    case("offset 0 goes with count 0", row(5) + 3, &[0, 0, 2, 0], false),
    case("children lie inside the entries", row(0) + 5, &[11, 0], false),
    case("an array may be its own child", row(1) + 3, &[22, 0], true),
    case("a set may be its own child", row(0) + 3, &[12, 0, 1, 0], true),
    case("an integer has no children", row(4) + 3, &[22, 0, 0, 0], false),
    case("a null's children aren't looked at", row(4), &[0x20, 3, 0, 9, 9, 9, 9], true),
    case("a real's children aren't looked at", row(4), &[0x60, 3, 0, 9, 9, 9, 9], true),
    case("a choice's children aren't looked at", row(4), &[0x90, 3, 0, 9, 9, 9, 9], true),
    case("a null has a name all the same", row(4), &[0x20, 3, 0, 0, 0, 0, 0, 0], false),
    case("row 0's number is free", row(0) + 1, &[7, 0], true),
    case("a child's number is its position", row(2) + 1, &[2, 0], false),
    case("an element's number is 0", row(5) + 1, &[1, 0], false),
    case("row 0 needs no name", row(0) + 7, &[0, 0, 0], true),
    case("an element may have a name", row(5) + 7, &[3, 153, 0], true),
    case("a set's children are named", row(2) + 7, &[0, 0, 0], false),
    case("an enum's children are named", row(9) + 7, &[0, 0, 0], false),
    case("no two of a set are alike", row(4) + 7, &[22, 156, 0], false),
    case("no two of an enum are alike", row(10) + 7, &[7, 235, 0], false),
    case("one name may stand in two sets", row(6) + 7, &[3, 153, 0], true),
    case("a name may be a tail of another", row(3) + 7, &[9, 169, 0], true),
    case("a name has at least 2 bytes", row(0) + 7, &[1, 133, 0], false),
    case("a name has its closing 00", row(2) + 7, &[2, 153, 0], false),
    case("row 0 is a set", row(0), &[0x20], false),
    case("flags but the truncated bit are free", 1, &[0xFE], true),
];

#[test]
fn figure_6_with_fields_that_the_paper_answers() {
    let mut trial = Trial::default();
    for Case { says, at, bytes, accepted } in CASES {
        let mut dictionary = figure::bytes();
        dictionary[at..at + bytes.len()].copy_from_slice(bytes);
        assert_eq!(trial.accepts(&dictionary), accepted, "{says}");
    }
}

/// The last byte of the entries is a letter here, and still no part of a name.
#[test]
fn a_name_lies_after_the_entries() {
    let mut trial = Trial::default();
    let mut draft = Draft::default();
    let first = draft.add_name(b"bc");
    draft.names.resize(0x4100 - row(2), 0);
    let second = draft.add_name(b"x");
    draft.rows = vec![Row::new(SET, 0, Some(first)), Row::new(STRING, 0, Some(second))];
    let mut bytes = draft.bytes(draft.size());
    assert!(trial.accepts(&bytes));
    assert_eq!(bytes[row(2) - 1], b'A');
    bytes[row(0) + 7] += 1;
    bytes[row(0) + 8] -= 1;
    assert!(!trial.accepts(&bytes));
}

#[test]
fn each_short_length() {
    let mut trial = Trial::default();
    let named = *b"\0\0\x01\0\0\xF0\xF0\xF1\0\0\0\0\0\0\0\x0C\0\x01\0\x02\x16\0a\0";
    let nameless = *b"\0\0\x01\0\0\xF0\xF0\xF1\0\0\0\0";
    for length in 0..=30 {
        assert!(!trial.accepts(&vec![0; length]));
        assert!(!trial.accepts(&figure::bytes()[..length]));
        if length >= HEADER {
            let accepted = trial.accepts(&resized(&named, length));
            assert_eq!(accepted, length >= 24);
            let accepted = trial.accepts(&resized(&nameless, length));
            assert_eq!(accepted, length >= 22);
        }
    }
}

#[test]
fn lengths_about_the_most() {
    let mut trial = Trial::default();
    let most = ordinary::dictionary(MOST, 1);
    for length in [MOST - 1, MOST, MOST + 1, MOST + 2, 2 * MOST, 2 * MOST + 2, 1 << 20] {
        let accepted = trial.accepts(&resized(&most, length));
        assert_eq!(accepted, length <= MOST, "{length} bytes");
    }
}

/// Sizes that are right in their low 16 bits, and counts of entries beyond 16 bits' reach.
#[test]
fn sizes_and_counts_of_more_bits() {
    let mut trial = Trial::default();
    for round in 1..=3 {
        let size = figure::bytes().len() + (round << 16);
        assert!(!trial.accepts(&with_size(&figure::bytes(), size)));
        assert!(!trial.accepts(&resized(&figure::bytes(), size)));
    }
    for count in [6_552_u16, 6_553, 6_554, u16::MAX] {
        let mut bytes = resized(&[0; HEADER], MOST);
        bytes[2..4].copy_from_slice(&count.to_le_bytes());
        assert_eq!(trial.accepts(&bytes), count == 6_552);
    }
}

#[test]
fn ordinary_ones() {
    let mut trial = Trial::default();
    let sizes = (0..4_000).map(|round| 60 + (round * 37) % 4_000);
    for (seed, size) in sizes.chain([10_240; 20]).chain([MOST; 20]).enumerate() {
        let bytes = ordinary::dictionary(size, seed as u64);
        assert!(trial.accepts(&bytes));
    }
}

#[test]
fn drawn_ones() {
    let drawn = draw(11, cases::dictionaries, &cases::CHECKED);
    both_answers_are_frequent(&drawn, "drawn ones");
}

fn hostile(size: usize, rows: &[usize], letters: &[usize], mut judge: impl FnMut(Hostile, &[u8])) {
    for hostile in families().into_iter().flat_map(|blocks| family(blocks, rows, letters)) {
        if let Some(bytes) = hostile.dictionary(size) {
            judge(hostile, &bytes);
        }
    }
}

#[test]
fn hostile_ones() {
    let mut trial = Trial::default();
    hostile(4_000, &[2, 3, 17, 90, 200], &[2, 8, 30, 254], |_, bytes| {
        trial.accepts(bytes);
    });
    both_answers_are_frequent(&trial, "hostile ones");
}

/// The rival would take the cube of the row count here; how each was made says what it must answer.
#[test]
fn hostile_ones_of_the_most_bytes() {
    let mut judged = 0;
    let mut room = Guarded::new(MOST);
    let mut end = End::Front;
    hostile(MOST, &[3_270, 5_900], &[9, 254], |hostile, bytes| {
        let accepted = hostile.ending == Ending::Accepted;
        end = end.other();
        let lent = room.lend_copy(bytes, end);
        assert_eq!(proved::dictionary_accepts(lent), accepted, "{hostile:?}");
        judged += 1;
    });
    println!("hostile ones of {MOST} bytes: {judged} judged");
    assert!(judged > 80);
}
