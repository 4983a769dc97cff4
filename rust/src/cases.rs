//! Cases drawn at random, for whoever judges them: the tests and `soak` compare the proved functions with their rivals on
//! them (`trial`), `make_cases` writes some of them down. Each round draws some dozens, the same for the same seed.

use crate::desk::{Call, Record, DESK_BYTES, PLACES, PLACE_BYTES, STORE_BYTES};
use crate::dictionary::{accepts, rows};
use crate::make::payload::{self, Style, FREE, PLAIN};
use crate::make::{damage, hostile, ordinary, small, text};
use crate::random::Random;
use crate::reader::{Answer, MOST, TEXT_MOST};
use crate::{figure, lines};

/// A budget that no payload spends.
pub const ENOUGH: usize = 1 << 20;

/// The numbers that each kind of case has to show.
pub const CHECKED: [usize; 2] = [0, 1];
pub const READ: [usize; 15] = [0, 1, 2, 3, 4, 5, 6, 7, 8, 9, 10, 11, 12, 13, 14];
pub const WRITTEN: [usize; 12] = [0, 1, 2, 6, 7, 8, 9, 10, 11, 13, 14, 15];
pub const TOLD: [usize; 9] = [0, 20, 21, 22, 23, 24, 25, 26, 27];

/// The answer, and what was written.
pub type Outcome = (Answer, Vec<u8>);

/// Who judges dictionaries, payloads and texts.
pub trait Codec {
    fn accepts(&mut self, dictionary: &[u8]) -> bool;
    fn read(&mut self, dictionary: &[u8], payload: &[u8], budget: usize, room: usize) -> Outcome;
    fn write(&mut self, dictionary: &[u8], text: &[u8], room: usize) -> Outcome;
}

/// Who keeps a desk: the number of each answer.
pub trait Teller<'a> {
    fn begin(&mut self, desk: Vec<u8>, store: Vec<u8>);
    fn call(&mut self, call: Call<'a>) -> u32;
}

/// 002's clause 8.6 less its annotation.
pub fn clause_8_6() -> Vec<u8> {
    let hex = b"00F0F0F1000000010000013F01030100100124010201000001\
        0F01020100700101FF010240010201020102000109010101024001020100010250010944756D6D79\
        2049440001063001010C";
    lines::unhex(hex).expect("hex")
}

/// Ordinary, small and worked dictionaries, some of them damaged.
fn some_dictionary(random: &mut Random) -> Vec<u8> {
    let good = match random.below(10) {
        0..=4 => ordinary_dictionary(random),
        5..=8 => small::dictionary(random, 2),
        _ => figure::bytes(),
    };
    if random.chance(10) {
        damage::damaged(&good, random)
    } else {
        good
    }
}

fn ordinary_dictionary(random: &mut Random) -> Vec<u8> {
    let size = random.pick(&[120, 200, 400, 800, 2_000]);
    ordinary::dictionary(size + random.below(60), random.below(1 << 30) as u64)
}

pub fn dictionaries(random: &mut Random, codec: &mut impl Codec) {
    codec.accepts(&some_dictionary(random));
    for slips in [0, 5, 20] {
        for _ in 0..10 {
            codec.accepts(&small::dictionary(random, slips));
        }
    }
    let good = if random.chance(50) { figure::bytes() } else { ordinary_dictionary(random) };
    for _ in 0..20 {
        codec.accepts(&damage::damaged(&good, random));
    }
    let blocks = random.below(hostile::families().len());
    let family = hostile::family(hostile::families()[blocks], &[random.between(2, 90)], &[9]);
    for hostile in family {
        if let Some(bytes) = hostile.dictionary(2_000) {
            codec.accepts(&bytes);
        }
    }
}

/// Payloads under one dictionary: a right one, with what it needs and with less, and damaged ones; one with integers that
/// are longer than needed; deep ones; any bytes.
pub fn readings(random: &mut Random, codec: &mut impl Codec) {
    let dictionary = some_dictionary(random);
    if !accepts(&dictionary) {
        codec.read(&dictionary, &clause_8_6(), ENOUGH, TEXT_MOST);
        return;
    }
    let style = random.pick(&[PLAIN, FREE, FREE]);
    let size = random.pick(&[40, 150, 600, 2_000]);
    let good = payload::payload(&dictionary, random, style, size);
    let (answer, _) = codec.read(&dictionary, &good, ENOUGH, TEXT_MOST);
    assert_eq!(answer.number, 0, "made to be right: {}", lines::hex(&good));
    codec.read(&dictionary, &good, answer.count, answer.length);
    codec.read(&dictionary, &good, answer.count - 1, TEXT_MOST);
    codec.read(&dictionary, &good, ENOUGH, answer.length - 1);
    for _ in 0..40 {
        let bytes = payload::damaged(&good, random);
        let budget = random.pick(&[ENOUGH, ENOUGH, ENOUGH, answer.count / 2]);
        codec.read(&dictionary, &bytes, budget, TEXT_MOST);
    }
    let padded = payload::payload(&dictionary, random, Style { padded: 20, ..style }, size);
    codec.read(&dictionary, &padded, ENOUGH, TEXT_MOST);
    let innermost = random.pick(&[&[1, 0][..], &[5, 0], &[1, 0, 0], &[]]);
    let deep = payload::nested(random.between(14, 19), innermost);
    codec.read(&payload::deep_dictionary(), &deep, ENOUGH, TEXT_MOST);
    if random.chance(10) {
        let long = [good, vec![0; MOST]].concat();
        codec.read(&dictionary, &long[..MOST + random.below(2)], ENOUGH, TEXT_MOST);
    }
    codec.read(&figure::bytes(), &any_payload(random), random.below(6), TEXT_MOST);
}

fn any_payload(random: &mut Random) -> Vec<u8> {
    let mut bytes = vec![0x00, 0xF0, 0xF0, 0xF1, 0x00, 0x00, 0x00, 0x01, 0x00, 0x00];
    for _ in 0..random.below(20) {
        bytes.push(random.pick(&[0, 1, 1, 1, 2, 3, 4, 6, 0x10, 0x30, 0x70, 0xFF]));
    }
    bytes
}

/// Texts under one dictionary: a right one, which reads back, in rooms about its length, and damaged ones; deep ones; any
/// bytes.
pub fn writings(random: &mut Random, codec: &mut impl Codec) {
    let dictionary = some_dictionary(random);
    if rows(&dictionary).is_none() {
        codec.write(&dictionary, b"{}", MOST);
        return;
    }
    let style = random.pick(&[PLAIN, FREE, FREE]);
    let size = random.pick(&[40, 150, 600, 2_000]);
    let plain = text::text(&dictionary, random, style, size);
    let spaced = text::spaced(&plain, random, 30);
    let answer = both_ways(codec, &dictionary, &spaced, &plain);
    codec.write(&dictionary, &spaced, answer.length);
    codec.write(&dictionary, &spaced, answer.length - 1);
    for _ in 0..40 {
        codec.write(&dictionary, &text::damaged(&spaced, random), MOST);
    }
    let depth = random.between(14, 19);
    let deep = ["{\"a\":".repeat(depth - 1), "{}".to_string(), "}".repeat(depth - 1)].concat();
    codec.write(&payload::deep_dictionary(), deep.as_bytes(), MOST);
    let count = random.below(12);
    let any: Vec<u8> = (0..count).map(|_| random.pick(b"{}[]:,\"I1-. d")).collect();
    codec.write(&figure::bytes(), &any, MOST);
}

/// Writes, and reads back the text less its spaces with the writer's count for a budget and no byte of room to spare.
pub fn both_ways(codec: &mut impl Codec, dictionary: &[u8], spaced: &[u8], plain: &[u8]) -> Answer {
    let (answer, bytes) = codec.write(dictionary, spaced, MOST);
    assert_eq!(answer.number, 0, "made to be right: {}", String::from_utf8_lossy(spaced));
    let (back, text) = codec.read(dictionary, &bytes, answer.count, plain.len());
    assert_eq!((back.number, back.count, back.length), (0, answer.count, plain.len()));
    assert!(text == plain, "read back: {}", String::from_utf8_lossy(&text));
    answer
}

/// Bytes that are no zeros, and one more than a place has.
const fn piece() -> [u8; PLACE_BYTES + 1] {
    let mut piece = [0; PLACE_BYTES + 1];
    let mut at = 0;
    while at < piece.len() {
        piece[at] = (at % 253) as u8 + 1;
        at += 1;
    }
    piece
}

static PIECE: [u8; PLACE_BYTES + 1] = piece();

/// Calls on an empty desk, or on one of any records near the edges of soundness.
pub fn story(random: &mut Random, teller: &mut impl Teller<'static>) {
    let (desk, calls) = if random.chance(40) {
        (vec![0; DESK_BYTES], 200)
    } else {
        ((0..PLACES).flat_map(|_| some_record(random).bytes()).collect(), 4)
    };
    teller.begin(desk, vec![0xEE; STORE_BYTES]);
    for _ in 0..calls {
        teller.call(some_call(random));
    }
}

fn some_call(random: &mut Random) -> Call<'static> {
    let number = random.pick(&[0, 1, 2, 3, 4, 5, 6, 7, 8, 9, 10, 256, 0xFFFF]);
    let piece = &PIECE[..random.pick(&[0, 1, 1, 2, 5, 30, PLACE_BYTES, PLACE_BYTES + 1])];
    let count = random.pick(&[0, 1, 1, 2, 3, 6, u32::MAX]);
    match random.below(16) {
        0..=3 => {
            Call::Open(number, random.below(8) as u8, random.pick(&[0, 0, 1, 3, 9, 4_096, 4_097]))
        }
        4..=6 => Call::Feed(number, piece),
        7 => Call::Start(number),
        8 => Call::Failed(number),
        9 => Call::Good(number, count),
        10..=11 => Call::Take(number, count),
        12 => Call::Kill(number),
        13 => Call::Close(number),
        14 => Call::Status(number),
        _ => Call::List,
    }
}

fn some_record(random: &mut Random) -> Record {
    if random.chance(45) {
        return Record::default();
    }
    let kind = random.pick(&[0, 1, 2, 2, 3, 4, 5, 6, 6]);
    let declared: u32 = match kind {
        0 | 1 | 3 => 0,
        6 => random.pick(&[0, 1, 4_096]),
        _ => random.pick(&[1, 2, 4_096]),
    };
    let state = random.pick(&[1, 2, 3, 4, 5, 6, 7]);
    let received = if state == 1 { declared.saturating_sub(1) } else { declared };
    let due = if state == 4 { random.pick(&[1, 2, u32::MAX]) } else { 0 };
    let mut record =
        Record { number: random.between(1, 90) as u16, kind, state, declared, received, due };
    if random.chance(3) {
        match random.below(6) {
            0 => record.number = 0,
            1 => record.kind = random.pick(&[7, 255, 2, 0]),
            2 => record.state = random.pick(&[0, 8, 255, 1]),
            3 => record.declared = random.pick(&[0, 4_097, 1]),
            4 => record.received = random.pick(&[0, 1, 4_097]),
            _ => record.due = random.pick(&[0, 1]),
        }
    }
    record
}
