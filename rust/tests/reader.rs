//! The proved reader against the rival, which was written apart from it: number, place, count,
//! length and every byte of the lent buffer.

use trials::cases::{self, clause_8_6, Codec, ENOUGH};
use trials::dictionary::{ARRAY, ENUM, SET, STRING};
use trials::figure;
use trials::lines::unhex;
use trials::make::draft::{Draft, Row};
use trials::make::{damage, payload};
use trials::random::Random;
use trials::reader::{Answer, MOST, TEXT_MOST};
use trials::trial::{self, draw};

#[derive(Default)]
struct Trial(trial::Trial);

impl Trial {
    fn read(&mut self, dictionary: &[u8], bytes: &[u8], budget: usize, room: usize) -> Answer {
        self.0.read(dictionary, bytes, budget, room).0
    }

    fn saw(&self, what: &str, numbers: &[usize]) {
        self.0.seen.saw(what, numbers);
    }
}

#[test]
fn drawn_cases() {
    draw(23, |random, trial: &mut trial::Trial| cases::readings(random, trial), &cases::READ);
}

#[test]
fn clause_8_6_with_each_byte_changed() {
    let (dictionary, good) = (figure::bytes(), clause_8_6());
    let mut trial = Trial::default();
    let answer = trial.read(&dictionary, &good, ENOUGH, TEXT_MOST);
    assert_eq!((answer.number, answer.count, good.len()), (0, 9, 75));
    for at in 0..good.len() {
        for change in 1..=255 {
            let mut bytes = good.clone();
            bytes[at] ^= change;
            trial.read(&dictionary, &bytes, ENOUGH, TEXT_MOST);
        }
    }
    trial.saw("one byte changed", &[0, 3, 4, 5, 6, 7, 8, 9, 10]);
}

#[test]
fn clause_8_6_cut_with_each_budget_and_each_room() {
    let (dictionary, good) = (figure::bytes(), clause_8_6());
    let mut trial = Trial::default();
    for length in 0..good.len() {
        trial.read(&dictionary, &good[..length], ENOUGH, TEXT_MOST);
    }
    for budget in 0..12 {
        trial.read(&dictionary, &good, budget, TEXT_MOST);
    }
    for room in 0..160 {
        trial.read(&dictionary, &good, ENOUGH, room);
    }
    trial.saw("cut short", &[0, 2, 4, 12, 14]);
}

#[test]
fn damaged_dictionaries() {
    let (good, bytes) = (figure::bytes(), clause_8_6());
    let mut random = Random::new(31);
    let mut trial = Trial::default();
    for _ in 0..20_000 {
        let dictionary = damage::damaged(&good, &mut random);
        trial.read(&dictionary, &bytes, ENOUGH, TEXT_MOST);
    }
    trial.saw("damaged dictionaries", &[0, 1, 6, 9]);
}

/// Refused with 10 at its tuple, which begins at 14, exactly where the top byte only repeats the sign: every integer of one
/// and two bytes, and longer ones with each byte below the tops that matter.
#[test]
fn integers_no_longer_than_needed() {
    let dictionary = figure::bytes();
    let mut trial = Trial::default();
    let mut take = |value: &[u8], needless: bool| {
        let width = value.len() as u8;
        let mut bytes = unhex(b"00F0F0F1000000010000").expect("hex");
        bytes.extend([1, 7 + width, 1, 1, 1, 6, 0x30, 1, width]);
        bytes.extend(value);
        let answer = trial.read(&dictionary, &bytes, ENOUGH, TEXT_MOST);
        let expected = if needless { (10, 14) } else { (0, 0) };
        assert_eq!((answer.number, answer.place), expected, "{value:02X?}");
    };
    for byte in 0..=255 {
        take(&[byte], false);
    }
    for width in 2..=8 {
        for top in 0..=255 {
            if width > 2 && ![0x00, 0x01, 0x7F, 0x80, 0xFE, 0xFF].contains(&top) {
                continue;
            }
            for below in 0..=255 {
                let value = [vec![0x5A; width - 2], vec![below, top]].concat();
                take(&value, top == 0x00 && below < 0x80 || top == 0xFF && below >= 0x80);
            }
        }
    }
}

/// A set inside itself: 16 levels are read, 17 are not, and what is wrong at the 17th besides its depth is not looked at.
#[test]
fn depths() {
    let mut trial = Trial::default();
    let dictionary = payload::deep_dictionary();
    for depth in 1..20 {
        let good = payload::nested(depth, &[1, 0]);
        let answer = trial.read(&dictionary, &good, ENOUGH, TEXT_MOST);
        assert_eq!(answer.number, if depth <= 16 { 0 } else { 11 }, "depth {depth}");
        for innermost in [&[5, 0][..], &[1, 0, 0], &[]] {
            let bytes = payload::nested(depth, innermost);
            let number = trial.read(&dictionary, &bytes, ENOUGH, TEXT_MOST).number;
            assert_eq!(number == 11, depth > 16, "depth {depth}");
        }
    }
}

/// Children in every order, and each of them given again at every place.
#[test]
fn orders_and_repeats() {
    let mut random = Random::new(41);
    let mut trial = Trial::default();
    let dictionary = payload::wide_dictionary(2_000);
    let mut numbers: Vec<usize> = (0..2_000).collect();
    for round in 0..40 {
        let good = payload::in_order(numbers.iter().copied());
        assert_eq!(trial.read(&dictionary, &good, ENOUGH, TEXT_MOST).number, 0);
        let mut again = numbers.clone();
        let (from, to) = (random.below(2_000), random.below(2_000));
        again[to] = numbers[from];
        let answer = trial.read(&dictionary, &payload::in_order(again.into_iter()), ENOUGH, 0);
        assert_eq!(answer.number, if from == to { 14 } else { 7 }, "round {round}");
        numbers.swap(from, to);
        if round % 10 == 9 {
            numbers.reverse();
        }
    }
}

#[test]
fn lengths_about_the_most() {
    let mut trial = Trial::default();
    let dictionary = figure::bytes();
    for length in [MOST - 1, MOST, MOST + 1, 2 * MOST] {
        let letters = length - 22;
        let mut bytes = unhex(b"00F0F0F100000001000002").expect("hex");
        bytes.extend(((length - 13) as u16).to_le_bytes());
        bytes.extend([1, 1, 1, 2, 0x50, 2]);
        bytes.extend(((letters + 1) as u16).to_le_bytes());
        bytes.extend(vec![b'A'; letters]);
        bytes.push(0);
        let answer = trial.read(&dictionary, &bytes, ENOUGH, TEXT_MOST);
        assert_eq!(answer.number, if length <= MOST { 0 } else { 2 }, "{length} bytes");
    }
}

/// An array of 254 options with names of 254 letters, and a last one that makes the text as long as the table allows, or
/// one byte longer.
#[test]
fn texts_about_the_most() {
    let mut trial = Trial::default();
    let mut draft = Draft::default();
    let [a, long, last, longer] = [1, 254, 247, 248].map(|n| draft.add_name(&vec![b'a'; n]));
    draft.rows = vec![
        Row::new(SET, 0, None).with_children(1, 1),
        Row::new(ARRAY, 0, Some(a)).with_children(2, 1),
        Row::new(ENUM, 0, None).with_children(3, 3),
        Row::new(STRING, 0, Some(long)),
        Row::new(STRING, 1, Some(last)),
        Row::new(STRING, 2, Some(longer)),
    ];
    let dictionary = draft.bytes(draft.size());
    for (option, number) in [(1, 0), (2, 14)] {
        let bytes = payload::options(&[vec![0; 254], vec![option]].concat());
        for room in [TEXT_MOST, TEXT_MOST + 10] {
            let answer = trial.read(&dictionary, &bytes, ENOUGH, room);
            assert_eq!(answer.number, number);
            assert_eq!(answer.length, if number == 0 { TEXT_MOST } else { 0 });
        }
    }
}
