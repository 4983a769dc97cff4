//! The proved writer against the rival, which was written apart from it: number, place, count, length and every byte of
//! the lent buffer; and both directions against each other.

use trials::cases::{self, both_ways, Codec};
use trials::figure;
use trials::make::siblings::{self, Differ, COUNT};
use trials::random::shuffled;
use trials::reader::{MOST, TEXT_MOST};
use trials::trial::{draw, Trial};

#[test]
fn drawn_cases() {
    draw(61, |random, trial: &mut Trial| cases::writings(random, trial), &cases::WRITTEN);
}

const SAMPLE: &[u8] = br#"{"ChildArrayProperty":[{"AnotherBoolean":true,"LinkStatus":"NoLink"},{"LinkStatus":"LinkDown"}],"Id":"Dummy ID","SampleIntegerProperty":12}"#;

#[test]
fn the_sample_with_each_byte_changed() {
    let dictionary = figure::bytes();
    let mut trial = Trial::default();
    both_ways(&mut trial, &dictionary, SAMPLE, SAMPLE);
    for at in 0..SAMPLE.len() {
        for change in 1..=255 {
            let mut text = SAMPLE.to_vec();
            text[at] ^= change;
            trial.write(&dictionary, &text, MOST);
        }
        trial.write(&dictionary, &SAMPLE[..at], MOST);
        trial.write(&dictionary, SAMPLE, at);
    }
    trial.seen.saw("one byte changed", &[0, 2, 6, 9, 10, 13, 14, 15]);
}

/// "an Id of n letters": each length of the payload about those at which an L grows, and about the most.
#[test]
fn lengths_at_which_an_l_grows() {
    let dictionary = figure::bytes();
    let mut trial = Trial::default();
    for letters in (0..600).chain(16_300..16_400).chain([65_518, 65_519]) {
        let plain = [b"{\"Id\":\"", &vec![b'A'; letters][..], b"\"}"].concat();
        let (answer, _) = trial.write(&dictionary, &plain, MOST);
        let number = if plain.len() > TEXT_MOST {
            2
        } else if letters > 16_362 {
            14
        } else {
            0
        };
        assert_eq!(answer.number, number, "{letters} letters");
        if number == 0 {
            let more = [247, 254].iter().filter(|&&most| letters > most).count();
            assert_eq!(answer.length, letters + 20 + more, "{letters} letters");
        }
    }
}

#[test]
fn integers_at_both_ends_of_each_width() {
    let dictionary = figure::bytes();
    let mut trial = Trial::default();
    for width in 1..=8 {
        let most = (1_i128 << (8 * width - 1)) - 1;
        for (value, bytes) in
            [(most, width), (-most - 1, width), (most + 1, width + 1), (-most - 2, width + 1)]
        {
            let text = format!("{{\"SampleIntegerProperty\":{value}}}");
            let (answer, _) = trial.write(&dictionary, text.as_bytes(), MOST);
            if bytes <= 8 {
                assert_eq!((answer.number, answer.length), (0, 19 + bytes), "{value}");
            } else {
                assert_eq!((answer.number, answer.place), (10, 25), "{value}");
            }
        }
    }
}

/// Each child is found by its name, in any order; a name with one byte changed, gone or added is another.
#[test]
fn a_thousand_siblings_by_their_names() {
    let mut trial = Trial::default();
    for differ in [Differ::Last, Differ::First] {
        let dictionary = siblings::dictionary(differ);
        for order in [(0..COUNT).collect(), shuffled(COUNT)] {
            let text = siblings::text(differ, order.into_iter());
            let (answer, _) = trial.write(&dictionary, &text, MOST);
            assert_eq!((answer.number, answer.count), (0, COUNT + 1), "{differ:?}");
        }
        for number in [0, 92, 93, COUNT - 1] {
            let text = siblings::text(differ, std::iter::once(number));
            for at in 2..text.len() - 4 {
                let mut changed = text.clone();
                changed[at] ^= 1;
                let shorter = [&text[..at], &text[at + 1..]].concat();
                let longer = [&text[..at], b"a", &text[at..]].concat();
                for text in [changed, shorter, longer] {
                    trial.write(&dictionary, &text, MOST);
                }
            }
        }
    }
    trial.seen.saw("names of one length", &[0, 6]);
}
