//! How long the proved writer takes, as ratios of times taken in the same run:
//!
//! 1. proved to rival on texts of payloads of 10 KiB, dictionary check included on both sides;
//! 2. a text of 60 KiB nested 16 deep to a flat one of the same size, and a flat one of 60 KiB to
//!    four times one of 15 KiB: no inner value is measured twice, and no step is quadratic;
//! 3. proved to rival on texts that name a thousand siblings: the whole call, and the same less the
//!    time of an empty text under the same dictionary, so that its check is not counted.

use trials::make::draft::{Draft, Row};
use trials::make::ordinary;
use trials::make::payload::{Style, PLAIN};
use trials::make::siblings::{self, Differ};
use trials::make::text;
use trials::random::{shuffled, Random};
use trials::reader::{Answer, MOST};
use trials::timing::{quickests, ratio};
use trials::{dictionary, proved, writer};

type Writer = fn(&[u8], &[u8], &mut [u8]) -> Answer;

fn main() {
    println!("proved / rival, texts under ordinary dictionaries of 10 KiB");
    for seed in [1, 2, 3] {
        let dictionary = ordinary::dictionary(10_240, seed);
        let style = Style { absent: 10, letters: 60, ..PLAIN };
        let text = text::text(&dictionary, &mut Random::new(seed), style, MOST);
        let both = ratio(
            2_001,
            call(proved::write, &dictionary, &text),
            call(writer::write, &dictionary, &text),
        );
        println!("  seed {seed}: {both:.2} (a text of {} bytes)", text.len());
    }
    let chain = chain();
    let write: Writer = proved::write;
    let [flat, deep, quarter] = [(1, 60), (16, 60), (1, 15)].map(|(d, kib)| nested(d, kib * 1_024));
    let deep = ratio(2_001, call(write, &chain, &deep), call(write, &chain, &flat));
    println!("60 KiB nested 16 deep / 60 KiB flat: {deep:.2}");
    let four = ratio(2_001, call(write, &chain, &flat), call(write, &chain, &quarter));
    println!("60 KiB / 15 KiB, a quarter of it: {:.2}", four / 4.0);
    println!("proved / rival, texts that name {} siblings", siblings::COUNT);
    for differ in [Differ::Last, Differ::First] {
        let dictionary = siblings::dictionary(differ);
        let rising = siblings::text(differ, 0..siblings::COUNT);
        let mixed = siblings::text(differ, shuffled(siblings::COUNT).into_iter());
        for (order, text) in [("the dictionary's order", rising), ("shuffled", mixed)] {
            let [whole, search] = siblings_ratios(&dictionary, &text);
            println!("  {differ:?} letter, {order}: {whole:.2}, check taken off {search:.2}");
        }
    }
}

/// Proved to rival: the whole call, and what the text adds to an empty one.
fn siblings_ratios(dictionary: &[u8], text: &[u8]) -> [f64; 2] {
    let writers: [Writer; 2] = [proved::write, writer::write];
    let [whole, empty] = [text, b"{}"].map(|text| {
        let [first, second] = writers.map(|write| call(write, dictionary, text));
        quickests(301, first, second).map(|time| time.as_secs_f64())
    });
    [whole[0] / whole[1], (whole[0] - empty[0]) / (whole[1] - empty[1])]
}

fn call<'a>(write: Writer, dictionary: &'a [u8], text: &'a [u8]) -> impl FnMut() + 'a {
    let mut out = vec![0; MOST];
    move || {
        let answer = write(dictionary, text, &mut out);
        assert_eq!(answer.number, 0);
    }
}

/// A set with an array of integers, "items", and itself, "next".
fn chain() -> Vec<u8> {
    let mut draft = Draft::default();
    let [items, next] = [b"items", &b"next"[..]].map(|name| draft.add_name(name));
    draft.rows = vec![
        Row::new(dictionary::SET, 0, None).with_children(1, 2),
        Row::new(dictionary::ARRAY, 0, Some(items)).with_children(3, 1),
        Row::new(dictionary::SET, 1, Some(next)).with_children(1, 2),
        Row::new(dictionary::INTEGER, 0, None),
    ];
    draft.bytes(draft.size())
}

/// A text of that many bytes: sets in sets, all with equally many integers, a space of 40 bytes before each. An array inside
/// the innermost set nests once more than the sets do.
fn nested(depth: usize, size: usize) -> Vec<u8> {
    let sets = depth.saturating_sub(1).max(1);
    let each = (size / sets - 40) / 45;
    let mut text = Vec::new();
    for level in 0..sets {
        text.extend(if level == 0 { &b"{\"items\":["[..] } else { b",\"next\":{\"items\":[" });
        for item in 0..each {
            text.extend(
                format!("{}{:>40}{}", if item == 0 { "" } else { "," }, "", 1_000 + item % 9_000)
                    .bytes(),
            );
        }
        text.push(b']');
    }
    text.resize(size - sets, b' ');
    text.resize(size, b'}');
    text
}
