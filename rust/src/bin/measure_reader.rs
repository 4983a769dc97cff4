//! How long the proved reader takes, as ratios of times taken in the same run:
//!
//! 1. proved to rival on payloads of 10 KiB with some hundred properties, dictionary check included
//!    on both sides, the output cleared before each call;
//! 2. what a tuple costs in large sets and arrays, to what it costs in a set of 20. The time of an
//!    empty payload under the same dictionary is taken off, so that its check is not counted.

use trials::make::ordinary;
use trials::make::payload::{self, Style, PLAIN};
use trials::random::{shuffled, Random};
use trials::reader::{Answer, MOST, TEXT_MOST};
use trials::timing::{quickest, ratio};
use trials::{proved, reader};

type Reader = fn(&[u8], &[u8], usize, &mut [u8]) -> Answer;

const ENOUGH: usize = 1 << 20;

fn main() {
    println!("proved / rival, payloads of 10 KiB under ordinary dictionaries of 10 KiB");
    for seed in 1..=3 {
        let (dictionary, bytes) = ten_kibibytes(seed);
        let call = |read: Reader| {
            let (dictionary, bytes) = (&dictionary, &bytes);
            let mut out = [0; TEXT_MOST];
            move || {
                out.fill(0);
                let answer = read(dictionary, bytes, ENOUGH, &mut out);
                assert_eq!(answer.number, 0);
            }
        };
        let answer = reader::read(&dictionary, &bytes, ENOUGH, &mut [0; TEXT_MOST]);
        let both = ratio(2_001, call(proved::read), call(reader::read));
        println!("  seed {seed}: {both:.2} ({} bytes, {} tuples)", bytes.len(), answer.count);
    }
    println!("a tuple's cost, to that in a set of 20 in rising order");
    let twenty = tuple_cost(&payload::wide_dictionary(20), &payload::in_order(0..20));
    let wide = payload::wide_dictionary(2_000);
    let array = payload::array_dictionary();
    for (what, dictionary, bytes) in [
        ("a set of 2,000, rising", &wide, payload::in_order(0..2_000)),
        ("a set of 2,000, falling", &wide, payload::in_order((0..2_000).rev())),
        ("a set of 2,000, shuffled", &wide, payload::in_order(shuffled(2_000).into_iter())),
        ("an array of 2,000", &array, payload::array_of(2_000)),
    ] {
        println!("  {what}: {:.2}", tuple_cost(dictionary, &bytes) / twenty);
    }
}

/// A dictionary of 10 KiB, and a payload of just as many bytes or a few more under it.
fn ten_kibibytes(seed: u64) -> (Vec<u8>, Vec<u8>) {
    let dictionary = ordinary::dictionary(10_240, seed);
    let bytes = (8..255)
        .map(|letters| Style { absent: 10, letters, ..PLAIN })
        .map(|style| payload::payload(&dictionary, &mut Random::new(seed), style, MOST))
        .find(|bytes| bytes.len() >= 10_240)
        .expect("long enough strings make it");
    (dictionary, bytes)
}

/// Seconds for each tuple of the payload but its root.
fn tuple_cost(dictionary: &[u8], bytes: &[u8]) -> f64 {
    let mut out = [0; TEXT_MOST];
    let empty = payload::in_order(0..0);
    let mut count = 0;
    let whole = quickest(3_000, || count = proved::read(dictionary, bytes, ENOUGH, &mut out).count);
    let check = quickest(3_000, || {
        let _ = proved::read(dictionary, &empty, ENOUGH, &mut out);
    });
    assert!(count > 1);
    (whole - check).as_secs_f64() / (count - 1) as f64
}
