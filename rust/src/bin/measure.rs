//! How long the proved dictionary checker takes, as ratios of times taken in the same run:
//!
//! 1. proved to rival on ordinary dictionaries of 10 KiB;
//! 2. proved on a hostile dictionary of the most bytes to proved on an ordinary one, for the worst
//!    of each family that a search finds, and for the worst of all.

use std::time::Duration;
use trials::dictionary::MOST;
use trials::make::hostile::{families, family, Blocks, Ending, Hostile};
use trials::make::ordinary;
use trials::timing::{quickest, ratio};
use trials::{dictionary, proved};

type Checker = fn(&[u8]) -> bool;

const ROWS: [usize; 9] = [400, 800, 1_600, 2_400, 3_200, 4_000, 4_800, 5_400, 5_900];
const LETTERS: [usize; 9] = [2, 3, 5, 9, 16, 32, 64, 128, 254];

fn main() {
    println!("proved / rival, ordinary dictionaries of 10 KiB");
    for seed in 1..=3 {
        let bytes = ordinary::dictionary(10_240, seed);
        let both = ratio(
            2_001,
            call(proved::dictionary_accepts, &bytes),
            call(dictionary::accepts, &bytes),
        );
        println!("  seed {seed}: {both:.2}");
    }
    println!("proved on the worst hostile / proved on an ordinary dictionary, {MOST} bytes each");
    let ordinary = ordinary::dictionary(MOST, 1);
    let mut worst = (0.0, None);
    for blocks in families() {
        let hostile = search(blocks);
        let bytes = hostile.dictionary(MOST).expect("the search found it");
        let judge: Checker = proved::dictionary_accepts;
        let both = ratio(21, call(judge, &bytes), call(judge, &ordinary));
        println!("  {both:8.2}  {hostile:?}");
        if both > worst.0 {
            worst = (both, Some(hostile));
        }
    }
    if let (ratio, Some(hostile)) = worst {
        println!("worst of all: {ratio:.2}, {hostile:?}");
    }
}

/// The slowest of a family: over a grid of parameters first, then over row counts near the best.
fn search(blocks: Blocks) -> Hostile {
    let mut worst = Worst { time: Duration::ZERO, hostile: None };
    for hostile in family(blocks, &ROWS, &LETTERS) {
        if hostile.ending == Ending::Accepted {
            worst.meet(hostile);
        }
    }
    for step in [200, 100, 50, 20] {
        let best = worst.hostile.expect("every family has a dictionary");
        for rows in [best.rows - step, best.rows + step] {
            worst.meet(Hostile { rows, ..best });
        }
        worst.meet(Hostile { ending: Ending::Refused, ..best });
    }
    worst.hostile.expect("every family has a dictionary")
}

struct Worst {
    time: Duration,
    hostile: Option<Hostile>,
}

impl Worst {
    fn meet(&mut self, hostile: Hostile) {
        let bytes = match hostile.dictionary(MOST) {
            Some(bytes) => bytes,
            None => return,
        };
        // One slow call may be the machine's doing, three are not.
        let time = quickest(3, call(proved::dictionary_accepts, &bytes));
        if time > self.time {
            *self = Worst { time, hostile: Some(hostile) };
        }
    }
}

/// The makers know the answers and the tests hold the checkers to them.
fn call(accepts: Checker, bytes: &[u8]) -> impl FnMut() + '_ {
    move || {
        let _ = accepts(bytes);
    }
}
