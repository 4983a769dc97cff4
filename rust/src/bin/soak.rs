//! Goes on comparing the proved functions with their rivals, with fresh seeds:
//!
//!     cargo run --release --offline --bin soak -- [MINUTES] [SEED]
//!
//! One minute where none are given, from a seed of the clock's. Where they differ, or where a byte beside a lent buffer is
//! touched, it ends with an error and the case in the form of docs/BENCH.md.

use std::io::Write;
use std::time::{Duration, Instant, SystemTime};
use trials::cases;
use trials::random::Random;
use trials::trial::{Desks, Trial};

const SHOW_EVERY: Duration = Duration::from_secs(2);

fn main() {
    let mut words = std::env::args().skip(1);
    let minutes: f64 = words.next().map_or(1.0, |word| word.parse().expect("MINUTES"));
    let seed = words.next().map_or_else(clock, |word| word.parse().expect("SEED"));
    let mut soak = Soak::default();
    let start = Instant::now();
    let mut shown = None;
    for seed in seed.. {
        if shown.map_or(true, |shown: Instant| shown.elapsed() >= SHOW_EVERY) {
            soak.show(seed, start.elapsed());
            shown = Some(Instant::now());
        }
        soak.round(seed);
        if start.elapsed().as_secs_f64() >= minutes * 60.0 {
            break;
        }
    }
    println!();
    soak.dictionaries.seen.saw("dictionaries", &[]);
    soak.readings.seen.saw("readings", &[]);
    soak.writings.seen.saw("writings, and their readings back", &[]);
    soak.stories.seen.saw("calls of stories", &[]);
}

fn clock() -> u64 {
    SystemTime::UNIX_EPOCH.elapsed().map_or(0, |since| since.as_secs())
}

#[derive(Default)]
struct Soak {
    dictionaries: Trial,
    readings: Trial,
    writings: Trial,
    stories: Desks<'static>,
}

impl Soak {
    fn round(&mut self, seed: u64) {
        cases::dictionaries(&mut Random::new(seed), &mut self.dictionaries);
        cases::readings(&mut Random::new(seed), &mut self.readings);
        cases::writings(&mut Random::new(seed), &mut self.writings);
        cases::story(&mut Random::new(seed), &mut self.stories);
    }

    fn show(&self, seed: u64, since: Duration) {
        let counts =
            [&self.dictionaries.seen, &self.readings.seen, &self.writings.seen, &self.stories.seen];
        let [dictionaries, readings, writings, calls] = counts.map(|seen| seen.total());
        print!(
            "\r{:6} s, seed {seed}: {dictionaries} dictionaries, {readings} readings, {writings} writings, {calls} calls ",
            since.as_secs()
        );
        std::io::stdout().flush().expect("standard output");
    }
}
