//! Writes stdin and stdout of the programs cases, writes and talks anew (`crates/NAME/`), which the gate runs them on:
//!
//!     cargo run --release --offline --bin make_cases
//!
//! - Kept: every line of the present stdin that this program doesn't make itself, in its order: the paper's worked cases,
//!   those worked out by hand, and those that were drawn elsewhere. To keep one more, write it into stdin and run this.
//! - Made: cases drawn by `trials::cases` from fixed seeds, one of each number that a round answers. In a case file they
//!   are the lines whose names begin with "made "; in the script they stand between the lines "made begin" and "made end",
//!   which are malformed, and end with the desk as it was. They stand before the last kept line, which has no line end.
//! - Answered: all lines, by the rivals alone. So a request changes the rivals, and this program the files; on unchanged
//!   rules it changes nothing, which shows that the rivals agree with every answer that was worked out by hand.
//!
//! It ends with an error where a number of the table that the program can answer is not among the answers, and where
//! judges' one dictionary isn't accepted.

use std::collections::BTreeSet;
use std::fs;
use std::path::PathBuf;
use trials::cases::{self, Codec, Outcome, Teller, READ, TOLD, WRITTEN};
use trials::desk::Call;
use trials::lines::{self, answer_cases, answer_script, Answers, Script, Way};
use trials::random::Random;
use trials::reader::TEXT_MOST;
use trials::{dictionary, figure, reader, writer};

const MADE: &str = "made ";
const BEGIN: &[u8] = b"made begin";
const END: &[u8] = b"made end";
const ROUNDS: u64 = 20;
const STORIES: u64 = 12;
const LINE_MOST: usize = 3_000;

fn main() {
    case_file("cases", Way::Read, &READ);
    case_file("writes", Way::Write, &WRITTEN);
    script("talks", &TOLD);
    assert!(dictionary::accepts(&figure::bytes()), "judges' dictionary");
}

fn path(program: &str, file: &str) -> PathBuf {
    [env!("CARGO_MANIFEST_DIR"), "..", "crates", program, file].iter().collect()
}

fn present(program: &str) -> Vec<u8> {
    fs::read(path(program, "stdin")).expect("the present cases")
}

/// The files, where every number was answered.
fn write_down(program: &str, input: &[Vec<u8>], answers: Answers, numbers: &[usize]) {
    for number in numbers {
        assert!(answers.numbers.contains(number), "{program}: {number} is not answered");
    }
    fs::write(path(program, "stdin"), input.join(&b'\n')).expect("stdin");
    fs::write(path(program, "stdout"), answers.bytes).expect("stdout");
    println!("{program}: {} lines", input.len());
}

/// Kept lines with the made ones before the last.
fn with_made(mut kept: Vec<Vec<u8>>, made: Vec<Vec<u8>>) -> Vec<Vec<u8>> {
    let last = kept.len() - 1;
    kept.splice(last..last, made);
    kept
}

fn case_file(program: &str, way: Way, numbers: &[usize]) {
    let present = present(program);
    let kept = lines::lines(&present).into_iter().filter(|line| !line.starts_with(MADE.as_bytes()));
    let input = with_made(kept.map(<[u8]>::to_vec).collect(), made_cases(way));
    write_down(program, &input, answer_cases(way, &input), numbers);
}

/// Writes down a case of each number that a round answers.
struct Recorder {
    way: Way,
    seen: BTreeSet<u32>,
    made: Vec<Vec<u8>>,
}

fn made_cases(way: Way) -> Vec<Vec<u8>> {
    let mut recorder = Recorder { way, seen: BTreeSet::new(), made: Vec::new() };
    for seed in 1..=ROUNDS {
        let mut random = Random::new(seed);
        recorder.seen.clear();
        match way {
            Way::Read => cases::readings(&mut random, &mut recorder),
            Way::Write => cases::writings(&mut random, &mut recorder),
        }
    }
    recorder.made
}

impl Recorder {
    fn record(&mut self, number: u32, dictionary: &[u8], bytes: &[u8], asked: usize) {
        let name = format!("{MADE}{}", self.made.len());
        let line = lines::case(&name, dictionary, bytes, asked).into_bytes();
        if line.len() <= LINE_MOST && self.seen.insert(number) {
            self.made.push(line);
        }
    }
}

impl Codec for Recorder {
    fn accepts(&mut self, bytes: &[u8]) -> bool {
        dictionary::accepts(bytes)
    }

    /// A line of a case file always has the most room.
    fn read(&mut self, dictionary: &[u8], payload: &[u8], budget: usize, room: usize) -> Outcome {
        let mut text = vec![0; room];
        let answer = reader::read(dictionary, payload, budget, &mut text);
        if self.way == Way::Read && room == TEXT_MOST {
            self.record(answer.number, dictionary, payload, budget);
        }
        text.truncate(answer.length);
        (answer, text)
    }

    fn write(&mut self, dictionary: &[u8], text: &[u8], room: usize) -> Outcome {
        let mut payload = vec![0; room];
        let answer = writer::write(dictionary, text, &mut payload);
        self.record(answer.number, dictionary, text, room);
        payload.truncate(answer.length);
        (answer, payload)
    }
}

fn script(program: &str, numbers: &[usize]) {
    let present = present(program);
    let mut kept: Vec<Vec<u8>> = lines::lines(&present).into_iter().map(<[u8]>::to_vec).collect();
    let marks = [BEGIN, END].map(|mark| kept.iter().position(|line| line == mark));
    if let [Some(begin), Some(end)] = marks {
        kept.drain(begin..=end);
    }
    let mut script = Script::default();
    for line in &kept[..kept.len() - 1] {
        script.answer(line);
    }
    let input = with_made(kept, made_stories(&script));
    write_down(program, &input, answer_script(&input), numbers);
}

/// Writes down stories.
#[derive(Default)]
struct Scribe(Vec<Vec<u8>>);

fn made_stories(before: &Script) -> Vec<Vec<u8>> {
    let mut scribe = Scribe::default();
    scribe.0.push(BEGIN.to_vec());
    for seed in 1..=STORIES {
        cases::story(&mut Random::new(seed), &mut scribe);
        scribe.0.push(b"show".to_vec());
    }
    scribe.0.push(format!("desk {}", before.records()).into_bytes());
    scribe.0.push(END.to_vec());
    scribe.0
}

impl<'a> Teller<'a> for Scribe {
    /// The store stays as it is.
    fn begin(&mut self, desk: Vec<u8>, _store: Vec<u8>) {
        self.0.push(format!("desk {}", lines::records(&desk)).into_bytes());
    }

    /// Calls with long lines are left out of the story.
    fn call(&mut self, call: Call<'a>) -> u32 {
        let line = lines::call(call).into_bytes();
        if line.len() <= LINE_MOST {
            self.0.push(line);
        }
        0
    }
}
