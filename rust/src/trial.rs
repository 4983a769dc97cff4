//! Comparisons of the proved functions with their rivals. Every buffer is lent against a guard page, in front and behind
//! in turn, so that a read or a write beyond it ends the run; a difference ends it with the case in the form of
//! docs/BENCH.md.

use crate::cases::{Codec, Outcome, Teller};
use crate::desk::{self, Call, PLACES, STATUS};
use crate::guard::{watched, End, Guarded};
use crate::random::Random;
use crate::reader::{Answer, TEXT_MOST};
use crate::{dictionary, lines, proved, reader, writer};

/// How often each number was answered.
#[derive(Default)]
pub struct Seen([usize; 28]);

impl Seen {
    pub fn count(&mut self, number: u32) {
        self.0[number as usize] += 1;
    }

    pub fn times(&self, number: usize) -> usize {
        self.0[number]
    }

    pub fn total(&self) -> usize {
        self.0.iter().sum()
    }

    /// A comparison that never sees a refusal says nothing of it.
    pub fn saw(&self, what: &str, numbers: &[usize]) {
        println!("{what}: {:?}", self.0);
        for &number in numbers {
            assert!(self.0[number] > 0, "{what}: {number} was never answered");
        }
    }
}

/// How many cases of each kind the tests draw at least: 200,000, and the readings back of what was written.
const CASES: usize = 210_000;

/// Draws rounds until so many cases were compared, and every one of the numbers was answered.
pub fn draw<T: Default + AsRef<Seen>>(
    seed: u64,
    round: impl Fn(&mut Random, &mut T),
    numbers: &[usize],
) -> T {
    let mut trial = T::default();
    let mut random = Random::new(seed);
    while trial.as_ref().total() < CASES {
        round(&mut random, &mut trial);
    }
    trial.as_ref().saw("drawn", numbers);
    trial
}

/// Compares checkers, readers and writers.
pub struct Trial {
    end: End,
    dictionary: Guarded<u8>,
    input: Guarded<u8>,
    output: Guarded<u8>,
    told: Guarded<usize>,
    /// What the output's memory holds before each call: no zeros.
    old: Vec<u8>,
    rival: Vec<u8>,
    pub seen: Seen,
}

impl Default for Trial {
    fn default() -> Trial {
        let mut output = Guarded::new(TEXT_MOST + 10);
        let old: Vec<u8> = (0..output.whole().len()).map(|at| (at % 251) as u8 + 1).collect();
        output.whole().copy_from_slice(&old);
        Trial {
            end: End::Front,
            dictionary: Guarded::new(dictionary::MOST),
            input: Guarded::new(TEXT_MOST),
            output,
            told: Guarded::new(proved::TOLD),
            rival: old.clone(),
            old,
            seen: Seen::default(),
        }
    }
}

impl Trial {
    /// The answer, and what was written, where both give the same and the proved function leaves every other byte.
    fn compare(
        &mut self,
        [dictionary, input]: [&[u8]; 2],
        room: usize,
        rival: impl FnOnce(&mut [u8]) -> Answer,
        proved: impl FnOnce(&[u8], &[u8], &mut [u8], &mut [usize]) -> Answer,
        case: impl Fn() -> String,
    ) -> Outcome {
        self.end = self.end.other();
        let expected = rival(&mut self.rival[..room]);
        let dictionary = self.dictionary.lend_copy(dictionary, self.end);
        let input = self.input.lend_copy(input, self.end);
        let output = self.output.lend(room, self.end);
        let told = self.told.lend_copy(&[usize::MAX; proved::TOLD], self.end);
        let answer = watched(&case, || proved(dictionary, input, output, told));
        assert_eq!(answer, expected, "proved, rival:\n{}", case());
        let start = self.output.place(room, self.end).start;
        let result = start..start + answer.length;
        let output = self.output.whole();
        let written = output[result.clone()].to_vec();
        assert!(written == self.rival[..answer.length], "the results differ:\n{}", case());
        output[result.clone()].copy_from_slice(&self.old[result]);
        assert!(output == self.old, "bytes beside the result were changed:\n{}", case());
        self.seen.count(answer.number);
        (answer, written)
    }
}

impl AsRef<Seen> for Trial {
    fn as_ref(&self) -> &Seen {
        &self.seen
    }
}

impl Codec for Trial {
    fn accepts(&mut self, bytes: &[u8]) -> bool {
        self.end = self.end.other();
        let accepted = dictionary::accepts(bytes);
        let lent = self.dictionary.lend_copy(bytes, self.end);
        let case = || lines::hex(bytes);
        let answer = watched(&case, || proved::dictionary_accepts(lent));
        assert_eq!(answer, accepted, "proved, rival:\n{}", case());
        self.seen.count(u32::from(!accepted));
        accepted
    }

    fn read(&mut self, dictionary: &[u8], payload: &[u8], budget: usize, room: usize) -> Outcome {
        self.compare(
            [dictionary, payload],
            room,
            |out| reader::read(dictionary, payload, budget, out),
            |dictionary, payload, out, told| {
                proved::read_telling(dictionary, payload, budget, out, told)
            },
            || lines::case(&format!("read into {room} bytes"), dictionary, payload, budget),
        )
    }

    fn write(&mut self, dictionary: &[u8], text: &[u8], room: usize) -> Outcome {
        self.compare(
            [dictionary, text],
            room,
            |out| writer::write(dictionary, text, out),
            proved::write_telling,
            || lines::case("write", dictionary, text, room),
        )
    }
}

/// Compares desks. A story is a desk, a store and the calls on them.
pub struct Desks<'a> {
    lent: Lent,
    first: Vec<u8>,
    calls: Vec<Call<'a>>,
    /// The rival's desk and store.
    rival: (Vec<u8>, Vec<u8>),
    pub seen: Seen,
}

/// What a desk's caller lends.
struct Lent {
    end: End,
    desk: Guarded<u8>,
    store: Guarded<u8>,
    piece: Guarded<u8>,
    status: Guarded<u32>,
    list: Guarded<u16>,
}

impl Default for Desks<'_> {
    fn default() -> Self {
        let lent = Lent {
            end: End::Front,
            desk: Guarded::new(desk::DESK_BYTES),
            store: Guarded::new(desk::STORE_BYTES),
            piece: Guarded::new(desk::PLACE_BYTES),
            status: Guarded::new(STATUS),
            list: Guarded::new(PLACES),
        };
        let rival = (Vec::new(), Vec::new());
        Desks { lent, first: Vec::new(), calls: Vec::new(), rival, seen: Seen::default() }
    }
}

impl Lent {
    /// The answer, and desk and store as the proved call leaves them.
    fn call(
        &mut self,
        call: Call,
        before: &(Vec<u8>, Vec<u8>),
        tells: &dyn Fn() -> String,
    ) -> (desk::Answer, &[u8], &[u8]) {
        self.end = self.end.other();
        let rows = proved::Rows {
            status: self.status.lend(STATUS, self.end),
            list: self.list.lend(PLACES, self.end),
        };
        let call = match call {
            Call::Feed(number, piece) => Call::Feed(number, self.piece.lend_copy(piece, self.end)),
            other => other,
        };
        let desk = self.desk.lend_copy(&before.0, self.end);
        let store = self.store.lend_copy(&before.1, self.end);
        let answer = watched(tells, || proved::desk(desk, store, call, rows));
        (answer, desk, store)
    }
}

/// A story as a script; the store at its begin is not told.
fn script(first: &[u8], calls: &[Call]) -> String {
    let calls = calls.iter().map(|call| format!("\n{}", lines::call(*call)));
    format!("desk {}{}", lines::records(first), calls.collect::<String>())
}

impl AsRef<Seen> for Desks<'_> {
    fn as_ref(&self) -> &Seen {
        &self.seen
    }
}

impl<'a> Teller<'a> for Desks<'a> {
    fn begin(&mut self, desk: Vec<u8>, store: Vec<u8>) {
        self.first = desk.clone();
        self.calls.clear();
        self.rival = (desk, store);
    }

    fn call(&mut self, call: Call<'a>) -> u32 {
        self.calls.push(call);
        let case = || script(&self.first, &self.calls);
        let before = self.rival.clone();
        let expected = desk::call(&mut self.rival.0, &mut self.rival.1, call);
        let (answer, desk, store) = self.lent.call(call, &before, &case);
        assert_eq!(answer, expected, "proved, rival:\n{}", case());
        assert!(desk == self.rival.0, "the desks differ:\n{}", case());
        assert!(store == self.rival.1, "the stores differ:\n{}", case());
        if answer.number != 0 {
            assert!(self.rival == before, "refused, and changed:\n{}", case());
        }
        self.seen.count(answer.number);
        answer.number
    }
}
