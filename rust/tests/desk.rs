//! The proved desk against the rival, which was written apart from it: the answer, and every byte of
//! the desk and of the store.

use trials::cases::{self, Teller};
use trials::desk::{self, Call, DESK_BYTES, STORE_BYTES};
use trials::guard::{End, Guarded};
use trials::proved;
use trials::trial::{draw, Desks};

#[test]
fn drawn_stories() {
    draw(53, |random, trial: &mut Desks| cases::story(random, trial), &cases::TOLD);
}

/// "desk not sound, or the store isn't 32,768 bytes"
#[test]
fn desks_and_stores_of_other_lengths() {
    let mut trial = Desks::default();
    for length in [0, 1, 127, 128, 129, 144, 256] {
        trial.begin(vec![0; length], vec![0; STORE_BYTES]);
        for call in [Call::Open(1, 6, 1), Call::Feed(1, b"a"), Call::Status(1), Call::List] {
            assert_eq!(trial.call(call), if length == 128 { 0 } else { 20 }, "{length}: {call:?}");
        }
    }
    for length in [0, 4_096, STORE_BYTES - 1, STORE_BYTES, STORE_BYTES + 1] {
        trial.begin(vec![0; DESK_BYTES], vec![0; length]);
        assert_eq!(trial.call(Call::Open(1, 6, 1)), 0);
        assert_eq!(trial.call(Call::Feed(1, b"a")), if length == STORE_BYTES { 0 } else { 20 });
    }
}

/// Rows for the told values that are too short get as many as they have room for, and no byte past them.
#[test]
fn rows_of_other_lengths() {
    let mut desk = vec![0; DESK_BYTES];
    let mut store = vec![0; STORE_BYTES];
    for number in [9, 4, 7] {
        assert_eq!(desk::call(&mut desk, &mut store, Call::Open(number, 6, 5)).number, 0);
    }
    desk::call(&mut desk, &mut store, Call::Feed(4, b"ab"));
    let mut bytes = Guarded::new(DESK_BYTES);
    let (mut counts, mut numbers) = (Guarded::new(12), Guarded::new(12));
    for end in [End::Front, End::Back] {
        let desk = bytes.lend_copy(&desk, end);
        for length in 0..12 {
            let told = counts.lend_copy(&vec![77; length], end);
            assert_eq!(proved::desk_status(desk, 4, told), 0);
            let whole = [1, 2, 0].into_iter().chain([77; 12]).take(length);
            assert_eq!(*told, whole.collect::<Vec<u32>>());
            let told = numbers.lend_copy(&vec![77; length], end);
            assert_eq!(proved::desk_list(desk, told), 0);
            let whole = [4, 7, 9, 0, 0, 0, 0, 0].into_iter().chain([77; 12]).take(length);
            assert_eq!(*told, whole.collect::<Vec<u16>>());
            let told = counts.lend_copy(&vec![77; length], end);
            assert_eq!(proved::desk_status(desk, 0, told), 21);
            assert_eq!(*told, vec![77; length]);
        }
    }
}
