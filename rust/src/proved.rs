//! The proved functions, called through the C boundary of crates/exports.

use crate::desk::{self, Call};
use crate::reader::Answer;

/// How many numbers a reader or a writer tells: place, count, length.
pub const TOLD: usize = 3;

extern "C" {
    fn broachvale_version() -> u32;
    fn broachvale_dictionary_check(dictionary: *const u8, length: usize) -> u32;
    fn broachvale_read(
        dictionary: *const u8,
        dictionary_length: usize,
        payload: *const u8,
        payload_length: usize,
        budget: usize,
        text: *mut u8,
        text_length: usize,
        told: *mut usize,
        told_length: usize,
    ) -> u32;
    fn broachvale_write(
        dictionary: *const u8,
        dictionary_length: usize,
        text: *const u8,
        text_length: usize,
        payload: *mut u8,
        payload_length: usize,
        told: *mut usize,
        told_length: usize,
    ) -> u32;
    fn broachvale_desk_open(d: *mut u8, size: usize, number: u16, kind: u8, declared: u32) -> u32;
    fn broachvale_desk_feed(
        d: *mut u8,
        size: usize,
        store: *mut u8,
        store_size: usize,
        number: u16,
        piece: *const u8,
        piece_size: usize,
    ) -> u32;
    fn broachvale_desk_start(d: *mut u8, size: usize, number: u16) -> u32;
    fn broachvale_desk_finish_failed(d: *mut u8, size: usize, number: u16) -> u32;
    fn broachvale_desk_finish_good(d: *mut u8, size: usize, number: u16, results: u32) -> u32;
    fn broachvale_desk_take(d: *mut u8, size: usize, number: u16, n: u32) -> u32;
    fn broachvale_desk_kill(d: *mut u8, size: usize, number: u16) -> u32;
    fn broachvale_desk_close(d: *mut u8, size: usize, number: u16) -> u32;
    fn broachvale_desk_status(
        d: *const u8,
        size: usize,
        number: u16,
        told: *mut u32,
        told_count: usize,
    ) -> u32;
    fn broachvale_desk_list(d: *const u8, size: usize, told: *mut u16, told_count: usize) -> u32;
}

/// Whether the proved checker accepts the dictionary.
pub fn dictionary_accepts(dictionary: &[u8]) -> bool {
    // SAFETY: the pointer and the length are those of one slice, which the checker only reads.
    let answer = unsafe { broachvale_dictionary_check(dictionary.as_ptr(), dictionary.len()) };
    match answer {
        0 => true,
        1 => false,
        other => panic!("the dictionary's check answers 0 or 1, not {other}"),
    }
}

/// What the proved reader answers and writes.
pub fn read(dictionary: &[u8], payload: &[u8], budget: usize, text: &mut [u8]) -> Answer {
    read_telling(dictionary, payload, budget, text, &mut [0; TOLD])
}

/// The same, with the row for place, count and length lent too.
pub fn read_telling(
    dictionary: &[u8],
    payload: &[u8],
    budget: usize,
    text: &mut [u8],
    told: &mut [usize],
) -> Answer {
    // SAFETY: each pointer and the length after it are those of one slice; the two that are written are lent to nobody else.
    let number = unsafe {
        broachvale_read(
            dictionary.as_ptr(),
            dictionary.len(),
            payload.as_ptr(),
            payload.len(),
            budget,
            text.as_mut_ptr(),
            text.len(),
            told.as_mut_ptr(),
            told.len(),
        )
    };
    Answer { number, place: told[0], count: told[1], length: told[2] }
}

/// What the proved writer answers and writes.
pub fn write(dictionary: &[u8], text: &[u8], payload: &mut [u8]) -> Answer {
    write_telling(dictionary, text, payload, &mut [0; TOLD])
}

/// The same, with the row for place, count and length lent too.
pub fn write_telling(
    dictionary: &[u8],
    text: &[u8],
    payload: &mut [u8],
    told: &mut [usize],
) -> Answer {
    // SAFETY: as for `read`.
    let number = unsafe {
        broachvale_write(
            dictionary.as_ptr(),
            dictionary.len(),
            text.as_ptr(),
            text.len(),
            payload.as_mut_ptr(),
            payload.len(),
            told.as_mut_ptr(),
            told.len(),
        )
    };
    Answer { number, place: told[0], count: told[1], length: told[2] }
}

/// Rows for what status and list tell.
pub struct Rows<'a> {
    pub status: &'a mut [u32],
    pub list: &'a mut [u16],
}

/// What the proved desk answers to a call; desk and store are as it leaves them.
pub fn desk(desk: &mut [u8], store: &mut [u8], call: Call, rows: Rows) -> desk::Answer {
    let (bytes, size) = (desk.as_mut_ptr(), desk.len());
    // SAFETY: each pointer and the length after it are those of one slice; those that are written are lent to nobody else.
    let number = unsafe {
        match call {
            Call::Open(number, kind, declared) => {
                broachvale_desk_open(bytes, size, number, kind, declared)
            }
            Call::Feed(number, piece) => broachvale_desk_feed(
                bytes,
                size,
                store.as_mut_ptr(),
                store.len(),
                number,
                piece.as_ptr(),
                piece.len(),
            ),
            Call::Start(number) => broachvale_desk_start(bytes, size, number),
            Call::Failed(number) => broachvale_desk_finish_failed(bytes, size, number),
            Call::Good(number, results) => {
                broachvale_desk_finish_good(bytes, size, number, results)
            }
            Call::Take(number, n) => broachvale_desk_take(bytes, size, number, n),
            Call::Kill(number) => broachvale_desk_kill(bytes, size, number),
            Call::Close(number) => broachvale_desk_close(bytes, size, number),
            Call::Status(number) => desk_status(desk, number, rows.status),
            Call::List => desk_list(desk, rows.list),
        }
    };
    let told = match call {
        Call::Status(_) if number == 0 => rows.status.to_vec(),
        Call::List if number == 0 => rows.list.iter().copied().map(u32::from).collect(),
        _ => Vec::new(),
    };
    desk::Answer { number, told }
}

pub fn desk_status(desk: &[u8], number: u16, told: &mut [u32]) -> u32 {
    // SAFETY: each pointer and the length after it are those of one slice.
    unsafe {
        broachvale_desk_status(desk.as_ptr(), desk.len(), number, told.as_mut_ptr(), told.len())
    }
}

pub fn desk_list(desk: &[u8], told: &mut [u16]) -> u32 {
    // SAFETY: each pointer and the length after it are those of one slice.
    unsafe { broachvale_desk_list(desk.as_ptr(), desk.len(), told.as_mut_ptr(), told.len()) }
}

/// The library's version, as the header writes one.
pub fn version() -> u32 {
    // SAFETY: it takes nothing.
    unsafe { broachvale_version() }
}
