//! Texts: those that the rival reads out of made payloads, with spaces between tokens, and the same with a few changes.

use super::payload::{payload, Style};
use crate::random::Random;
use crate::reader::{read, TEXT_MOST};

/// A text that fits an accepted dictionary, without spaces.
pub fn text(dictionary: &[u8], random: &mut Random, style: Style, size: usize) -> Vec<u8> {
    let bytes = payload(dictionary, random, style, size);
    let mut text = vec![0; TEXT_MOST];
    let answer = read(dictionary, &bytes, usize::MAX, &mut text);
    text.truncate(answer.length);
    text
}

/// Spaces at some of the places where tokens meet.
pub fn spaced(text: &[u8], random: &mut Random, percent: usize) -> Vec<u8> {
    let mut spaced = Vec::new();
    let mut inside = false;
    for &byte in text {
        let sign = !inside && b"{}[]:,".contains(&byte);
        if sign {
            spaces(&mut spaced, random, percent);
        }
        spaced.push(byte);
        inside ^= byte == b'"';
        if sign {
            spaces(&mut spaced, random, percent);
        }
    }
    spaces(&mut spaced, random, percent);
    spaced
}

fn spaces(text: &mut Vec<u8>, random: &mut Random, percent: usize) {
    while random.chance(percent) {
        text.push(random.pick(b" \t\n\r"));
    }
}

/// The text with one to three changes, mostly one.
pub fn damaged(good: &[u8], random: &mut Random) -> Vec<u8> {
    const BYTES: &[u8] = b"{}[]:,\"\\ \n09-+.eEtrufalsnA_~\x00\x1F\x7F\x80";
    const TOKENS: [&str; 24] = [
        "null",
        "true",
        "false",
        "tru",
        "0",
        "-0",
        "01",
        "1.5",
        "1e3",
        "-1",
        "128",
        "-129",
        "-",
        "9223372036854775808",
        "-9223372036854775808",
        "\"\"",
        "\"a\"",
        "\"a",
        "{",
        "}",
        "[]",
        ",",
        "{}",
        "_",
    ];
    let mut text = good.to_vec();
    for _ in 0..random.pick(&[1, 1, 1, 1, 2, 3]) {
        let at = random.below(text.len() + 1);
        match random.below(8) {
            0..=1 => text.insert(at, random.pick(BYTES)),
            2 if at < text.len() => drop(text.remove(at)),
            3 if at < text.len() => text[at] = random.pick(BYTES),
            4 => text.truncate(at),
            5..=6 => replace_value(&mut text, at, random.pick(&TOKENS)),
            _ => repeat_member(&mut text, at),
        }
        if text.is_empty() {
            text.push(b'{');
        }
    }
    text
}

/// What stands between a colon and the next comma or bracket becomes another token.
fn replace_value(text: &mut Vec<u8>, from: usize, token: &str) {
    if let Some(colon) = text[from..].iter().position(|&b| b == b':').map(|at| from + at + 1) {
        let end = text[colon..].iter().position(|b| b",}]".contains(b));
        text.splice(colon..end.map_or(text.len(), |end| colon + end), token.bytes());
    }
}

/// A member that stands between two commas comes again.
fn repeat_member(text: &mut Vec<u8>, from: usize) {
    let mut commas =
        text[from..].iter().enumerate().filter(|(_, &b)| b == b',').map(|(at, _)| from + at);
    if let (Some(first), Some(second)) = (commas.next(), commas.next()) {
        let member = text[first..second].to_vec();
        text.splice(second..second, member);
    }
}
