//! What the bench's programs are held to on their cases (`crates/NAME/stdout`) is what the rivals answer.

use std::fs;
use std::path::Path;
use trials::lines::{answer_cases, answer_script, lines, Answers, Way};

fn same(program: &str, answers: impl Fn(&[&[u8]]) -> Answers) {
    let path = Path::new(env!("CARGO_MANIFEST_DIR")).join("../crates").join(program);
    let [input, output] = ["stdin", "stdout"].map(|file| fs::read(path.join(file)).expect(file));
    let answers = answers(&lines(&input)).bytes;
    let differs = lines(&answers).into_iter().zip(lines(&output)).position(|(a, b)| a != b);
    assert_eq!(differs, None, "{program}: the answer that differs, from 0 on");
    assert_eq!(answers.len(), output.len(), "{program}");
}

#[test]
fn cases() {
    same("cases", |lines| answer_cases(Way::Read, lines));
}

#[test]
fn writes() {
    same("writes", |lines| answer_cases(Way::Write, lines));
}

#[test]
fn talks() {
    same("talks", |lines| answer_script(lines));
}
