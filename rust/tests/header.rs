//! include/broachvale.h beside the definitions: refusals with their words, limits, operation types and states, and the version.

use std::collections::BTreeMap;
use std::fs;
use std::path::{Path, PathBuf};
use trials::guard::{End, Guarded};

fn root() -> PathBuf {
    Path::new(env!("CARGO_MANIFEST_DIR")).join("..")
}

fn read(path: &str) -> String {
    fs::read_to_string(root().join(path)).unwrap_or_else(|_| panic!("{path}"))
}

/// A number with the words beside it.
type Table = BTreeMap<String, (u64, String)>;

/// The definitions `name = number` of a file of antt, each with the comment line before it. `dictionary_least` is `DICTIONARY_LEAST`.
fn defined(path: &str) -> Table {
    let text = read(path);
    let mut words = String::new();
    let mut table = Table::new();
    for line in text.lines() {
        if let Some(comment) = line.strip_prefix("-- ") {
            words = comment.to_string();
        } else if let Some((name, number)) = line.split_once(" = ") {
            if let Ok(number) = number.parse() {
                table.insert(name.to_ascii_uppercase(), (number, words.clone()));
                words.clear();
            }
        }
    }
    assert!(!table.is_empty(), "{path} defines no number");
    table
}

/// The constants `const NAME: TYPE = NUMBER;` of a file of Rattle, public or not.
fn constants(path: &str) -> BTreeMap<String, u64> {
    let text = read(path);
    let lines = text.lines().map(|line| line.strip_prefix("pub ").unwrap_or(line));
    let lines = lines.filter_map(|line| line.strip_prefix("const "));
    let split = lines.filter_map(|line| {
        let (name, rest) = line.split_once(':')?;
        let (_, number) = rest.split_once(" = ")?;
        Some((name.to_string(), number.strip_suffix(';')?.parse().ok()?))
    });
    split.collect()
}

/// The cases `Name = NUMBER,` of the enums in a file of Rattle. `PastEnd` is `PAST_END`.
fn cases(path: &str) -> BTreeMap<String, u64> {
    let text = read(path);
    let split = text.lines().filter_map(|line| {
        let (name, number) = line.trim().split_once(" = ")?;
        let number = number.strip_suffix(',')?.parse().ok()?;
        Some((screaming(name), number))
    });
    split.collect()
}

fn screaming(name: &str) -> String {
    let mut words = String::new();
    for letter in name.chars() {
        if letter.is_ascii_uppercase() && !words.is_empty() {
            words.push('_');
        }
        words.push(letter.to_ascii_uppercase());
    }
    words
}

/// The macros and the enum constants of the header, without their prefix, with the comment after each.
fn header() -> Table {
    let text = read("include/broachvale.h");
    let mut table = Table::new();
    for line in text.lines() {
        let line = line.trim().trim_start_matches("#define ");
        let rest = match line.strip_prefix("BROACHVALE_") {
            Some(rest) => rest,
            None => continue,
        };
        let (code, words) = rest.split_once("/*").unwrap_or((rest, "*/"));
        let words = words.trim_end_matches("*/").trim().to_string();
        let code = code.trim().trim_end_matches(',').replace(" = ", " ");
        if let Some((name, number)) = code.split_once(' ') {
            if let Ok(number) = number.trim().parse() {
                table.insert(name.to_string(), (number, words));
            }
        }
    }
    table
}

/// The header says of each name what the definitions say.
fn agree(names: &[&str], defined: &Table) {
    let header = header();
    for &name in names {
        assert_eq!(header[name].0, defined[name].0, "{name}");
    }
}

#[test]
fn refusals_are_those_of_the_table() {
    let header = header();
    // No refusal, and so no case of the enum: it is the C boundary's.
    let mut code = cases("crates/paper/src/lib.rt");
    code.extend(constants("crates/exports/src/lib.rt"));
    for (name, (number, words)) in defined("crates/paper/specs/Refusals.antt") {
        assert_eq!(code.get(&name), Some(&number), "{name} in code");
        let (told, comment) = &header[&name];
        assert_eq!(*told, number, "{name}");
        if number > 0 {
            assert_eq!(*comment, words, "{name}");
        }
    }
}

#[test]
fn limits_are_those_of_the_table() {
    let code = constants("crates/paper/src/lib.rt");
    let limits = defined("crates/paper/specs/Limits.antt");
    for (name, (number, _)) in &limits {
        assert_eq!(code.get(name), Some(number), "{name} in code");
    }
    let told = [
        "DICTIONARY_LEAST",
        "DICTIONARY_MOST",
        "PAYLOAD_LEAST",
        "PAYLOAD_MOST",
        "TEXT_LEAST",
        "TEXT_MOST",
        "DEPTH_MOST",
        "INTEGER_MOST",
        "DESK_MOST",
        "DECLARED_MOST",
        "STORE_BYTES",
    ];
    agree(&told, &limits);
}

#[test]
fn types_and_states_are_those_of_a_record() {
    let names = [
        "HEAD",
        "READ",
        "CREATE",
        "DELETE",
        "UPDATE",
        "REPLACE",
        "ACTION",
        "INACTIVE",
        "NEEDS_INPUT",
        "TRIGGERED",
        "RUNNING",
        "HAVE_RESULTS",
        "COMPLETED",
        "FAILED",
        "ABANDONED",
    ];
    agree(&names, &defined("crates/desk_records/specs/Record.antt"));
}

#[test]
fn the_version_and_the_desk_are_the_library_s() {
    let header = header();
    let part = |name: &str| header[name].0;
    let version =
        65536 * part("VERSION_MAJOR") + 256 * part("VERSION_MINOR") + part("VERSION_PATCH");
    assert_eq!(u64::from(trials::proved::version()), version);
    assert_eq!(part("DESK_BYTES"), trials::desk::DESK_BYTES as u64);
    let mut fresh = Guarded::new(trials::desk::DESK_BYTES);
    let mut row = Guarded::new(8);
    let desk = fresh.lend_copy(&vec![0; part("DESK_BYTES") as usize], End::Back);
    let told = trials::proved::desk_list(desk, row.lend(8, End::Back));
    assert_eq!(told, 0, "a desk of zeros is an empty one");
}
