//! A program in C, compiled against include/broachvale.h and linked with the proved library, as a controller's firmware is.

use std::fs::File;
use std::path::Path;
use std::process::Command;

#[test]
fn a_c_program_decodes_and_encodes_the_sample_and_keeps_a_desk() {
    let root = Path::new(env!("CARGO_MANIFEST_DIR")).join("..");
    let program = Path::new(env!("CARGO_TARGET_TMPDIR")).join("read");
    let built = Command::new("cc")
        .args(["-std=c99", "-Wall", "-Wextra", "-Werror", "-I"])
        .arg(root.join("include"))
        .arg(root.join("samples/read.c"))
        .arg(root.join("target/native/libexports.a"))
        .arg("-o")
        .arg(&program)
        .status()
        .expect("the C compiler that Rust links with");
    assert!(built.success());
    let sample = File::open(root.join("samples/clause-8.6")).expect("the sample");
    let run = Command::new(program).stdin(sample).output().expect("the program");
    let expected = concat!(
        "9 tuples: {\"ChildArrayProperty\":[{\"AnotherBoolean\":true,\"LinkStatus\":\"NoLink\"},",
        "{\"LinkStatus\":\"LinkDown\"}],\"Id\":\"Dummy ID\",\"SampleIntegerProperty\":12}\n",
        "both directions meet\n",
        "the desk answers\n",
    );
    assert_eq!(String::from_utf8_lossy(&run.stdout), expected);
}

/// A controller may have no C library: of its names the archive needs one.
#[test]
fn the_archive_needs_memset_alone() {
    let archive = Path::new(env!("CARGO_MANIFEST_DIR")).join("../target/native/libexports.a");
    let asked = Command::new("nm").arg("-u").arg(archive).output().expect("nm, beside the linker");
    assert!(asked.status.success());
    let asked = String::from_utf8_lossy(&asked.stdout);
    let names: Vec<&str> = asked.lines().filter_map(|l| l.trim().strip_prefix("U ")).collect();
    assert_eq!(names, ["memset"]);
}
