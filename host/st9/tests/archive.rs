//! What the archive for C asks of who links it, and that the code of the steps stands in it once: by the names that `nm` lists.

use std::path::Path;
use std::process::Command;

/// The names that `nm` lists of the archive with this option.
fn names(option: &str) -> Vec<String> {
    let archive = Path::new(env!("CARGO_MANIFEST_DIR")).join("../../target/staticlib/libst9.a");
    let output = Command::new("nm").arg(option).arg(archive).output();
    let output = output.expect("nm, of the tools that a C compiler links with");
    assert!(output.status.success(), "{}", String::from_utf8_lossy(&output.stderr));
    let said = String::from_utf8(output.stdout).expect("names");
    // Other lines are blank, or name the archive's member.
    let named = said.lines().filter_map(|line| line.rsplit_once(' '));
    named.map(|(_, name)| name.to_string()).collect()
}

/// Who links the archive without a C library brings what it needs.
#[test]
fn the_archive_needs_memcpy_alone() {
    assert_eq!(names("--undefined-only"), ["memcpy"]);
}

/// `dispatch::act` has one caller in the archive, so that the compiler puts it into the loop of `runs::run_accepted`. With a second one every answer is the
/// same, and a step of a run takes up to three times the instructions (docs/DECISIONS.md, docs/LOOK-BACK.md).
#[test]
fn the_steps_stand_in_the_loop_of_runs() {
    let names = names("--defined-only");
    assert!(names.iter().any(|name| name == "runs::run_accepted"), "{names:?}");
    assert!(!names.iter().any(|name| name == "dispatch::act"), "{names:?}");
}
