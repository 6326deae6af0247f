//! The scenarios of `examples/` through the binary, against the expected output beside them.

mod support;

use std::fs;
use std::path::PathBuf;
use support::{examples, root, st9_in};

#[test]
fn examples_print_what_is_expected() {
    let files = examples();
    let names: Vec<_> = files.iter().filter_map(|file| file.file_stem()).collect();
    assert_eq!(names, ["bound", "dma-block", "march", "memory-block", "own-bit", "reviewer"]);
    for file in files {
        let text = fs::read_to_string(&file).expect("a scenario");
        let first = text.lines().next().expect("a first line");
        let command = first.strip_prefix("# ./st9 ").expect("the command as first comment");
        let arguments: Vec<_> = command.split(' ').collect();
        let expected = fs::read_to_string(file.with_extension("expected")).expect("the output");
        let ran = st9_in(&root(), &arguments, b"").with_code(0);
        assert_eq!(ran.out, expected, "{command}");
        assert_eq!(ran.err, "", "{command}");
    }
}

#[test]
fn line_ends_do_not_matter() {
    let run = |file: &&PathBuf| !file.ends_with("bound.st9") && !file.ends_with("reviewer.st9");
    for file in examples().iter().filter(run) {
        let text = fs::read_to_string(file).expect("a scenario");
        let expected = fs::read_to_string(file.with_extension("expected")).expect("the output");
        let forms = [
            text.replace('\n', "\r\n"),
            text.trim_end().to_string(),
            text.trim_end().replace('\n', "\r\n"),
            text.replace(' ', "\t"),
            text.replace('\n', " \t\n"),
            format!("\u{FEFF}{text}"),
        ];
        for form in forms {
            assert_eq!(support::run(&form).with_code(0).out, expected, "{form:?}");
        }
    }
}
