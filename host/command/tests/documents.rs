//! What README.md and docs/GUIDE.md show is what the command prints, and a reader gets from README to every document.

mod support;

use std::collections::HashMap;
use std::fs;
use std::path::Path;
use support::{folder, root, st9, st9_in};

fn document(name: &str) -> String {
    fs::read_to_string(root().join(name)).expect("a document")
}

/// A text as a document shows it: four blanks before each line.
fn shown(text: &str) -> String {
    text.lines().map(|line| format!("    {line}\n")).collect()
}

/// The indented block of a document that starts so, blank lines in it included.
fn block(document: &str, start: &str) -> String {
    let from = document.find(&format!("    {start}")).expect("the block is there");
    let inside = |line: &&str| line.starts_with("    ") || line.is_empty();
    let lines = document[from..].lines().take_while(inside);
    let bare = |line: &str| format!("{}\n", line.strip_prefix("    ").unwrap_or_default());
    let text: String = lines.map(bare).collect();
    format!("{}\n", text.trim_end())
}

#[test]
fn readme_is_short() {
    let readme = document("README.md");
    assert!(readme.lines().count() <= 100);
    let long = readme.lines().find(|line| line.chars().count() > 120);
    assert_eq!(long, None);
}

/// The documents of `docs/`, by their paths. docs/PORT.md, docs/DESIGN-PASS.md and docs/LOOK-BACK.md are records of one change each.
fn documents() -> Vec<String> {
    let files = fs::read_dir(root().join("docs")).expect("docs/");
    let names = files.map(|file| file.expect("a file").file_name().into_string().expect("a name"));
    let names = names.filter(|name| name.ends_with(".md") && !["PORT.md", "DESIGN-PASS.md", "LOOK-BACK.md"].contains(&name.as_str()));
    names.map(|name| format!("docs/{name}")).collect()
}

/// Every document is named in README, and opens with whom it is for.
#[test]
fn readme_leads_to_every_document() {
    let readme = document("README.md");
    assert_eq!(documents().len(), 6);
    for name in documents() {
        assert!(readme.contains(&name), "{name}");
    }
    for name in documents().iter().map(String::as_str).chain(["cases/README.md"]) {
        let text = document(name);
        let opening = text.lines().skip(1).find(|line| !line.is_empty());
        assert!(opening.is_some_and(|line| line.starts_with("For ")), "{name}: {opening:?}");
    }
}

/// The paths of the repository that a text names: `docs/GUIDE.md`, `crates/rules/specs/`.
fn paths(text: &str) -> Vec<&str> {
    const FOLDERS: [&str; 6] = ["crates/", "docs/", "examples/", "cases/", "host/", "include/"];
    let of_path = |letter: char| letter.is_ascii_alphanumeric() || "_-./*{}".contains(letter);
    let words = text.split(|letter| !of_path(letter)).map(|word| word.trim_end_matches('.'));
    let plain = words.filter(|word| !word.contains(['*', '{']) && !word.contains("NAME"));
    plain.filter(|word| FOLDERS.iter().any(|folder| word.starts_with(folder))).collect()
}

/// Whether a path is there, or names a file without what ends its name (`host/st9/tests/header`, `docs/landings/02`).
fn is_there(path: &str) -> bool {
    let (folder, start) = path.rsplit_once('/').expect("a folder");
    let Ok(mut files) = fs::read_dir(root().join(folder)) else { return false };
    let named = |name: &str| name.strip_prefix(start).map(|end| end.starts_with(['.', '-']));
    root().join(path).exists()
        || files.any(|file| {
            named(&file.expect("a file").file_name().to_string_lossy()).unwrap_or_default()
        })
}

#[test]
fn what_the_documents_name_is_there() {
    let mut found = 0;
    for name in documents().iter().map(String::as_str).chain(["README.md", "cases/README.md"]) {
        for path in paths(&document(name)) {
            assert!(is_there(path), "{name}: {path}");
            found += 1;
        }
    }
    assert!(found > 100, "{found}");
}

/// Whether this is `crates/NAME/out`, where the toolchain writes.
fn is_output(folder: &Path) -> bool {
    let crates = folder.ancestors().nth(2);
    folder.ends_with("out") && crates.is_some_and(|crates| crates == root().join("crates"))
}

/// The text of the definitions and proofs of each name: `Demand3` has one in `specs/` and one in `proofs/`.
fn definitions() -> HashMap<String, String> {
    let mut texts: HashMap<String, String> = HashMap::new();
    let mut folders = vec![root().join("crates")];
    while let Some(folder) = folders.pop() {
        for file in fs::read_dir(folder).expect("a folder").map(|file| file.expect("a file").path())
        {
            // What the toolchain keeps in a crate's out/ has copies of earlier texts.
            if file.is_dir() && !is_output(&file) {
                folders.push(file);
            } else if file.extension().is_some_and(|end| end == "antt") {
                let name = file.file_stem().expect("a name").to_string_lossy().into_owned();
                *texts.entry(name).or_default() += &fs::read_to_string(file).expect("text");
            }
        }
    }
    texts
}

/// What a document cites as File `name`, `other` (why), `third` .. `last`.
fn cited(text: &str) -> Vec<(&str, &str)> {
    let parts: Vec<_> = text.split('`').collect();
    let mut cited = Vec::new();
    let mut file = None;
    for pair in parts.chunks_exact(2) {
        let (before, name) = (pair[0], pair[1]);
        let between = before.trim().trim_end_matches(',');
        let same = before.starts_with([',', ' ']) && ["", "and", ".."].contains(&between)
            || before.starts_with(" (") && between.ends_with(')');
        if !same {
            let word =
                before.strip_suffix(' ').and_then(|text| text.rsplit([' ', '|', '(']).next());
            file = word.filter(|word| word.starts_with(|first: char| first.is_ascii_uppercase()));
        }
        cited.extend(file.zip(name.split(' ').next()));
    }
    cited
}

/// The definitions and laws that the reviewer's map names stand in the files that it names.
#[test]
fn what_the_map_cites_is_there() {
    let texts = definitions();
    let of_name = |letter: char| letter.is_alphanumeric() || "-_".contains(letter);
    let mut found = 0;
    for document in ["docs/PROMISES.md", "docs/EDITS.md"].map(document) {
        for (file, name) in cited(&document) {
            let Some(text) = texts.get(file) else { continue };
            let there = text.split(|letter| !of_name(letter)).any(|word| word == name);
            assert!(there, "{file} `{name}`");
            found += 1;
        }
    }
    assert!(found > 600, "{found}");
}

/// The names in the first column of a document's table with this head.
fn column(text: &str, head: &str) -> Vec<String> {
    let (_, table) = text.split_once(&format!("\n| {head} |")).expect("the table");
    let rows = table.lines().skip(2).take_while(|line| line.starts_with("| "));
    let cells = rows.filter_map(|line| line.split('|').nth(1));
    let names = cells.flat_map(|cell| cell.split(','));
    names.map(|name| name.trim_matches([' ', '`']).to_string()).collect()
}

#[test]
fn architecture_has_every_crate_and_every_file_of_definitions() {
    let architecture = document("docs/ARCHITECTURE.md");
    let list = document("crates.txt");
    let listed = list.lines().filter_map(|line| line.split_once(':'));
    // What stands between a crate's name and the colon says how it is built.
    let mut crates: Vec<_> =
        listed.filter_map(|(name, _)| name.split_whitespace().next()).collect();
    crates.sort_unstable();
    let mut rows = column(&architecture, "Crate");
    rows.sort_unstable();
    assert_eq!(rows, crates);
    let definitions = document("crates/rules/specs/Lib.antt");
    let mut files: Vec<_> =
        definitions.lines().filter_map(|line| line.strip_prefix("pub mod ")).collect();
    files.sort_unstable();
    let mut rows = column(&architecture, "File");
    rows.sort_unstable();
    assert_eq!(rows, files);
}

/// Each prototype of the header stands in the reference, and each text of an answer there is one of the tests'.
#[test]
fn reference_has_the_functions_and_their_words() {
    let reference = document("docs/REFERENCE.md");
    let header = document("include/st9.h");
    let exported = header.lines().filter_map(|line| {
        let (_, rest) =
            line.split_once("st9_answer st9_").or(line.split_once("uint64_t st9_view"))?;
        line.contains('(').then_some(rest.split('(').next()?)
    });
    let names: Vec<_> = exported.collect();
    assert_eq!(names, ["step", "run", "wait", "bound", "handler_bound", "_number"]);
    for name in ["step", "run", "wait", "bound", "handler_bound", "view_number"] {
        assert!(reference.contains(&format!("`st9_{name}`")), "{name}");
    }
    let tried = document("host/st9/tests/text.c") + &document("host/st9/tests/answers.rs");
    let (_, words) = reference.split_once("## Answers in words").expect("the words");
    let (_, words) = words.split_once("|---|---|").expect("their table");
    let texts = words.split('`').skip(1).step_by(2);
    let texts = texts.filter(|text| !text.contains("Refusal") && *text != "Display");
    let mut found = 0;
    for part in texts.flat_map(|text| text.split("..")).filter(|part| part.len() > 3) {
        assert!(tried.contains(part.trim_end_matches([' ', '('])), "{part}");
        found += 1;
    }
    assert!(found > 20, "{found}");
}

/// The kinds of steps in the reference are those of the header.
#[test]
fn reference_has_the_kinds_of_steps() {
    let (reference, header) = (document("docs/REFERENCE.md"), document("include/st9.h"));
    let (_, table) = reference.split_once("\n| Kind | Step |").expect("the table");
    let rows = table.lines().skip(2).take_while(|line| line.starts_with("| "));
    let cells = rows.map(|line| line.split('|').map(str::trim).collect::<Vec<_>>());
    let kinds: Vec<_> = cells.filter(|cells| !cells[1].is_empty()).collect();
    assert_eq!(kinds.len(), 6);
    for cells in kinds {
        let name = cells[2].replace("arbitration", "arbitrate").to_uppercase();
        assert!(header.contains(&format!("ST9_STEP_{name} = {},", cells[1])), "{cells:?}");
    }
}

/// Wherever demand 3 is said, it is the same number.
#[test]
fn demand_3_is_h_plus_e_plus_1() {
    let places = ["README.md", "docs/GUIDE.md", "include/st9.h", "host/st9/src/lib.rs"];
    for place in places.iter().chain(&["host/command/src/help/usage.txt"]) {
        let text = document(place).replace("\n * ", " ").replace("\n//! ", " ").replace('\n', " ");
        assert!(text.contains("arbitration H + E + 1 at the latest"), "{place}");
    }
}

/// The time is that which the script tells a caller who waits.
#[test]
fn readme_tells_how_long_the_build_takes() {
    let script = document("st9");
    let line = script.lines().find_map(|line| line.strip_prefix("build_time="));
    let time = line.expect("the time").trim_matches('"');
    assert!(document("README.md").replace('\n', " ").contains(time), "{time}");
}

#[test]
fn readme_shows_the_march_incident() {
    let readme = document("README.md");
    let run = ["run", "examples/march.st9"];
    let out = st9_in(&root(), &run, b"").with_code(0).out;
    assert!(readme.contains("./st9 run examples/march.st9"));
    assert!(readme.contains(&shown(&out)), "{out}");
    st9_in(&root(), &[&run[..], &["--fail-on", "erased"]].concat(), b"").with_code(3);
}

#[test]
fn readme_shows_a_case_of_ones_own() {
    let readme = document("README.md");
    let folder = folder("readme");
    fs::write(folder.join("my.st9"), block(&readme, "image zero  ")).expect("a scenario");
    st9_in(&folder, &["run", "my.st9"], b"").with_code(3);
    let ran = st9_in(&folder, &["test", "my.st9"], b"").with_code(3);
    assert!(readme.contains("./st9 test my.st9"));
    let lines = block(&readme, "my.st9:");
    assert!(ran.out.contains("expected acknowledged INTC0; came none"), "{}", ran.out);
    assert!(has_lines(&ran.out, &lines), "{}", ran.out);
}

/// Whether these are lines of an output, in this order.
fn has_lines(out: &str, lines: &str) -> bool {
    let mut printed = out.lines();
    lines.lines().all(|line| printed.any(|other| other == line))
}

#[test]
fn readme_answers_the_reviewers_questions() {
    let readme = document("README.md");
    let own_bit = ["run", "examples/own-bit.st9"];
    let bound = ["wait", "examples/bound.st9", "--source", "INTC0"];
    let blocks = [
        (&own_bit[..], "   bound INTC0           by arbitration", 4),
        (&bound[..], "wait for INTC0", 2),
    ];
    for (arguments, start, length) in blocks {
        let out = st9_in(&root(), arguments, b"").with_code(0).out;
        let block = block(&readme, start);
        assert!(readme.contains(&format!("./st9 {}", arguments.join(" "))), "{arguments:?}");
        assert_eq!(block.lines().count(), length);
        assert!(has_lines(&out, &block), "{block}");
    }
}

#[test]
fn guide_shows_its_scenario() {
    let guide = document("docs/GUIDE.md");
    let scenario = block(&guide, "image zero  ");
    let ran = st9(&["run", "-"], &scenario).with_code(0);
    assert!(guide.contains(&shown(&ran.out)), "{}", ran.out);
    let too_much = scenario.replace("write EIPR 10h", "write EIPR 00h");
    let ran = st9(&["run", "-"], &too_much).with_code(0);
    let block = block(&guide, "    bound INTC0 (FAN)     none");
    assert!(block.lines().count() == 2 && ran.out.contains(&block), "{}", ran.out);
}

#[test]
fn guide_shows_a_wait() {
    let guide = document("docs/GUIDE.md");
    let arguments = ["wait", "examples/bound.st9", "--source", "INTC0"];
    let out = st9_in(&root(), &arguments, b"").with_code(0).out;
    assert!(guide.contains(&format!("./st9 {}", arguments.join(" "))));
    assert!(guide.contains(&shown(&out)), "{out}");
}

/// How the C example is compiled is said there, and tried by host/st9's tests.
#[test]
fn guide_compiles_the_c_example() {
    let example = document("examples/march.c");
    let line = example.lines().find_map(|line| line.strip_prefix(" *     cc "));
    let line = line.expect("how it is compiled");
    assert!(document("docs/GUIDE.md").contains(&shown(&format!("cc {line}"))), "{line}");
}

/// What the guide says of a channel is a scenario.
#[test]
fn guide_shows_a_channel() {
    let guide = document("docs/GUIDE.md");
    let channel = block(&guide, "channel page=9");
    for words in ["set R240.p9 IM=1 PRL=3", "set PPR page=9", "request 0"] {
        assert!(guide.contains(&format!("`{words}`")), "{words}");
    }
    let set = "set R240.p9 IM=1 PRL=3\nset PPR page=9\n";
    let scenario = format!("image zero\n{channel}{set}request 0\nexpect raised CH0\n");
    let ran = st9(&["test", "-"], &format!("{scenario}read R240\nexpect byte 2Bh\n"));
    ran.with_code(0);
}

/// The lines about memory are the example's, and what it prints is what is shown. The C below is compiled by host/st9's
/// tests.
#[test]
fn guide_shows_a_block_into_memory() {
    let guide = document("docs/GUIDE.md");
    let example = document("examples/memory-block.st9");
    assert!(has_lines(&example, &block(&guide, "memory 200h")));
    let arguments = ["run", "examples/memory-block.st9"];
    let out = st9_in(&root(), &arguments, b"").with_code(0).out;
    assert!(guide.contains(&format!("./st9 {}", arguments.join(" "))));
    let shown = block(&guide, " 2  arbitrate             DMA");
    assert!(shown.lines().count() == 5 && has_lines(&out, &shown), "{out}");
    for words in ["poke 0100h 41h 42h", "expect memory 0100h 41h 42h 43h", "M0100h 00h -> 41h"] {
        assert!(guide.contains(&format!("`{words}`")), "{words}");
    }
    let left = format!("{example}expect memory 0100h 41h 42h 43h\n");
    st9(&["test", "-"], &left).with_code(0);
    st9(&["test", "-"], &left.replace("42h 43h\n", "42h 44h\n")).with_code(3);
    let changed = "R17 03h -> 02h, R19 00h -> 01h, R240.p9 3Ah -> 1Ah, M0100h 00h -> 41h";
    let expected = format!("arbitrate\nexpect changed {changed}\n");
    st9(&["test", "-"], &example.replacen("arbitrate\n", &expected, 1)).with_code(0);
}

#[test]
fn guide_shows_its_test() {
    let guide = document("docs/GUIDE.md");
    let folder = folder("guide");
    let scenario = block(&guide, "image zero\n    name OVERTEMP");
    fs::write(folder.join("fan-test.st9"), scenario).expect("a scenario");
    let ran = st9_in(&folder, &["test", "fan-test.st9"], b"").with_code(3);
    assert!(guide.contains("./st9 test fan-test.st9"));
    assert!(guide.contains(&shown(&ran.out)), "{}", ran.out);
}
