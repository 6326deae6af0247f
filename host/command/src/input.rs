//! Files that the command reads.

use crate::output::{complain, Failure};
use crate::progress::Progress;
use scenario::{printable, Case, Lent, Scenario, ScenarioError, Stored};
use std::ffi::OsStr;
use std::fs::File;
use std::io::{self, Read};
use std::os::unix::ffi::OsStrExt;
use std::path::Path;

const LARGEST_SCENARIO: u64 = 1 << 30;
const LARGEST_IMAGE: u64 = 1 << 24;

/// The most warnings that are told of one file.
const MOST_WARNINGS: usize = 10;

/// A scenario's cases with the images and memories that they start from.
pub struct Loaded {
    /// The file's name as messages have it.
    pub file: String,
    pub cases: Vec<Start>,
}

/// A case and where it starts.
pub struct Start {
    pub case: Case,
    /// The image, the `set` bits stored, and the memory, the `poke` bytes stored.
    pub lent: Lent,
    /// The byte that each `set` left, with its line.
    pub sets: Vec<(usize, Stored)>,
}

/// A scenario with all its images and memories, so that a file that is missing is found before anything is run.
pub fn scenario(file: &OsStr) -> Result<Loaded, Failure> {
    let shown = printable(file.as_bytes());
    let text = named(file, LARGEST_SCENARIO)
        .map_err(|error| Failure(format!("st9: {shown}: {error}: expected a scenario file")))?;
    let scenario = parsed(&text).map_err(|error| Failure(format!("{shown}:{error}")))?;
    let folder = Path::new(file).parent().unwrap_or(Path::new(""));
    let mut cases = Vec::with_capacity(scenario.cases.len());
    for case in scenario.cases {
        let start = start(case, folder).map_err(|error| Failure(format!("{shown}:{error}")))?;
        cases.push(start);
    }
    for warning in scenario.warnings.iter().take(MOST_WARNINGS) {
        complain(&format!("{shown}:{}: warning: {}", warning.line, warning.problem));
    }
    if let more @ 1.. = scenario.warnings.len().saturating_sub(MOST_WARNINGS) {
        complain(&format!(
            "{shown}: and {more} more {}",
            if more == 1 { "warning" } else { "warnings" }
        ));
    }
    Ok(Loaded { file: shown, cases })
}

/// A case with what it starts from; its files are looked for in the scenario's folder.
fn start(case: Case, folder: &Path) -> Result<Start, ScenarioError> {
    let read = |name: &str| stored(&folder.join(name), LARGEST_IMAGE);
    let (image, line) = &case.image;
    let mut image = image.bytes(read).map_err(|error| {
        let image = printable(image.to_string().as_bytes());
        let problem = format!("image {image}: {error}: expected a file of 1,265 bytes");
        ScenarioError { line: *line, problem }
    })?;
    let mut sets = Vec::new();
    case.store(&mut image, |set, byte| {
        sets.push((set.line, Stored { place: set.place, byte }));
    });
    let memory = case.memory(read)?;
    Ok(Start { case, lent: Lent { image, memory }, sets })
}

fn parsed(text: &[u8]) -> Result<Scenario, scenario::ScenarioError> {
    let lines = text.iter().filter(|byte| **byte == b'\n').count();
    let mut progress = Progress::new(lines, "lines read");
    Scenario::parse_telling(text, |line| progress.at(line))
}

/// The bytes of an image file, or of standard input where it is `-`.
pub fn image(file: &OsStr) -> Result<Vec<u8>, Failure> {
    named(file, LARGEST_IMAGE).map_err(|error| {
        let shown = printable(file.as_bytes());
        Failure(format!("st9: {shown}: {error}: expected an image file"))
    })
}

/// The bytes of a file that the command line names: `-` is standard input.
fn named(file: &OsStr, largest: u64) -> io::Result<Vec<u8>> {
    match file == "-" {
        true => bytes(io::stdin().lock(), largest),
        false => stored(Path::new(file), largest),
    }
}

fn stored(file: &Path, largest: u64) -> io::Result<Vec<u8>> {
    bytes(File::open(file)?, largest)
}

fn bytes(input: impl Read, largest: u64) -> io::Result<Vec<u8>> {
    let mut bytes = Vec::new();
    // One byte more than allowed tells a file that is too large, without an end to wait for.
    input.take(largest + 1).read_to_end(&mut bytes)?;
    if bytes.len() as u64 > largest {
        return Err(io::Error::other(format!("over {largest} bytes")));
    }
    Ok(bytes)
}
