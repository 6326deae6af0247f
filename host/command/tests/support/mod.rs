//! What the tests share: runs of the binary, a checker of JSON, random numbers.

#![allow(dead_code)]

use std::io::Write;
use std::path::{Path, PathBuf};
use std::process::{Command, Stdio};

/// What a run of the binary gave.
pub struct Ran {
    pub code: Option<i32>,
    pub out: String,
    pub err: String,
}

impl Ran {
    /// Checks the exit code; a panic's is none of 0, 1 and 2.
    pub fn with_code(self, code: i32) -> Ran {
        assert_eq!(self.code, Some(code), "\nout: {}\nerr: {}", self.out, self.err);
        self
    }
}

/// Runs the binary in a folder, with bytes as standard input.
pub fn st9_in(folder: &Path, arguments: &[&str], input: &[u8]) -> Ran {
    let mut child = Command::new(env!("CARGO_BIN_EXE_st9"))
        .args(arguments)
        .current_dir(folder)
        .stdin(Stdio::piped())
        .stdout(Stdio::piped())
        .stderr(Stdio::piped())
        .spawn()
        .expect("the binary starts");
    let mut stdin = child.stdin.take().expect("standard input is a pipe");
    // The binary may end without reading.
    let _ = stdin.write_all(input);
    drop(stdin);
    let output = child.wait_with_output().expect("the binary ends");
    Ran {
        code: output.status.code(),
        out: String::from_utf8_lossy(&output.stdout).into_owned(),
        err: String::from_utf8_lossy(&output.stderr).into_owned(),
    }
}

/// Runs the binary with a scenario as standard input.
pub fn st9(arguments: &[&str], scenario: &str) -> Ran {
    st9_in(Path::new("."), arguments, scenario.as_bytes())
}

/// `st9 run -` with a scenario.
pub fn run(scenario: &str) -> Ran {
    st9(&["run", "-"], scenario)
}

/// The root of the repository.
pub fn root() -> PathBuf {
    Path::new(env!("CARGO_MANIFEST_DIR")).join("../..")
}

/// An empty folder of its own for a test.
pub fn folder(name: &str) -> PathBuf {
    let folder = Path::new(env!("CARGO_TARGET_TMPDIR")).join(name);
    let _ = std::fs::remove_dir_all(&folder);
    std::fs::create_dir_all(&folder).expect("the folder is made");
    folder
}

/// The scenarios of `examples/`, in the order of their names.
pub fn examples() -> Vec<PathBuf> {
    let entries = std::fs::read_dir(root().join("examples")).expect("examples/ is there");
    let mut files: Vec<_> = entries
        .map(|entry| entry.expect("an entry").path())
        .filter(|path| path.extension().is_some_and(|end| end == "st9"))
        .collect();
    files.sort();
    files
}

/// Random numbers (splitmix64), the same for the same seed.
pub struct Random(pub u64);

impl Random {
    pub fn next(&mut self) -> u64 {
        self.0 = self.0.wrapping_add(0x9E37_79B9_7F4A_7C15);
        let mut mixed = self.0;
        mixed = (mixed ^ (mixed >> 30)).wrapping_mul(0xBF58_476D_1CE4_E5B9);
        mixed = (mixed ^ (mixed >> 27)).wrapping_mul(0x94D0_49BB_1331_11EB);
        mixed ^ (mixed >> 31)
    }

    /// A number below `limit`.
    pub fn below(&mut self, limit: usize) -> usize {
        (self.next() % limit.max(1) as u64) as usize
    }

    pub fn byte(&mut self) -> u8 {
        self.next() as u8
    }

    pub fn pick<T: Copy>(&mut self, from: &[T]) -> T {
        from[self.below(from.len())]
    }
}

/// Whether a text is one value of JSON (RFC 8259).
pub fn is_json(text: &str) -> bool {
    let mut rest = text.trim();
    value(&mut rest).is_some() && rest.is_empty()
}

fn value(rest: &mut &str) -> Option<()> {
    match rest.chars().next()? {
        '{' => members(rest, '}', |rest| {
            string(rest)?;
            taken(rest, ":")?;
            value(rest)
        }),
        '[' => members(rest, ']', value),
        '"' => string(rest),
        '-' | '0'..='9' => number(rest),
        _ => ["true", "false", "null"].iter().find_map(|word| taken(rest, word)),
    }
}

fn members(rest: &mut &str, end: char, member: fn(&mut &str) -> Option<()>) -> Option<()> {
    *rest = &rest[1..];
    if rest.starts_with(end) {
        *rest = &rest[1..];
        return Some(());
    }
    loop {
        member(rest)?;
        let next = rest.chars().next()?;
        *rest = &rest[next.len_utf8()..];
        match next {
            ',' => {}
            _ if next == end => return Some(()),
            _ => return None,
        }
    }
}

fn string(rest: &mut &str) -> Option<()> {
    taken(rest, "\"")?;
    loop {
        let next = rest.chars().next()?;
        *rest = &rest[next.len_utf8()..];
        match next {
            '"' => return Some(()),
            '\0'..='\x1F' => return None,
            '\\' => match rest.chars().next()? {
                'u' => {
                    let digits = rest.get(1..5)?;
                    digits.chars().all(|digit| digit.is_ascii_hexdigit()).then_some(())?;
                    *rest = &rest[5..];
                }
                '"' | '\\' | '/' | 'b' | 'f' | 'n' | 'r' | 't' => *rest = &rest[1..],
                _ => return None,
            },
            _ => {}
        }
    }
}

fn number(rest: &mut &str) -> Option<()> {
    let digits = rest.trim_start_matches('-');
    let end = digits.find(|next: char| !next.is_ascii_digit()).unwrap_or(digits.len());
    let leading_zero = end > 1 && digits.starts_with('0');
    *rest = &digits[end..];
    (end > 0 && !leading_zero).then_some(())
}

fn taken(rest: &mut &str, word: &str) -> Option<()> {
    *rest = rest.strip_prefix(word)?;
    Some(())
}
