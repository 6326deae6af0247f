//! What C and C++ compilers make of `include/`: every warning an error, the sanitizers on, linked with the archive.

use std::fmt;
use std::io::Write;
use std::path::{Path, PathBuf};
use std::process::{Command, Stdio};
use std::thread;

const EACH: [(&str, &[&str]); 4] = [
    ("gcc", &["c11", "c17"]),
    ("clang", &["c11", "c17"]),
    ("g++", &["c++11", "c++14", "c++17", "c++20"]),
    ("clang++", &["c++11", "c++14", "c++17", "c++20"]),
];

const WARNINGS: [&str; 16] = [
    "-Wall",
    "-Wextra",
    "-Wpedantic",
    "-Wconversion",
    "-Wsign-conversion",
    "-Wshadow",
    "-Wcast-qual",
    "-Wcast-align",
    "-Wundef",
    "-Wunused",
    "-Wwrite-strings",
    "-Wformat=2",
    "-Wvla",
    "-Wredundant-decls",
    "-Wmissing-declarations",
    "-Werror",
];

const WARNINGS_OF_C: [&str; 3] =
    ["-Wstrict-prototypes", "-Wmissing-prototypes", "-Wold-style-definition"];

const SANITIZERS: [&str; 2] = ["-fsanitize=address,undefined", "-fno-sanitize-recover=all"];

/// A compiler and the standard that it is asked for.
#[derive(Clone, Copy)]
pub struct Compiler {
    name: &'static str,
    standard: &'static str,
}

/// Checks with each compiler and each standard, the compilers beside one another.
pub fn each(check: impl Fn(Compiler) + Sync) {
    let check = &check;
    thread::scope(|scope| {
        for (name, standards) in EACH {
            scope.spawn(move || {
                standards.iter().for_each(|standard| check(Compiler { name, standard }))
            });
        }
    });
}

impl Compiler {
    /// The program of these files of the repository and of `include/st9_text.c`.
    pub fn program(self, name: &str, sources: &[&str]) -> PathBuf {
        let program = temporary(&format!("{name}-{self}").replace(' ', "-"));
        let mut command = self.command();
        command.args(SANITIZERS).args(sources);
        command.args(["include/st9_text.c", "-x", "none", "target/staticlib/libst9.a"]);
        self.run(command.arg("-o").arg(&program));
        program
    }

    /// A file alone, with what a C++ project may forbid itself besides.
    pub fn object(self, name: &str, source: &str) {
        let object = temporary(&format!("{name}-{self}.o").replace(' ', "-"));
        let mut command = self.command();
        if !self.is_of_c() {
            command.args(["-Wold-style-cast", "-Wextra-semi"]);
        }
        self.run(command.arg("-c").arg(source).arg("-o").arg(object));
    }

    fn is_of_c(self) -> bool {
        !self.name.ends_with("++")
    }

    /// Unoptimised, a call of an inline function is left to the linker; optimised, more is warned of.
    fn command(self) -> Command {
        let (language, warnings) =
            if self.is_of_c() { ("c", &WARNINGS_OF_C[..]) } else { ("c++", &[][..]) };
        let optimised = if self.standard.ends_with("11") { "-O0" } else { "-O1" };
        let mut command = Command::new(self.name);
        command.current_dir(root()).arg(format!("-std={}", self.standard));
        command.arg(optimised).args(WARNINGS).args(warnings);
        command.args(["-Iinclude", "-x", language]);
        command
    }

    fn run(self, command: &mut Command) {
        let output = command.output().unwrap_or_else(|error| {
            let needed = "include/ is tried with gcc, clang, g++ and clang++";
            panic!("{} cannot be run: {error}; {needed}", self.name)
        });
        let said = String::from_utf8_lossy(&output.stderr);
        assert!(output.status.success(), "{self}: {command:?}\n{said}");
    }
}

/// `gcc c11`.
impl fmt::Display for Compiler {
    fn fmt(&self, f: &mut fmt::Formatter<'_>) -> fmt::Result {
        write!(f, "{} {}", self.name, self.standard)
    }
}

/// What a program prints.
pub fn printed_by(program: &Path, arguments: &[&str], input: &str) -> String {
    let mut command = Command::new(program);
    command.args(arguments).stdin(Stdio::piped()).stdout(Stdio::piped()).stderr(Stdio::piped());
    let mut child = command.spawn().expect("the program is run");
    let mut stdin = child.stdin.take().expect("a pipe");
    let output = thread::scope(|scope| {
        // A program that does not read its input has ended before all of it is written.
        scope.spawn(move || stdin.write_all(input.as_bytes()).ok());
        child.wait_with_output().expect("the program ends")
    });
    let said = String::from_utf8_lossy(&output.stderr);
    assert!(output.status.success(), "{}: {}\n{said}", program.display(), output.status);
    String::from_utf8(output.stdout).expect("it prints text")
}

pub fn root() -> PathBuf {
    Path::new(env!("CARGO_MANIFEST_DIR")).join("../..")
}

/// A file for this test run.
pub fn temporary(name: &str) -> PathBuf {
    Path::new(env!("CARGO_TARGET_TMPDIR")).join(name)
}
