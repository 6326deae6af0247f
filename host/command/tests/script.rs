//! `./st9` of the repository's root: a copy of it in a folder of its own, with stubs for the tools that it builds with.

#![cfg(target_os = "linux")]

mod support;

use std::env;
use std::fs::{self, File};
use std::io::{BufRead, BufReader, Read};
use std::os::unix::fs::{symlink, PermissionsExt};
use std::path::{Path, PathBuf};
use std::process::{self, Child, ChildStderr, Command, Output, Stdio};
use std::sync::{Mutex, MutexGuard, PoisonError};
use std::thread::{self, sleep};
use std::time::{Duration, Instant, SystemTime};
use support::{root, st9, Ran};

/// What the script itself and the stubs call; everything else is a stub or missing.
const SYSTEM: [&str; 12] = [
    "bash", "dirname", "readlink", "find", "touch", "mkdir", "mv", "cp", "flock", "sleep", "cat",
    "tail",
];

/// Each stub tells its call. That of rt can edit a source while it builds.
const RT: &str = "#!/bin/sh
echo \"rt $* in $PWD\" >> \"$CALLS\"
if [ -n \"$EDIT\" ]; then sleep 0.05; touch ../source; sleep 0.05; fi
mkdir -p out && touch out/libst9_c.a
";
const CARGO: &str = "#!/bin/sh
echo \"cargo $1 in $PWD\" >> \"$CALLS\"
mkdir -p target/release && cp \"${CALLS%/*}/binary\" target/release/st9
";
/// A part of a stub: goes on once the test says so with the file `go`, and fails where the test never does.
const PAUSE: &str = "tries=0
until [ -e \"${CALLS%/*}/go\" ]; do
    [ $((tries += 1)) -le 600 ] || exit 1
    sleep 0.05
done
";
const BINARY: &str = "#!/bin/sh\nfor word; do echo \"<$word>\"; done\necho \"$PWD\"\nexit 1\n";

/// None has the name of a source of Rattle: the gate refuses such files outside of the crates.
const SOURCES: [&str; 11] = [
    "crates.txt",
    "crates/source",
    "crates/st9_c/src/source",
    "crates/st9_c/proofs/out/source",
    "host/Cargo.toml",
    "host/Cargo.lock",
    "host/st9/src/lib.rs",
    "host/command/src/main.rs",
    USAGE,
    TOPIC,
    "host/st9/build.rs",
];

const USAGE: &str = "host/command/src/help/usage.txt";
const TOPIC: &str = "host/command/src/help/expect.txt";
const LOG: &str = "host/target/st9-build.log";

/// One test at a time: a file that is being written when another test starts a process cannot be run for a moment.
static ALONE: Mutex<()> = Mutex::new(());

struct Checkout {
    root: PathBuf,
    _alone: MutexGuard<'static, ()>,
}

impl Drop for Checkout {
    /// What a test that failed has left can be looked at.
    fn drop(&mut self) {
        if !thread::panicking() {
            let _ = fs::remove_dir_all(self.root.parent().expect("the test's folder"));
        }
    }
}

impl Checkout {
    /// A checkout an hour old, with nothing built, in a folder with a blank in its name. It is no folder of the repository:
    /// `rt ci` refuses a second crates.txt, and links, anywhere in it.
    fn new(name: &str) -> Checkout {
        let folder = env::temp_dir().join(format!("st9-{}-{name}", process::id()));
        let _ = fs::remove_dir_all(&folder);
        let checkout = Checkout {
            root: folder.join("a checkout"),
            _alone: ALONE.lock().unwrap_or_else(PoisonError::into_inner),
        };
        for source in SOURCES {
            let file = checkout.root.join(source);
            fs::create_dir_all(file.parent().expect("a folder")).expect("the folder is made");
            fs::write(&file, "").expect("a source");
        }
        for text in [USAGE, TOPIC] {
            fs::copy(root().join(text), checkout.root.join(text)).expect("a text of the help");
        }
        checkout.age();
        fs::copy(root().join("st9"), checkout.root.join("st9")).expect("the script");
        let tools = checkout.root.join("tools");
        fs::create_dir(&tools).expect("a folder");
        let builder = "tools/staticlib";
        fs::copy(root().join(builder), checkout.root.join(builder)).expect("the script's own");
        for tool in SYSTEM {
            // Not every system has flock, and the script does without.
            if let Some(file) = found(tool) {
                symlink(file, tools.join(tool)).expect("a link");
            }
        }
        for (stub, text) in [("rt", RT), ("cargo", CARGO), ("cc", ""), ("../binary", BINARY)] {
            fs::write(tools.join(stub), text).expect("a stub");
            let mode = fs::Permissions::from_mode(0o755);
            fs::set_permissions(tools.join(stub), mode).expect("the stub can be run");
        }
        checkout
    }

    /// Makes all sources and all that is built an hour old.
    fn age(&self) {
        let hour_ago = SystemTime::now() - Duration::from_secs(3600);
        let mut paths =
            ["crates", "crates.txt", "host", "target"].map(|name| self.root.join(name)).to_vec();
        while let Some(path) = paths.pop() {
            // A link would lead out of the checkout.
            if path.is_symlink() || !path.exists() {
                continue;
            }
            if path.is_dir() {
                let entries = fs::read_dir(&path).expect("its entries");
                paths.extend(entries.map(|entry| entry.expect("an entry").path()));
            }
            let entry = File::open(&path).expect("a file or folder");
            entry.set_modified(hour_ago).expect("its time is set");
        }
    }

    fn script(&self, script: &Path, arguments: &[&str]) -> Command {
        let mut command = Command::new(script);
        command
            .args(arguments)
            .current_dir(self.root.join("crates"))
            .env("PATH", self.root.join("tools"))
            .env("CALLS", self.root.join("calls"))
            .env("EDIT", "");
        command
    }

    fn run(&self, script: &Path, edit: &str) -> Ran {
        let mut command = self.script(script, &ARGUMENTS);
        ran(command.env("EDIT", edit).output().expect("the script starts"))
    }

    fn call(&self, arguments: &[&str]) -> Ran {
        let mut command = self.script(&self.root.join("st9"), arguments);
        ran(command.output().expect("the script starts"))
    }

    fn start(&self) -> Started {
        let mut child = self
            .script(&self.root.join("st9"), &ARGUMENTS)
            .stdin(Stdio::null())
            .stdout(Stdio::piped())
            .stderr(Stdio::piped())
            .spawn()
            .expect("the script starts");
        let err = BufReader::new(child.stderr.take().expect("standard error is a pipe"));
        Started { child, err }
    }

    /// Lets a stub go on that pauses.
    fn go(&self) {
        fs::write(self.root.join("go"), "").expect("a file");
    }

    fn set_rt(&self, stub: &str) {
        fs::write(self.root.join("tools/rt"), stub).expect("the stub");
    }

    /// Runs the script; the command gets its arguments and folder, and its exit code is the script's.
    fn runs(&self) {
        self.assert_ran(self.run(&self.root.join("st9"), ""));
    }

    fn assert_ran(&self, ran: Ran) {
        let expected = format!("<run>\n<a b>\n<*>\n{}\n", self.root.join("crates").display());
        assert_eq!(ran.with_code(1).out, expected);
    }

    /// The tools called since this was last asked, with their folders below the checkout.
    fn calls(&self) -> Vec<String> {
        let calls = fs::read_to_string(self.root.join("calls")).unwrap_or_default();
        let _ = fs::remove_file(self.root.join("calls"));
        let here = format!("{}", self.root.display());
        calls.lines().map(|line| line.replace(&here, ".")).collect()
    }
}

/// A call of the script that is under way.
struct Started {
    child: Child,
    err: BufReader<ChildStderr>,
}

impl Started {
    /// The next line of standard error, without its end; empty where there is none.
    fn line(&mut self) -> String {
        let mut line = String::new();
        self.err.read_line(&mut line).expect("a line");
        line.trim_end_matches('\n').to_string()
    }

    /// The end of the call, with what of standard error was not read yet.
    fn ended(mut self) -> Ran {
        let mut err = String::new();
        self.err.read_to_string(&mut err).expect("standard error");
        Ran { err, ..ran(self.child.wait_with_output().expect("the script ends")) }
    }
}

fn ran(output: Output) -> Ran {
    Ran {
        code: output.status.code(),
        out: String::from_utf8_lossy(&output.stdout).into_owned(),
        err: String::from_utf8_lossy(&output.stderr).into_owned(),
    }
}

fn found(tool: &str) -> Option<PathBuf> {
    let path = env::var_os("PATH")?;
    let mut files = env::split_paths(&path).map(|folder| folder.join(tool));
    files.find(|file| file.is_file())
}

const ARGUMENTS: [&str; 3] = ["run", "a b", "*"];
const BOTH: [&str; 2] = ["rt lib in ./crates/st9_c", "cargo build in ./host"];
const ARCHIVE: &str = "target/staticlib/libst9.a";

#[test]
fn builds_what_is_missing_or_old() {
    let checkout = Checkout::new("script");
    let cases: [(&str, &[&str], &[&str]); 10] = [
        ("nothing is built", &[], &BOTH),
        ("all is fresh", &[], &[]),
        ("the model was edited", &["crates/source"], &BOTH),
        ("the command was edited", &["host/command/src/main.rs"], &BOTH[1..]),
        ("the list was edited", &["crates.txt"], &BOTH),
        ("a new file of the model", &["crates/new source"], &BOTH),
        ("edited and proved", &["crates/source", ARCHIVE], &BOTH[1..]),
        ("the exports were edited", &["crates/st9_c/src/source"], &BOTH),
        ("rt wrote what it keeps", &["crates/st9_c/out/kept", "crates/st9_c/out/more/kept"], &[]),
        ("a folder of sources is named so", &["crates/st9_c/proofs/out/source"], &BOTH),
    ];
    for (name, edited, calls) in cases {
        checkout.age();
        for file in edited.iter().map(|file| checkout.root.join(file)) {
            fs::create_dir_all(file.parent().expect("a folder")).expect("the folder is made");
            fs::write(file, "x").expect("a file");
        }
        checkout.runs();
        assert_eq!(checkout.calls(), calls, "{name}");
        checkout.runs();
        assert_eq!(checkout.calls(), [""; 0], "{name}, then again");
    }
}

#[test]
fn sees_an_edit_made_during_a_build() {
    let checkout = Checkout::new("script-edit");
    checkout.assert_ran(checkout.run(&checkout.root.join("st9"), "yes"));
    assert_eq!(checkout.calls(), BOTH);
    checkout.runs();
    assert_eq!(checkout.calls(), BOTH);
}

#[test]
fn works_through_a_link() {
    let checkout = Checkout::new("script-link");
    let link = checkout.root.join("crates/link");
    symlink("../st9", &link).expect("a link");
    checkout.assert_ran(checkout.run(&link, ""));
    assert_eq!(checkout.calls(), BOTH);
}

#[test]
fn names_the_tools_that_are_missing() {
    let checkout = Checkout::new("script-tools");
    for missing in [&["rt"][..], &["cargo"], &["rt", "cc"]] {
        let aside = |tool: &str| checkout.root.join(format!("{tool}-aside"));
        let tool = |tool: &str| checkout.root.join("tools").join(tool);
        for name in missing {
            fs::rename(tool(name), aside(name)).expect("the tool is put aside");
        }
        let ran = checkout.run(&checkout.root.join("st9"), "").with_code(2);
        let message = format!("st9: cannot build: missing {} (", missing.join(" "));
        assert!(ran.err.starts_with(&message), "{}", ran.err);
        assert_eq!((ran.out.as_str(), checkout.calls()), ("", vec![]));
        for name in missing {
            fs::rename(aside(name), tool(name)).expect("the tool is back");
        }
    }
    checkout.runs();
    // What is built needs no tools.
    fs::remove_file(checkout.root.join("tools/rt")).expect("the tool is gone");
    checkout.runs();
}

#[test]
fn a_build_that_fails_is_exit_code_2() {
    let checkout = Checkout::new("script-fails");
    for (tool, message) in [("rt", "the model"), ("cargo", "the command")] {
        let file = checkout.root.join("tools").join(tool);
        let stub = fs::read_to_string(&file).expect("the stub");
        fs::write(&file, "#!/bin/sh\nexit 1\n").expect("a stub that fails");
        let ran = checkout.run(&checkout.root.join("st9"), "").with_code(2);
        assert!(ran.err.ends_with(&format!("st9: {message} could not be built\n")), "{}", ran.err);
        assert_eq!(ran.out, "");
        fs::write(&file, stub).expect("the stub");
    }
    checkout.runs();
}

#[test]
fn help_before_the_first_build_is_the_usage() {
    let checkout = Checkout::new("script-help");
    let usage = st9(&["help"], "").with_code(0).out;
    let help = checkout.call(&["help"]).with_code(0);
    let note = help.out.strip_prefix(usage.as_str()).expect("the usage comes first");
    for words in ["not built yet", "run, test, wait or show", "minutes", "rt, cargo and cc"] {
        assert!(note.contains(words), "{note}");
    }
    assert_eq!(help.err, "");
    for arguments in [&["--help"][..], &["-h"], &["help", "run"], &["run", "a", "-h"], &["-h", "x"]]
    {
        let ran = checkout.call(arguments).with_code(0);
        assert_eq!((&ran.out, ran.err.as_str()), (&help.out, ""), "{arguments:?}");
    }
    let topic = st9(&["help", "expect"], "").with_code(0).out;
    let ran = checkout.call(&["help", "expect"]).with_code(0);
    assert_eq!((ran.out, ran.err.as_str()), (format!("{topic}{note}"), ""));
    // Nothing that is no command starts a build.
    for arguments in [&[][..], &[""], &["walk"], &["--version"]] {
        let ran = checkout.call(arguments).with_code(2);
        assert_eq!((ran.out.as_str(), &ran.err), ("", &help.out), "{arguments:?}");
    }
    assert_eq!(checkout.calls(), [""; 0]);
    assert!(!checkout.root.join("host/target").exists());
    for (command, calls) in [("show", &BOTH[..]), ("test", &[]), ("wait", &[])] {
        let ran = checkout.call(&[command]).with_code(1);
        assert!(ran.out.starts_with(&format!("<{command}>\n")), "{}", ran.out);
        assert_eq!(checkout.calls(), calls);
    }
}

#[test]
fn help_is_the_binarys_once_there_is_one() {
    let checkout = Checkout::new("script-help-built");
    checkout.runs();
    assert_eq!(checkout.calls(), BOTH);
    let here = format!("{}\n", checkout.root.join("crates").display());
    for (arguments, words) in
        [(&["help"][..], "<help>\n"), (&["-h", "x"], "<-h>\n<x>\n"), (&[], "")]
    {
        let ran = checkout.call(arguments).with_code(1);
        assert_eq!((ran.out, ran.err.as_str()), (format!("{words}{here}"), ""));
        assert_eq!(checkout.calls(), [""; 0]);
    }
    // An old binary is built again, as for every other word.
    checkout.age();
    fs::write(checkout.root.join("host/command/src/main.rs"), "x").expect("a file");
    assert_eq!(checkout.call(&["--help"]).with_code(1).out, format!("<--help>\n{here}"));
    assert_eq!(checkout.calls(), BOTH[1..]);
}

/// Needed are st9_c, middle, lower and base: `io` is no crate of the list, and nothing that st9_c needs has `other`.
const CRATES: &str = "# st9_c: other
base:
other: base report

 st9_c staticlib : middle base # not: other
middle: io\tlower base
lower:base
report: io
";

/// What rt prints of these crates: first what the stub has on its standard error, then what is on its standard output. It
/// prints nothing of base, which is as it was when it was last proved.
const PRINTED: [&str; 2] = [
    "rt: chose --jobs 2 for lower
note: no function with a body is declared, so nothing was lowered
enum lower::Place: proved
library base: modules loaded=16 checked=0
statements std: modules loaded=21 checked=0
crate lower: modules loaded=0 checked=33
logic=proved functions=0 sum=dac8208d650f15bf native=nat,char,string incremental=trusted
rt: chose --jobs 2 for middle
fn middle::two: proved
library base: modules loaded=16 checked=0
library lower: modules loaded=16 checked=0
crate middle: modules loaded=0 checked=33
logic=proved functions=1 sum=dac8208d650f15bf native=nat,char,string incremental=trusted
",
    "fn st9_c::st9_step: proved
  a line with blanks and a \\ in it
crate st9_c: modules loaded=0 checked=34
axioms std: none reached of the 2 declared
logic=proved functions=1 target=x86_64-unknown-linux-gnu sum=dac8208d650f15bf incremental=trusted
",
];

/// A stub of rt that prints two texts, pauses between them, and ends with the lines given.
fn printing_rt([first, second]: [&str; 2], end: &str) -> String {
    format!("{RT}cat >&2 <<'END'\n{first}END\n{PAUSE}cat <<'END'\n{second}END\n{end}")
}

/// A line without the time at its end, which is the machine's.
fn without_time(line: &str) -> &str {
    let (line, time) = line.rsplit_once(" (").expect("a time");
    let seconds = time.strip_suffix(" s)").map(str::parse::<u32>);
    assert!(matches!(seconds, Some(Ok(_))), "{time}");
    line
}

#[test]
fn says_a_line_a_crate_as_they_are_proved() {
    let checkout = Checkout::new("script-crates");
    fs::write(checkout.root.join("crates.txt"), CRATES).expect("the list");
    checkout.set_rt(&printing_rt(PRINTED, ""));
    let mut started = checkout.start();
    assert!(started.line().starts_with("st9: proving and compiling the model"));
    // rt pauses before its end, so these lines come while it runs.
    assert_eq!(started.line(), "st9: crate 1 of 4: base proved (unchanged)");
    for line in ["2 of 4: lower proved", "3 of 4: middle proved"] {
        assert_eq!(without_time(&started.line()), format!("st9: crate {line}"));
    }
    checkout.go();
    let last = "st9: crate 4 of 4: st9_c proved and compiled";
    assert_eq!(without_time(&started.line()), last);
    assert_eq!(started.line(), "st9: compiling the command (cargo build --release)");
    let ran = started.ended();
    assert_eq!(ran.err, "");
    checkout.assert_ran(ran);
    assert_eq!(checkout.calls(), BOTH);
    let log = fs::read_to_string(checkout.root.join(LOG)).expect("the log");
    assert_eq!(log, format!("{}{ARCHIVE} has the functions for C\n", PRINTED.concat()));
}

#[test]
fn a_model_that_is_not_proved_shows_the_end_of_the_log() {
    let checkout = Checkout::new("script-log");
    fs::write(checkout.root.join("crates.txt"), CRATES).expect("the list");
    // Crates that are proved after the one that is not can have more lines than are shown.
    let notes: Vec<_> = (1..=40).map(|number| format!("note: number {number}")).collect();
    let failed = "base NOT PROVED";
    let verdict = "crate base: modules loaded=0 checked=33\nlogic=not-proved";
    let printed = format!("{verdict}\n{}\n", notes.join("\n"));
    // Its exit status decides, whatever it wrote and printed.
    checkout.set_rt(&printing_rt([&printed, PRINTED[1]], "exit 3\n"));
    checkout.go();
    let ran = checkout.call(&ARGUMENTS).with_code(2);
    assert_eq!(ran.out, "");
    let lines: Vec<_> = ran.err.lines().collect();
    let (last, lines) = lines.split_last().expect("a line");
    assert_eq!(*last, "st9: the model could not be built");
    let (before, shown) = lines.split_at(lines.len() - 30);
    let log = fs::canonicalize(checkout.root.join(LOG)).expect("the log");
    let name = format!("{}", log.display());
    assert!(before.last().is_some_and(|line| line.contains(&name)), "{before:?}");
    assert!(before.iter().all(|line| line.starts_with("st9: ")), "{before:?}");
    assert_eq!(before[1], format!("st9: crate 1 of 4: {failed}"));
    let all = format!("{printed}{}", PRINTED[1]);
    assert_eq!(fs::read_to_string(&log).expect("the log"), all);
    assert_eq!(shown, &all.lines().collect::<Vec<_>>()[all.lines().count() - 30..]);
    assert_eq!(checkout.calls(), BOTH[..1]);
    assert!(!checkout.root.join(ARCHIVE).exists());
}

#[test]
fn a_call_during_a_build_waits_and_says_so() {
    // Without flock the script does not wait.
    if found("flock").is_none() {
        return;
    }
    let checkout = Checkout::new("script-wait");
    checkout.set_rt(&format!("{RT}{PAUSE}"));
    let first = checkout.start();
    let until = Instant::now() + Duration::from_secs(30);
    while !checkout.root.join("calls").exists() {
        assert!(Instant::now() < until, "the first call does not build");
        sleep(Duration::from_millis(10));
    }
    let mut second = checkout.start();
    assert_eq!(second.line(), "st9: another call is building; waiting for it");
    assert!(second.child.try_wait().expect("its state").is_none());
    checkout.go();
    let first = first.ended();
    assert!(!first.err.contains("waiting"), "{}", first.err);
    checkout.assert_ran(first);
    let second = second.ended();
    assert_eq!(second.err, "");
    checkout.assert_ran(second);
    assert_eq!(checkout.calls(), BOTH);
}
