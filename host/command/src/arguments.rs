//! The command line.

use crate::help;
use crate::options::{none_left, shown, usage, Options};
use crate::output::Failure;
use scenario::Loss;
use std::ffi::{OsStr, OsString};
use std::os::unix::ffi::OsStrExt;

/// What is to be done.
pub enum Command {
    Help(String),
    Run(Run),
    Test(Test),
    Wait(Wait),
    Show(Show),
}

pub struct Run {
    pub file: OsString,
    pub json: bool,
    pub quiet: bool,
    pub verbose: bool,
    pub save: Save,
    pub fail_on: Vec<Loss>,
}

pub struct Test {
    pub files: Vec<OsString>,
    pub json: bool,
    pub fail_on: Vec<Loss>,
}

pub struct Wait {
    pub file: OsString,
    /// By name or number; names of one's own are the scenario's.
    pub source: Option<OsString>,
    pub json: bool,
    pub save: Save,
    pub fail_on_never: bool,
    pub within: Option<u64>,
}

/// Where image and memory are saved.
pub struct Save {
    pub image: Option<OsString>,
    pub memory: Option<OsString>,
}

pub struct Show {
    pub image: OsString,
    pub page: Option<u32>,
    pub json: bool,
}

/// The command of the words after the program's name.
pub fn command(words: &[OsString]) -> Result<Command, Failure> {
    let Some((name, rest)) = words.split_first() else {
        return Err(Failure(help::USAGE.to_string()));
    };
    let help_wanted =
        rest.iter().take_while(|word| *word != "--").any(|word| word == "--help" || word == "-h");
    match name.to_str().unwrap_or_default() {
        "help" | "--help" | "-h" => topic(rest),
        "--version" | "-V" => {
            none_left(rest)?;
            Ok(Command::Help(help::version()))
        }
        "run" | "test" | "wait" | "show" if help_wanted => {
            Ok(Command::Help(help::USAGE.to_string()))
        }
        "run" => run(Options::read(
            rest,
            &["--json", "--quiet", "--verbose"],
            &["--save", "--save-memory", "--fail-on"],
        )?),
        "test" => test(Options::read(rest, &["--json"], &["--fail-on"])?),
        "wait" => wait(Options::read(
            rest,
            &["--json"],
            &["--source", "--save", "--save-memory", "--fail-on", "--within"],
        )?),
        "show" => show(Options::read(rest, &["--json"], &["--page"])?),
        _ => Err(usage(&format!(
            "{} is no command: expected run, test, wait, show or help",
            shown(name)
        ))),
    }
}

fn topic(words: &[OsString]) -> Result<Command, Failure> {
    let Some((word, rest)) = words.split_first() else {
        return Ok(Command::Help(help::USAGE.to_string()));
    };
    none_left(rest)?;
    match word.to_str().and_then(help::topic) {
        Some(text) => Ok(Command::Help(text.to_string())),
        None => {
            Err(usage(&format!("{} is no topic: expected scenario, expect or json", shown(word))))
        }
    }
}

fn run(mut options: Options) -> Result<Command, Failure> {
    let (quiet, verbose) = (options.flag("--quiet"), options.flag("--verbose"));
    if quiet && verbose {
        return Err(usage("--quiet and --verbose: expected one of them"));
    }
    Ok(Command::Run(Run {
        json: options.flag("--json"),
        quiet,
        verbose,
        save: save(&mut options)?,
        fail_on: losses(&mut options)?,
        file: options.only("a scenario file")?,
    }))
}

fn save(options: &mut Options) -> Result<Save, Failure> {
    let save = Save { image: options.value("--save"), memory: options.value("--save-memory") };
    let none = Some(OsStr::new("-"));
    if save.image.as_deref() == none || save.memory.as_deref() == none {
        return Err(usage("'-' is no file to save to: expected a file's name"));
    }
    if let (Some(name), true) = (&save.image, save.image == save.memory) {
        let found = format!("--save and --save-memory {}", shown(name));
        return Err(usage(&format!("{found}: expected two files")));
    }
    Ok(save)
}

/// The losses of `--fail-on`, each once.
fn losses(options: &mut Options) -> Result<Vec<Loss>, Failure> {
    let Some(words) = options.value("--fail-on") else {
        return Ok(Vec::new());
    };
    let mut losses = Vec::new();
    for word in words.as_bytes().split(|byte| *byte == b',').map(<[u8]>::trim_ascii) {
        let named = |loss: &Loss| loss.name().as_bytes().eq_ignore_ascii_case(word);
        let Some(loss) = Loss::ALL.into_iter().find(named) else {
            let found = shown(OsStr::from_bytes(word));
            return Err(usage(&format!(
                "--fail-on {found}: expected erased, merged, pending, unselected, or several with commas between them"
            )));
        };
        if !losses.contains(&loss) {
            losses.push(loss);
        }
    }
    Ok(losses)
}

fn test(mut options: Options) -> Result<Command, Failure> {
    let fail_on = losses(&mut options)?;
    let json = options.flag("--json");
    let files = options.others("scenario files, or folders of them")?;
    Ok(Command::Test(Test { files, json, fail_on }))
}

fn wait(mut options: Options) -> Result<Command, Failure> {
    let source = options.value("--source");
    let save = save(&mut options)?;
    let named = [("--save", save.image.is_some()), ("--save-memory", save.memory.is_some())];
    if let (Some((option, _)), None) = (named.iter().find(|(_, given)| *given), &source) {
        return Err(usage(&format!("{option} without a source: expected --source with it")));
    }
    let fail_on_never = match options.value("--fail-on") {
        None => false,
        Some(word) if word.eq_ignore_ascii_case("never") => true,
        Some(word) => return Err(usage(&format!("--fail-on {}: expected never", shown(&word)))),
    };
    let within = options.value("--within").map(|word| {
        let number = scenario::number(word.as_bytes());
        number.ok_or_else(|| {
            usage(&format!("--within {}: expected a number of arbitrations", shown(&word)))
        })
    });
    Ok(Command::Wait(Wait {
        source,
        json: options.flag("--json"),
        save,
        fail_on_never,
        within: within.transpose()?,
        file: options.only("a scenario file")?,
    }))
}

fn show(mut options: Options) -> Result<Command, Failure> {
    let json = options.flag("--json");
    let page = match options.value("--page") {
        None => None,
        Some(word) => Some(scenario::number_32(word.as_bytes()).ok_or_else(|| {
            usage(&format!("{} is no page: expected a number, 0 to 63", shown(&word)))
        })?),
    };
    let image = options.only("an image file, or - for standard input")?;
    Ok(Command::Show(Show { image, page, json }))
}
