//! `--save` and `--save-memory`: files that are found writable before the run and written after it.

use crate::arguments::Save;
use crate::input::Loaded;
use crate::output::Failure;
use scenario::{quoted, Lent};
use std::ffi::OsStr;
use std::fs::{File, OpenOptions};
use std::io::{self, Write};
use std::os::unix::ffi::OsStrExt;

/// The files of the two options, open.
pub struct Saved {
    image: Option<Opened>,
    memory: Option<Opened>,
}

/// A file, open.
struct Opened {
    /// The option and the file's name, as messages have them.
    name: String,
    file: File,
}

impl Saved {
    /// Opens the files that are named; a scenario of several cases has no one image to save.
    pub fn open(save: &Save, loaded: &Loaded) -> Result<Saved, Failure> {
        Ok(Saved {
            image: Opened::open("--save", save.image.as_deref(), loaded)?,
            memory: Opened::open("--save-memory", save.memory.as_deref(), loaded)?,
        })
    }

    pub fn write(self, left: &Lent) -> Result<(), Failure> {
        let files = [(self.image, &left.image), (self.memory, &left.memory)];
        files.into_iter().try_for_each(|(file, bytes)| match file {
            Some(file) => file.write(bytes),
            None => Ok(()),
        })
    }
}

impl Opened {
    fn open(option: &str, path: Option<&OsStr>, loaded: &Loaded) -> Result<Option<Self>, Failure> {
        let Some(path) = path else {
            return Ok(None);
        };
        let name = format!("{option} {}", quoted(path.as_bytes()));
        let cases = loaded.cases.len();
        if cases != 1 {
            let expected = "expected a file of one case";
            return Err(Failure(format!("st9: {name} with {cases} cases: {expected}")));
        }
        // What the file holds stays until there is something to write.
        let file = OpenOptions::new().write(true).create(true).truncate(false).open(path);
        let file = file.map_err(|error| unwritable(&name, &error))?;
        Ok(Some(Opened { name, file }))
    }

    fn write(mut self, bytes: &[u8]) -> Result<(), Failure> {
        // A device, as /dev/full, has no length to set.
        let regular = self.file.metadata().is_ok_and(|data| data.is_file());
        let emptied = if regular { self.file.set_len(0) } else { Ok(()) };
        let written = emptied.and_then(|()| self.file.write_all(bytes));
        written.map_err(|error| unwritable(&self.name, &error))
    }
}

fn unwritable(name: &str, error: &io::Error) -> Failure {
    Failure(format!("st9: {name}: {error}: expected a file that can be written"))
}
