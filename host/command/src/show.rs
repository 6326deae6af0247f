//! `st9 show`.

use crate::arguments::Show;
use crate::input;
use crate::output::{Failure, Outcome, Output};
use crate::print::print_note;
use scenario::{named_registers, printable, Object, Place, Stored};
use st9::Refusal;
use std::os::unix::ffi::OsStrExt;

pub fn show(options: &Show, output: &mut Output) -> Result<Outcome, Failure> {
    let image = input::image(&options.image)?;
    // The page that is asked for, or the one that every image has: a bad length is refused by either.
    let page = match st9::view(&image, options.page.unwrap_or(0)) {
        Ok(page) => page,
        Err(refusal) => {
            print_refused(options, refusal, image.len(), output);
            return Ok(Outcome::Refused);
        }
    };
    let places = named_registers().iter().map(|(_, number)| Place::of(0, *number));
    for place in places.chain([Place::MARK]) {
        let byte = image.get(place.0).copied().unwrap_or_default();
        print(Stored { place, byte }, options.json, output);
    }
    if let Some(number) = options.page {
        if !options.json {
            output.line("");
        }
        for (register, byte) in (240..=255).zip(page) {
            let place = Place::of(number as u8, register);
            print(Stored { place, byte: *byte }, options.json, output);
        }
    }
    if options.json {
        let result = Object::new().text("type", "result").text("result", "done");
        output.line(&result.end());
    }
    Ok(Outcome::Done)
}

fn print(stored: Stored, json: bool, output: &mut Output) {
    output.line(&match json {
        true => stored.json(&[], None),
        false => stored.words(&[]),
    });
}

/// A refusal; beside one for its length the image's name and length.
fn print_refused(options: &Show, refusal: Refusal, length: usize, output: &mut Output) {
    if refusal == Refusal::ImageLength {
        let note = format!("{} has {length} bytes", printable(options.image.as_bytes()));
        print_note(&note, options.json, output);
    }
    let object = || Object::new().text("type", "result").text("result", "refused").refusal(refusal);
    output.line(&match options.json {
        true => object().end(),
        false => refusal.with_number(),
    });
}
