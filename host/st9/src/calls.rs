//! All calls of the library: slices in, flat answers out.

#![allow(unsafe_code)]

use crate::sys;
use crate::Channel;

pub(crate) fn step(
    image: &mut [u8],
    channels: &[Channel],
    memory: &mut [u8],
    word: u64,
) -> sys::Answer {
    let (records, length) = bytes(channels);
    let (cells, size) = (memory.as_mut_ptr(), memory.len());
    // SAFETY: pointers and lengths are of live slices; image and memory are borrowed mutably, so that nothing overlaps
    // them and nobody else reads or writes them during the call. The library keeps no pointer.
    unsafe { sys::st9_step(image.as_mut_ptr(), image.len(), records, length, cells, size, word) }
}

pub(crate) fn run(
    image: &mut [u8],
    channels: &[Channel],
    memory: &mut [u8],
    words: &[u64],
) -> sys::Answer {
    let (records, length) = bytes(channels);
    // SAFETY: as in `step`; the words are a live slice too, and aligned.
    unsafe {
        sys::st9_run(
            image.as_mut_ptr(),
            image.len(),
            records,
            length,
            memory.as_mut_ptr(),
            memory.len(),
            words.as_ptr(),
            words.len(),
        )
    }
}

pub(crate) fn wait(
    image: &mut [u8],
    channels: &[Channel],
    memory: &mut [u8],
    source: u32,
    words: &[u64],
) -> sys::Answer {
    let (records, length) = bytes(channels);
    // SAFETY: as in `run`.
    unsafe {
        sys::st9_wait(
            image.as_mut_ptr(),
            image.len(),
            records,
            length,
            memory.as_mut_ptr(),
            memory.len(),
            source,
            words.as_ptr(),
            words.len(),
        )
    }
}

pub(crate) fn bound(image: &[u8], channels: &[Channel], source: u32, words: &[u64]) -> sys::Answer {
    either_bound(sys::st9_bound, image, channels, source, words)
}

pub(crate) fn handler_bound(
    image: &[u8],
    channels: &[Channel],
    source: u32,
    words: &[u64],
) -> sys::Answer {
    either_bound(sys::st9_handler_bound, image, channels, source, words)
}

/// One of the two functions that answer a bound.
type BoundCall =
    unsafe extern "C" fn(*const u8, usize, *const u8, usize, u32, *const u64, usize) -> sys::Answer;

fn either_bound(
    call: BoundCall,
    image: &[u8],
    channels: &[Channel],
    source: u32,
    words: &[u64],
) -> sys::Answer {
    let (records, length) = bytes(channels);
    // SAFETY: as in `run`; the image is only read.
    unsafe {
        call(image.as_ptr(), image.len(), records, length, source, words.as_ptr(), words.len())
    }
}

pub(crate) fn view_number(image: &[u8], page: u32) -> u64 {
    // SAFETY: pointer and length are of one live slice, which is only read.
    unsafe { sys::st9_view_number(image.as_ptr(), image.len(), page) }
}

/// A channel list as the library takes it: its bytes, seven a record, and their number.
fn bytes(channels: &[Channel]) -> (*const u8, usize) {
    (channels.as_ptr().cast(), std::mem::size_of_val(channels))
}

/// The one panic of this crate: an answer that `include/st9.h` does not have. No input leads here; it means that the
/// archive is not that of this crate, and then no answer of it may be passed on.
#[cold]
pub(crate) fn foreign(what: &str, number: u64) -> ! {
    panic!("libst9.a answers {number} as {what}, which include/st9.h does not have: it is not the archive of this crate")
}
