//! The C interface as `include/st9.h` declares it: raw functions, the flat answer, the numbers of its kinds.
//!
//! Use the functions of the crate's root instead, unless the flat answer itself is wanted.

/// An answer as the library gives it. `kind` says which of the other fields are filled; those that are not are 0.
#[repr(C)]
#[derive(Clone, Copy, Debug, PartialEq, Eq, Hash, Default)]
pub struct Answer {
    /// What is answered: one of the constants of this module.
    pub kind: u64,
    /// The refusal's number, 0 where nothing was refused.
    pub refusal: u64,
    /// The steps done, or the index of a step.
    pub steps: u64,
    /// `byte`, `lost`, `maskable`, `source`, `arbitrations`, `outranking` or `changed` of `include/st9.h`.
    pub first: u64,
    /// `tlip`, `level`, `ended` or `triggers`.
    pub second: u64,
    /// `vector` or `bound`.
    pub third: u64,
}

/// A run of no steps.
pub const NO_STEP: u64 = 0;
/// A read: the byte in `first`.
pub const BYTE: u64 = 1;
/// A write: in `first` the EIPR bits that it took from 1 to 0.
pub const WRITTEN: u64 = 2;
/// A trigger: in `first` and `second` what it did to the maskable bit and to TLIP.
pub const TRIGGERED: u64 = 3;
/// An arbitration that found nothing.
pub const NOTHING: u64 = 4;
/// An arbitration that acknowledged the top level: the vector in `third`.
pub const TOP_LEVEL: u64 = 5;
/// An arbitration that acknowledged an interrupt: source, level and vector.
pub const INTERRUPT: u64 = 6;
/// An arbitration that served DMA: the source in `first`, in `second` whether the block ended.
pub const TRANSFERRED: u64 = 7;
/// A return.
pub const RETURNED: u64 = 8;
/// A reset.
pub const RESET: u64 = 9;
/// A step that was refused.
pub const REFUSED: u64 = 10;
/// A run, a wait report or a bound refused before any step.
pub const REFUSED_CALL: u64 = 11;
/// A run or a wait report refused at a step: its index in `steps`; of a wait the arbitrations before it in `first`.
pub const REFUSED_STEP: u64 = 12;
/// A wait report whose list ended first: the arbitrations in `first`.
pub const ENDED: u64 = 13;
/// A wait report whose source was acknowledged: the arbitrations in `first`, the last included.
pub const ACKNOWLEDGED: u64 = 14;
/// A bound's premise that fails: nested mode.
pub const NESTED: u64 = 15;
/// A bound's premise that fails: a record has DM = 1.
pub const DMA_ENABLED: u64 = 16;
/// A bound's premise that fails: TLNM or TLI is 1.
pub const TOP_LEVEL_ENABLED: u64 = 17;
/// A bound's premise that fails: the mark is set.
pub const TOP_LEVEL_IN_SERVICE: u64 = 18;
/// A bound's premise that fails: the source is not pending.
pub const NOT_PENDING: u64 = 19;
/// A bound's premise that fails: the source is masked.
pub const MASKED: u64 = 20;
/// A bound's premise that fails: the source's level is not above the current one.
pub const LEVEL_NOT_ABOVE: u64 = 21;
/// A bound's premise that fails: the step at index `steps` is no trigger, arbitration or return and is not refused; of a handlers' bound it is a reset.
pub const OTHER_STEP: u64 = 22;
/// A bound's premise that fails: the arbitration at index `steps` finds IEN = 0.
pub const INTERRUPTS_DISABLED: u64 = 23;
/// A bound: H, E and H + E + 1 in `first`, `second` and `third`.
pub const WITHIN: u64 = 24;
/// A handlers' bound's premise that fails: in `first` what the write at index `steps` changed.
pub const CHANGED: u64 = 25;

/// A write that erased the source's pending bit.
pub const CHANGED_PENDING: u64 = 1;
/// A write that changed the mode, IAM.
pub const CHANGED_MODE: u64 = 2;
/// A write that changed the current level, CPL.
pub const CHANGED_CURRENT_LEVEL: u64 = 3;
/// A write that changed one of the top level's enables, TLI or TLNM.
pub const CHANGED_TOP_LEVEL: u64 = 4;
/// A write that changed a source's mask.
pub const CHANGED_MASK: u64 = 5;
/// A write that changed a record's DMA enable.
pub const CHANGED_DMA_ENABLE: u64 = 6;
/// A write that changed a source's level.
pub const CHANGED_LEVEL: u64 = 7;

/// A trigger that did not select the bit.
pub const NOT_SELECTED: u64 = 0;
/// A trigger that took the bit from 0 to 1.
pub const RAISED: u64 = 1;
/// A trigger of a bit that was 1 already.
pub const MERGED: u64 = 2;

extern "C" {
    /// One step.
    ///
    /// # Safety
    /// As for every function here: each pointer has as many readable elements as the length beside it says (image and
    /// memory of `st9_step`, `st9_run` and `st9_wait` writable too), image and memory overlap neither each other nor
    /// anything else that is lent, and nobody else writes during the call. A pointer may be null where its length is 0.
    pub fn st9_step(
        image: *mut u8,
        image_length: usize,
        channels: *const u8,
        channels_length: usize,
        memory: *mut u8,
        memory_length: usize,
        word: u64,
    ) -> Answer;

    /// The steps one after another, up to the first that is refused.
    ///
    /// # Safety
    /// As for `st9_step`.
    pub fn st9_run(
        image: *mut u8,
        image_length: usize,
        channels: *const u8,
        channels_length: usize,
        memory: *mut u8,
        memory_length: usize,
        words: *const u64,
        word_count: usize,
    ) -> Answer;

    /// The wait report.
    ///
    /// # Safety
    /// As for `st9_step`.
    pub fn st9_wait(
        image: *mut u8,
        image_length: usize,
        channels: *const u8,
        channels_length: usize,
        memory: *mut u8,
        memory_length: usize,
        source: u32,
        words: *const u64,
        word_count: usize,
    ) -> Answer;

    /// Demand 3's bound. The image is only read.
    ///
    /// # Safety
    /// As for `st9_step`.
    pub fn st9_bound(
        image: *const u8,
        image_length: usize,
        channels: *const u8,
        channels_length: usize,
        source: u32,
        words: *const u64,
        word_count: usize,
    ) -> Answer;

    /// The bound with reads and writes in the list. The image is only read.
    ///
    /// # Safety
    /// As for `st9_step`.
    pub fn st9_handler_bound(
        image: *const u8,
        image_length: usize,
        channels: *const u8,
        channels_length: usize,
        source: u32,
        words: *const u64,
        word_count: usize,
    ) -> Answer;

    /// The number that the view of a page is refused with, or 0.
    ///
    /// # Safety
    /// As for `st9_step`.
    pub fn st9_view_number(image: *const u8, image_length: usize, page: u32) -> u64;
}
