//! One image and one memory, lent to the exports and to the plain model.

use crate::flat;
use crate::lent::Lent;
use model::{Bounded, Channel, Refusal, IMAGE_LENGTH};
use st9::sys;

/// The byte of the guards.
const GUARD: u8 = 0xA5;

/// The bytes of a record.
const RECORD: usize = 7;

/// A bound of the plain model, and as it is exported.
type PlainBound = fn(&[u8], &[Channel], u32, &[u64]) -> Bounded;
type ExportedBound =
    unsafe extern "C" fn(*const u8, usize, *const u8, usize, u32, *const u64, usize) -> sys::Answer;

/// An image, a channel list and a memory on both sides. Each call is made on both and panics where they differ.
pub struct Pair {
    image: Lent<u8>,
    list: Lent<u8>,
    memory: Lent<u8>,
    plain_image: Vec<u8>,
    plain_list: Vec<u8>,
    plain_memory: Vec<u8>,
    /// The records; none where the bytes are no whole number of records, which the model can't say.
    channels: Option<Vec<Channel>>,
    name: String,
}

impl Pair {
    /// An image, the bytes of a list and a memory; the name is said where the two differ.
    pub fn new(name: String, image: &[u8], list: &[u8], memory: &[u8]) -> Pair {
        Pair {
            image: Lent::new(image, GUARD),
            list: Lent::new(list, GUARD),
            memory: Lent::new(memory, GUARD),
            plain_image: image.to_vec(),
            plain_list: list.to_vec(),
            plain_memory: memory.to_vec(),
            channels: records(list),
            name,
        }
    }

    /// The image as it stands.
    pub fn image(&self) -> &[u8] {
        &self.plain_image
    }

    /// The memory as it stands.
    pub fn memory(&self) -> &[u8] {
        &self.plain_memory
    }

    /// The records of the list; none where its bytes are no whole number of records.
    pub fn channels(&self) -> &[Channel] {
        self.channels.as_deref().unwrap_or_default()
    }

    /// One step on both.
    pub fn step(&mut self, word: u64) -> sys::Answer {
        let expected = match &self.channels {
            Some(channels) => flat::step(model::step(
                &mut self.plain_image,
                channels,
                &mut self.plain_memory,
                word,
            )),
            None => sys::Answer { kind: sys::REFUSED, ..self.broken_list() },
        };
        // SAFETY: the lengths are those of the lent parts, which are apart and which nobody else has.
        let given = unsafe {
            sys::st9_step(
                self.image.pointer(),
                self.image.len(),
                self.list.pointer(),
                self.list.len(),
                self.memory.pointer(),
                self.memory.len(),
                word,
            )
        };
        self.compare("step", &[word], expected, given)
    }

    /// A run on both.
    pub fn run(&mut self, words: &[u64]) -> sys::Answer {
        let expected = match &self.channels {
            Some(channels) => flat::run(model::run(
                &mut self.plain_image,
                channels,
                &mut self.plain_memory,
                words,
            )),
            None => self.broken_list(),
        };
        let mut lent = Lent::new(words, u64::MAX);
        // SAFETY: as for a step.
        let given = unsafe {
            sys::st9_run(
                self.image.pointer(),
                self.image.len(),
                self.list.pointer(),
                self.list.len(),
                self.memory.pointer(),
                self.memory.len(),
                lent.pointer(),
                lent.len(),
            )
        };
        self.unchanged(words, &lent);
        self.compare("run", words, expected, given)
    }

    /// A wait report on both.
    pub fn wait(&mut self, source: u32, words: &[u64]) -> sys::Answer {
        let expected = match &self.channels {
            Some(channels) => flat::wait(model::wait(
                &mut self.plain_image,
                channels,
                &mut self.plain_memory,
                source,
                words,
            )),
            None => self.broken_list(),
        };
        let mut lent = Lent::new(words, u64::MAX);
        // SAFETY: as for a step.
        let given = unsafe {
            sys::st9_wait(
                self.image.pointer(),
                self.image.len(),
                self.list.pointer(),
                self.list.len(),
                self.memory.pointer(),
                self.memory.len(),
                source,
                lent.pointer(),
                lent.len(),
            )
        };
        self.unchanged(words, &lent);
        self.compare(&format!("wait for {source}"), words, expected, given)
    }

    /// Demand 3's bound on both.
    pub fn bound(&mut self, source: u32, words: &[u64]) -> sys::Answer {
        self.bounded("bound", (model::bound, sys::st9_bound), source, words)
    }

    /// The handlers' bound on both.
    pub fn handler_bound(&mut self, source: u32, words: &[u64]) -> sys::Answer {
        self.bounded(
            "handlers' bound",
            (model::handler_bound, sys::st9_handler_bound),
            source,
            words,
        )
    }

    /// Either bound on both. The plain image and memory can't change, so the comparison sees that the lent ones don't.
    fn bounded(
        &mut self,
        call: &str,
        (plain, exported): (PlainBound, ExportedBound),
        source: u32,
        words: &[u64],
    ) -> sys::Answer {
        let expected = match &self.channels {
            Some(channels) => flat::bound(plain(&self.plain_image, channels, source, words)),
            None => self.broken_list(),
        };
        let mut lent = Lent::new(words, u64::MAX);
        // SAFETY: as for a step.
        let given = unsafe {
            exported(
                self.image.pointer(),
                self.image.len(),
                self.list.pointer(),
                self.list.len(),
                source,
                lent.pointer(),
                lent.len(),
            )
        };
        self.unchanged(words, &lent);
        self.compare(&format!("{call} of {source}"), words, expected, given)
    }

    /// The number of a view on both; where it is 0 the plain view is the sixteen bytes that `st9_view` of `include/st9.h` lends.
    pub fn view_number(&mut self, page: u32) -> u64 {
        let viewed = model::view(&self.plain_image, page);
        if let Ok(bytes) = viewed {
            let first = 240 + 16 * page as usize;
            assert_eq!(bytes, &self.image.content()[first..first + 16]);
        }
        let expected = viewed.err().map_or(0, Refusal::number);
        // SAFETY: as for a step.
        let given = unsafe { sys::st9_view_number(self.image.pointer(), self.image.len(), page) };
        assert_eq!(given, expected, "{}: view of page {page}", self.name);
        assert!(self.same_bytes(), "{}: view of page {page}", self.name);
        given
    }

    /// The answer to bytes that are no whole number of records: 2, after 1 and before 8.
    fn broken_list(&self) -> sys::Answer {
        flat::refused_call(match self.plain_image.len() {
            IMAGE_LENGTH => Refusal::BadList,
            _ => Refusal::BadLength,
        })
    }

    /// Panics unless the lent words are as they were.
    fn unchanged(&self, words: &[u64], lent: &Lent<u64>) {
        let same = lent.content() == words && lent.is_guarded();
        assert!(same, "{}: the words were written", self.name);
    }

    /// Whether both images and both memories are the same, the list is as it was, and nothing beside them was written.
    fn same_bytes(&self) -> bool {
        self.image.content() == self.plain_image
            && self.memory.content() == self.plain_memory
            && self.list.content() == self.plain_list
            && self.image.is_guarded()
            && self.memory.is_guarded()
            && self.list.is_guarded()
    }

    /// Panics unless both answers and all bytes are the same; gives the answer.
    fn compare(
        &self,
        call: &str,
        words: &[u64],
        expected: sys::Answer,
        given: sys::Answer,
    ) -> sys::Answer {
        if given != expected || !self.same_bytes() {
            self.fail(call, words, expected, given);
        }
        given
    }

    /// Says what differs.
    fn fail(&self, call: &str, words: &[u64], expected: sys::Answer, given: sys::Answer) -> ! {
        let rest = self.list.content() == self.plain_list && self.list.is_guarded();
        panic!(
            "{}: {call}\nwords {words:016X?}\nlist {:?}\nmemory of {} bytes\nexpected {expected:?}\ngiven    {given:?}\nimage {}\nmemory {}\nguards {}, list {}",
            self.name,
            self.plain_list,
            self.plain_memory.len(),
            differences(self.image.content(), &self.plain_image),
            differences(self.memory.content(), &self.plain_memory),
            self.image.is_guarded() && self.memory.is_guarded(),
            rest,
        );
    }
}

/// The bytes that differ from the plain ones.
fn differences(lent: &[u8], plain: &[u8]) -> String {
    let bytes = lent.iter().zip(plain).enumerate();
    let said: Vec<String> = bytes
        .filter(|(_, (lent, plain))| lent != plain)
        .map(|(place, (lent, plain))| format!("byte {place}: {lent:02X} for {plain:02X}"))
        .collect();
    said.join(", ")
}

/// The records of a list's bytes, if they are a whole number of records.
fn records(list: &[u8]) -> Option<Vec<Channel>> {
    let records = list.chunks_exact(RECORD);
    if !records.remainder().is_empty() {
        return None;
    }
    let record = |bytes: &[u8]| Channel {
        page: bytes[0],
        idcr: bytes[1],
        ivr: bytes[2],
        dcpr: bytes[3],
        dapr: bytes[4],
        data: bytes[5],
        direction: bytes[6],
    };
    Some(records.map(record).collect())
}
