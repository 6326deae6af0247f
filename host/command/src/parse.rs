//! One line of a scenario.

use crate::expect;
use crate::fields::Bits;
use crate::names::{may_be_name, pin_named, record, register_named, Names, Place};
use crate::number::{number, number_32};
use crate::quote::{printable, quoted_start};
use crate::statement::{may_be_size, Call, ImageName, MemoryName, Operation, Statement};
use st9::{Channel, Edge, Source, Step};

/// What is wrong with a line and what was expected.
pub(crate) type Problem = String;

const STATEMENTS: &str = "image, set, memory, poke, channel, name, case, again, a step (read, write, edge, watchdog, nmi, request, arbitrate, return, reset, step), \
                          repeat, run, wait, bound, handler bound, view or expect";
const STEP: &str = "a step as arbitrate or write EIPR 00h";
const REGISTER: &str = "a register as EIPR, R243 or 243, without a page: PPR selects it";
pub(crate) const BYTE: &str = "a byte as 97h, 0x97 or 151, at most FFh";
const NUMBER: &str = "a number as 97h, 0x97 or 151";
pub(crate) const ADDRESS: &str = "an address of the memory as 0005h, 0x5 or 5";
const PIN: &str = "a pin as INTB0 or 2, or a name of your own";
const RECORD: &str = "a record as 0 or CH0, or a name of your own";
const DIRECTION: &str = "falling, rising or a number";
const PLACE: &str = "R0 to R239, a name as EIPR, R240.p9 or MARK";
const CHANNEL: &str = "page=, idcr=, ivr=, dcpr=, dapr=, data=, and in or out";
const HANDLER: &str = "bound and a source after handler";
const SOURCE: &str = "a source as INTB1 or CH0, a name of your own or a number";
const NAME: &str =
    "a name of letters, digits, _ and -, a letter first, that is no word of the language";

/// The longest statement of words alone: `channel` and its seven fields.
const MOST_WORDS: usize = 8;

/// How often a step is done by one statement at most.
const MOST_REPEATS: u64 = 1_000_000;

/// The longest image or memory that is made without a file.
const LONGEST_MADE: u64 = 1 << 20;

/// The statement of a line; none where it is blank or a comment. The line has no line feed; a carriage return at its
/// end is passed over. Names of one's own are those given before.
pub fn statement(line: &[u8], names: &Names) -> Result<Option<Statement>, Problem> {
    let line = line.strip_suffix(b"\r").unwrap_or(line);
    if line.contains(&b'\r') {
        return Err("a carriage return inside a line: expected lines ended by LF or CRLF".into());
    }
    let code = without_comment(line).trim_ascii();
    let Some(first) = words(code).next() else {
        return Ok(None);
    };
    let rest = code[first.len()..].trim_ascii();
    let mut lower = [0; 16];
    let Some(keyword) = lower.get_mut(..first.len()) else {
        return Err(expected(STATEMENTS, first));
    };
    keyword.copy_from_slice(first);
    keyword.make_ascii_lowercase();
    let statement = match &*keyword {
        b"image" => image(rest)?,
        b"memory" => memory(rest)?,
        b"poke" => poke(rest)?,
        b"case" if rest.is_empty() => return Err("the case has no title: expected one".into()),
        b"case" => Statement::Case(printable(rest)),
        b"again" => Statement::Again((!rest.is_empty()).then(|| printable(rest))),
        b"expect" => Statement::Expect(expect::expect(rest, names)?),
        _ => of_words(keyword, first, rest, names)?,
    };
    Ok(Some(statement))
}

pub(crate) fn words(code: &[u8]) -> impl Iterator<Item = &[u8]> {
    code.split(u8::is_ascii_whitespace).filter(|word| !word.is_empty())
}

/// The line up to its comment. A `#` between double quotes, which only a file's name has, starts none.
pub(crate) fn without_comment(line: &[u8]) -> &[u8] {
    let mut quoted = false;
    for (position, byte) in line.iter().enumerate() {
        match byte {
            b'"' => quoted = !quoted,
            b'#' if !quoted => return &line[..position],
            _ => {}
        }
    }
    line
}

fn of_words(
    keyword: &[u8],
    first: &[u8],
    rest: &[u8],
    names: &Names,
) -> Result<Statement, Problem> {
    // What the command prints below a bound, copied with it.
    if keyword.starts_with(b"(") {
        return Err(expected(STATEMENTS, first));
    }
    let mut arguments = [&b""[..]; MOST_WORDS];
    let mut count = 0;
    for word in words(rest) {
        if count == MOST_WORDS {
            return Err(expected("the end of the line", word));
        }
        arguments[count] = word;
        count += 1;
    }
    let mut arguments = Arguments(&arguments[..count]);
    let statement = match keyword {
        b"set" => set(&mut arguments, names)?,
        b"channel" => channel(&mut arguments)?,
        b"name" => name(&mut arguments)?,
        b"run" => Statement::Call(Call::Run),
        b"wait" => Statement::Call(Call::Wait(source(&mut arguments, names)?)),
        b"bound" => Statement::Call(Call::Bound(source(&mut arguments, names)?)),
        b"handler" => Statement::Call(Call::HandlerBound(handler_bound(&mut arguments, names)?)),
        b"view" => Statement::Call(Call::View(arguments.take("a page's number", number_32)?)),
        b"repeat" => repeat(&mut arguments, names)?,
        _ => {
            let step = operation(keyword, &mut arguments, names)?;
            Statement::Step(step.ok_or_else(|| expected(STATEMENTS, first))?)
        }
    };
    arguments.end()?;
    Ok(statement)
}

/// How often, then a step.
fn repeat(arguments: &mut Arguments, names: &Names) -> Result<Statement, Problem> {
    let times = format!("how often, 1 to {MOST_REPEATS}");
    let count = arguments.take(&times, |word| match number(word) {
        Some(count @ 1..=MOST_REPEATS) => Some(count as usize),
        _ => None,
    })?;
    let first = arguments.next(STEP)?;
    let operation = operation(&first.to_ascii_lowercase(), arguments, names)?;
    let operation = operation.ok_or_else(|| expected(STEP, first))?;
    Ok(Statement::Repeat { count, operation })
}

/// A step by its keyword; none where that is another one.
fn operation(
    keyword: &[u8],
    arguments: &mut Arguments,
    names: &Names,
) -> Result<Option<Operation>, Problem> {
    let mut named = false;
    let step = match keyword {
        b"read" => {
            let (register, by_name) = arguments.take(REGISTER, register)?;
            named = by_name;
            Step::Read { register }
        }
        b"write" => {
            let (register, by_name) = arguments.take(REGISTER, register)?;
            let value = arguments.take(BYTE, byte)?;
            named = by_name;
            Step::Write { register, value }
        }
        b"edge" => Step::Pin {
            pin: arguments.take(PIN, |word| pin(word, names))?,
            edge: arguments.take(DIRECTION, edge)?,
        },
        b"nmi" => Step::Nmi { edge: arguments.take(DIRECTION, edge)? },
        b"request" => Step::Request { record: request(arguments, names)? },
        b"watchdog" => Step::Watchdog,
        b"arbitrate" => Step::Arbitrate,
        b"return" => Step::Return,
        b"reset" => Step::Reset,
        b"step" => Step::Word(arguments.take(NUMBER, number)?),
        _ => return Ok(None),
    };
    Ok(Some(Operation { step, named }))
}

/// A pin by the name of its source, own names included, or by number.
fn pin(word: &[u8], names: &Names) -> Option<u32> {
    match names.own(word) {
        Some(source) => (source.0 < 8).then_some(source.0),
        None => pin_named(word).or_else(|| number_32(word)),
    }
}

/// A record by the name of its source, own names included, or by number; `channel 0` is two words.
fn request(arguments: &mut Arguments, names: &Names) -> Result<u32, Problem> {
    if let [first, _] = arguments.0 {
        if first.eq_ignore_ascii_case(b"channel") {
            arguments.optional();
        }
    }
    arguments.take(RECORD, |word| match names.own(word) {
        Some(source) => source.0.checked_sub(8),
        None => record(word),
    })
}

/// `bound` and a source, after `handler`.
fn handler_bound(arguments: &mut Arguments, names: &Names) -> Result<Source, Problem> {
    let is_bound = |word: &[u8]| word.eq_ignore_ascii_case(b"bound").then_some(());
    arguments.take(HANDLER, is_bound)?;
    source(arguments, names)
}

/// A source by name or number; `channel 0` is two words.
fn source(arguments: &mut Arguments, names: &Names) -> Result<Source, Problem> {
    let word = arguments.next(SOURCE)?;
    if !word.eq_ignore_ascii_case(b"channel") {
        return names.source(word).ok_or_else(|| expected(SOURCE, word));
    }
    arguments.take(SOURCE, |word| number_32(word)?.checked_add(8).map(Source))
}

fn name(arguments: &mut Arguments) -> Result<Statement, Problem> {
    let word = arguments.next(NAME)?;
    let name = std::str::from_utf8(word).ok().filter(|_| may_be_name(word));
    let name = name.ok_or_else(|| expected(NAME, word))?;
    let source = source(arguments, &Names::default())?;
    Ok(Statement::Name(name.to_string(), source))
}

fn image(name: &[u8]) -> Result<Statement, Problem> {
    const EXPECTED: &str = "zero, fill BYTE or counted, each with or without a length, or a file's name (with blanks: between double quotes)";
    let mut made = words(name);
    let keyword = made.next().unwrap_or_default().to_ascii_lowercase();
    let rest = made.collect::<Vec<_>>();
    let image = match &keyword[..] {
        b"zero" => ImageName::Fill { byte: 0, length: length(&rest, EXPECTED)? },
        b"counted" => ImageName::Counted { length: length(&rest, EXPECTED)? },
        b"fill" => {
            let (value, rest) = rest.split_first().ok_or_else(|| expected(BYTE, b""))?;
            let byte = byte(value).ok_or_else(|| expected(BYTE, value))?;
            ImageName::Fill { byte, length: length(rest, EXPECTED)? }
        }
        _ => ImageName::File(file(name, EXPECTED)?),
    };
    Ok(Statement::Image(image))
}

/// So many bytes of 00h, or the bytes of a file.
fn memory(name: &[u8]) -> Result<Statement, Problem> {
    const EXPECTED: &str =
        "a number of bytes, or a file's name (with blanks: between double quotes)";
    let memory = match number(name) {
        Some(length @ 0..=LONGEST_MADE) => MemoryName::Zero { length: length as usize },
        _ if may_be_size(name) => return Err(expected("at most 1,048,576 bytes", name)),
        _ => MemoryName::File(file(name, EXPECTED)?),
    };
    Ok(Statement::Memory(memory))
}

/// An address of the memory, and the bytes from there on.
fn poke(words_after: &[u8]) -> Result<Statement, Problem> {
    let all: Vec<_> = words(words_after).collect();
    let mut arguments = Arguments(&all);
    let address = arguments.take(ADDRESS, address)?;
    Ok(Statement::Poke { address, bytes: some_bytes(&mut arguments)? })
}

pub(crate) fn address(word: &[u8]) -> Option<usize> {
    usize::try_from(number(word)?).ok()
}

/// One byte or more, up to the end of the line.
pub(crate) fn some_bytes(arguments: &mut Arguments) -> Result<Vec<u8>, Problem> {
    let mut bytes = vec![arguments.take(BYTE, byte)?];
    while !arguments.0.is_empty() {
        bytes.push(arguments.take(BYTE, byte)?);
    }
    Ok(bytes)
}

/// The length of an image that is made, 1,265 where none is said.
fn length(words: &[&[u8]], what: &str) -> Result<usize, Problem> {
    const LENGTH: &str = "a length of at most 1,048,576 bytes";
    match words {
        [] => Ok(st9::IMAGE_LENGTH),
        [word] => match number(word) {
            Some(length @ 0..=LONGEST_MADE) => Ok(length as usize),
            _ => Err(expected(LENGTH, word)),
        },
        [_, more, ..] => Err(expected(what, more)),
    }
}

/// The name of a file.
fn file(name: &[u8], what: &str) -> Result<String, Problem> {
    let quoted = name.strip_prefix(b"\"").and_then(|rest| rest.strip_suffix(b"\""));
    let bare = quoted.unwrap_or(name);
    let blank = quoted.is_none() && bare.iter().any(u8::is_ascii_whitespace);
    if bare.is_empty() || bare.contains(&b'"') || blank {
        return Err(expected(what, name));
    }
    match std::str::from_utf8(bare) {
        Ok(bare) => Ok(bare.to_string()),
        Err(_) => Err(expected("a file's name in UTF-8", name)),
    }
}

fn set(arguments: &mut Arguments, names: &Names) -> Result<Statement, Problem> {
    let place = arguments.next(PLACE).and_then(place)?;
    let bits = bits(arguments, place, names)?;
    Ok(Statement::Set { place, bits })
}

/// A byte, or fields of one as `IEN=1 CPL=7`, each once.
pub(crate) fn bits(
    arguments: &mut Arguments,
    place: Place,
    names: &Names,
) -> Result<Bits, Problem> {
    let word = arguments.next(BYTE)?;
    if !word.contains(&b'=') {
        return byte(word).map(Bits::byte).ok_or_else(|| expected(BYTE, word));
    }
    let one = |word| place.bits(word, names).map_err(|what| expected(&what, word));
    let mut all = one(word)?;
    while let Some(word) = arguments.optional() {
        let Bits { mask, value } = one(word)?;
        if all.mask & mask != 0 {
            return Err(expected("each field once", word));
        }
        all = Bits { mask: all.mask | mask, value: all.value | value };
    }
    Ok(all)
}

/// A byte of the image: MARK, or a register with a page where its number needs one and its name does not say it.
pub(crate) fn place(word: &[u8]) -> Result<Place, Problem> {
    if word.eq_ignore_ascii_case(b"mark") {
        return Ok(Place::MARK);
    }
    let dot = word.iter().position(|byte| *byte == b'.');
    let (start, page) = match dot {
        Some(dot) => (&word[..dot], Some(page(&word[dot + 1..], word)?)),
        None => (word, None),
    };
    let (number, named) = register(start).ok_or_else(|| expected(PLACE, word))?;
    let Ok(number) = u8::try_from(number) else {
        return Err(expected("a register of R0 to R255", word));
    };
    match (page, number >= 240, named) {
        (Some(_), false, _) => Err(expected("R0 to R239 without a page", word)),
        (None, true, false) => Err(expected("a page with R240 to R255, as R240.p9", word)),
        (Some(1..), true, true) => Err(expected("page 0, that of the name", word)),
        (page, _, _) => Ok(Place::of(page.unwrap_or(0), number)),
    }
}

fn page(word: &[u8], whole: &[u8]) -> Result<u8, Problem> {
    let digits = match word {
        [b'p' | b'P', digits @ ..] => digits,
        _ => b"",
    };
    match number(digits) {
        Some(page @ 0..=63) => Ok(page as u8),
        _ => Err(expected("a page of .p0 to .p63", whole)),
    }
}

fn channel(arguments: &mut Arguments) -> Result<Statement, Problem> {
    const NAMES: [&str; 7] = ["page", "idcr", "ivr", "dcpr", "dapr", "data", "direction"];
    let mut fields = [None; 7];
    while let Some(word) = arguments.optional() {
        let (position, value) = match field(word, &NAMES) {
            Some((position, value)) => (position, value),
            None => return Err(expected(CHANNEL, word)),
        };
        let Some(value) = value else {
            return Err(expected("a number of at most 255", word));
        };
        if fields[position].replace(value).is_some() {
            return Err(expected("each field once", word));
        }
    }
    let missing = fields.iter().zip(NAMES).find(|(field, _)| field.is_none());
    if let Some((_, name)) = missing {
        let name = match name {
            "direction" => "in or out",
            name => name,
        };
        return Err(format!("{name} is missing: expected {CHANNEL}"));
    }
    let [page, idcr, ivr, dcpr, dapr, data, direction] = fields.map(Option::unwrap_or_default);
    Ok(Statement::Channel(Channel { page, idcr, ivr, dcpr, dapr, data, direction }))
}

/// The position of a channel's field among the names, and its value, none where that is no number of a byte.
fn field(word: &[u8], names: &[&str; 7]) -> Option<(usize, Option<u8>)> {
    if word.eq_ignore_ascii_case(b"in") {
        return Some((6, Some(0)));
    }
    if word.eq_ignore_ascii_case(b"out") {
        return Some((6, Some(1)));
    }
    let equals = word.iter().position(|byte| *byte == b'=')?;
    let (name, value) = (&word[..equals], &word[equals + 1..]);
    let position = names.iter().position(|known| known.as_bytes().eq_ignore_ascii_case(name))?;
    let value = match position {
        1..=5 => register(value).and_then(|(number, _)| u8::try_from(number).ok()),
        _ => byte(value),
    };
    Some((position, value))
}

/// The number of a register, and whether it was written by name.
pub(crate) fn register(word: &[u8]) -> Option<(u32, bool)> {
    if let Some(number) = register_named(word) {
        return Some((number.into(), true));
    }
    let digits = match word {
        [b'r' | b'R', digits @ ..] if digits.iter().all(u8::is_ascii_digit) => digits,
        _ => word,
    };
    Some((number_32(digits)?, false))
}

fn edge(word: &[u8]) -> Option<Edge> {
    if word.eq_ignore_ascii_case(b"falling") {
        return Some(Edge::Falling);
    }
    if word.eq_ignore_ascii_case(b"rising") {
        return Some(Edge::Rising);
    }
    number_32(word).map(Edge::from)
}

pub(crate) fn byte(word: &[u8]) -> Option<u8> {
    u8::try_from(number(word)?).ok()
}

/// The words after the first, taken one after another.
pub(crate) struct Arguments<'a>(pub &'a [&'a [u8]]);

impl<'a> Arguments<'a> {
    pub(crate) fn optional(&mut self) -> Option<&'a [u8]> {
        let (first, rest) = self.0.split_first()?;
        self.0 = rest;
        Some(first)
    }

    pub(crate) fn next(&mut self, what: &str) -> Result<&'a [u8], Problem> {
        self.optional().ok_or_else(|| format!("the line ends too early: expected {what}"))
    }

    pub(crate) fn take<T>(
        &mut self,
        what: &str,
        read: impl Fn(&[u8]) -> Option<T>,
    ) -> Result<T, Problem> {
        let word = self.next(what)?;
        read(word).ok_or_else(|| expected(what, word))
    }

    pub(crate) fn end(&mut self) -> Result<(), Problem> {
        match self.optional() {
            Some(word) => Err(expected("the end of the line", word)),
            None => Ok(()),
        }
    }
}

pub(crate) fn expected(what: &str, found: &[u8]) -> Problem {
    format!("{}: expected {what}", quoted_start(found))
}

#[cfg(test)]
mod tests {
    use super::*;

    fn said(line: &str) -> String {
        match statement(line.as_bytes(), &Names::default()) {
            Ok(Some(statement)) => statement.to_string(),
            Ok(None) => String::new(),
            Err(problem) => format!("error: {problem}"),
        }
    }

    #[test]
    fn forms_of_a_statement() {
        let expected = [
            ("", ""),
            (" \t# comment", ""),
            ("arbitrate# comment", "arbitrate"),
            ("\tARBITRATE \r", "arbitrate"),
            ("write eipr 00H # clear", "write EIPR 00h"),
            ("write 0xF3 0", "write R243 00h"),
            ("read r243", "read R243"),
            ("edge intb0 Falling", "edge INTB0 falling"),
            ("edge 2 0", "edge INTB0 falling"),
            ("edge 9 2", "edge 9 2"),
            ("request ch1", "request 1"),
            ("set EIMR ffh", "set EIMR FFh"),
            ("set R243.p0 1", "set EIPR 01h"),
            ("set r240.P9 3ah", "set R240.p9 3Ah"),
            ("set R230 97h", "set CICR 97h"),
            ("set mark 1", "set MARK 01h"),
            ("image \"zero\"", "image \"zero\""),
            ("image \"a # b\" # c", "image \"a # b\""),
            ("image ./zero", "image ./zero"),
            ("image zero 1264", "image zero 1264"),
            ("image ZERO 1265", "image zero"),
            ("image fill a5h", "image fill A5h"),
            ("image fill 0 3", "image zero 3"),
            ("image counted 0", "image counted 0"),
            ("set CICR cpl=7 IEN=1", "set CICR IEN=1 CPL=7"),
            ("memory 10h", "memory 16"),
            ("MEMORY 0", "memory 0"),
            ("memory 0x100000 # most", "memory 1048576"),
            ("memory \"16\"", "memory \"16\""),
            ("memory \"99999999999999999999\"", "memory \"99999999999999999999\""),
            ("memory ./16", "memory ./16"),
            ("memory \"a # b\" # c", "memory \"a # b\""),
            ("poke 5 5ah", "poke 0005h 5Ah"),
            ("Poke FFFFh 1 2 0x3 # c", "poke FFFFh 01h 02h 03h"),
            ("poke 10000h 0 0 0 0 0 0 0 0 0", "poke 10000h 00h 00h 00h 00h 00h 00h 00h 00h 00h"),
            ("name Fan 4", "name Fan INTC0"),
            ("name RX channel 0", "name RX CH0"),
            ("case  two  words # c", "case two  words"),
            ("wait channel 1", "wait CH1"),
            ("BOUND intc0", "bound INTC0"),
            ("Handler BOUND channel 0", "handler bound CH0"),
            ("view 3Fh", "view 63"),
            ("run", "run"),
            ("expect  acknowledged  INTC0 # c", "expect acknowledged INTC0"),
        ];
        for (line, canonical) in expected {
            assert_eq!(said(line), canonical, "{line}");
        }
    }

    #[test]
    fn forms_of_again_and_repeat() {
        let expected = [
            ("Again # c", "again"),
            ("again  two  words # c", "again two  words"),
            ("REPEAT 12Ch Arbitrate", "repeat 300 arbitrate"),
            ("repeat 1 request channel 0", "repeat 1 request 0"),
            ("repeat 1000000 write eipr 0", "repeat 1000000 write EIPR 00h"),
        ];
        for (line, canonical) in expected {
            assert_eq!(said(line), canonical, "{line}");
        }
    }

    #[test]
    fn channels() {
        let canonical = "channel page=9 idcr=240 ivr=241 dcpr=242 dapr=243 data=244 out";
        let line = "channel OUT data=0xF4 DAPR=F3h dcpr=r242 ivr=R241 idcr=240 page=9";
        assert_eq!(said(line), canonical);
        let odd = canonical.replace("out", "direction=2");
        assert_eq!(said(&odd), odd);
    }
}
