// Saved runs: their text, written and read strictly.
use super::report::{push_event, push_number};
use super::*;

// An entry of a saved run.
#[derive(Clone, Copy)]
pub struct Asked {
    pub thread: u8,
    pub event: Event,
}

pub struct Saved {
    pub name: [u8; 32],
    pub entries: Vec<Asked>,
}

pub enum Fault {
    Header,
    Line(usize),
    TooMany(usize),
    NoEnd,
}

impl Fault {
    pub fn text(&self) -> String {
        match self {
            Fault::Header => "fault replay header\n".to_string(),
            Fault::Line(number) => format!("fault replay line {number}\n"),
            Fault::TooMany(number) => format!("fault replay too_many {number}\n"),
            Fault::NoEnd => "fault replay no_end\n".to_string(),
        }
    }
}

const HEADER: &[u8] = b"surw-replay 1\n";

pub fn hex(name: &[u8; 32]) -> String {
    name.iter().map(|byte| format!("{byte:02x}")).collect()
}

#[inline(never)]
pub fn write(name: &[u8; 32], journal: &[Entry]) -> Vec<u8> {
    let mut out = Vec::with_capacity(1024 + 20 * journal.len());
    out.extend_from_slice(HEADER);
    out.extend_from_slice(format!("scenario {}\n", hex(name)).as_bytes());
    for entry in journal {
        push_number(&mut out, u64::from(entry.thread));
        out.push(b' ');
        push_event(&mut out, &entry.event);
        out.push(b'\n');
    }
    out.extend_from_slice(format!("end {}\n", journal.len()).as_bytes());
    out
}

// A number at the front of a text, and what follows it.
fn number(text: &[u8]) -> Option<(u64, &[u8])> {
    let (first @ b'0'..=b'9', mut rest) = text.split_first()? else { return None };
    let mut value = u64::from(first - b'0');
    if value > 0 {
        while let Some((digit @ b'0'..=b'9', after)) = rest.split_first() {
            value = value.checked_mul(10)?.checked_add(u64::from(digit - b'0'))?;
            rest = after;
        }
    }
    Some((value, rest))
}

fn verb(word: &[u8]) -> Option<Verb> {
    Some(match word {
        b"acquire" => Verb::Acquire,
        b"release" => Verb::Release,
        b"load" => Verb::Load,
        b"store" => Verb::Store,
        b"add" => Verb::Add,
        b"swap_if" => Verb::SwapIf,
        b"find" => Verb::Find,
        b"claim" => Verb::Claim,
        b"fill" => Verb::Fill,
        b"read" => Verb::Read,
        b"write" => Verb::Write,
        b"oldest" => Verb::Oldest,
        b"stamp" => Verb::Stamp,
        b"flush" => Verb::Flush,
        b"reserve" => Verb::Reserve,
        b"put" => Verb::Put,
        b"mark" => Verb::Mark,
        b"durable" => Verb::Durable,
        b"check" => Verb::Check,
        _ => return None,
    })
}

// The entry at the front of a text, and what follows its line feed.
fn entry(text: &[u8]) -> Option<(Asked, &[u8])> {
    let (thread, rest) = number(text)?;
    let rest = rest.strip_prefix(b" ").filter(|_| thread < THREADS as u64)?;
    let end = rest.iter().position(|byte| *byte <= b' ')?;
    let verb = verb(&rest[..end])?;
    let mut rest = &rest[end..];
    let mut args = [0; 3];
    for arg in &mut args[..VERBS[verb as usize].2] {
        (*arg, rest) = number(rest.strip_prefix(b" ")?)?;
    }
    Some((Asked { thread: thread as u8, event: Event { verb, args } }, rest.strip_prefix(b"\n")?))
}

// The name that 64 lower-case hexadecimal digits write.
fn name(digits: &[u8]) -> Option<[u8; 32]> {
    let digit = |byte: u8| match byte {
        b'0'..=b'9' => Some(byte - b'0'),
        b'a'..=b'f' => Some(byte - b'a' + 10),
        _ => None,
    };
    let mut name = [0; 32];
    if digits.len() != 64 {
        return None;
    }
    for (byte, pair) in name.iter_mut().zip(digits.chunks_exact(2)) {
        *byte = digit(pair[0])? << 4 | digit(pair[1])?;
    }
    Some(name)
}

// The first line of a text, and what follows its line feed.
fn line(text: &[u8]) -> Result<(&[u8], &[u8]), Fault> {
    let end = text.iter().position(|byte| *byte == b'\n').ok_or(Fault::NoEnd)?;
    Ok((&text[..end], &text[end + 1..]))
}

#[inline(never)]
pub fn read_saved(text: &[u8]) -> Result<Saved, Fault> {
    let (first, mut rest) = line(text.strip_prefix(HEADER).ok_or(Fault::Header)?)?;
    let name = first.strip_prefix(b"scenario ").and_then(name).ok_or(Fault::Line(2))?;
    let mut entries = Vec::with_capacity(rest.len() / 8);
    while let Some((asked, after)) = entry(rest) {
        if entries.len() as u64 == STEPS {
            return Err(Fault::TooMany(entries.len() + 3));
        }
        entries.push(asked);
        rest = after;
    }
    let (last, after) = line(rest)?;
    if last != format!("end {}", entries.len()).as_bytes() {
        return Err(Fault::Line(entries.len() + 3));
    }
    if !after.is_empty() {
        return Err(Fault::Line(entries.len() + 4));
    }
    Ok(Saved { name, entries })
}
