//! Why a script does not run: the first fault of its first line that has one.

use crate::event::{Policy, MOST_CPUS};
use crate::kernel::Settings;
use Fault::*;

#[derive(Clone, Copy, Debug, PartialEq, Eq)]
pub enum Fault {
    BadByte,
    NoHeader,
    BadWord,
    BadCount,
    BadNumber,
    BadName,
    TooLong,
}

pub type Words<'a> = Vec<&'a [u8]>;

/// The words of a line.
pub fn words(line: &[u8]) -> Words<'_> {
    line.split(|&byte| byte == b' ').filter(|word| !word.is_empty()).collect()
}

/// The number that a word is, if it is one from `least` to `most`.
fn number(word: &[u8], least: u128, most: u128) -> Result<u128, Fault> {
    let digits = std::str::from_utf8(word).map_err(|_| BadNumber)?;
    if !word.iter().all(u8::is_ascii_digit) || word.len() > 1 && word[0] == b'0' {
        return Err(BadNumber);
    }
    let number = digits.parse().map_err(|_| BadNumber)?;
    if (least..=most).contains(&number) {
        Ok(number)
    } else {
        Err(BadNumber)
    }
}

/// A policy, and the words behind it.
fn policy<'a, 'b>(words: &'b [&'a [u8]]) -> Result<(Policy, &'b [&'a [u8]]), Fault> {
    match words {
        [b"first", rest @ ..] => Ok((Policy::First, rest)),
        [b"two"] => Err(BadCount),
        [b"two", slice, rest @ ..] => Ok((Policy::Two { slice: number(slice, 1, 65_535)? as u16 }, rest)),
        _ => Err(BadWord),
    }
}

/// What the header says.
pub fn header(line: &[u8]) -> Result<(Settings, Policy), Fault> {
    let words = words(line);
    if words[0] != b"cpus" {
        return Err(NoHeader);
    }
    let [_, cpus, ring, capacity, rest @ ..] = words.as_slice() else {
        return Err(BadCount);
    };
    let cpus = number(cpus, 2, MOST_CPUS as u128)? as u16;
    if ring != b"ring" {
        return Err(BadWord);
    }
    let ring = number(capacity, 128, 1_048_576)? as usize;
    if ring % 8 != 0 {
        return Err(BadNumber);
    }
    let (numbers, policy) = parts(rest)?;
    let [first_tseq, first_generation, history] = numbers;
    Ok((Settings { cpus, ring, first_tseq, first_generation, history }, policy))
}

/// The parts of the header that may be absent.
fn parts(mut words: &[&[u8]]) -> Result<([u32; 3], Policy), Fault> {
    const PARTS: [(&[u8], u128, u128); 3] =
        [(b"first-tseq", 0, 4_294_967_294), (b"first-gen", 1, 4_294_967_295), (b"history", 2, 16_777_216)];
    let mut numbers = [0, 1, 16_777_216];
    let mut part = 0;
    while let [word, rest @ ..] = words {
        while part < 3 && *word != PARTS[part].0 {
            part += 1;
        }
        if part == 3 {
            return last_part(words).map(|policy| (numbers, policy));
        }
        let (_, least, most) = PARTS[part];
        let [value, rest @ ..] = rest else {
            return Err(BadCount);
        };
        numbers[part] = number(value, least, most)? as u32;
        (part, words) = (part + 1, rest);
    }
    Ok((numbers, Policy::First))
}

fn last_part(words: &[&[u8]]) -> Result<Policy, Fault> {
    match words {
        [b"policy"] => Err(BadCount),
        [b"policy", named @ ..] => match policy(named)? {
            (policy, []) => Ok(policy),
            _ => Err(BadCount),
        },
        _ => Err(BadWord),
    }
}

/// The words behind an event's first, a letter for each: a mask, a class, runnable or not, a name, a CPU, another number,
/// the flags, which may be absent.
const EVENTS: [(&[u8], &[u8]); 22] = [
    (b"create", b"MKRN"),
    (b"block", b"T"),
    (b"wake", b"T"),
    (b"yield", b"T"),
    (b"die", b"T"),
    (b"affinity", b"TM"),
    (b"take", b"C"),
    (b"give", b"C"),
    (b"tick", b"C"),
    (b"handoff", b"C"),
    (b"drain", b"T"),
    (b"decide", b""),
    (b"commit", b"M"),
    (b"late", b"T"),
    (b"stamp", b"CTp"),
    (b"view", b""),
    (b"state", b""),
    (b"unread", b""),
    (b"crash", b""),
    (b"leave", b""),
    (b"page", b"C"),
    (b"activate", b"C"),
];

/// The fault of an event's line, if it has one.
pub fn event(line: &[u8]) -> Result<(), Fault> {
    let words = words(line);
    let (&first, rest) = words.split_first().ok_or(BadWord)?;
    if first == b"begin" {
        return begin(rest);
    }
    let (_, form) = EVENTS.iter().find(|(word, _)| *word == first).ok_or(BadWord)?;
    let least = form.len() - form.ends_with(b"p") as usize;
    if !(least..=form.len()).contains(&rest.len()) {
        return Err(BadCount);
    }
    form.iter().zip(rest).try_for_each(|(kind, word)| word_fault(*kind, word))
}

fn begin(words: &[&[u8]]) -> Result<(), Fault> {
    match words {
        [] => Ok(()),
        [_, _, _, ..] => Err(BadCount),
        _ => match policy(words)? {
            (_, []) => Ok(()),
            _ => Err(BadCount),
        },
    }
}

fn word_fault(kind: u8, word: &[u8]) -> Result<(), Fault> {
    match kind {
        b'M' => number(word, 0, u128::MAX).map(drop),
        b'K' => number(word, 0, 1).map(drop),
        b'C' => number(word, 0, 65_535).map(drop),
        b'T' => number(word, 0, u32::MAX.into()).map(drop),
        b'R' if word != b"r" && word != b"b" => Err(BadWord),
        b'p' if word != b"p" && word != b"g" && word != b"pg" => Err(BadWord),
        b'N' if word.len() > 16 => Err(BadName),
        _ => Ok(()),
    }
}
