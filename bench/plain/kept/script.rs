//! Scripts: the whole text is read into events before the first of them runs.

use crate::event::{Event, Policy};
use crate::faults::{self, Fault};
use crate::kernel::Settings;
use crate::mask::Mask;
use crate::slots::{Flags, NO_FLAGS};

pub const MOST_BYTES: usize = 1_048_576;
/// So many bytes are there behind a text: a word is read as eight bytes, and a name as sixteen.
pub const ROOM: usize = 32;

/// A script that has no fault.
pub struct Script {
    pub settings: Settings,
    pub policy: Policy,
    pub events: Vec<Event>,
    pub masks: Vec<Mask>,
}

/// Where the text's words are read.
#[derive(Clone, Copy)]
struct Cursor<'a> {
    text: &'a [u8],
    at: usize,
}

/// The first word of a line as a number.
const fn word(bytes: &[u8]) -> u64 {
    let (mut number, mut at) = (0, 0);
    while at < bytes.len() {
        number |= (bytes[at] as u64) << (8 * at);
        at += 1;
    }
    number
}

/// The place of a word in a table of 32. No two words of events have the same one.
const fn place(word: u64) -> usize {
    (word.wrapping_mul(0x169e_0c7d_ad7d_6965) >> 59) as usize
}

/// The place of each word of an event, and the table.
macro_rules! events {
    ($($name:ident $bytes:literal)*) => {
        $(const $name: usize = place(word($bytes));)*
        const WORDS: [u64; 32] = {
            let mut words = [0; 32];
            $(assert!(words[$name] == 0); words[$name] = word($bytes);)*
            words
        };
    };
}

const FIRST: u64 = word(b"first");
const TWO: u64 = word(b"two");
events! {
    CREATE b"create" BLOCK b"block" WAKE b"wake" YIELD b"yield" DIE b"die" AFFINITY b"affinity" TAKE b"take" GIVE b"give"
    TICK b"tick" HANDOFF b"handoff" DRAIN b"drain" DECIDE b"decide" COMMIT b"commit" LATE b"late" STAMP b"stamp"
    CRASH b"crash" LEAVE b"leave" BEGIN b"begin" PAGE b"page" ACTIVATE b"activate" VIEW b"view" STATE b"state"
    UNREAD b"unread"
}

impl Cursor<'_> {
    #[inline(always)]
    fn byte(&self) -> u8 {
        self.text[self.at]
    }

    /// The spaces behind a word.
    #[inline(always)]
    fn spaces(&mut self) -> Option<()> {
        if self.byte() > b' ' {
            return None;
        }
        while self.byte() == b' ' {
            self.at += 1;
        }
        Some(())
    }

    /// A word of at most eight bytes as a number; of a longer one that of its front, and then there are no spaces behind it.
    #[inline(always)]
    fn word(&mut self) -> Option<u64> {
        let bytes = u64::from_le_bytes(*self.text[self.at..].first_chunk()?);
        // The first byte that is a space or ends the line has its top bit here.
        let low = bytes.wrapping_sub(0x2121_2121_2121_2121) & !bytes & 0x8080_8080_8080_8080;
        let before = (low & low.wrapping_neg()) >> 7;
        self.at += low.trailing_zeros() as usize / 8;
        self.spaces()?;
        Some(bytes & before.wrapping_sub(1))
    }

    #[inline(always)]
    fn number(&mut self, most: u64) -> Option<u64> {
        let first = self.at;
        let mut value = (self.byte().wrapping_sub(b'0')) as u64;
        if value > 9 {
            return None;
        }
        self.at += 1;
        if value > 0 {
            loop {
                let digit = self.byte().wrapping_sub(b'0');
                if digit > 9 {
                    break;
                }
                value = value.wrapping_mul(10).wrapping_add(digit.into());
                self.at += 1;
            }
        }
        if self.at - first > 19 {
            return None;
        }
        self.spaces()?;
        (value <= most).then_some(value)
    }

    /// A mask, which is put behind these: its place.
    #[inline(always)]
    fn mask(&mut self, masks: &mut Vec<Mask>) -> Option<u32> {
        let first = self.at;
        let mut value = (self.byte().wrapping_sub(b'0')) as u64;
        if value > 9 {
            return None;
        }
        self.at += 1;
        if value > 0 {
            loop {
                let digit = self.byte().wrapping_sub(b'0');
                if digit > 9 {
                    break;
                }
                value = value.wrapping_mul(10).wrapping_add(digit.into());
                self.at += 1;
            }
        }
        masks.push(if self.at - first > 19 { long_mask(&self.text[first..self.at])? } else { Mask::of([value, 0]) });
        self.spaces()?;
        Some(masks.len() as u32 - 1)
    }

    #[inline(always)]
    fn tid(&mut self) -> Option<u32> {
        Some(self.number(u32::MAX.into())? as u32)
    }

    #[inline(always)]
    fn cpu(&mut self) -> Option<u16> {
        Some(self.number(65_535)? as u16)
    }

    /// Whether a letter is there, which is passed over then.
    #[inline(always)]
    fn letter(&mut self, letter: u8) -> Option<bool> {
        if self.byte() != letter {
            return Some(false);
        }
        self.at += 1;
        self.spaces()?;
        Some(true)
    }

    /// The place of a name, and its length.
    #[inline(always)]
    fn name(&mut self) -> Option<(u32, u8)> {
        let first = self.at;
        while self.byte() > b' ' {
            self.at += 1;
        }
        let length = self.at - first;
        if length == 0 || length > 16 {
            return None;
        }
        let is_empty = length == 1 && self.text[first] == b'-';
        self.spaces()?;
        Some((first as u32, if is_empty { 0 } else { length as u8 }))
    }

    #[inline(always)]
    fn create(&mut self, masks: &mut Vec<Mask>) -> Option<Event> {
        let mask = self.mask(masks)?;
        let class = self.number(1)? as u8;
        let runnable = self.letter(b'r')?;
        if !runnable && !self.letter(b'b')? {
            return None;
        }
        let (name, length) = self.name()?;
        Some(Event::Create { mask, name, length, class, runnable })
    }

    #[inline(always)]
    fn stamp(&mut self) -> Option<Event> {
        let (cpu, tid) = (self.cpu()?, self.tid()?);
        let flags = if self.byte() == b'\n' { NO_FLAGS } else { self.flags()? };
        Some(Event::Stamp { cpu, tid, flags })
    }

    /// The flags of a stamp, of which there is one at least.
    fn flags(&mut self) -> Option<Flags> {
        let preempt = self.byte() == b'p';
        self.at += preempt as usize;
        let group = self.byte() == b'g';
        self.at += group as usize;
        self.spaces()?;
        Some(Flags { preempt, group })
    }

    #[inline(always)]
    fn begin(&mut self) -> Option<Event> {
        if self.byte() == b'\n' {
            return Some(Event::Begin { policy: None });
        }
        let policy = match self.word()? {
            FIRST => Policy::First,
            TWO => Policy::Two { slice: self.number(65_535).filter(|&slice| slice > 0)? as u16 },
            _ => return None,
        };
        Some(Event::Begin { policy: Some(policy) })
    }

    /// The event of a line, behind which the cursor stands then; none if the line is at fault or has no words. Its mask is put
    /// behind these.
    #[inline(always)]
    fn event(&mut self, masks: &mut Vec<Mask>) -> Option<Event> {
        let word = self.word()?;
        let place = place(word);
        if WORDS[place] != word {
            return None;
        }
        let event = match place {
            CREATE => self.create(masks)?,
            BLOCK => Event::Block { tid: self.tid()? },
            WAKE => Event::Wake { tid: self.tid()? },
            YIELD => Event::Yield { tid: self.tid()? },
            DIE => Event::Die { tid: self.tid()? },
            AFFINITY => Event::Affinity { tid: self.tid()?, mask: self.mask(masks)? },
            TAKE => Event::Take { cpu: self.cpu()? },
            GIVE => Event::Give { cpu: self.cpu()? },
            TICK => Event::Tick { cpu: self.cpu()? },
            HANDOFF => Event::HandOff { cpu: self.cpu()? },
            DRAIN => Event::Drain { max: self.tid()? },
            DECIDE => Event::Decide,
            COMMIT => Event::Commit { mask: self.mask(masks)? },
            LATE => Event::Late { number: self.tid()? },
            STAMP => self.stamp()?,
            CRASH => Event::Crash,
            LEAVE => Event::Leave,
            BEGIN => self.begin()?,
            PAGE => Event::Page { max: self.cpu()? },
            ACTIVATE => Event::Activate { cpu: self.cpu()? },
            VIEW => Event::View,
            STATE => Event::State,
            UNREAD => Event::Unread,
            _ => return None,
        };
        if self.byte() != b'\n' {
            return None;
        }
        self.at += 1;
        Some(event)
    }

    /// The rest of the line.
    fn line(&self) -> &[u8] {
        let rest = &self.text[self.at..];
        &rest[..rest.iter().position(|&byte| byte == b'\n').unwrap_or(rest.len())]
    }

    fn next_line(&mut self) {
        self.at += self.line().len() + 1;
    }

    fn skip_spaces(&mut self) {
        while self.byte() == b' ' {
            self.at += 1;
        }
    }

    /// Passes over lines without words and comments, up to this place at most, and the spaces before the next word.
    fn pass_over(&mut self, end: usize) {
        while self.at < end {
            self.skip_spaces();
            if self.byte() != b'\n' && self.byte() != b'#' {
                break;
            }
            self.next_line();
        }
    }

    /// The events up to this place, and their masks.
    fn events(&mut self, end: usize) -> Result<(Vec<Event>, Vec<Mask>), Fault> {
        let mut events = Vec::with_capacity((end - self.at.min(end)) / 12 + 1);
        let mut masks = Vec::new();
        while self.at < end {
            // A copy, which can stand in the processor's registers.
            let mut cursor = *self;
            if let Some(event) = cursor.event(&mut masks) {
                events.push(event);
                self.at = cursor.at;
                continue;
            }
            let line = self.at;
            self.pass_over(end);
            if self.at == line {
                return Err(faults::event(self.line()).expect_err("a line that is no event has a fault"));
            }
        }
        Ok((events, masks))
    }
}

/// The mask of more than 19 digits.
fn long_mask(digits: &[u8]) -> Option<Mask> {
    let mut number = 0_u128;
    for part in digits.chunks(19) {
        let value = part.iter().fold(0, |value, digit| 10 * value + u64::from(digit - b'0'));
        number = number.checked_mul(10_u64.pow(part.len() as u32).into())?.checked_add(value.into())?;
    }
    Some(Mask::numbered(number))
}

fn is_bad(byte: u8) -> bool {
    (byte.wrapping_sub(32) > 94) & (byte != b'\n')
}

/// The first byte that no line may have.
fn first_bad(text: &[u8]) -> Option<usize> {
    let with_bad = |chunk: &[u8]| chunk.iter().fold(false, |bad, &byte| bad | is_bad(byte));
    let chunk = text.chunks(4096).position(with_bad)?;
    text[4096 * chunk..].iter().position(|&byte| is_bad(byte)).map(|at| 4096 * chunk + at)
}

/// The script of a text of so many bytes, behind which a line end and more stand, or its fault and the line that has it.
pub fn read(text: &[u8], length: usize) -> Result<Script, (usize, Fault)> {
    if length > MOST_BYTES {
        return Err((0, Fault::TooLong));
    }
    let bad = first_bad(&text[..length]);
    // A line with a bad byte ends the reading.
    let end = bad.map_or(length, |bad| text[..bad].iter().rposition(|&byte| byte == b'\n').map_or(0, |at| at + 1));
    let mut cursor = Cursor { text, at: 0 };
    let at = |cursor: &Cursor<'_>, fault| (1 + text[..cursor.at].iter().filter(|&&byte| byte == b'\n').count(), fault);
    cursor.pass_over(end);
    if cursor.at < end {
        let (settings, policy) = faults::header(cursor.line()).map_err(|fault| at(&cursor, fault))?;
        cursor.next_line();
        let (events, masks) = cursor.events(end).map_err(|fault| at(&cursor, fault))?;
        if bad.is_none() {
            return Ok(Script { settings, policy, events, masks });
        }
    }
    cursor.at = end;
    Err(if bad.is_some() { at(&cursor, Fault::BadByte) } else { (0, Fault::NoHeader) })
}
