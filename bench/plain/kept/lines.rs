//! Reply lines, written into one block that is put out at the end.

use crate::event::{Facts, Name, NO_CPU};
use crate::mask::Mask;

#[derive(Default)]
pub struct Lines {
    bytes: Vec<u8>,
}

const PAIRS: &[u8; 200] =
    b"0001020304050607080910111213141516171819202122232425262728293031323334353637383940414243444546474849\
5051525354555657585960616263646566676869707172737475767778798081828384858687888990919293949596979899";

#[inline(always)]
fn pair(n: u32) -> [u8; 2] {
    let at = 2 * (n % 100) as usize;
    [PAIRS[at], PAIRS[at + 1]]
}

impl Lines {
    pub fn with_room(bytes: usize) -> Lines {
        Lines { bytes: Vec::with_capacity(bytes) }
    }

    pub fn bytes(&self) -> &[u8] {
        &self.bytes
    }

    #[inline(always)]
    pub fn text(&mut self, text: &str) -> &mut Lines {
        self.bytes.extend_from_slice(text.as_bytes());
        self
    }

    #[inline(always)]
    pub fn number(&mut self, n: u32) -> &mut Lines {
        if n < 10 {
            self.bytes.push(b'0' + n as u8);
        } else if n < 100 {
            self.bytes.extend_from_slice(&pair(n));
        } else {
            self.more_digits(n);
        }
        self
    }

    #[inline(always)]
    fn more_digits(&mut self, n: u32) {
        let [[c, d], [a, b]] = [pair(n), pair(n / 100)];
        match n {
            ..1_000 => self.bytes.extend_from_slice(&[b, c, d]),
            1_000..10_000 => self.bytes.extend_from_slice(&[a, b, c, d]),
            10_000..100_000 => self.bytes.extend_from_slice(&[b'0' + (n / 10_000) as u8, a, b, c, d]),
            _ => {
                self.long(n.into());
            }
        }
    }

    /// A number of up to 20 digits.
    fn long(&mut self, mut n: u64) -> &mut Lines {
        if n < 100_000 {
            return self.number(n as u32);
        }
        let mut digits = [0; 20];
        let mut at = digits.len();
        while n >= 10 {
            at -= 2;
            digits[at..at + 2].copy_from_slice(&pair((n % 100) as u32));
            n /= 100;
        }
        if n > 0 {
            at -= 1;
            digits[at] = b'0' + n as u8;
        }
        self.bytes.extend_from_slice(&digits[at..]);
        self
    }

    /// The 18 digits of a number, zeros before them.
    fn eighteen(&mut self, mut n: u64) -> &mut Lines {
        let mut digits = [[0; 2]; 9];
        for two in digits.iter_mut().rev() {
            *two = pair((n % 100) as u32);
            n /= 100;
        }
        self.bytes.extend_from_slice(digits.as_flattened());
        self
    }

    /// The number of a mask.
    #[inline(always)]
    pub fn mask(&mut self, mask: Mask) -> &mut Lines {
        match mask.words() {
            [low, 0] => self.long(low),
            _ => self.longest(mask.number()),
        }
    }

    /// A number of more than 18 digits.
    fn longest(&mut self, n: u128) -> &mut Lines {
        const PART: u64 = 1_000_000_000_000_000_000;
        let front = n / PART as u128;
        match u64::try_from(front) {
            Ok(front) => self.long(front),
            Err(_) => self.longest(front),
        }
        .eighteen((n as u64).wrapping_sub((front as u64).wrapping_mul(PART)))
    }

    #[inline(always)]
    pub fn end(&mut self) {
        self.bytes.push(b'\n');
    }

    /// A thread and its number.
    #[inline(always)]
    pub fn thread(&mut self, tid: u32, tseq: u32) -> &mut Lines {
        self.number(tid).text(" seq ").number(tseq)
    }

    /// A CPU, or a dash.
    #[inline(always)]
    pub fn cpu(&mut self, cpu: u8) -> &mut Lines {
        if cpu == NO_CPU {
            self.text("-")
        } else {
            self.number(cpu.into())
        }
    }

    fn name(&mut self, name: &Name) -> &mut Lines {
        if name.length == 0 {
            return self.text("-");
        }
        self.bytes.extend_from_slice(&name.bytes);
        self.bytes.truncate(self.bytes.len() - 16 + name.length as usize);
        self
    }

    #[inline(always)]
    pub fn facts(&mut self, facts: &Facts) -> &mut Lines {
        self.text(if facts.runnable { " r mask " } else { " b mask " }).mask(facts.mask);
        self.text(if facts.class == 0 { " class 0 name " } else { " class 1 name " }).name(&facts.name)
    }
}
