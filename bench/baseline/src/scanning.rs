//! One pass over a JSON text: what comes next, without values in memory.

use std::arch::x86_64::{
    __m128i, _mm_cmpeq_epi8, _mm_loadu_si128, _mm_max_epu8, _mm_movemask_epi8, _mm_or_si128, _mm_set1_epi8,
};
use std::fs::File;
use std::io::{self, Read};

/// The bytes of 0 that follow each text, and the most bytes that are read at a time.
const PADDING: usize = 32;
/// More bytes than a name has.
const LONGEST_NAME: usize = 24;
/// So many bytes of a name are looked at at a time.
const WIDTH: usize = 16;

/// A text that `PADDING` bytes of 0 follow.
#[derive(Default)]
pub struct Padded(Vec<u8>);

impl Padded {
    /// The text of a file, which is read to where it stays.
    pub fn of_file(path: &str) -> io::Result<Padded> {
        let mut file = File::open(path)?;
        let mut text = Vec::with_capacity(file.metadata()?.len() as usize + PADDING);
        file.read_to_end(&mut text)?;
        text.resize(text.len() + PADDING, 0);
        Ok(Padded(text))
    }

    /// Becomes another text.
    #[inline]
    pub fn set(&mut self, text: &[u8]) {
        self.0.clear();
        self.0.reserve(text.len() + PADDING);
        self.0.extend_from_slice(text);
        self.0.extend_from_slice(&[0; PADDING]);
    }

    pub fn length(&self) -> usize {
        self.0.len() - PADDING
    }
}

/// A string that may be a name: one that isn't too long, without its escapes.
pub struct Name {
    bytes: [u8; LONGEST_NAME + WIDTH],
    length: usize,
}

impl Name {
    pub fn bytes(&self) -> &[u8] {
        &self.bytes[..self.length]
    }

    /// Adds the first ones of these bytes, unless there are too many then.
    #[inline]
    fn push(&mut self, bytes: &[u8; WIDTH], count: usize) -> Option<()> {
        *self.bytes.get_mut(self.length..)?.first_chunk_mut()? = *bytes;
        self.length += count;
        (self.length <= LONGEST_NAME).then_some(())
    }
}

/// The place of the first byte that is not of the plain part of a string: a quote, a backslash or a control character.
#[inline]
fn first_special(bytes: &[u8; WIDTH]) -> usize {
    // SAFETY: sixteen bytes can be read, and each x86-64 has SSE2
    unsafe {
        let bytes = _mm_loadu_si128(bytes.as_ptr().cast::<__m128i>());
        let quote = _mm_cmpeq_epi8(bytes, _mm_set1_epi8(b'"' as i8));
        let backslash = _mm_cmpeq_epi8(bytes, _mm_set1_epi8(b'\\' as i8));
        let last = _mm_set1_epi8(0x1f);
        let control = _mm_cmpeq_epi8(_mm_max_epu8(bytes, last), last);
        let special = _mm_movemask_epi8(_mm_or_si128(_mm_or_si128(quote, backslash), control));
        (special as u32 | 1 << WIDTH).trailing_zeros() as usize
    }
}

/// A place in a text. It never passes a byte of 0, so `PADDING` bytes can always be read from it.
#[derive(Clone)]
pub struct Scanner<'a> {
    /// With the bytes that follow the text.
    text: &'a [u8],
    at: usize,
}

impl<'a> Scanner<'a> {
    pub fn new(text: &'a Padded) -> Scanner<'a> {
        Scanner { text: &text.0, at: 0 }
    }

    #[inline(always)]
    fn next<const COUNT: usize>(&self) -> [u8; COUNT] {
        const { assert!(COUNT <= PADDING) };
        // SAFETY: no byte of 0 has been passed, and PADDING of them are at the end
        unsafe { self.text.as_ptr().add(self.at).cast::<[u8; COUNT]>().read() }
    }

    #[inline(always)]
    fn byte(&self) -> u8 {
        let [byte] = self.next();
        byte
    }

    // What programs write: nothing between two tokens, and no escapes

    /// Whether these bytes come next. None of them is 0.
    #[inline(always)]
    fn has(&self, bytes: &'static str) -> bool {
        debug_assert!(bytes.len() <= PADDING && !bytes.as_bytes().contains(&0));
        // SAFETY: as in `next`
        let next = unsafe { std::slice::from_raw_parts(self.text.as_ptr().add(self.at), bytes.len()) };
        next == bytes.as_bytes()
    }

    /// Passes these bytes if they come next.
    #[inline(always)]
    pub fn skips(&mut self, bytes: &'static str) -> bool {
        if !self.has(bytes) {
            return false;
        }
        self.at += bytes.len();
        true
    }

    #[inline(always)]
    pub fn take(&mut self, bytes: &'static str) -> Option<()> {
        if !self.has(bytes) {
            return None;
        }
        self.at += bytes.len();
        Some(())
    }

    /// A number of at most seven digits: eight bytes are read as one number, whose pairs are joined again and again.
    #[inline(always)]
    pub fn digits(&mut self) -> Option<u32> {
        let digits = u64::from_le_bytes(self.next()) ^ 0x3030_3030_3030_3030;
        let others = (digits.wrapping_add(0x7676_7676_7676_7676) | digits) & 0x8080_8080_8080_8080;
        let bits = others.trailing_zeros() & !7;
        if bits == 0 || bits == 64 || digits & 0xff == 0 && bits > 8 {
            return None;
        }
        self.at += (bits / 8) as usize;
        let ones = digits << (64 - bits);
        let pairs = (ones.wrapping_mul(10) + (ones >> 8)) & 0x00ff_00ff_00ff_00ff;
        let fours = (pairs.wrapping_mul(100) + (pairs >> 16)) & 0x0000_ffff_0000_ffff;
        Some((fours.wrapping_mul(10_000) + (fours >> 32)) as u32)
    }

    /// Two digits, of which the first may be 0.
    #[inline(always)]
    pub fn two_digits(&mut self) -> Option<u32> {
        let [tens, ones] = self.next().map(|byte: u8| u32::from(byte.wrapping_sub(b'0')));
        if tens > 9 || ones > 9 {
            return None;
        }
        self.at += 2;
        Some(tens * 10 + ones)
    }

    /// A number of one or two digits.
    #[inline(always)]
    pub fn small_number(&mut self) -> Option<u32> {
        let [first, second] = self.next().map(|byte: u8| u32::from(byte.wrapping_sub(b'0')));
        if first > 9 || first == 0 && second <= 9 {
            return None;
        }
        self.at += 1;
        if second > 9 {
            return Some(first);
        }
        self.at += 1;
        Some(first * 10 + second)
    }

    // Any text

    pub fn place(&self) -> usize {
        self.at
    }

    /// Goes back to a place that the scanner has passed.
    pub fn back_to(&mut self, place: usize) {
        assert!(place <= self.at);
        self.at = place;
    }

    /// The bytes from a place that the scanner has passed.
    pub fn passed_since(&self, place: usize) -> &[u8] {
        &self.text[place..self.at]
    }

    /// Takes the next byte if it isn't 0 and is one of these.
    #[inline]
    pub fn next_if(&mut self, is_one: impl Fn(u8) -> bool) -> Option<u8> {
        let byte = self.byte();
        if byte == 0 || !is_one(byte) {
            return None;
        }
        self.at += 1;
        Some(byte)
    }

    /// The next byte that is no space.
    #[inline]
    pub fn peek(&mut self) -> u8 {
        while matches!(self.byte(), b' ' | b'\n' | b'\t' | b'\r') {
            self.at += 1;
        }
        self.byte()
    }

    #[inline]
    pub fn expect(&mut self, byte: u8) -> Option<()> {
        if self.peek() != byte {
            return None;
        }
        self.at += 1;
        Some(())
    }

    /// Takes a comma, or the end of an array or an object, and tells whether it was a comma.
    #[inline]
    pub fn goes_on(&mut self, end: u8) -> Option<bool> {
        let mut byte = self.byte();
        if byte != b',' {
            byte = self.peek();
        }
        if byte != b',' && byte != end {
            return None;
        }
        self.at += 1;
        Some(byte == b',')
    }

    /// Opens an array or an object, and tells whether it has anything.
    #[inline]
    pub fn opens(&mut self, begin: u8, end: u8) -> Option<bool> {
        self.expect(begin)?;
        if self.peek() == end {
            self.at += 1;
            return Some(false);
        }
        Some(true)
    }

    pub fn is_at_end(&mut self) -> bool {
        self.peek() == 0 && self.at == self.text.len() - PADDING
    }

    /// A string that may be a name.
    pub fn name(&mut self) -> Option<Name> {
        self.expect(b'"')?;
        let mut name = Name {
            bytes: [0; LONGEST_NAME + WIDTH],
            length: 0,
        };
        loop {
            let bytes = self.next();
            let plain = first_special(&bytes);
            name.push(&bytes, plain)?;
            self.at += plain;
            match self.byte() {
                b'"' => {
                    self.at += 1;
                    return Some(name);
                }
                b'\\' => {
                    let byte = self.escape()?;
                    name.push(&[byte; WIDTH], 1)?;
                }
                0..=0x1f => return None,
                _ => {}
            }
        }
    }

    /// The escape of a letter, a digit or a `_`: other escapes are in no name.
    fn escape(&mut self) -> Option<u8> {
        let [b'\\', b'u', b'0', b'0', high, low] = self.next() else {
            return None;
        };
        let digit = |byte: u8| char::from(byte).to_digit(16);
        let byte = (digit(high)? * 16 + digit(low)?) as u8;
        self.at += 6;
        Some(byte)
    }

    /// A whole number of 64 bits.
    #[inline]
    pub fn number(&mut self) -> Option<i64> {
        let is_negative = self.peek() == b'-';
        self.at += usize::from(is_negative);
        let start = self.at;
        let has_zero = self.byte() == b'0';
        let mut value: u64 = 0;
        while self.byte().is_ascii_digit() {
            value = value.checked_mul(10)?.checked_add(u64::from(self.byte() - b'0'))?;
            self.at += 1;
        }
        let length = self.at - start;
        if length == 0 || has_zero && (length > 1 || is_negative) || matches!(self.byte(), b'.' | b'e' | b'E') {
            return None;
        }
        if is_negative {
            0i64.checked_sub_unsigned(value)
        } else {
            i64::try_from(value).ok()
        }
    }
}
