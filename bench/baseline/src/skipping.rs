//! Any JSON value, which counts for nothing: its key comes again.

use crate::scanning::Scanner;

/// A text with more arrays and objects within each other is refused.
const DEEPEST: usize = 127;

impl Scanner<'_> {
    /// Passes a value that is inside of so many arrays and objects.
    pub fn skip_value(&mut self, depth: usize) -> Option<()> {
        let start = self.place();
        self.skip(depth)?;
        std::str::from_utf8(self.passed_since(start)).is_ok().then_some(())
    }

    fn skip(&mut self, depth: usize) -> Option<()> {
        match self.peek() {
            b'"' => self.skip_string(),
            b'[' => self.skip_members(depth + 1, b'[', b']'),
            b'{' => self.skip_members(depth + 1, b'{', b'}'),
            b't' => self.take("true"),
            b'f' => self.take("false"),
            b'n' => self.take("null"),
            _ => self.skip_number(),
        }
    }

    fn skip_members(&mut self, depth: usize, begin: u8, end: u8) -> Option<()> {
        if depth > DEEPEST {
            return None;
        }
        let mut goes_on = self.opens(begin, end)?;
        while goes_on {
            if begin == b'{' {
                self.peek();
                self.skip_string()?;
                self.expect(b':')?;
            }
            self.skip(depth)?;
            goes_on = self.goes_on(end)?;
        }
        Some(())
    }

    fn skip_string(&mut self) -> Option<()> {
        self.take("\"")?;
        while !self.skips("\"") {
            if self.skips("\\u") {
                self.skip_code()?;
            } else if self.skips("\\") {
                self.one_of(b"\"\\/bfnrt")?;
            } else {
                self.next_if(|byte| byte >= 0x20)?;
            }
        }
        Some(())
    }

    /// The digits of an escape, or of two that are one character.
    fn skip_code(&mut self) -> Option<()> {
        let mut codes = vec![self.hex()?];
        if (0xd800..0xdc00).contains(&codes[0]) {
            self.take("\\u")?;
            codes.push(self.hex()?);
        }
        char::decode_utf16(codes).all(|decoded| decoded.is_ok()).then_some(())
    }

    fn hex(&mut self) -> Option<u16> {
        let mut code = 0;
        for _ in 0..4 {
            let digit = self.next_if(|byte| byte.is_ascii_hexdigit())?;
            code = code * 16 + char::from(digit).to_digit(16)? as u16;
        }
        Some(code)
    }

    fn skip_number(&mut self) -> Option<()> {
        let start = self.place();
        self.skips("-");
        if !self.skips("0") {
            self.skip_digits()?;
        }
        if self.skips(".") {
            self.skip_digits()?;
        }
        if self.one_of(b"eE").is_some() {
            let _ = self.one_of(b"+-");
            self.skip_digits()?;
        }
        let number = std::str::from_utf8(self.passed_since(start)).ok()?;
        number.parse().is_ok_and(f64::is_finite).then_some(())
    }

    fn skip_digits(&mut self) -> Option<()> {
        self.next_if(|byte| byte.is_ascii_digit())?;
        while self.next_if(|byte| byte.is_ascii_digit()).is_some() {}
        Some(())
    }

    fn one_of(&mut self, bytes: &[u8]) -> Option<u8> {
        self.next_if(|byte| bytes.contains(&byte))
    }
}
