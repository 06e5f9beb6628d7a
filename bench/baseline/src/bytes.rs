//! Bytes of lines: names and numbers.

use crate::rows::Text;

/// A line has fewer bytes: the longest one has a user's 1,000 LWPs, of six digits each.
const LONGEST_LINE: usize = 8192;
/// As many bytes are written at a time, and a line more.
const BLOCK: usize = 65536;

/// A name, and how many bytes it has.
pub type Name = ([u8; 24], usize);

pub const fn name(text: &str) -> Name {
    let (mut bytes, mut at) = ([0; 24], 0);
    while at < text.len() {
        bytes[at] = text.as_bytes()[at];
        at += 1;
    }
    (bytes, at)
}

pub static FLAGS: [Name; 9] = [
    name("PL_FLAG_SCE"),
    name("PL_FLAG_SCX"),
    name("PL_FLAG_EXEC"),
    name("PL_FLAG_FORKED"),
    name("PL_FLAG_CHILD"),
    name("PL_FLAG_BORN"),
    name("PL_FLAG_EXITED"),
    name("PL_FLAG_VFORKED"),
    name("PL_FLAG_VFORK_DONE"),
];

pub static EVENTS: [Name; 6] = [
    name("PTRACE_EXEC"),
    name("PTRACE_SCE"),
    name("PTRACE_SCX"),
    name("PTRACE_FORK"),
    name("PTRACE_LWP"),
    name("PTRACE_VFORK"),
];

/// The three digits of each number below 1,000, as bytes from the lowest on, and in the highest byte eight times as many
/// as are zeros in front.
static THREE_DIGITS: [u32; 1000] = three_digits();

const fn three_digits() -> [u32; 1000] {
    let mut table = [0; 1000];
    let mut number = 0;
    while number < 1000 {
        let zeros = (number < 100) as u32 + (number < 10) as u32;
        let digits = (number / 100) | (number / 10 % 10) << 8 | (number % 10) << 16;
        table[number as usize] = digits + 0x30_3030 + ((8 * zeros) << 24);
        number += 1;
    }
    table
}

/// Texts of the numbers of a user's processes: a place's three digits follow one digit or two.
#[derive(Clone, Copy)]
pub struct Texts {
    front: u64,
    length: u8,
}

impl Texts {
    /// The first of the numbers has four or five digits, and the last three are 0.
    pub fn of_user(first: u32) -> Texts {
        let mut text = [0; 8];
        let front = format!(" {}", first / 1000);
        text[..front.len()].copy_from_slice(front.as_bytes());
        Texts {
            front: u64::from_le_bytes(text),
            length: front.len() as u8 + 3,
        }
    }

    #[inline(always)]
    pub fn of_process(&self, place: u16) -> Text {
        let digits = THREE_DIGITS[place as usize] & 0xff_ffff;
        (self.front | u64::from(digits) << (8 * (self.length - 3))).to_le_bytes()
    }
}

/// The text of an LWP's number, which has six digits.
#[inline(always)]
pub fn lwp_text(number: u32) -> Text {
    let (first, last) = (
        THREE_DIGITS[(number / 1000) as usize],
        THREE_DIGITS[(number % 1000) as usize],
    );
    (u64::from(b' ') | u64::from(first) << 8 | u64::from(last) << 32).to_le_bytes()
}

/// The number of a user, and that of the user's last step, as text.
#[derive(Clone, Copy)]
pub struct Head {
    pub text: [u8; 16],
    pub length: u8,
}

impl Head {
    pub fn of_user(user: u32) -> Head {
        let mut text = [0; 16];
        text[..6].copy_from_slice(format!("{user} 0").as_bytes());
        Head { text, length: 6 }
    }

    /// Counts a step.
    #[inline(always)]
    pub fn count(&mut self) {
        let last = &mut self.text[(self.length - 1) as usize % 16];
        if *last == b'9' {
            self.carry();
        } else {
            *last += 1;
        }
    }

    fn carry(&mut self) {
        let mut at = self.length as usize - 1;
        while self.text[at] == b'9' {
            self.text[at] = b'0';
            at -= 1;
        }
        if self.text[at] == b' ' {
            at += 1;
            self.text[at] = b'0';
            self.text[self.length as usize] = b'0';
            self.length += 1;
        }
        self.text[at] += 1;
    }
}

/// Lines that are not written yet.
#[derive(Default)]
pub struct Bytes(Vec<u8>);

impl Bytes {
    /// Whether the lines are to be written before the next one begins.
    #[inline(always)]
    pub fn is_full(&self) -> bool {
        self.0.len() > BLOCK
    }

    /// Makes room for a block and a line.
    pub fn of_a_block() -> Bytes {
        Bytes(Vec::with_capacity(BLOCK + LONGEST_LINE))
    }

    /// Makes room for one line, the only one.
    #[inline(always)]
    pub fn begin(&mut self) {
        self.0.clear();
        self.0.reserve(LONGEST_LINE);
    }

    pub fn bytes(&self) -> &[u8] {
        &self.0
    }

    pub fn clear(&mut self) {
        self.0.clear();
    }

    /// Puts bytes. Only the first ones count.
    #[inline(always)]
    pub fn put<const COUNT: usize>(&mut self, bytes: [u8; COUNT], count: usize) {
        let length = self.0.len();
        debug_assert!(count <= COUNT && length + COUNT <= self.0.capacity());
        // SAFETY: a line begins at BLOCK at most, and the longest one ends before the room does
        unsafe {
            self.0.as_mut_ptr().add(length).cast::<[u8; COUNT]>().write(bytes);
            self.0.set_len(length + count);
        }
    }

    #[inline(always)]
    pub fn word<const COUNT: usize>(&mut self, word: &[u8; COUNT]) {
        self.put(*word, COUNT);
    }

    #[inline(always)]
    pub fn number(&mut self, number: u32) {
        if number >= 1_000_000 {
            return self.long_number(number);
        }
        let digits = THREE_DIGITS[(number % 1000) as usize];
        if number < 1000 {
            let zeros = digits >> 24;
            return self.put(((digits & 0xff_ffff) >> zeros).to_le_bytes(), (3 - zeros / 8) as usize);
        }
        let first = THREE_DIGITS[(number / 1000) as usize];
        let zeros = first >> 24;
        let six = u64::from(first & 0xff_ffff) | u64::from(digits) << 24;
        self.put((six >> zeros).to_le_bytes(), (6 - zeros / 8) as usize);
    }

    #[cold]
    fn long_number(&mut self, number: u32) {
        self.0.extend_from_slice(number.to_string().as_bytes());
    }

    /// The number of a process, behind a space.
    #[inline(always)]
    pub fn process(&mut self, texts: &Texts, pid: Text) {
        self.put(pid, texts.length as usize);
    }

    /// The number of an LWP, behind a space.
    #[inline(always)]
    pub fn lwp(&mut self, text: Text) {
        self.put(text, 7);
    }
}
