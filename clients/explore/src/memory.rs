//! Memory that the system may refuse: what grows much asks for it, and gets an answer. For the rest some is left.

use std::fs::{self, File};
use std::os::unix::fs::FileExt;
use tracehost::Error;

/// The system has refused memory.
#[derive(Clone, Copy, Debug, PartialEq, Eq)]
pub struct Refused;

impl From<Refused> for Error {
    fn from(Refused: Refused) -> Error {
        Error::NoMemory
    }
}

/// An empty vector with room for so many.
pub fn room<T>(count: usize) -> Result<Vec<T>, Refused> {
    let mut vector = Vec::new();
    vector.try_reserve_exact(count).map_err(|_| Refused)?;
    Ok(vector)
}

/// So many times the same value.
pub fn filled<T: Clone>(value: T, count: usize) -> Result<Vec<T>, Refused> {
    let mut vector = room(count)?;
    vector.resize(count, value);
    Ok(vector)
}

/// Makes room for one more.
#[inline]
pub fn one_more<T>(vector: &mut Vec<T>) -> Result<(), Refused> {
    if vector.len() < vector.capacity() {
        return Ok(());
    }
    vector.try_reserve(1).map_err(|_| Refused)
}

/// What is left of the limits of setrlimit(2): RLIMIT_AS of the address space, and RLIMIT_DATA.
pub struct Limits {
    most: [u64; 2],
    /// `/proc/self/statm`, in pages, if there is a limit.
    used: Option<(File, u64)>,
    /// How many bytes have to be left.
    kept: u64,
}

/// What a search needs for all that is small, and each of its threads.
const KEPT: (u64, u64) = (12 << 20, 4 << 20);

/// The soft limit in a line of `/proc/self/limits`.
fn soft(limits: &str, name: &str) -> u64 {
    let line = limits.lines().find_map(|line| line.strip_prefix(name));
    let first = line.and_then(|line| line.split_whitespace().next());
    first.and_then(|number| number.parse().ok()).unwrap_or(u64::MAX)
}

/// The size of a page, by the kernel's pairs of numbers for a new program.
fn page() -> Option<u64> {
    const AT_PAGESZ: u64 = 6;
    let words = fs::read("/proc/self/auxv").ok()?;
    let word = |bytes: &[u8]| u64::from_ne_bytes(bytes.try_into().expect("eight bytes"));
    let mut pairs = words.chunks_exact(16).map(|pair| (word(&pair[..8]), word(&pair[8..])));
    pairs.find(|(name, _)| *name == AT_PAGESZ).map(|(_, size)| size)
}

impl Limits {
    /// The limits of this process, as they are now, for so many threads.
    pub fn new(threads: usize) -> Limits {
        let limits = fs::read_to_string("/proc/self/limits").unwrap_or_default();
        let most = ["Max address space", "Max data size"].map(|name| soft(&limits, name));
        let used = || Some((File::open("/proc/self/statm").ok()?, page()?));
        Limits {
            most,
            used: most.iter().any(|most| *most < u64::MAX).then(used).flatten(),
            kept: KEPT.0 + KEPT.1 * threads as u64,
        }
    }

    /// Whether enough is left.
    pub fn leave_enough(&self) -> bool {
        let Some((file, page)) = &self.used else {
            return true;
        };
        let mut text = [0; 128];
        let length = file.read_at(&mut text, 0).unwrap_or(0);
        let mut pages = std::str::from_utf8(&text[..length]).unwrap_or("").split(' ');
        let used = [pages.next(), pages.nth(4)].map(|pages| pages.and_then(|pages| pages.parse::<u64>().ok()));
        let mut left = self.most.iter().zip(used);
        left.all(|(most, used)| used.unwrap_or(0).saturating_mul(*page).saturating_add(self.kept) <= *most)
    }
}
