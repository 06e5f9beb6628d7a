//! A search on disk: what was met so far, whole or not at all.

use crate::hash::{Hasher, Key};
use crate::list::List;
use crate::memory::{room, Refused};
use crate::packed::{pack, Packing};
use crate::set::PARTS;
use crate::states::States;
use std::fs::{self, File};
use std::io::{self, BufReader, BufWriter, Error, ErrorKind, Read, Write};
use std::path::{Path, PathBuf};

const MAGIC: &[u8; 16] = b"tracehost-search";

/// What a search is of, in names and values: a checkpoint of another one isn't taken.
pub type Identity = Vec<(&'static str, String)>;

/// A part of the set, its links and its front.
#[derive(Clone, Debug, PartialEq, Eq)]
pub struct SavedPart {
    pub keys: List<Key>,
    pub links: List<u64>,
    /// The place of the first state of the front, and its states, packed by themselves.
    pub first: usize,
    pub states: Vec<Vec<u8>>,
}

/// The same, to be written.
pub struct PartToSave<'a> {
    pub keys: &'a List<Key>,
    pub links: &'a List<u64>,
    /// How many of them there are. Later ones are of a level that isn't done.
    pub count: usize,
    pub first: usize,
    /// The states, how they are packed, and their words.
    pub states: Option<(&'a States, &'a Packing, usize)>,
}

/// A search between two levels, to be written: one part is there at a time.
pub struct ToSave<P> {
    pub depth: u64,
    pub transitions: u64,
    /// What the search has come by.
    pub notes: Vec<u64>,
    pub parts: P,
}

/// A search between two levels.
#[derive(Clone, Debug, PartialEq, Eq)]
pub struct Saved {
    pub depth: u64,
    pub transitions: u64,
    pub notes: Vec<u64>,
    pub parts: Vec<SavedPart>,
}

/// About how many bytes of states are written at once.
const PIECE: usize = 1 << 16;

struct Output<W> {
    to: W,
    sum: Hasher,
}

impl<W: Write> Output<W> {
    fn word(&mut self, word: u64) -> io::Result<()> {
        self.sum.word(word);
        self.to.write_all(&word.to_le_bytes())
    }

    fn words(&mut self, count: usize, mut words: impl Iterator<Item = u64>) -> io::Result<()> {
        self.word(count as u64)?;
        words.try_for_each(|word| self.word(word))
    }

    /// Pieces with whole states, and one of no bytes.
    fn states(&mut self, (states, packing, width): (&States, &Packing, usize)) -> io::Result<()> {
        let mut piece = Vec::new();
        states.each(packing, width, |words| {
            pack(words, &mut piece);
            if piece.len() < PIECE {
                return Ok::<(), Error>(());
            }
            self.bytes(&piece)?;
            piece.clear();
            Ok(())
        })?;
        if piece.is_empty() {
            Ok(())
        } else {
            self.bytes(&piece)
        }
    }

    fn bytes(&mut self, bytes: &[u8]) -> io::Result<()> {
        self.word(bytes.len() as u64)?;
        bytes.chunks(8).try_for_each(|chunk| {
            let mut word = [0; 8];
            word[..chunk.len()].copy_from_slice(chunk);
            self.word(u64::from_le_bytes(word))
        })
    }
}

struct Input<R> {
    from: R,
    sum: Hasher,
    /// Bytes that are left in the file: a length in it isn't believed beyond.
    left: u64,
}

impl From<Refused> for Error {
    fn from(Refused: Refused) -> Error {
        ErrorKind::OutOfMemory.into()
    }
}

pub fn broken(why: &str) -> Error {
    Error::new(ErrorKind::InvalidData, why)
}

impl<R: Read> Input<R> {
    fn word(&mut self) -> io::Result<u64> {
        let mut bytes = [0; 8];
        self.from.read_exact(&mut bytes)?;
        self.left = self.left.saturating_sub(8);
        let word = u64::from_le_bytes(bytes);
        self.sum.word(word);
        Ok(word)
    }

    fn count(&mut self) -> io::Result<usize> {
        let count = self.word()?;
        if count > self.left / 8 {
            return Err(broken("it is cut off"));
        }
        Ok(count as usize)
    }

    fn words(&mut self) -> io::Result<List<u64>> {
        let mut words = List::new();
        for _ in 0..self.count()? {
            words.push(self.word()?)?;
        }
        Ok(words)
    }

    fn keys(&mut self) -> io::Result<List<Key>> {
        let mut keys = List::new();
        for _ in 0..self.count()? {
            keys.push(Key(self.word()?, self.word()?))?;
        }
        Ok(keys)
    }

    fn states(&mut self) -> io::Result<Vec<Vec<u8>>> {
        let mut pieces = Vec::new();
        loop {
            let piece = self.bytes()?;
            if piece.is_empty() {
                return Ok(pieces);
            }
            pieces.push(piece);
        }
    }

    fn bytes(&mut self) -> io::Result<Vec<u8>> {
        let length = self.word()?;
        if length > self.left {
            return Err(broken("it is cut off"));
        }
        let mut bytes = room(length.next_multiple_of(8) as usize)?;
        for _ in 0..length.div_ceil(8) {
            bytes.extend_from_slice(&self.word()?.to_le_bytes());
        }
        bytes.truncate(length as usize);
        Ok(bytes)
    }

    fn text(&mut self) -> io::Result<String> {
        String::from_utf8(self.bytes()?).map_err(|_| broken("it is damaged"))
    }
}

/// The file that a process writes, until it is whole.
fn unfinished(path: &Path, process: u32) -> PathBuf {
    let mut name = path.as_os_str().to_owned();
    name.push(format!(".{process}{UNFINISHED}"));
    name.into()
}

const UNFINISHED: &str = ".unfinished";

/// Removes such files of processes that aren't there any more. Another search may write its own at this moment.
pub fn remove_unfinished(path: &Path) {
    let (Some(name), Some(folder)) = (path.file_name(), unfinished(path, 0).parent().map(Path::to_owned)) else {
        return;
    };
    let folder = if folder.as_os_str().is_empty() {
        PathBuf::from(".")
    } else {
        folder
    };
    for entry in fs::read_dir(folder).into_iter().flatten().flatten() {
        let found = entry.file_name();
        let rest = found.as_encoded_bytes().strip_prefix(name.as_encoded_bytes());
        let process = rest.and_then(|rest| {
            std::str::from_utf8(rest)
                .ok()?
                .strip_prefix('.')?
                .strip_suffix(UNFINISHED)?
                .parse::<u32>()
                .ok()
        });
        let is_gone =
            |process: u32| Path::new("/proc/self").exists() && !Path::new(&format!("/proc/{process}")).exists();
        if process.is_some_and(is_gone) {
            let _ = fs::remove_file(entry.path()); // it stays, and is in nobody's way
        }
    }
}

/// Writes a search into the file. If that fails the file is as it was.
pub fn write<'a>(
    path: &Path,
    identity: &Identity,
    saved: ToSave<impl Iterator<Item = PartToSave<'a>>>,
) -> io::Result<()> {
    let new = unfinished(path, std::process::id());
    let written = write_new(&new, identity, saved).and_then(|()| fs::rename(&new, path));
    if written.is_err() {
        let _ = fs::remove_file(&new);
    }
    written
}

fn write_new<'a>(
    path: &Path,
    identity: &Identity,
    saved: ToSave<impl Iterator<Item = PartToSave<'a>>>,
) -> io::Result<()> {
    let file = File::create(path)?;
    let mut output = Output {
        to: BufWriter::with_capacity(1 << 20, &file),
        sum: Hasher::new(),
    };
    output.to.write_all(MAGIC)?;
    output.word(identity.len() as u64)?;
    for (name, value) in identity {
        output.bytes(name.as_bytes())?;
        output.bytes(value.as_bytes())?;
    }
    output.word(saved.depth)?;
    output.word(saved.transitions)?;
    output.words(saved.notes.len(), saved.notes.iter().copied())?;
    for part in saved.parts {
        let keys = part.keys.iter().take(part.count);
        output.words(part.count, keys.flat_map(|key| [key.0, key.1]))?;
        output.words(part.count, part.links.iter().take(part.count).copied())?;
        output.word(part.first as u64)?;
        part.states.map_or(Ok(()), |states| output.states(states))?;
        output.bytes(&[])?;
    }
    let Key(first, second) = output.sum.key();
    output.word(first)?;
    output.word(second)?;
    output.to.flush()?;
    drop(output);
    file.sync_all()
}

/// Reads a search of this identity.
///
/// # Errors
///
/// Those of the file; `InvalidInput` for another search, and `InvalidData` or `UnexpectedEof` for a file that is none, or is
/// cut off or damaged.
pub fn read(path: &Path, identity: &Identity) -> io::Result<Saved> {
    let file = File::open(path)?;
    let left = file.metadata()?.len();
    let mut input = Input {
        from: BufReader::with_capacity(1 << 20, file),
        sum: Hasher::new(),
        left,
    };
    check_magic(&mut input.from)?;
    check_identity(&mut input, identity)?;
    let (depth, transitions) = (input.word()?, input.word()?);
    let notes = input.words()?.iter().copied().collect();
    let mut parts = Vec::new();
    for _ in 0..PARTS {
        parts.push(SavedPart {
            keys: input.keys()?,
            links: input.words()?,
            first: input.word()? as usize,
            states: input.states()?,
        });
    }
    let sum = input.sum.key();
    if Key(input.word()?, input.word()?) != sum {
        return Err(broken("it is damaged"));
    }
    if input.from.read(&mut [0])? != 0 {
        return Err(broken("it has more bytes than a checkpoint"));
    }
    Ok(Saved {
        depth,
        transitions,
        notes,
        parts,
    })
}

fn check_magic(from: &mut impl Read) -> io::Result<()> {
    let mut magic = [0; 16];
    match from.read_exact(&mut magic) {
        Ok(()) if magic == *MAGIC => Ok(()),
        _ => Err(broken("it is no checkpoint")),
    }
}

fn check_identity(input: &mut Input<impl Read>, identity: &Identity) -> io::Result<()> {
    if input.count()? != identity.len() {
        return Err(broken("it is of another version"));
    }
    for (name, value) in identity {
        let (known, found) = (input.text()?, input.text()?);
        if known != *name {
            return Err(broken("it is of another version"));
        }
        if found != *value {
            let why = format!("it is of another search: {name} is {value}, and was {found}");
            return Err(Error::new(ErrorKind::InvalidInput, why));
        }
    }
    Ok(())
}

#[cfg(test)]
mod tests {
    use super::*;
    use crate::hash::mixed;

    fn folder(name: &str) -> PathBuf {
        let folder = std::env::temp_dir().join(format!("tracehost-explore-{name}-{}", std::process::id()));
        fs::create_dir_all(&folder).expect("a folder");
        folder
    }

    const WIDTH: usize = 3;

    /// Some have none, and one more than a piece.
    fn states(part: usize) -> Vec<[u64; WIDTH]> {
        let count = if part == 9 { PIECE as u64 / 10 } else { part as u64 % 5 };
        (0..count).map(|n| [mixed(n), n, mixed(n)]).collect()
    }

    fn saved() -> Saved {
        let part = |part: usize| {
            let (n, mut bytes) = (part as u64, Vec::new());
            states(part).iter().for_each(|words| pack(words, &mut bytes));
            SavedPart {
                keys: List::of((0..n).map(|k| Key(k, n))).expect("memory"),
                links: List::of(0..n).expect("memory"),
                first: part / 2,
                states: bytes.chunks(usize::MAX).map(<[u8]>::to_vec).collect(),
            }
        };
        Saved {
            depth: 3,
            transitions: 9,
            notes: (5..8).collect(),
            parts: (0..PARTS).map(part).collect(),
        }
    }

    fn written(file: &Path, identity: &Identity, saved: &Saved) {
        let mut packing = Packing::default();
        let mut packed = |part: usize| {
            let mut packed = States::default();
            for words in states(part) {
                packed.add(&mut packing, &words).expect("memory");
            }
            packed
        };
        let packed: Vec<States> = (0..PARTS).map(&mut packed).collect();
        // what comes later in a list is of the next level
        let lists = saved.parts.iter().map(|part| (part.keys.clone(), part.links.clone()));
        let lists: Vec<_> = lists
            .map(|(mut keys, mut links)| {
                keys.push(Key(1, 1)).and_then(|()| links.push(7)).expect("memory");
                (keys, links)
            })
            .collect();
        let parts = saved.parts.iter().zip(&packed).zip(&lists);
        let parts = parts.map(|((part, packed), (keys, links))| PartToSave {
            keys,
            links,
            count: part.keys.len(),
            first: part.first,
            states: Some((packed, &packing, WIDTH)),
        });
        let saved = ToSave {
            depth: saved.depth,
            transitions: saved.transitions,
            notes: saved.notes.clone(),
            parts,
        };
        write(file, identity, saved).expect("a file");
    }

    fn identity(model: &str) -> Identity {
        vec![("model", model.to_owned()), ("users", "[1001]".to_owned())]
    }

    #[test]
    fn it_is_read_as_it_was_written() {
        let folder = folder("read");
        let file = folder.join("search");
        written(&file, &identity("a"), &saved());
        let mut found = read(&file, &identity("a")).expect("a checkpoint");
        assert!(found.parts[9].states.len() > 1);
        for part in &mut found.parts {
            part.states = part.states.concat().chunks(usize::MAX).map(<[u8]>::to_vec).collect();
        }
        assert!(found == saved());
        let other = read(&file, &identity("b")).expect_err("another model");
        assert_eq!(other.to_string(), "it is of another search: model is b, and was a");
        assert_eq!(fs::read_dir(&folder).expect("the folder").count(), 1);
        fs::remove_dir_all(folder).expect("removed");
    }

    /// Those of processes that aren't there any more. No process has the largest number of all, nor a living one this test's.
    #[test]
    fn what_a_killed_search_has_not_written_is_removed() {
        let folder = folder("unfinished");
        let file = folder.join("search.1001");
        let (gone, here) = (unfinished(&file, u32::MAX), unfinished(&file, std::process::id()));
        let others = [
            "search.1001",
            "search.1001.7",
            "search.1002.4294967295.unfinished",
            "search.1001.x.unfinished",
        ];
        let others = others.map(|name| folder.join(name));
        for path in others.iter().chain([&gone, &here]) {
            fs::write(path, "half").expect("written");
        }
        remove_unfinished(&file);
        assert!(!gone.exists() && here.exists() && others.iter().all(|path| path.exists()));
        remove_unfinished(Path::new("no/folder"));
        fs::remove_dir_all(folder).expect("removed");
    }

    /// Cut off at any place, with a bit changed anywhere, or with more at its end, it is refused.
    #[test]
    fn a_damaged_file_is_refused() {
        let folder = folder("damaged");
        let file = folder.join("search");
        written(&file, &identity("a"), &saved());
        let whole = fs::read(&file).expect("bytes");
        assert!(whole.len() > 2 * PIECE);
        for length in (0..whole.len()).step_by(1201) {
            fs::write(&file, &whole[..length]).expect("written");
            assert!(read(&file, &identity("a")).is_err(), "{length} bytes");
        }
        for place in (0..whole.len()).step_by(1009) {
            let mut bytes = whole.clone();
            bytes[place] ^= 4;
            fs::write(&file, &bytes).expect("written");
            assert!(read(&file, &identity("a")).is_err(), "byte {place}");
        }
        fs::write(&file, [&whole[..], b"x"].concat()).expect("written");
        assert!(read(&file, &identity("a")).is_err());
        fs::remove_dir_all(folder).expect("removed");
    }
}
